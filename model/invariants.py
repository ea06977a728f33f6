"""The invariants of the proof, by the names of docs/proof.md, as checks on a Net of protocol.py.

`check(net, least)` raises Broken with the invariant's name where one does not hold. A theorem (T..) is checked
too, though the proof derives it from the others.
"""
from collections import Counter
from protocol import (BASIC, BRANCH, REJECTED, SLEEPING, FIND, FOUND, INF, CONTROL, Node)

MODES = Counter()   # how often each edge mode was seen: a mode that never comes is not tested


class Broken(AssertionError):
    pass


class Unproved(Broken):
    """A conclusion that does not follow from the invariants."""


def need(ok, name, *where):
    if not ok:
        raise Broken(name, *where)


def control(queue):
    """The control messages of a queue, in order; what is left out are tests and their answers."""
    return [m for m in queue if m[0] in CONTROL]


def describe(net, i, j):
    f = lambda x: {a: getattr(x, a) for a in Node.__slots__}
    labels = {net.node[i].label, net.node[j].label}
    return (i, f(net.node[i]), j, f(net.node[j]), net.queue[i, j], net.queue[j, i], net.weight[i, j],
            {k: (net.frag_level[k], net.frag_name[k], net.frag_min[k]) for k in labels})


# -- E: an edge is always in one of eleven modes ---------------------------------------------------------------

def mode(net, i, j):
    """The mode of the edge {i, j} with i in the first role, or None."""
    a, b, w = net.node[i], net.node[j], net.weight[i, j]
    out, back = control(net.queue[i, j]), control(net.queue[j, i])
    one = a.label == b.label
    lab = a.label
    marks = (a.mark[j], b.mark[i])
    undecided = net.frag_min[lab] is None
    # free: no branch at either end, no control message; rejected only inside a fragment
    if BRANCH not in marks:
        return 'free' if not out and not back and (one or REJECTED not in marks) else None
    # connecting: j's fragment has sent its connect to i, which has not taken it
    if marks == (BASIC, BRANCH):
        return 'connecting' if (not one and b.up == i and b.changed and net.current(j) and net.frag_min[b.label] == w
                                and a.level >= b.level and back == [('connect', b.level)] and not out) else None
    if marks != (BRANCH, BRANCH):
        return None
    both_up = a.up == j and b.up == i
    # crossing: both fragments have sent their connects over this edge
    if not one:
        return 'crossing' if (both_up and a.changed and b.changed and net.current(i) and net.current(j)
                              and a.level == b.level and net.frag_min[a.label] == w == net.frag_min[b.label]
                              and out == [('connect', a.level)] and back == [('connect', b.level)]) else None
    core = both_up and net.frag_name[lab] == w and undecided and a.in_search and b.in_search
    # merged 1: i has taken j's connect; merged 2: j has taken i's too
    if core and a.changed and b.changed and a.level == b.level == net.frag_level[lab] - 1:
        first = ('initiate', a.level + 1, w, FIND)
        if out == [('connect', a.level), first] and not back:
            return 'merged 1'
        if out == [first] and back == [first]:
            return 'merged 2'
    # half core: i has taken its initiate, j has not
    if (core and not a.changed and b.changed and a.parent == j and a.instance == (b.level + 1, w) and net.current(i)
            and not back and out == [('initiate', a.level, w, FIND)] + [('report', a.best_weight)] * a.reported):
        return 'half core'
    # core: both ends have the fragment's level and look at each other
    if (both_up and a.parent == j and b.parent == i and not a.changed and not b.changed and a.instance == b.instance
            and a.name == w and net.current(i) and net.frag_min[lab] in (None, INF) and a.in_search and b.in_search):
        for x, q in ((a, out), (b, back)):
            if q not in ([], [('report', x.best_weight)]) or q and not x.reported:
                return None
        if a.reported and not out and not (b.reported and a.best_weight <= b.best_weight):
            return None
        if b.reported and not back and not (a.reported and b.best_weight <= a.best_weight):
            return None
        if a.reported and b.reported and not out and not back and not (a.halted or b.halted):
            return None
        if net.frag_min[lab] == INF and not (a.reported and b.reported and a.best_weight == INF == b.best_weight):
            return None
        return 'core'
    # change: the word to change is under way from i to j
    if (both_up and a.changed and not b.changed and a.best == j and b.parent == i and a.instance == b.instance
            and out == [('change',)] and not back and net.current(i)
            and net.frag_min[lab] == a.best_weight == b.best_weight < INF and a.in_search and b.in_search):
        return 'change'
    # child: j hangs below i
    if b.up == i and a.up != j:
        inits = [m for m in out if m[0] == 'initiate']
        old = out[:len(out) - len(inits)]
        levels = [b.level] + [m[1] for m in inits]
        if any(m[0] != 'report' for m in old) or any(x >= y for x, y in zip(levels, levels[1:])):
            return None
        if (inits[-1][1:3] if inits else b.instance) != a.instance:
            return None
        if old and not (len(old) == 1 and b.parent == i and b.name == w and b.status == FOUND and b.reported
                        and old[0][1] < b.best_weight):
            return None     # a report over a former core, lighter than what j has: j will not act on it
        if back and not (back == [('report', b.best_weight)] and not inits and b.reported and b.parent == i
                         and b.in_search and a.status == FIND and net.current(i)):
            return None
        for k, m in enumerate(inits):
            if m[3] == FIND and not (k == len(inits) - 1 and a.status == FIND and net.current(i)):
                return None
        if inits and net.current(i) and b.in_search != (inits[-1][3] == FIND):
            return None
        if not inits and b.status == FIND and a.status != FIND:
            return None
        if not inits and b.parent != i and not b.changed:
            return None
        if old and not inits and not a.changed:
            return None     # spent: an old report alone under way: i has changed
        if not a.rank < b.rank:
            return None     # rank
        if b.in_search and not a.in_search:
            return None     # calmer
        if not net.current(i) and a.in_search != b.in_search:
            return None     # alike
        if net.current(i) and a.reported and b.in_search and not (
                net.current(j) and (b.changed or b.reported and a.best_weight <= b.best_weight)):
            return None     # heard
        return 'child'
    return None


def edge(net, i, j):
    m = mode(net, i, j)
    if m:
        return i, j, m
    m = mode(net, j, i)
    return (j, i, m) if m else None


def external(net, i, j):
    """Edge (i, j) leads out of i's fragment, and to a node of no lower level: no absorption takes that away."""
    return net.node[i].label != net.node[j].label and net.node[j].level >= net.node[i].level


# -- N: one node ---------------------------------------------------------------------------------------------

def nodes(net):
    for i, x in enumerate(net.node):
        near, w = net.near[i], net.weight
        if x.status == SLEEPING:
            need(x.rank == 1 and not x.reported and x.real() == Node(i, near).real() and not any(net.queue[i, j] for j in near) and x.label == i
                 and sum(y.label == i for y in net.node) == 1, 'N0 asleep', i)
            need(net.frag_level[i] == 0 and net.frag_name[i] == 0 and net.frag_min[i] is None and x.in_search
                 and not x.changed, 'N0 label as made', i)
            continue
        if not near:
            need(x.halted and x.label == i, 'N0 alone', i)
            continue
        basic = [k for k in near if x.mark[k] == BASIC]
        now = net.current(i)
        need(x.level <= net.frag_level[x.label], 'N1 level', i)
        need(not now or x.name == net.frag_name[x.label], 'N1 name', i)
        need(x.status == FIND or x.find_count == 0 and x.testing is None, 'N2 found', i)
        need(x.status == FOUND or now and x.level >= 1 and x.in_search and not x.reported and not x.changed
             and (x.find_count > 0 or x.testing is not None), 'N3 find', i)
        if x.level == 0:
            need(x.parent is None and x.best is None and x.best_weight == INF and x.changed
                 and all((x.mark[j] != BASIC) == (j == x.up) for j in near), 'N4 level 0', i)
        else:
            need(x.parent is not None and x.mark[x.parent] == BRANCH and x.name >= 1
                 and x.up == (x.best if x.changed else x.parent), 'N5 parent', i)
        need(x.up is not None and x.mark[x.up] == BRANCH and x.rank >= 1, 'N6 up', i)
        need(x.testing is None or all(w[i, x.testing] <= w[i, k] for k in basic), 'N7 testing the least', i)
        if now and x.level >= 1:
            need(not (x.in_search and x.testing is None) or all(x.best_weight <= w[i, k] for k in basic),
                 'N8 best is least', i)
            need(x.status == FIND or x.in_search == x.reported, 'N9 reported', i)
            need(x.in_search or x.best is None, 'N10 late has no best', i)
        if now and x.level >= 1 and not x.changed:
            need((x.best is None) == (x.best_weight == INF), 'N11 best', i)
            if x.best is not None:
                j, y = x.best, net.node[x.best]
                if x.mark[j] == BASIC:
                    need(x.best_weight == w[i, j] and external(net, i, j), 'N11 best leads out', i, j)
                else:
                    need(x.mark[j] == BRANCH and j != x.parent and y.parent == i and y.reported and not y.changed
                         and y.best_weight == x.best_weight and y.instance == x.instance, 'N11 best leads down', i, j)


# -- Q: questions about an edge --------------------------------------------------------------------------------

def questions(net):
    for (i, j) in net.weight:
        a, b = net.node[i], net.node[j]
        tests = [m for m in net.queue[i, j] if m[0] == 'test']
        back = [m for m in net.queue[j, i] if m[0] == 'test']
        answers = [m[0] for m in net.queue[j, i] if m[0] in ('accept', 'reject')]
        need(len(tests) <= 1 and len(answers) <= 1, 'Q1 one at a time', i, j)
        need('reject' not in answers or b.mark[i] != BASIC, 'Q2 reject', i, j)
        mine = ('test', a.level, a.name)
        if a.testing == j:
            crossed = not tests and not answers and bool(back) and b.mark[i] == REJECTED and b.testing != i
            need(len(tests) + len(answers) + crossed == 1, 'Q3 exactly one', describe(net, i, j))
            need(not tests or tests[0] == mine, 'Q3 test', i, j)
            need('accept' not in answers or a.mark[j] == BASIC and external(net, i, j), 'Q3 accept', i, j)
            need('reject' not in answers or a.label == b.label, 'Q3 reject', i, j)
            need(not crossed or a.instance == b.instance and back[0] == mine and a.mark[j] == BASIC, 'Q3 crossed', i, j)
            need(a.mark[j] == BASIC or a.mark[j] == BRANCH and edge(net, i, j) == (i, j, 'child'), 'Q3 mark', i, j)
        else:
            need(not answers, 'Q4 unasked answer', i, j)
            need(not tests or a.mark[j] == REJECTED and b.mark[i] == BASIC and b.testing == i
                 and a.instance == b.instance and tests[0] == mine, 'Q4 unasked test', describe(net, i, j))
        if a.mark[j] == REJECTED and b.mark[i] == BASIC:
            need(b.testing == i and not back
                 and len(tests) + sum(m[0] == 'reject' for m in net.queue[i, j]) == 1, 'Q5 half rejected', i, j)


# -- S: the search of a fragment ---------------------------------------------------------------------------------

def awaited(net, i, j):
    """Node i, searching, has still to take the report of its child j."""
    a, b = net.node[i], net.node[j]
    return (a.mark[j] == BRANCH and j != a.parent
            and (any(m[0] == 'initiate' and m[3] == FIND for m in net.queue[i, j])
                 or b.parent == i and b.instance == a.instance and b.status == FIND
                 or any(m[0] == 'report' for m in net.queue[j, i])))


def search(net):
    for i, x in enumerate(net.node):
        if x.status == SLEEPING or not net.near[i]:
            continue
        below = [j for j in net.near[i] if x.mark[j] == BRANCH and j != x.parent]
        if x.status == FIND:
            need(x.find_count == sum(awaited(net, i, j) for j in below), 'S1 find count', i)
            for j in below:
                y = net.node[j]
                need(awaited(net, i, j) or y.reported and y.parent == i and y.instance == x.instance
                     and x.best_weight <= y.best_weight, 'S2 taken', describe(net, i, j))


# -- F: fragments ------------------------------------------------------------------------------------------------

def fragments(net):
    groups = {}
    for i, x in enumerate(net.node):
        groups.setdefault(x.label, []).append(i)
    for lab, group in groups.items():
        node, near, w = net.node, net.near, net.weight
        least, level = net.frag_min[lab], net.frag_level[lab]
        inside = lambda i, j: node[j].label == lab and node[i].mark[j] == node[j].mark[i] == BRANCH
        out = [(w[i, j], i, j) for i in group for j in near[i] if node[j].label != lab]
        need(2 ** level <= len(group), 'F1 size', lab)
        seen, todo = {group[0]}, [group[0]]
        while todo:
            i = todo.pop()
            for j in near[i]:
                if j not in seen and inside(i, j):
                    seen.add(j)
                    todo.append(j)
        need(len(seen) == len(group), 'F2 connected', lab)
        if level >= 1:
            need(any(w[i, j] == net.frag_name[lab] and inside(i, j)
                     and (node[i].up == j and node[j].up == i
                          or least is not None and least < INF and net.current(i) and net.current(j))
                     for i in group for j in near[i]), 'F10 the core edge', lab)
        names = [node[i].name for i in group if node[i].level >= 1]
        names += [m[2] for i in group for j in near[i] for m in net.queue[i, j] if m[0] in ('initiate', 'test')]
        need(all(any(w[i, j] == f and node[j].label == lab for i in group for j in near[i]) for f in names),
             'F3 a name is an edge inside', lab)
        if least is None:
            need(not any(net.current(i) and node[i].changed for i in group), 'F5 undecided', lab)
            for i in group:
                if not node[i].in_search:
                    need(any(node[z].in_search and net.current(z) and node[z].reported and node[z].best_weight < INF
                             and all(node[z].best_weight <= v for v, k, _ in out if k == i) for z in group),
                         'F6 late', i)
        elif any(node[i].status != SLEEPING for i in group):
            need(all(least <= v for v, _, _ in out), 'F7 least outgoing', lab)
            need(all(node[i].status == FOUND for i in group), 'F7 nobody searches', lab)
            if level >= 1:
                need(all(net.current(i) and node[i].reported for i in group if node[i].in_search), 'F7 all reported', lab)
            if least < INF:
                tokens = [1 for i in group for j in near[i] if ('change',) in net.queue[i, j]
                          or node[i].up == j and node[j].label != lab and ('connect', node[i].level) in net.queue[i, j]]
                need(len(tokens) == 1, 'F8 one token', lab)
            else:
                need(any(node[i].halted for i in group) and all(node[i].in_search for i in group), 'F9 the end', lab)
        need(least == INF or not any(node[i].halted for i in group), 'F9 halted', lab)


# -- M: messages ---------------------------------------------------------------------------------------------------

def messages(net):
    total = 0
    for i, x in enumerate(net.node):
        need(net.phase(i) <= 5, 'M1 five for a level', i)
        need(x.spent <= 5 * x.level, 'M2 five for each level that is over', i)
        total += x.spent + net.phase(i) + sum(m[0] == 'initiate' for j in net.near[i] for m in net.queue[j, i])
    for (i, j) in net.weight:
        if i < j:
            c = (net.node[i].mark[j] == REJECTED) + (net.node[j].mark[i] == REJECTED) + 2 * net.waste.get((i, j), 0)
            need(c <= 2, 'M3 two for an edge', i, j)
            total += c
    return total


# -- T: what the invariants are for ----------------------------------------------------------------------------------

def right(net, least):
    """T1. The first half is an invariant of its own (each branch belonged when it was put down)."""
    for (i, j) in net.weight:
        m = net.node[i].mark[j]
        need(m != BRANCH or (i, j) in least, 'T1 branch belongs', i, j)
        need(m != REJECTED or (i, j) not in least, 'T1 rejected does not', i, j)


def follows(net):
    """T2, T3: they follow from the invariants about one state alone."""
    try:
        halted = {x.label for x in net.node if x.halted}
        for i, x in enumerate(net.node):
            need(x.label not in halted or BASIC not in x.mark.values(), 'T2 nothing undecided at the end', i)
        need(net.progress() or halted, 'T3 never stuck')
    except Broken as e:
        raise Unproved(*e.args)


def check(net, least, count=True, history=True):
    nodes(net)
    for (i, j) in net.weight:
        if i < j:
            e = edge(net, i, j)
            need(e, 'E mode', describe(net, i, j))
            MODES[e[2]] += 1
    questions(net)
    search(net)
    fragments(net)
    follows(net)
    if history:
        right(net, least)
    if count:
        need(messages(net) == net.count, 'M4 every message is charged')
