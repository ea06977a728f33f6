#!/usr/bin/env python3
"""How tight the bound on messages is: a cube of D dimensions without one corner, its edges ordered by dimension, so that
at every level every node still has an edge that leads out of its fragment.

  tight.py [D ..]      prints nodes, edges, messages sent, messages allowed, and their ratio
"""
import random
import sys
from protocol import Net


def cube(dimensions):
    n = 2 ** dimensions - 1
    edges = []
    for b in range(dimensions):
        for i in range(n):
            j = i ^ (1 << b)
            if i < j < n:
                edges.append((i, j, len(edges) + 1))
    return n, edges


def run(n, edges, rng):
    """All wake at once; any message that can be taken is taken, in any order."""
    net = Net(n, edges)
    for i in range(n):
        net.do(('wake', i))
    while True:
        waiting = [(i, j) for (j, i), q in net.queue.items() if q]
        ready = [(i, j) for i, j in waiting if not net.deferred(i, j, net.queue[j, i][0])]
        if ready:
            net.do(('take', *rng.choice(ready)))
            continue
        behind = [(i, j) for i, j in waiting if any(not net.deferred(i, j, m) for m in net.queue[j, i])]
        if not behind:
            break
        for i, j in behind:
            net.queue[j, i] = net.queue[j, i][1:] + net.queue[j, i][:1]
    if not any(x.halted for x in net.node):
        raise AssertionError('it stopped, and nobody has halted')
    return net.count


for d in [int(a) for a in sys.argv[1:]] or [4, 5, 6]:
    n, edges = cube(d)
    sent, allowed = run(n, edges, random.Random(0)), 5 * n * n.bit_length() + 2 * len(edges)
    print(f'{n} nodes, {len(edges)} edges: {sent} messages of {allowed} allowed, {sent / allowed:.3f}')
