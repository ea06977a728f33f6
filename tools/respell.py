#!/usr/bin/env python3
"""Respells the repository's own definitions and lemmas as today's Rattle spells names: words in snake case, types in camel case.

usage: tools/respell.py [--list]      at the top of a repository that port.py has just turned; once

A name is taken from its declaration in specs/ or proofs/. A label that Rattle makes (its type is goal.NAME) stays. A lemma
whose new spelling another name has ends in _lem. The kit's snake.py turns the words.
"""

import os
import re
import subprocess
import sys
import tempfile

SNAKE = "/opt/rattle/port/notes/2026-11-18-names-are-in-snake-case/snake.py"
DECLARED = re.compile(r"(?m)^ *(?:(?:pub|abbrev|data|record|unfoldable|inductive|pattern) +)*([^\s(){}.;,@\"«»:λ]+)(?: \{[^{}\n]*\})* :(?= )([^\n]*)")
IN_LET = re.compile(r"\blet ([^\s(){}.;,@\"«»:λ]+)(?: :|(?= =))")
# Fields of other records may have the same name.
RECORD_FIELDS = {"find_count"}
FROM_STD = re.compile(r"use Rattle\.(?:std|core)[^\s{]*\.?\{([^}]*)\}")
WORD = re.compile(r"[^\s(){}.;,@\"«»]+")


def texts():
    for folder, dirs, files in os.walk("crates"):
        dirs[:] = [d for d in dirs if d != "out"]
        for f in sorted(files):
            if f.endswith((".antt", ".rt")):
                with open(os.path.join(folder, f), encoding="utf-8") as text:
                    yield os.path.join(folder, f), text.read()


def snake(name):
    words = re.sub(r"(?<=[a-z0-9])([A-Z]+)", lambda m: "_" + m[0].lower(), name)
    # A dash stays before a symbol, as in has-++.
    return re.sub(r"(?<=\w)-(?=\w)", "_", words)


def camel(name):
    head = name[0].upper() + name[1:]
    return re.sub(r"[-_](\w)", lambda m: m[1].upper(), head)


def respelled(name, kind):
    if not name[0].isupper():
        return snake(name)
    # A name that begins with a type keeps its dash, but for a type.
    return camel(name) if "-" in name and re.search(r"\bType\b[^→]*$", kind) else name


def names_of(text):
    """The words of a proof file, but for its comments and the paths of its imports."""
    found = set()
    for line in text.splitlines():
        if line.lstrip().startswith("--"):
            continue
        if line.startswith("use "):
            line = line[line.find("{"):] if "{" in line else ""
        for word in WORD.findall(line):
            found.update(word.split("."))
    return found


def main():
    all_texts = list(texts())
    words, names, labels = set(), {}, set()
    # A name that some file takes from the library is the library's to spell.
    of_std = {n.strip() for _, text in all_texts for list_ in FROM_STD.findall(text) for n in list_.split(",")}
    for path, text in all_texts:
        if not path.endswith(".antt"):
            continue
        words |= names_of(text)
        for name, kind in DECLARED.findall(text):
            if re.match(r" goal\.", kind):
                labels.add(name)
            else:
                names.setdefault(name, kind)
        for name in IN_LET.findall(text):
            names.setdefault(name, "")
    rows, kept = {}, []
    # Definitions first: a definition may have the name of the function that it describes; a lemma that would have a definition's name ends in _lem.
    for name in sorted(names, key=lambda n: ("-" in n, n)):
        if name in labels or name in of_std:
            continue
        new = respelled(name, names[name])
        if new == name:
            continue
        if new in words or new in rows.values():
            kept.append(f"{name} {new}")
            if "-" in name:
                new += "_lem"
            elif new in names and new not in RECORD_FIELDS:
                rows[new] = new + "_lem"
        rows[name] = new
    if "--list" in sys.argv:
        for n in rows:
            print(n, rows[n], sep="\t")
        for n in kept:
            print("meets another:", n)
        return
    with tempfile.NamedTemporaryFile("w", suffix=".tsv", delete=False) as table:
        table.writelines(f"{a}\t{b}\n" for a, b in rows.items())
    for n in kept:
        print("meets another:", n)
    sys.exit(subprocess.run([sys.executable, SNAKE, "--table", table.name, "--only", "antt,rt", "crates"]).returncode)


main()
