#!/usr/bin/env python3
"""Brings this repository's own definitions, lemmas and fields to one spelling: words in snake case, types in upper camel case.

usage: tools/snake_names.py [--list]      at the top of the repository, once, right after port.py

A name is the repository's own if a file of specs/ or proofs/ declares it at the margin (goals of Answers.antt and Invariants.antt aside), or
declares it as a field, a constructor or a bound variable. Only .antt files, and the clauses and ghost items of .rt files, are rewritten, outside strings; in
must-fail edits, the same. Functions of src/ keep their names. With --list nothing is written: the names, and those that fall together.
"""

import os
import re
import sys

MARGIN = re.compile(r"^(?:(?:pub|abbrev|unfoldable|record|data|ruleset)\s+)*([^\s(){}.,;:=\[\]\"]+)(?=[\s:({])")
FIELD = re.compile(r"^\s+(?:pub\s+)?([^\s(){}.,;:=\"]+)\s*:\s")
TOKEN = re.compile(r"[^\s(){}.,;\[\]\"]+")
INSIDE = re.compile(r"^\s+(?:(?:pub|abbrev|unfoldable)\s+)+([^\s(){}.,;:=\"]+)(?=[\s:({])")
BOUND = re.compile(r"[({]([^(){}:]+) :")
STRING = re.compile(r'"(?:[^"\\]|\\.)*"')
GOALS = ("Answers.antt", "Invariants.antt", "Proof.antt")
# a lemma that would have its function's name
LEMMAS = {"permuted-by": "permuted_by_lem"}
GHOST = re.compile(r"^\s*(?:pub\s+)?(?:ghost\b|requires\b|ensures\b|abbrev\b)")


def files(ends):
    for folder, dirs, names in os.walk("crates"):
        dirs[:] = sorted(d for d in dirs if d != "out")
        for name in sorted(names):
            if name.endswith(ends):
                yield os.path.join(folder, name)


def text(path):
    with open(path, encoding="utf-8") as f:
        return f.read()


def respelled(name):
    if "-" not in name and not re.match(r"[a-z0-9]+[A-Z]", name):
        return name
    if not re.match(r"[A-Za-z][A-Za-z0-9'_-]*$", name):
        return name
    parts = name.split("-")
    if name[0].isupper():
        return "".join(p[:1].upper() + p[1:] for p in parts)
    words = [re.sub(r"([a-z0-9])([A-Z])", lambda m: m.group(1) + "_" + m.group(2).lower(), p) for p in parts]
    return "_".join(words)


def own_names():
    names, goals = set(), set()
    for path in files(".antt"):
        of_goals = os.path.basename(path) in GOALS
        for line in text(path).splitlines():
            if line.startswith("--") or line.startswith("use "):
                continue
            m = MARGIN.match(line)
            if m:
                (goals if of_goals and ": goal." in line else names).add(m.group(1))
            elif not of_goals:
                m = FIELD.match(line) or INSIDE.match(line)
                if m:
                    names.add(m.group(1))
            if not of_goals:
                for m in BOUND.finditer(line):
                    names.update(n for n in m.group(1).split() if "-" in n)
    table = {}
    for name in names - goals:
        new = LEMMAS.get(name) or respelled(name)
        if new != name:
            table[name] = new
    return names, table


def turn(piece, table):
    return TOKEN.sub(lambda m: table.get(m.group(0), m.group(0)), piece)


def outside_strings(line, table):
    out, at = [], 0
    for m in STRING.finditer(line):
        out += [turn(line[at : m.start()], table), m.group(0)]
        at = m.end()
    return "".join(out + [turn(line[at:], table)])


def turn_antt(body, table):
    lines = []
    for line in body.split("\n"):
        lines.append(outside_strings(line, table))
    return "\n".join(lines)


def turn_rt(body, table):
    lines, deep = [], 0
    for line in body.split("\n"):
        code = line.lstrip()
        if deep > 0 or (GHOST.match(line) and not code.startswith("//")):
            lines.append(outside_strings(line, table))
            bare = STRING.sub("", line)
            deep += bare.count("{") - bare.count("}")
            deep = max(deep, 0)
        else:
            lines.append(line)
    return "\n".join(lines)


def turn_edit(body, table):
    lines = [outside_strings(l, table) if re.match(r"(old|new):", l) and re.search(r"\b(requires|ensures|ghost)\b|⌜|≡", l) else l for l in body.split("\n")]
    return "\n".join(lines)


def main():
    names, table = own_names()
    fall = {}
    for name in sorted(names):
        fall.setdefault(table.get(name, name), set()).add(name)
    for new, olds in sorted(fall.items()):
        if len(olds) > 1:
            print("fall together:", new, "of", ", ".join(sorted(olds)))
    if "--list" in sys.argv:
        for name in sorted(table):
            print(name, table[name])
    for path in files((".antt", ".rt", ".edit")):
        body = text(path)
        if path.endswith(".antt"):
            made = turn_antt(body, table)
            had = set(TOKEN.findall(body))
            for name in sorted(had & set(table)):
                if table[name] in had:
                    print("both in one file:", path, name, table[name])
        elif path.endswith(".rt"):
            made = turn_rt(body, table)
        else:
            made = turn_edit(body, table)
        if made != body and "--list" not in sys.argv:
            with open(path, "w", encoding="utf-8") as f:
                f.write(made)


main()
