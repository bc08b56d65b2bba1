#!/usr/bin/env python3
"""Respells the definitions and lemmas of this repository, in specs/ and proofs/, as today's Rattle spells its own.

usage: python3 tools/respell.py [--list]     at the top of the repository, once, after the kit's port.py

A fact, a record or a type is in upper camel case (Map-set: MapSet), everything else in snake case (month-length: month_length).
Only names that a file of specs/ or proofs/ defines are respelled: functions of src/, their fields, strings, inputs and outputs keep
their names, and so do the names that Rattle makes (goals, steps, invariants). --list writes nothing, and prints each name with its
new one. It stops, and writes nothing, where two names would fall together, or where a new one is a name already.
"""

import glob
import os
import re
import sys

NAME = r"[^\s(){}\[\],;:.λ«»]+"
DEFINED = re.compile(r"(?m)^[ \t]*(?:(?:abbrev|unfoldable|pub|record|data|ruleset)[ \t]+)*(" + NAME + r")(?:[ \t]+[({][^:=\n]*:[^=\n]*[)}])*[ \t]*:[ \t]")
FIELD = re.compile(r"(?m)^[ \t]+pub (" + NAME + r")[ \t]*:[ \t]")
# names whose new spelling is not made by the rule alone
SPECIAL = {"times-moreZ": "times_more_int"}


def antt(root):
    for pattern in ("crates/*/specs/**/*.antt", "crates/*/proofs/**/*.antt"):
        yield from glob.glob(os.path.join(root, pattern), recursive=True)


def spelled(name):
    if name in SPECIAL:
        return SPECIAL[name]
    if name[0].isupper():
        return "".join(w[0].upper() + w[1:] for w in re.split(r"[-_]", name) if w)
    return name.replace("-", "_")


def own_names(files):
    """The names that specs/ and proofs/ define, without answers to goals and without invariants."""
    names = set()
    for path in files:
        text = open(path, encoding="utf-8").read()
        for m in DEFINED.finditer(text):
            rest = text[m.end():m.end() + 400]
            if re.match(r"(goal|given)\.", rest) or m.group(1).startswith("--"):
                continue
            names.add(m.group(1))
        names.update(FIELD.findall(text))
    return names


def renamed(text, table):
    token = re.compile(r"(?<![\w'′·«-])(?<!\bgoal\.)(?<!\bc\.)(?<!\bw\.)(?<!\bl\.)(" + "|".join(sorted(map(re.escape, table), key=len, reverse=True)) + r")(?![\w'′·»-])")
    return token.sub(lambda m: table[m.group(1)], text)


def main(argv):
    root = os.getcwd()
    files = sorted(antt(root))
    names = own_names(files)
    table = {n: spelled(n) for n in names if spelled(n) != n}
    made = {}
    for old, new in sorted(table.items()):
        made.setdefault(new, []).append(old)
    clashes = [f"{new}: {', '.join(olds)}" for new, olds in made.items() if len(olds) > 1 or new in names]
    if clashes:
        print("\n".join(clashes))
        print(f"respell: {len(clashes)} names fall together; nothing was written")
        return 1
    if "--list" in argv:
        print("\n".join(f"{o} {n}" for o, n in sorted(table.items())))
        return 0
    sources = sorted(glob.glob(os.path.join(root, "crates/*/src/**/*.rt"), recursive=True))
    texts = sorted(glob.glob(os.path.join(root, "docs/*.md"))) + [os.path.join(root, "README.md")]
    changed = 0
    for path in files:
        changed += write(path, lambda t: renamed(t, table))
    for path in sources:
        changed += write(path, lambda t: in_clauses(t, table))
    for path in texts:
        changed += write(path, lambda t: re.sub(r"`[^`\n]*`", lambda m: renamed(m.group(0), table), t))
    print(f"respell: {len(table)} names, {changed} files")
    return 0


def in_clauses(text, table):
    """A source's clauses, ghost items and ghost imports; its code and comments keep their names."""
    lines = []
    for line in text.split("\n"):
        code = line.split("//")[0]
        if "-" in code or re.search(r"\b(ensures|requires|ghost)\b", code):
            lines.append(renamed(line, table) if not line.lstrip().startswith("//") else line)
        else:
            lines.append(line)
    return "\n".join(lines)


def write(path, turn):
    before = open(path, encoding="utf-8").read()
    after = turn(before)
    if after != before:
        open(path, "w", encoding="utf-8").write(after)
    return after != before


if __name__ == "__main__":
    raise SystemExit(main(sys.argv[1:]))
