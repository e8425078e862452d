#!/usr/bin/env python3
"""Brings the definitions and lemmas of this repository to today's spelling: words in snake case, types in camel case.

usage: python3 tools/port_names.py [--look]     at the top of the repository, once, after the toolchain's own port.py

Renamed are the names that the .antt files of specs/ and proofs/ declare (definitions, lemmas, fields, constructors, variables), where
they stand, in .antt and in the clauses of .rt files. Not renamed: names of the library, functions and types of src/, comments, strings,
and the names of goals and their fields, which the toolchain makes (in proofs/.../Answers.antt and Invariants.antt).
With --look nothing is written: it prints each new name and each pair of names that would fall together.
"""

import collections
import os
import re
import sys

SPECIAL = {"getD-each": "get_or_each", "getD-painted": "get_or_painted", "Line-of": "line_of"}
KEPT = ("in", "data", "record", "open", "as", "ruleset")
TOKEN = {".antt": re.compile(r"[^\s(){}\[\];,.:«»\"]+"), ".rt": re.compile(r"[A-Za-z_][A-Za-z0-9_']*(?:-[A-Za-z0-9_']+)*")}
MADE = ("Answers.antt", "Invariants.antt", "Proof.antt")
OWN = re.compile(r"^use Rattle\.(?!std\.)\S+\.(specs|proofs)\.")
IMPORT = re.compile(r"^(?:ghost )?use ([^\s{]+)\.\{(.*)\};?$")


def turned(name):
    """The name in today's spelling."""
    if name in SPECIAL:
        return SPECIAL[name]
    if not re.fullmatch(r"[A-Za-z][A-Za-z0-9_'-]*", name):
        return name
    if name[0].isupper():
        head, *rest = name.split("-")
        return head + "".join(r[:1].upper() + r[1:] for r in rest)
    return re.sub(r"(?<=[a-z0-9])(?=[A-Z])", "_", name).lower().replace("-", "_")


def files(root):
    for folder, dirs, names in os.walk(os.path.join(root, "crates")):
        dirs[:] = sorted(d for d in dirs if d not in ("out", "must-fail"))
        for n in sorted(names):
            if n.endswith((".antt", ".rt")):
                yield os.path.join(folder, n)


def odd(name):
    return re.match(r"[A-Za-z]", name) and name != turned(name)


def imported(lines):
    """The names that a file brings in: those of this repository, and the others."""
    own, others = set(), set()
    for line in lines:
        m = IMPORT.match(line.strip())
        if not m:
            continue
        path = m.group(1)
        mine = path.startswith("Rattle.") and not path.startswith("Rattle.std.") and (".specs." in path or ".proofs." in path)
        mine = mine and not path.endswith((".Goals", ".Given"))
        for part in m.group(2).split(","):
            for n in part.replace("«", "").replace("»", "").split(" as "):
                (own if mine else others).add(n.strip())
    return own, others


def fields(root):
    """The labels of this repository's records that are to be renamed."""
    found = set()
    for p in files(root):
        if not p.endswith(".antt") or os.path.basename(p) in MADE:
            continue
        inside = False
        for line in open(p, encoding="utf-8"):
            if re.match(r"\s*(pub\s+)?(record|data)\b", line):
                inside = True
            elif not line.strip() or not line.startswith(" "):
                inside = False
            elif inside:
                m = re.match(r"\s+(?:pub\s+)?(\S+)\s*:", line)
                if m and odd(m.group(1)):
                    found.add(m.group(1))
    return found


def code(line, is_rt):
    """The end of the code of a line: where a comment begins."""
    at = line.find("//") if is_rt else -1
    if is_rt:
        return at if at >= 0 else len(line)
    m = re.search(r"(^|\s)--(\s|$)", line)
    return m.start() if m else len(line)


def turn(path, labels, said):
    text = open(path, encoding="utf-8").read()
    lines = text.split("\n")
    is_rt = path.endswith(".rt")
    made = os.path.basename(path) in MADE
    own, others = imported(lines)
    goals = set(re.findall(r"(?m)^\s*(?:abbrev )?(?:pub )?(\S+) : goal\.", text)) if made else set()
    before, after = collections.defaultdict(set), set()

    def word(m, line):
        t = m.group(0)
        before[turned(t) if odd(t) else t].add(t)
        if not odd(t) or t in others:
            return t
        dotted = m.start() > 0 and line[m.start() - 1] == "."
        if made:
            if t in goals or (dotted and t not in labels):
                return t
            if t not in own and t not in labels:
                said.append(f"local {path}: {t}")
        if is_rt and "-" not in t and t[0].isupper():
            return t
        after.add(t)
        return turned(t)

    out = []
    for line in lines:
        end = code(line, is_rt)
        head = line[:end]
        if '"' in head and is_rt:
            out.append(line)
            continue
        head = TOKEN[os.path.splitext(path)[1]].sub(lambda m: word(m, line), head)
        head = re.sub(r"«([A-Za-z_][A-Za-z0-9_]*)»", lambda m: m.group(0) if m.group(1) in KEPT else m.group(1), head)
        head = re.sub(r"(?<![\w'])([a-z_0-9']+) as \1(?![\w'])", r"\1", head)
        out.append(head + line[end:])
    for new, olds in before.items():
        if len(olds) > 1 and olds & after:
            said.append(f"falls together {path}: {sorted(olds)} -> {new}")
    return text, "\n".join(out)


def main(argv):
    look = "--look" in argv
    labels = fields(".")
    said, changed = [], 0
    for p in files("."):
        old, new = turn(p, labels, said)
        if old != new:
            changed += 1
            if not look:
                with open(p, "w", encoding="utf-8") as f:
                    f.write(new)
    print("\n".join(said))
    print(f"{changed} files {'to change' if look else 'changed'}; labels: {' '.join(sorted(labels))}")


if __name__ == "__main__":
    main(sys.argv[1:])
