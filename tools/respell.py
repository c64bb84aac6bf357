#!/usr/bin/env python3
"""Brings the definitions and lemmas of this repository's own to today's spelling: words in snake case.

Run once, at the top, after /opt/rattle/port/port.py. It renames what specs/ and proofs/*.antt define, `oneAtATime` and
`put-high` for two, in every .antt file, in the ghost lines of every .rt file and in the edits of must-fail/. A lemma whose
new name is another name already, there or in the sources, ends in `_law`. Goals' names, made by Rattle, stay.
With --list it writes nothing and prints the names, old and new. With --local it renames only what an answer file defines
for itself, in that file: once the answer files are written.
"""

import re
import sys
from pathlib import Path

TOP = Path(__file__).resolve().parent.parent if len(sys.argv) < 2 or sys.argv[-1].startswith("--") else Path(sys.argv[-1])
NAME = re.compile(r"(?<![\w'-])[A-Za-z_][\w'-]*")
DEFINED = re.compile(r"^\s*(?:abbrev |unfoldable |pub |axiom )*([a-z][\w'-]*(?: [a-z][\w'-]*)*) :(?= |$)", re.M)
FIELD = re.compile(r"^\s+(?:pub )?([a-z][\w'-]*) :", re.M)
GHOST = re.compile(r"^\s*(?:ghost |requires|ensures|decreases)")
# Lemmas that port.py renamed, where a definition of this repository comes to the same name.
MOVED = {n: n + "_law" for n in ("call_line", "goes_on", "one_by_one", "other_length")}


def snake(name):
    out = ""
    for i, ch in enumerate(name):
        if ch.isupper():
            out += ("" if i == 0 or out[-1] in "_-" else "_") + ch.lower()
        else:
            out += "_" if ch == "-" else ch
    return out


def code(line):
    at = line.find("--")
    return (line, "") if at < 0 else (line[:at], line[at:])


def own(top):
    names = set()
    for p in sorted(top.glob("crates/*/specs/**/*.antt")) + sorted(top.glob("crates/*/proofs/*.antt")):
        for line in p.read_text().split("\n"):
            m = DEFINED.match(code(line)[0])
            if m:
                names.update(m.group(1).split(" "))
    return {n for n in names if n != snake(n)}


def renamed(text, names, hyphens=True, steps=False):
    """With `steps`, a name with a hyphen that follows a dot stays: there it is a step of a function's proof."""

    def turn(m):
        n = m.group(0)
        if n in names and (hyphens or "-" not in n):
            if steps and ("-" in n or n in MOVED) and m.start() and text[m.start() - 1] == "." and not re.search(r"(?:specs|proofs)[\w.]*\.$", text[:m.start()]):
                return n
            return names[n]
        return n
    return NAME.sub(turn, text)


def spelled(top):
    taken = set()
    for p in list(top.glob("crates/**/*.antt")) + list(top.glob("crates/**/*.rt")):
        taken.update(NAME.findall(p.read_text()))
    names = {}
    for n in sorted(own(top), key=lambda n: ("-" in n, n)):
        new = snake(n)
        if "-" in n and (new in taken or new in names.values()):
            new += "_law"
        names[n] = new
    return names | MOVED


def local(top):
    """The lemmas of an answer file's own, in that file. Goals are no names of ours: their type names them."""
    for p in sorted(top.glob("crates/*/proofs/**/Answers.antt")):
        text = p.read_text()
        taken = set(NAME.findall(text))
        names = {}
        for line in text.split("\n"):
            m = DEFINED.match(code(line)[0])
            if m and ": goal." not in line and not line.lstrip().startswith("let "):
                names.update({n: snake(n) for n in m.group(1).split(" ") if n != snake(n)})
        names = {n: new + "_law" if new in taken else new for n, new in names.items()}
        if names:
            print(p.relative_to(top), " ".join(f"{n} {new}" for n, new in names.items()))
            p.write_text("\n".join(renamed(code(line)[0], names, steps=True) + code(line)[1] for line in text.split("\n")))


def main():
    if "--local" in sys.argv:
        local(TOP)
        return
    names = spelled(TOP)
    if "--list" in sys.argv:
        for n in sorted(names):
            print(n, names[n])
        return
    for p in sorted(TOP.glob("crates/**/*.antt")):
        lines = []
        for line in p.read_text().split("\n"):
            c, rest = code(line)
            rest = renamed(rest, names, hyphens=False)
            rest = re.sub(r"`[^`]*`", lambda m: renamed(m.group(0), names), rest)
            lines.append(renamed(c, names, steps=p.name == "Proof.antt") + rest)
        p.write_text("\n".join(lines))
    for p in sorted(TOP.glob("crates/**/*.rt")):
        lines = [renamed(line, names, hyphens=bool(GHOST.match(line))) for line in p.read_text().split("\n")]
        p.write_text("\n".join(lines))
    for p in sorted(TOP.glob("crates/*/must-fail/*.edit")):
        p.write_text(renamed(p.read_text(), names, hyphens=True))


main()
