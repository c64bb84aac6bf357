#!/usr/bin/env python3
"""ruled_out.py: compares docs/RULED-OUT.md with the public functions and the must-fail edits.

Each public function has an `ensures`, and one row with at least two wrong programs; each edit is
named; and what the page names exists. The last line is 'N passed, M failed'.
"""
import re
import sys
from pathlib import Path

TOP = Path(__file__).resolve().parent.parent
PAGE = "docs/RULED-OUT.md"
ITEM = re.compile(r'^impl (\w+) \{|^( *)pub (extern "C" )?fn (\w+)', re.M)
EDIT = re.compile(r"\((?:definition )?`(\w+)`(?:, (\w+))?\)")


def listed(pattern):
    """The files of the crates that crates.txt lists."""
    crates = re.findall(r"^(\w+)(?: staticlib)?:", (TOP / "crates.txt").read_text(), re.M)
    return sorted(path for crate in crates for path in TOP.glob(f"crates/{crate}/{pattern}"))


def functions():
    """The public functions as the page names them (by crate, file and type; those for C, and those of the libraries that they
    call, by their name), and whether each has an `ensures` before its body."""
    for source in listed("src/*.rt"):
        crate, kind, text = source.parts[-3], "", source.read_text()
        file = "" if source.stem == "lib" else source.stem + "::"
        for item in ITEM.finditer(text):
            if item[1]:
                kind = item[1] + "::"
                continue
            name = item[4] if item[3] or item[4].startswith("cg_") else f"{crate}::{file}{kind if item[2] else ''}{item[4]}"
            yield name, re.search(r"^ *ensures |\{$", text[item.start() :], re.M)[0] != "{"


def edits():
    return [f"{path.parts[-3]}/must-fail/{path.name}" for path in listed("must-fail/*.edit")]


def page():
    """The rows, the rows that rule out less than two programs, and the edits that the page names."""
    rows, short, named, crate = [], [], [], ""
    for line in (TOP / PAGE).read_text().splitlines():
        row = re.match(r"\| `([\w:]+)` (?:\(([\w, ]+)\) )?\|(.*)\|", line)
        if line.startswith("## "):
            crate = line[3:]
        elif row and row[2]:
            named += [f"{other}/must-fail/{row[1]}.edit" for other in row[2].split(", ")]
        elif row:
            rows.append(row[1])
            short += [row[1]] if row[3].count(";") < 1 else []
            named += [f"{other or crate}/must-fail/{name}.edit" for name, other in EDIT.findall(row[3])]
    return rows, short, named


def main():
    rows, short, named = page()
    states, files = list(functions()), edits()
    public = {name for name, _ in states}
    tests = [
        ("a public function without `ensures`", {name for name, states_it in states if not states_it}),
        ("a public function without a row", public - set(rows)),
        ("a row of no public function", set(rows) - public),
        ("a function with two rows", {row for row in rows if rows.count(row) > 1}),
        ("a row with less than two programs", short),
        ("an edit that is not named", set(files) - set(named)),
        ("an edit that does not exist", set(named) - set(files)),
    ]
    failed = 0
    for said, findings in tests:
        failed += bool(findings)
        for finding in sorted(findings):
            print(f"FAILED: {PAGE}: {said}: {finding}")
    print(f"{len(tests) - failed} passed, {failed} failed")
    return failed != 0


if __name__ == "__main__":
    sys.exit(main())
