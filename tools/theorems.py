#!/usr/bin/env python3
"""Compares what proofs/*.antt state in two folders: usage: theorems.py OLD NEW. OLD is best turned by port.py and respell.py."""

import re
import sys
from pathlib import Path

DEFINED = re.compile(r"^(\s*)(?:abbrev |unfoldable |pub )*([A-Za-z_][\w'-]*(?: [\w'-]+)*) :(?= |$)")


def code(line):
    return "" if line.lstrip().startswith("--") else line.split(" --")[0]


def deep(line):
    return len(line) - len(line.lstrip())


def statements(top):
    found = {}
    for path in sorted(Path(top).glob("crates/*/proofs/*.antt")):
        crate = path.relative_to(top).parts[1]
        lines = [code(it) for it in path.read_text().split("\n")]
        for at, line in enumerate(lines):
            m = DEFINED.match(line)
            if not m or line.lstrip().startswith("let"):
                continue
            words = [line.strip()]
            for more in lines[at + 1 :]:
                if not more.strip() or deep(more) <= len(m.group(1)):
                    break
                words.append(more.strip())
            for name in m.group(2).split():
                found.setdefault((crate, path.stem, name), []).append(re.sub(r"\s+", " ", " ".join(words)))
    return found


def main(old, new):
    a, b = statements(old), statements(new)
    gone = [it for it in a if it not in b]
    changed = [it for it in a if it in b and a[it] != b[it]]
    print(f"{len(a)} -> {len(b)}: gone {len(gone)}, changed {len(changed)}")
    for it in gone:
        print("gone", *it, a[it][0])
    for it in changed:
        print("changed", *it)
        print("    -", a[it])
        print("    +", b[it])


main(sys.argv[1], sys.argv[2])
