#!/usr/bin/env python3
"""Brings the names that README.md, tests/README.md and docs/*.md cite in backticks to today's spelling.

Run once, at the top, after tools/respell.py. Which name became which is found by laying each definition and proof file of the
first commit that docs/PORT.md names beside the same file of the second, word for word. With --list it writes nothing and
prints the names of the pages, old and new.
"""

import collections
import difflib
import re
import subprocess
import sys
from pathlib import Path

TOP = Path(__file__).resolve().parent.parent
NAME = r"(?<![\w'′-])[A-Za-z_][\w'′-]*"
WORD = re.compile(NAME + r"|\d+|[^\s\w]+")
FILE = re.compile(r"crates/\w+/(?:specs/.*|proofs/\w+)\.antt$")
FENCED = re.compile(r"^```.*?^```$", re.M | re.S)


def git(*words):
    return subprocess.run(["git", "-C", str(TOP), *words], capture_output=True, text=True, check=True).stdout


def words(commit, path):
    lines = [line for line in git("show", f"{commit}:{path}").split("\n") if not re.match(r"(pub )?use ", line)]
    return [word for line in lines for word in WORD.findall(line.split("--")[0])]


def renamed():
    """Each name that a file of the first commit has, and what the second has in its place."""
    before, after = (TOP / "docs/PORT.md").read_text().split("\n")[:2]
    found = collections.defaultdict(collections.Counter)
    paths = [{path for path in git("ls-tree", "-r", "--name-only", it).split("\n") if FILE.match(path)} for it in (before, after)]
    for path in sorted(paths[0] & paths[1]):
        old, new = words(before, path), words(after, path)
        for kind, i, j, k, l in difflib.SequenceMatcher(None, old, new, autojunk=False).get_opcodes():
            if kind == "replace" and j - i == l - k:
                for a, b in zip(old[i:j], new[k:l]):
                    found[a][b] += 1
    return {a: max(of, key=of.get) for a, of in found.items() if re.fullmatch(NAME, a)}


def pages():
    yield from (TOP / "README.md", TOP / "tests/README.md")
    yield from (path for path in sorted((TOP / "docs").glob("*.md")) if path.name != "PORT.md")


def main():
    names, used = renamed(), {}

    def turn(found):
        new = names.get(found[0], found[0])
        if new != found[0]:
            used[found[0]] = new
        return new

    def cited(text):
        return re.sub(r"`[^`\n]+`", lambda span: re.sub(NAME, turn, span[0]), text)

    for page in pages():
        text = page.read_text()
        fenced = FENCED.findall(text)
        parts = [cited(part) for part in FENCED.split(text)]
        if "--list" not in sys.argv:
            page.write_text("".join(a + b for a, b in zip(parts, [*fenced, ""])))
    if "--list" in sys.argv:
        for name in sorted(used):
            print(name, used[name])


main()
