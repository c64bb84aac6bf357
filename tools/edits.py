#!/usr/bin/env python3
"""Reports of each must-fail edit whether each `old:` text stands exactly once in the file that it names, pair after pair.

    tools/edits.py [-v] [CRATE..]

With -v it also shows the line of each edited place as it reads after the edit. It ends with 1 where an edit does not fit.
"""

import sys
from pathlib import Path

TOP = Path(__file__).resolve().parent.parent


def pairs(text):
    file, old, out = None, None, []
    for line in text.split("\n"):
        if line.startswith("file: "):
            file = line[6:].strip()
        elif line.startswith("old: "):
            old = line[5:]
        elif line.startswith("new:"):
            out.append((file, old, line[5:]))
            old = None
        elif line.strip() and not line.startswith("#"):
            out.append((None, line, ""))
    return out


def main():
    shown = "-v" in sys.argv
    crates = [a for a in sys.argv[1:] if not a.startswith("-")]
    bad = fit = 0
    for edit in sorted(TOP.glob("crates/*/must-fail/*.edit")):
        crate = edit.parent.parent
        if crates and crate.name not in crates:
            continue
        said, texts = [], {}
        found = pairs(edit.read_text())
        if not found:
            said.append("no pair")
        for file, old, new in found:
            if file is None or old is None:
                said.append(f"not read: {old}")
                continue
            path = crate / file
            if path not in texts:
                if not path.is_file():
                    said.append(f"no file {file}")
                    continue
                texts[path] = path.read_text()
            n = texts[path].count(old)
            if n != 1:
                said.append(f"{file}: stands {n} times: {old}")
            if old == new:
                said.append(f"{file}: changes nothing: {old}")
            if n:
                at = texts[path].index(old)
                texts[path] = texts[path][:at] + new + texts[path][at + len(old):]
                if shown:
                    begin = texts[path].rfind("\n", 0, at) + 1
                    end = texts[path].find("\n", at + len(new))
                    print(f"{edit.relative_to(TOP)}: {file}: {texts[path][begin:end]}")
        if said:
            bad += 1
            print(f"{edit.relative_to(TOP)}:")
            for s in said:
                print(f"    {s}")
        else:
            fit += 1
    print(f"edits: {fit} fit, {bad} do not")
    return bad != 0


sys.exit(main())
