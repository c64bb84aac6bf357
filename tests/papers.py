#!/usr/bin/env python3
"""papers.py: tests that the pages stay true to the repository.

README.md has each crate of crates.txt in its table, and crates.txt the crates that each one's sources
use; no page and no source names what is outside the repository; each path that a page names exists, and each name that docs/PROMISES.md cites is in the
sources, in the file beside it if one is given. The last line is 'N passed, M failed'.
"""
import re
import sys
from pathlib import Path

TOP = Path(__file__).resolve().parent.parent
OUTSIDE = re.compile(r"\.\./shared|/work/|\bDESIGN\b(?!-PASS)|[Dd]ocument 0(?!1\b)|[Rr]equest S-|design's")
PATH = re.compile(r"[\w.-]+(?:/[\w.-]+)+\.(?:antt|rt|md|py|sh|c|h|txt|rs|svg|toml)\b")
SKIPPED = {".git", "target", "build", "out", "__pycache__"}
SOURCES = {".antt", ".rt", ".edit", ".md", ".py", ".sh", ".rs", ".c", ".h", ".txt", ".toml", ".in", ".gen", ""}


def files(top=TOP):
    for path in sorted(top.iterdir()):
        if path.is_dir() and path.name not in SKIPPED:
            yield from files(path)
        elif path.is_file() and path.suffix in SOURCES and path.name not in {".git", "papers.py"}:
            yield path


def pages():
    return [path for path in files() if path.suffix == ".md"]


def crates():
    """The crates that stand in one of README.md's table and crates.txt only."""
    listed = re.findall(r"^(\w+)(?: staticlib)?:", (TOP / "crates.txt").read_text(), re.M)
    table = (TOP / "README.md").read_text().split("## Crates\n", 1)[1].split("\n## ", 1)[0]
    return sorted(set(listed) ^ set(re.findall(r"^\| (\w+) \|", table, re.M)) - {"crate"})


def dependencies():
    """Where crates.txt differs from the crates that the sources use; a comment names those that are only handed on."""
    lines = re.findall(r"^(\w+)(?: staticlib)?:([^#\n]*)(?:#(.*))?$", (TOP / "crates.txt").read_text(), re.M)
    kit = {"check"}
    for crate, listed, comment in lines:
        used = set()
        for path in files(TOP / "crates" / crate):
            if path.suffix in {".rt", ".antt"}:
                text = path.read_text()
                used |= set(re.findall(r"\buse Rattle\.(\w+)", text))
                if path.suffix == ".rt":
                    used |= set(re.findall(r"^use (\w+)(?:::|;)", text, re.M)) | set(re.findall(r"(?<![:\w])(\w+)::\w+::\w+\(", text))
                used |= {name for name in kit if path.suffix == ".rt" and f"{name}::" in text}
        used &= {name for name, _, _ in lines} | kit
        handed = set(re.findall(r"\w+", comment))
        for name in sorted((used - {crate}) ^ set(listed.split()) - handed):
            yield f"{crate}: {name}"


def outside():
    for path in files():
        for number, line in enumerate(path.read_text(errors="replace").splitlines(), 1):
            if OUTSIDE.search(line):
                yield f"{path.relative_to(TOP)}:{number}: {line.strip()[:80]}"


def paths():
    """The paths that a page names, from the repository's top, from crates/ or from the page's own place; at a line's start, after a
    crate and a comma, from that crate. docs/PORT.md tells of files that are gone."""
    for page in pages():
        if page == TOP / "docs/PORT.md":
            continue
        text = re.sub(r"https?://\S+", "", page.read_text())
        text = re.sub(r"^(\w+), (src/\S+), ", r"crates/\1/\2, ", text, flags=re.M)
        for path in sorted(set(PATH.findall(text)) | set(re.findall(r"\]\(([\w./-]+)\)", text))):
            if not any((place / path).exists() for place in (TOP, TOP / "crates", page.parent)):
                yield f"{page.relative_to(TOP)}: {path}"


def has(text, name):
    return re.search(rf"(?<![\w-]){re.escape(name)}(?![\w-])", text)


def names():
    """The names in docs/PROMISES.md: `a::b::f` is a function, `File.name` is in graph/proofs."""
    page = (TOP / "docs/PROMISES.md").read_text()
    everywhere = "\n".join(f"{path.stem} {path.read_text()}" for top in ("crates", "include") for path in files(TOP / top))
    for name in sorted(set(re.findall(r"`([A-Za-z][\w:.-]*)(?: : [^`]*)?`", page)) - set(PATH.findall(page))):
        file = re.fullmatch(r"([A-Z]\w*)\.([\w-]+)", name)
        place = TOP / f"crates/graph/proofs/{file[1]}.antt" if file else None
        if not has(place.read_text() if place and place.exists() else everywhere, file[2] if file else name.split("::")[-1]):
            yield name
    for file, cited in re.findall(r"([\w/]+\.antt)((?:, `[\w-]+`)+)", page):
        source = TOP / "crates" / file
        for name in re.findall(r"`([\w-]+)`", cited):
            if source.exists() and not has(source.read_text(), name):
                yield f"{file}: {name}"


def main():
    tests = [
        ("a crate that README.md's table or crates.txt lacks", crates()),
        ("crates.txt differs from what the sources use", dependencies()),
        ("what is outside the repository is named", outside()),
        ("a path that does not exist", paths()),
        ("docs/PROMISES.md: a name that the sources lack", names()),
    ]
    failed = 0
    for said, findings in tests:
        findings = list(findings)
        failed += bool(findings)
        for finding in findings:
            print(f"FAILED: {said}: {finding}")
    print(f"{len(tests) - failed} passed, {failed} failed")
    return failed != 0


if __name__ == "__main__":
    sys.exit(main())
