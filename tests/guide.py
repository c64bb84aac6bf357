#!/usr/bin/env python3
"""guide.py: what a reader of the promises has to believe, computed from the `use` lines.

The closure holds the ROOTS, each of the repository's own definition files that a file of it uses,
and each source file that declares a type which they use (of such a file the declarations only).
Definitions that state the contract of an inner function stand in a folder Inner; those outside of
it are the closure and the STATEMENTS, which are proved of it and need not be believed.

    tests/guide.py           prints the closure, each file after those that it uses, with its lines
    tests/guide.py --check   compares it with the reading guide in docs/PROMISES.md and with what
                             stands outside of Inner; the last line is 'N passed, M failed'
"""
import re
import sys
from pathlib import Path

TOP = Path(__file__).resolve().parent.parent
ROOTS = ["runs/specs/Demand.antt", "host/specs/Entries.antt", "program/specs/Transcript.antt", "load/specs/Entry.antt", "page/specs/Entries.antt", "cgtool/specs/Commands.antt"]
STATEMENTS = ["graph/specs/Allowed.antt", "graph/specs/CallResults.antt", "graph/specs/Cases.antt", "graph/specs/EventRuns.antt", "graph/specs/RefusalOrder.antt", "graph/specs/TakenBack.antt", "graph/specs/Tasks.antt", "graph/specs/WholeScene.antt", "host/specs/Sequences.antt", "load/specs/AcceptedLines.antt", "load/specs/Cases.antt", "page/specs/Cases.antt", "page/specs/ReadBack.antt", "pieces/specs/Pieces.antt"]
PAGE, HEADING = "docs/PROMISES.md", "## Reading guide"
WIDTH = 160
USE = re.compile(r"^\s*(?:pub )?use Rattle\.(?!std\.|core\.)(\w+)\.specs\.((?:\w|\.(?=\w))+)", re.M)
OWN = re.compile(r"^\s*(?:pub )?use Rattle\.(?!std\.|core\.).*$", re.M)


def text(path):
    file = TOP / "crates" / path
    if not file.exists():
        raise SystemExit(f"crates/{path} is used and does not exist")
    return file.read_text()


def declared(path, name):
    """The lines of a type's declaration in a source file."""
    body = re.search(rf"^pub (?:struct|enum) {name} {{.*?^}}", text(path), re.M | re.S)
    if not body:
        raise SystemExit(f"{path}: no declaration of {name}")
    return body.group().splitlines()


def types_used(path, name):
    """The types that a declaration holds, with the source files that declare them."""
    crate, source = path.split("/")[0], text(path)
    for other in re.findall(r"\b[A-Z]\w*\b", "\n".join(line.split("//")[0] for line in declared(path, name)[1:])):
        brought = re.search(rf"^use (\w+)::(\w+)::(?:\{{[^}}]*\b)?{other}\b", source, re.M)
        if brought:
            yield f"{crate if brought[1] == 'crate' else brought[1]}/src/{brought[2]}.rt", other
        elif re.search(rf"^pub (?:struct|enum) {other} {{", source, re.M):
            yield path, other


def used(path):
    """What a definition file uses of the repository: pairs of a file and the type it declares, if any."""
    source = text(path)
    found = list(USE.finditer(source))
    if len(found) != len(OWN.findall(source)):
        raise SystemExit(f"{path}: a `use` line that is not understood")
    for crate, parts in ((use[1], use[2].split(".")) for use in found):
        if parts[0] == "declared":
            yield f"{crate}/src/{parts[1]}.rt", parts[2]
        else:
            yield f"{crate}/specs/{'/'.join(parts)}.antt", None


def closure():
    """Each file, after those that it uses: its uses, and the types that are read of it."""
    uses, types = {}, {}

    def visit(path, name):
        if name:
            if name in types.setdefault(path, []):
                return
            types[path].append(name)
        elif path in uses:
            return
        below = list(types_used(path, name) if name else used(path))
        for file, other in below:
            visit(file, other)
        uses.setdefault(path, set()).update({file for file, _ in below} - {path})

    for root in ROOTS:
        visit(root, None)
    return uses, types


def lines(path, types):
    return [line for name in types[path] for line in declared(path, name)] if path in types else text(path).splitlines()


def stated(path, types):
    """The lines that state something: neither blank nor a comment nor a `use`."""
    return [line for line in lines(path, types) if line.strip() and not re.match(r"\s*(--|//|(pub )?use )", line)]


def definitions():
    """Every definition file; one that only declares modules holds nothing."""
    for path in sorted((TOP / "crates").glob("*/specs/**/*.antt")):
        if not re.fullmatch(r"(\s*(--.*|pub mod \w+)\n)*", path.read_text()):
            yield path.relative_to(TOP / "crates").as_posix()


def check(uses, types):
    """What is wrong with the guide and the folders: tests, each with its findings."""
    page = (TOP / PAGE).read_text()
    section = page.split(HEADING + "\n", 1)[1].split("\n## ", 1)[0] if HEADING in page else ""
    named = [path for path in re.findall(r"`(\w+/(?:specs|src)/[\w/]+\.(?:antt|rt))`", section) if path not in STATEMENTS]
    place = {path: i for i, path in reversed(list(enumerate(named)))}
    yield "a file of the closure is missing", sorted(set(uses) - set(named))
    yield "a file is named that is not of the closure", sorted(set(named) - set(uses))
    yield "a file is named twice", sorted({path for path in named if named.count(path) > 1})
    yield "a file stands before one that it uses", [
        f"{path} before {below}"
        for path in named
        for below in sorted(uses.get(path, ()))
        if place.get(below, -1) > place[path]
    ]
    outside = {path for path in definitions() if "/Inner/" not in path}
    total = sum(len(stated(path, types)) for path in uses)
    yield "the number of lines is another", [] if f" {total:,} lines without comments" in section else [f"{total:,}"]
    yield "a file of the closure is inner", sorted(path for path in uses if "/Inner/" in path)
    yield "a file outside of Inner is neither of the closure nor a statement", sorted(outside - set(uses) - set(STATEMENTS))
    yield "a statement is not named", [path for path in STATEMENTS if path not in outside or f"`{path}`" not in page]
    yield f"a definition's line has more than {WIDTH} columns", [
        f"{path}:{number}"
        for path in definitions()
        for number, line in enumerate(text(path).splitlines(), 1)
        if len(line) > WIDTH and not line.startswith("use ")
    ]


def main():
    uses, types = closure()
    if sys.argv[1:] == ["--check"]:
        tests = list(check(uses, types))
        failed = sum(bool(findings) for _, findings in tests)
        for said, findings in tests:
            for finding in findings:
                print(f"FAILED: {PAGE}, reading guide: {said}: {finding}")
        print(f"{len(tests) - failed} passed, {failed} failed")
        return failed != 0
    for path in uses:
        print(f"{len(lines(path, types)):4} {path}" + (f" ({', '.join(types[path])})" if path in types else ""))
    counts = [sum(len(of(path, types)) for path in uses) for of in (lines, stated)]
    print(f"{counts[0]:4} lines in {len(uses)} files; {counts[1]} without comments, `use` lines and blank ones")


if __name__ == "__main__":
    sys.exit(main())
