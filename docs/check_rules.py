#!/usr/bin/env python3
"""Checks docs/RULES.md and its pictures against a program that behaves like cgrun.

    python3 docs/check_rules.py PROGRAM [LIBRARY]

- a block of `lines` and the block `printed` that follows it: the input and the whole output;
- a table under <!-- rows: BEFORE >> AFTER -->: the first cell of a row is a line, which is sent after the lines
  BEFORE and followed by the lines AFTER; the code in its other cells is what is printed, `refused=N` for its own line, and `0`
  for a step that is served, of which nothing is printed;
- a table under <!-- names -->: the file in crates/ and the names that it defines;
- the table of draws: each state follows from the one before it, the first from 0;
- the blocks `nodes` and `page`, the table under <!-- fields --> and what section 9 says of the rest of a page: what is read, and
  as what, by a reader in Python and, with LIBRARY, by `cg_page_nodes`;
- each program in C: it compiles, and with LIBRARY (build/libcg.a) prints the block that follows it;
- docs/steps/*.svg: they are what docs/steps.py draws, and the model agrees with PROGRAM before and after each step.

The last line is 'N passed, M failed'.
"""

import pathlib
import re
import subprocess
import sys
import tempfile

import steps
from model import Session

ROOT = pathlib.Path(__file__).resolve().parent.parent
PAGE = (ROOT / "docs/RULES.md").read_text()
program, library = sys.argv[1], sys.argv[2:3]
counts = {True: 0, False: 0}


def tell(passed, what):
    counts[bool(passed)] += 1
    if not passed:
        print(f"FAILED: {what}")


def run(lines):
    return subprocess.run([program], input="\n".join(lines).encode(), stdout=subprocess.PIPE, check=True).stdout.decode()


def blocks():
    found = re.findall(r"^```(\w+)\n(.*?)^```$", PAGE, re.M | re.S)
    for (kind, body), (next_kind, printed) in zip(found, found[1:] + [("", "")]):
        if kind == "lines":
            tell(next_kind == "printed" and run(body.splitlines()) == printed, f"the lines\n{body}")
        elif kind == "c":
            tell(c_prints(body) in (None, [printed]), "the program in C")


def c_prints(source, inputs=("",)):
    """What it prints for each input; None where there is no library to link."""
    with tempfile.TemporaryDirectory() as folder:
        flags = ["-std=c99", "-Wall", "-Wextra", "-Wpedantic", "-Werror", f"-I{ROOT}/include"]
        pathlib.Path(folder, "page.c").write_text(source)
        end = [*library, "-o", f"{folder}/page"] if library else ["-fsyntax-only"]
        if subprocess.run(["gcc", *flags, f"{folder}/page.c", *end]).returncode:
            return ["it does not compile"]
        if not library:
            return None
        return [subprocess.run([f"{folder}/page"], input=given.encode(), stdout=subprocess.PIPE).stdout.decode() for given in inputs]


def tables(word):
    """The rows of each table under a comment, as the code in their cells."""
    for argument, table in re.findall(rf"^<!-- {word}(.*?) -->\n\n?((?:\|.*\n)+)", PAGE, re.M):
        for row in table.splitlines()[2:]:
            yield argument, [re.findall(r"`([^`]*)`", cell) for cell in row.strip("|").split("|")]


def rows():
    for argument, cells in tables("rows:"):
        before, after = [[line for line in part.strip().split("; ") if line] for part in argument.split(">>")]
        (line,), spans = cells[0], sum(cells[1:], [])
        printed = run(before + [line] + after).splitlines()
        own = f"line={len(before) + 1} "
        right = spans and all(span == "0" or span in printed or own + span in printed for span in spans)
        refused = [words for words in printed if " refused=" in words]
        tell(right and len(refused) == sum(span.startswith("refused=") for span in spans), f"the row of {line}: {printed}")


def names():
    for _, cells in tables("names"):
        (path,), defined = cells[1], cells[2]
        text = (ROOT / "crates" / path).read_text()
        for name in defined:
            tell(re.search(rf"^ *(\w+ )?pub (\w+ )?{name}\b", text, re.M), f"{path} defines {name}")


def draws():
    state = 0
    table = re.search(r"^\| state \| draw \|.*\n\|.*\n((?:\|.*\n)+)", PAGE, re.M)[1]
    for row in table.splitlines():
        state = (1664525 * state + 1013904223) % 2**32
        printed = [int(cell.replace(",", "")) for cell in row.split("|")[1:3]]
        tell(printed == [state, state // 65536], f"the draw {row}")


READER = """
#include <stdio.h>
#include "cg.h"

static uint8_t page[2 * CG_PAGE_BYTES], out[CG_NODES_BYTES];

int main(void) {
    const int64_t answer = cg_page_nodes(page, fread(page, 1, sizeof page, stdin), out, sizeof out);
    if (answer < 0) {
        printf("refused=%d\\n", (int)-answer);
    } else {
        fwrite(out, 1, (size_t)answer, stdout);
    }
    return 0;
}
"""


def paper(nodes):
    """The page of nodes, each its key, value and links as texts."""
    return f"nodes{len(nodes):>32}\n" + "".join(f"{key:>2} {value:>10} {links:<23}\n" for key, value, links in nodes)


def read_back(page):
    """Cut by its columns, a page must be the page of what was cut out, and this within the limits."""
    nodes = [(line[:2].strip(" "), line[3:13].strip(" "), line[14:37].strip(" ")) for line in page.split("\n")[1:-1]]
    keys, values, links = [[node[i] for node in nodes] for i in range(3)]
    links = [text.split(",") if text else [] for text in links]
    right = page == paper(nodes) and len(set(keys)) == len(keys) and all(len(of_one) <= 8 for of_one in links)
    if right and within(keys + sum(links, []), range(1, 65)) and within(values, range(2**32)):
        return "".join(f"key={key} value={value} links={of_one}\n" for key, value, of_one in nodes)
    return "refused=35\n"


def within(numbers, limits):
    return all(re.fullmatch("0|[1-9][0-9]*", number) and int(number) in limits for number in numbers)


def field_pages():
    """A page for each text in the table of fields, with whether the table says that it is read; links may be blank."""
    for place, (_, cells) in enumerate(tables("fields")):
        for read, texts in zip((True, False), cells[1:]):
            for text in texts + [""] * (read == (place == 3)):
                if place == 0:
                    lines = int(text) if text.isdigit() else 1
                    yield read, f"nodes{text:>32}\n" + paper([(key, 0, "") for key in range(1, lines + 1)])[38:]
                else:
                    yield read, paper([["1", "0", ""][: place - 1] + [text] + ["1", "0", ""][place:]])


def other_pages(page):
    """Pages for what is said of the rest, made of the one on the page."""
    head, *lines = page.splitlines(True)
    yield from ((True, text) for text in (page, "".join([head, *lines[::-1]]), paper([])))
    changes = [("3\n", "2\n"), ("3\n", "4\n"), ("\n 1", "\n 2"), (" 3\n", "3 \n"), ("\n 2 ", "\n2  "), (" 51 ", "51  "), (" 3,3 ", "  3,3")]
    changes += [("51 ", "51\t"), (" \n", "\0\n"), ("12 ", "12\0"), ("\n", "\r"), ("\n", "\r\n")]
    changes += [("nodes", "NODES"), ("nodes", "nokes"), ("nodes ", " nodes")]
    for old, new in changes:
        assert old in page
        yield False, page.replace(old, new, 1)
    yield from ((False, text) for text in (page[:-1], page + "\n", page + " " * 37 + "\n", ""))


def pages():
    nodes, tens, ones, page = re.search(r"^```nodes\n(.*?)^```$.*?^```page\n(.*?\n)(.*?\n)(.*?)^```$", PAGE, re.M | re.S).groups()
    counted = [f"{i:2}" for i in range(1, 38)]
    tell([tens, ones] == ["".join(number[i] for number in counted) + "\n" for i in range(2)], "the columns counted")
    tell(page == paper(re.findall(r"^key=(.*) value=(.*) links=(.*)$", nodes, re.M)) and read_back(page) == nodes, "the page of the nodes")
    cases = [*field_pages(), *other_pages(page)]
    expected = [read_back(text) for _, text in cases]
    printed = c_prints(READER, [text for _, text in cases]) or expected
    tell(len(printed) == len(cases), "the reader in C")
    for (read, text), right, got in zip(cases, expected, printed):
        tell(read == (right != "refused=35\n") and got == right, f"read {read}, in Python {right!r}, in C {got!r}:\n{text}")


def probes(session):
    yield from ["step=admit", "step=drain"]
    for key in range(1, len(session.stations) + 2):
        yield from (f"step={word} at={key}" for word in ("realise", "move", "finish"))
        for unit in range(5):
            yield from (f"step={word} at={key} unit={unit}" for word in ("join", "swap", "fuse"))
            yield from (f"step=split at={key} unit={unit} after={after}" for after in range(4))


def agree(lines):
    """The model and the program, on a session, on every step from it, and on the end of each."""
    scripts = [lines + [probe] for probe in probes(Session(lines))]
    refused = [script[-1] for script in scripts if "refused" in Session(script).printed]
    scripts = [script for script in scripts if script[-1] not in refused]
    scripts = [lines, lines + refused, *scripts, *(script + ["step=drain"] for script in scripts)]
    return all(run(script) == Session(script).transcript() for script in scripts)


def pictures():
    for name, lines, step in steps.PICTURES:
        tell((ROOT / f"docs/steps/{name}.svg").read_text() == steps.draw(lines, step), f"docs/steps/{name}.svg is not what docs/steps.py draws")
        tell(f"](steps/{name}.svg)" in PAGE, f"the page has no picture {name}")
        tell(agree(lines) and agree(lines + [step]), f"the picture {name} is not what {program} does")


blocks()
rows()
names()
draws()
pages()
pictures()
print(f"{counts[True]} passed, {counts[False]} failed")
sys.exit(1 if counts[False] else 0)
