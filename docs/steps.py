#!/usr/bin/env python3
"""Draws docs/steps/NAME.svg for docs/RULES.md: a session before and after each kind of step.

    python3 docs/steps.py

Both sessions are computed by docs/model.py from the lines below. What a step changes has a red edge. A mark is a dark dot in the
operation's box, below the word 'marked'.
"""

import pathlib

from drawing import arrow, box, dot, picture, text
from model import FOLDS, Session

# The name of each picture, the lines before the step, and the step.
ONE = ["call=add value=5", "step=drain", "claim=1"]
TWO = ["call=add value=5", "call=add value=7", "step=drain", "claim=1", "claim=2"]
PICTURES = [
    ("admit-add", ONE + ["call=add value=7", "call=sum start=10 to=1"], "step=admit"),
    ("admit", TWO + ["call=map a=3 b=4 to=1,2", "step=admit", "call=sum start=10 to=1,9"], "step=admit"),
    ("realise", TWO + ["call=sum start=10 to=1", "call=map a=3 b=4 to=1,2", "step=admit", "step=admit", "step=join at=2 unit=1"], "step=realise at=2"),
    ("all-realise", TWO + ["call=sum start=10 to=all", "call=map a=3 b=4 to=all", "step=admit", "step=admit"], "step=realise at=2"),
    ("move", TWO + ["call=link key=2 to=1", "call=map a=3 b=4 to=1", "call=sum start=10 to=1,2", "step=admit", "step=move at=2", "step=admit", "step=admit"], "step=move at=2"),
    ("all-move", TWO + ["call=sum start=10 to=all", "call=map a=3 b=4 to=all", "step=admit", "step=admit", "step=realise at=2"], "step=move at=2"),
    ("finish", ONE + ["call=sum start=10 to=1,9", "call=map a=3 b=4 to=1", "step=admit", "step=realise at=1", "step=admit"], "step=finish at=1"),
    ("join", ONE + ["call=map a=3 b=4 to=1", "call=sum start=10 to=1", "step=admit", "step=admit"], "step=join at=1 unit=1"),
    ("split", ONE + ["call=map a=3 b=4 to=1", "call=sum start=10 to=1", "call=unlink key=2 to=1"] + ["step=admit"] * 3 + ["step=join at=1 unit=1"] * 2, "step=split at=1 unit=1 after=1"),
    ("swap", ONE + ["call=sum start=10 to=1", "call=top start=0 to=1", "step=admit", "step=admit"], "step=swap at=1 unit=1"),
    ("fuse", ONE + ["call=map a=3 b=4 to=1", "call=map a=2 b=1 to=1", "step=admit", "step=admit"], "step=fuse at=1 unit=1"),
    ("drain", TWO + ["call=map a=3 b=4 to=1,2", "step=admit", "step=realise at=2", "call=sum start=10 to=1,2,9"], "step=drain"),
]

COLUMN, TOP, OP, GAP = 132, 76, 46, 44
MARKED = "to all, marked"


def keys(numbers):
    return ",".join(map(str, numbers)) or "–"


def to_of(op):
    if op.kind == "add":
        return "a new node"
    if op.for_all:
        return MARKED if op.marked else "to all"
    return f"to {keys(op.targets)}"


def words_of(op):
    """The three lines of an operation or a waiting call."""
    numbers = {"map": f" {op.a}, {op.b}", "add": f" {op.held}"}.get(op.kind, f" {op.key}" if op.key else "")
    held = f", holds {op.held}" if op.kind in FOLDS else ""
    return op.kind + numbers + held, to_of(op), f"label{'s' if op.labels[1:] else ''} {keys(op.labels)}"


def columns(session):
    """What is drawn: for each column its title, its node (three lines or none) and its units."""
    yield "top stream", None, [[words_of(op)] for op in session.top]
    for place, s in enumerate(session.stations, 1):
        yield f"station {place}", (f"node {s.key}", f"value {s.value}", f"links {keys(s.links)}"), [[words_of(op) for op in unit] for unit in s.units]
    yield "results", None, [[(f"label {label}", f"value {value}", f"left {keys(left)}")] for label, (value, left) in sorted(session.results.items())]


def same(column, others):
    """The column that it is compared with: of the same node, or of the same title where it has none."""
    name = column[1][0] if column[1] else column[0]
    return next((c for c in others if (c[1][0] if c[1] else c[0]) == name), ("", None, []))


def column_of(x, height, column, other):
    title, node, units = column
    drawn = [box(x + 4, TOP, COLUMN - 8, height, "#fafafa", "#ccc", 10), text(x + COLUMN / 2, TOP - 8, title, 12, "bold")]
    y, left = TOP + 10, x + (22 if node else 16)
    middle = left + (COLUMN - 32) / 2
    if node:
        drawn.append(box(left, y, COLUMN - 32, 56, "#fff1d6", "#b8860b", 28, node != other[1]))
        drawn += [text(middle, y + 17 + 15 * i, words, 12 - (i > 0), "normal" if i else "bold") for i, words in enumerate(node)]
        y += 68
    moved = sorted(units) == sorted(other[2])
    fill = {"top stream": "#e8e8e8", "results": "#dff3df"}.get(title, "#dcebff")
    for number, unit in enumerate(units, 1):
        changed = unit != (other[2] + [None] * number)[number - 1] if moved else unit not in other[2]
        drawn.append(box(left, y, COLUMN - 32, OP * len(unit), fill, "#777", changed=changed))
        if node:
            drawn.append(text(x + 14, y + 27, number, 11, colour="#555"))
        for place, lines in enumerate(unit):
            top = y + OP * place
            if place:
                drawn.append(f'<line x1="{left + 6}" y1="{top}" x2="{left + COLUMN - 38}" y2="{top}" stroke="#999" stroke-dasharray="3 3"/>')
            drawn += [text(middle, top + 15 + 13 * i, words, 11, "normal" if i else "bold") for i, words in enumerate(lines)]
            if lines[1] == MARKED:
                drawn.append(dot(left + COLUMN - 41, top + 36, 5))
        y += OP * len(unit) + 8
    return drawn


def height_of(column):
    return 20 + (68 if column[1] else 0) + sum(OP * len(unit) + 8 for unit in column[2])


def draw(lines, step):
    sessions = [Session(script) for script in (lines, lines + [step])]
    assert not any("refused" in session.printed for session in sessions), step
    panels = [list(columns(session)) for session in sessions]
    shown = {title for panel in panels for title, node, units in panel if node or units}
    panels = [[column for column in panel if column[0] in shown] for panel in panels]
    height = max(height_of(column) for panel in panels for column in panel)
    drawn, x = [], 0
    for name, panel, other in (("before", *panels), ("after", *reversed(panels))):
        if name == "after":
            y = TOP + height / 2
            drawn.append(arrow(x + 6, y, x + GAP - 6, y))
            x += GAP
        drawn.append(text(x + len(panel) * COLUMN / 2, 46, name, 13, colour="#555"))
        for column in panel:
            drawn += column_of(x, height, column, same(column, other))
            x += COLUMN
    drawn.append(text(x / 2, 20, step, 13, "bold"))
    return picture(x, TOP + height + 6, drawn, f'width="{x}" height="{TOP + height + 6}" ')


if __name__ == "__main__":
    folder = pathlib.Path(__file__).parent / "steps"
    folder.mkdir(exist_ok=True)
    for name, lines, step in PICTURES:
        (folder / f"{name}.svg").write_text(draw(lines, step))
