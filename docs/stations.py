#!/usr/bin/env python3
"""Draws docs/stations.svg: the example scene (examples/scene.txt) after its line 18.

    python3 docs/stations.py >docs/stations.svg
"""

import sys

from drawing import arrow, box, picture, text

WIDTH, HEIGHT = 980, 400
COLUMN, TOP, UNIT_HEIGHT = 196, 66, 44

# What stands where after line 18. A unit is a list of operations: text, then targets and labels.
WAITING = [["near 3", "to 1 · label 9"]]
STATIONS = [
    ("node 3", "value 11", "links –", [["map 6, 9 (fused)", "to 1,2 · labels 5,6"], ["top", "to 1,2,9 · label 8"], ["sum", "to all · label 7"]]),
    ("node 2", "value 7", "links –", [["link 3", "to 1 · label 4"]]),
    ("node 1", "value 5", "links –", []),
]
RESULTS = ["label 1: 1", "label 2: 2", "label 3: 3"]


def unit(x, y, lines, fill):
    name, rest = lines
    return [box(x, y, 156, UNIT_HEIGHT - 8, fill, "#777"), text(x + 78, y + 15, name, 12, "bold"), text(x + 78, y + 29, rest, 11)]


def column(index, title, note):
    x = index * COLUMN
    return [
        box(x + 8, 34, COLUMN - 16, HEIGHT - 84, "#fafafa", "#ccc", 10),
        text(x + COLUMN / 2, 24, title, 14, "bold"),
        text(x + COLUMN / 2, HEIGHT - 30, note, 12, colour="#555"),
    ]


def streamlet(index, units, y, fill):
    drawn = []
    for place, lines in enumerate(units):
        drawn += unit(index * COLUMN + 20, y + place * UNIT_HEIGHT, lines, fill)
    return drawn


def station(index, node, place):
    name, value, links, units = node
    x = index * COLUMN
    drawn = column(index, f"station {place}", "")
    drawn += [
        box(x + 48, TOP - 20, 100, 62, "#fff1d6", "#b8860b", 31),
        text(x + 98, TOP, name, 13, "bold"),
        text(x + 98, TOP + 16, value, 12),
        text(x + 98, TOP + 31, links, 12),
        text(x + 98, TOP + 64, "streamlet, head first" if units else "empty streamlet", 11, colour="#555"),
    ]
    return drawn + streamlet(index, units, TOP + 74, "#dcebff")


def scene():
    drawn = column(0, "top stream", "accepted calls wait")
    drawn += streamlet(0, WAITING, TOP - 16, "#e8e8e8")
    for place, node in enumerate(STATIONS, 1):
        drawn += station(place, node, place)
    drawn += column(4, "results", "kept until claimed")
    for place, words in enumerate(RESULTS):
        x = 4 * COLUMN
        drawn += [box(x + 28, TOP - 16 + place * 34, 140, 26, "#dff3df", "#5a8a5a"), text(x + 98, TOP + 1 + place * 34, words, 12)]
    y = HEIGHT - 58
    for place, words in enumerate(["admit", "move", "move", "finish"]):
        x = (place + 1) * COLUMN
        drawn += [arrow(x - 34, y, x + 34, y), text(x, y - 7, words, 12, "bold", colour="#444")]
    drawn.append(text(WIDTH / 2, HEIGHT - 8, "At its station the head unit acts on the node: that is the step realise. A unit moves on when nothing in it targets the node.", 12, colour="#444"))
    return drawn


sys.stdout.write(picture(WIDTH, HEIGHT, scene()))
