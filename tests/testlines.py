#!/usr/bin/env python3
"""testlines.py: writes crates/testlines/stdin and stdout. The answers are computed here, from the rules (docs/RULES.md) alone.

The lines: each form once, each call that has targets for all too, what is nearly `to=all`, the boundary lines, and every single-byte
deletion of a good line."""
import os
import re

WORD = r"(0|[1-9][0-9]*)"
LIST = rf"((?:{WORD}(?:,{WORD})*)?)"
CALLS = [("add", ["value"], False), ("map", ["a", "b"], True), ("link", ["key"], True), ("unlink", ["key"], True),
         ("sum", ["start"], True), ("top", ["start"], True), ("pick", ["start"], True), ("near", ["key", "start"], True),
         ("unmap", ["a", "b"], True)]
STEPS = [("admit", []), ("realise", ["at"]), ("move", ["at"]), ("finish", ["at"]), ("join", ["at", "unit"]),
         ("split", ["at", "unit", "after"]), ("swap", ["at", "unit"]), ("fuse", ["at", "unit"]), ("drain", [])]


def numbers_of(texts):
    values = [int(t) for t in texts]
    return values if all(v <= 4294967295 for v in values) else None


def refused(n, number):
    return [f"line={n} refused={number}"]


def call(n, line):
    for kind, (name, fields, listed) in enumerate(CALLS):
        pattern = rf"call={name}" + "".join(rf" {f}=([0-9]+)" for f in fields) + (r" to=([0-9,]*|all)" if listed else "")
        found = re.fullmatch(pattern, line)
        if not found:
            continue
        texts = list(found.groups())
        to = texts.pop() if listed else ""
        whole = to == "all"
        to = "" if whole else to
        if not all(re.fullmatch(WORD, t) for t in texts) or not re.fullmatch(LIST, to):
            return refused(n, 10)
        values, keys = numbers_of(texts), numbers_of(to.split(",") if to else [])
        if values is None or keys is None:
            return refused(n, 10)
        named = [v for f, v in zip(fields, values) if f == "key"]
        if any(not 1 <= k <= 64 for k in named + keys):
            return refused(n, 11)
        if len(keys) > 8 or any(a >= b for a, b in zip(keys, keys[1:])):
            return refused(n, 12)
        if name == "unmap" and values[0] % 2 == 0:
            return refused(n, 40)
        x, y = (values + [0])[:2]
        return [f"label={n} value={x} left={to}", f"key={kind} value={y} links={to}"] + ["to=all"] * whole
    return refused(n, 10)


def step(n, line):
    for kind, (name, fields) in enumerate(STEPS):
        found = re.fullmatch(rf"step={name}" + "".join(rf" {f}={WORD}" for f in fields), line)
        if not found:
            continue
        values = numbers_of(found.groups())
        if values is None:
            return refused(n, 10)
        if values and not 1 <= values[0] <= 64:
            return refused(n, 11)
        at, unit, after = (values + [0, 0, 0])[:3]
        return [f"label={n} value={kind} left=", f"nodes={at} results={unit} pending={after}"]
    return refused(n, 10)


def claim(n, line):
    found = re.fullmatch(rf"claim={WORD}", line)
    values = numbers_of(found.groups()) if found else None
    return [f"label={n} value={values[0]} left="] if values else refused(n, 10)


def answer(n, line):
    if len(line) >= 256:
        return refused(n, 10)
    entry = step if line.startswith("step=") else claim if line.startswith("claim=") else call
    return entry(n, line)


def padded(front, length):
    """A call line of this length: its target list is a sequence of ones, which are no keys in rising order."""
    rest = length - len(front)
    return front + "1" * (rest % 2 or 2) + ",1" * ((rest - (rest % 2 or 2)) // 2)


GOOD = ["call=add value=5", "call=map a=3 b=4 to=1,2", "call=link key=2 to=1", "call=unlink key=2 to=1", "call=sum start=0 to=1,2",
        "call=top start=0 to=1,2", "call=pick start=0 to=1", "call=near key=2 start=0 to=1,3", "call=unmap a=3 b=4 to=1",
        "step=admit", "step=realise at=2", "step=move at=2", "step=finish at=2", "step=join at=2 unit=1",
        "step=split at=2 unit=1 after=1", "step=swap at=2 unit=1", "step=fuse at=2 unit=1", "step=drain", "claim=4"]
WHOLE = [re.sub(" to=.*", " to=all", good) for good in GOOD if " to=" in good]
NEARLY = [re.sub("all$", to, whole) for whole in WHOLE
          for to in ["all,1", "all,", "alle", "all ", "all to=1", "1,all", ",all", "ALL", "All", "a", " all"]]
EDGES = ["", "call=add value=0", "call=add value=00", "call=add value=05", "call=add value=", "call=add value=4294967295",
         "call=add value=4294967296", "call=add value=99999999999999999999999", "call=add value=5 ", "call=add value=5\r",
         "call=add value=5 to=", "call=sum start=4 to=", "call=sum start=4", "call=sum start=4 to=1,", "call=sum start=4 to=,1",
         "call=sum start=4 to=1,,2", "call=sum start=4 to=1 ", "call=sum start=4 to=01", "call=sum  start=4 to=1",
         "call=sum start=4 to=64", "call=sum start=4 to=65", "call=sum start=4 to=0", "call=sum start=4 to=2,2", "call=sum start=4 to=3,2",
         "call=sum start=4 to=1,2,3,4,5,6,7,8", "call=sum start=4 to=1,2,3,4,5,6,7,8,9", "call=sum start=4 to=1,2,3,4,5,6,7,8,65",
         "call=sum start=4 to=65,2,2", "call=sum start=4 to=65,x", "call=sum start=4 to=4294967296", "call=link key=64 to=1",
         "call=link key=65 to=1", "call=link key=0 to=1", "call=link key=65 to=1,", "call=near key=65 start=0 to=2,2",
         "call=map b=4 a=3 to=1", "call=map a=3 b=4294967296 to=1", "call=nearly key=2 start=0 to=1", "call=", "call",
         "call=unmap a=1 b=0 to=", "call=unmap a=4294967295 b=4294967295 to=57,58,59,60,61,62,63,64", "call=unmap a=0 b=0 to=",
         "call=unmap a=2 b=4 to=1", "call=unmap a=4294967294 b=4 to=1", "call=unmap a=2 b=4 to=65", "call=unmap a=2 b=4 to=2,2",
         "call=unmap a=2 b=4 to=1,2,3,4,5,6,7,8,9", "call=unmap a=2 b=4 to=1,", "call=unmap a=2 b=4294967296 to=1", "call=unmap a=4294967297 b=4 to=1",
         "call=unmap b=4 a=3 to=1", "call=unmap a=3 to=1", "call=unmapped a=3 b=4 to=1", "call=unma a=3 b=4 to=1",
         "call=unlink a=3 b=4 to=1", "call=unmap key=3 to=1", "call=add value=5 to=all", "call=link key=65 to=all", "call=unlink key=0 to=all",
         "call=near key=65 start=0 to=all", "call=link key=65 to=all,1", "call=near key=65 start=4294967296 to=all",
         "call=map a=2 b=4 to=all", "call=unmap a=2 b=4 to=all", "call=unmap a=2 b=4 to=all,1", "call=unmap a=4294967295 b=4294967295 to=all",
         "call=sum start=4 to=all\r", "call=sum start=4 to=all,all", "call=sum start=4 to=1all", "call=sum start=4 to=all1", "call=sum start=all to=1",
         "call=sum to=all", "call=add value=all", "call=link key=all to=1", "call=unmap a=2 b=4 to=alle", "step=realise at=all", "claim=all",
         "step=realise at=64", "step=realise at=65", "step=realise at=0", "step=realise at=02", "step=join at=2 unit=0",
         "step=split at=2 unit=0 after=0", "step=split at=65 unit=1", "step=admit ", "step=drain at=1", "step=", "step=split at=2 unit=1 after=4294967296",
         "claim=0", "claim=65536", "claim=4294967295", "claim=4294967296", "claim=04", "claim=", "claim=4 ", " claim=4",
         padded("call=sum start=4 to=", 255), padded("call=sum start=4 to=", 256), padded("call=sum start=4 to=", 254),
         padded("call=unmap a=2 b=4 to=", 255), padded("call=unmap a=2 b=4 to=", 256)]


def main():
    lines = GOOD + WHOLE + NEARLY + EDGES
    for good in GOOD + WHOLE:
        lines += [good[:i] + good[i + 1:] for i in range(len(good))]
    here = os.path.join(os.path.dirname(__file__), "..", "crates", "testlines")
    with open(os.path.join(here, "stdin"), "w", newline="") as out:
        out.write("\n".join(lines) + "\n")
    with open(os.path.join(here, "stdout"), "w", newline="") as out:
        for n, line in enumerate(lines, 1):
            out.write("".join(text + "\n" for text in answer(n, line)))


main()
