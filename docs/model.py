"""A small model of a session, by which docs/steps.py draws what a step leaves.

It takes lines that have one of the forms, but for unmaps, and good keys (refusals 10 to 15 and 40 are not in it).
docs/check_rules.py compares it with a program on every session that is drawn.
"""

from dataclasses import dataclass, field

WRAP = 2**32
FOLDS = ("sum", "top", "pick", "near")
TWO_UNITS = ("join", "swap", "fuse")


@dataclass
class Op:
    """`targets` are the keys that remain; an all-call lists none, and is `marked` while it is done at its station."""

    kind: str
    labels: list
    targets: list
    key: int = 0
    a: int = 0
    b: int = 0
    held: int = 0
    for_all: bool = False
    marked: bool = False

    def hits(self, key):
        """Does it target the node with this key, at whose station it is?"""
        return not self.marked if self.for_all else key in self.targets

    def has_targets(self):
        return self.for_all or bool(self.targets)


@dataclass
class Station:
    key: int
    value: int
    links: list = field(default_factory=list)
    units: list = field(default_factory=list)


class Session:
    def __init__(self, lines=()):
        self.stations, self.top, self.results, self.last, self.printed = [], [], {}, 0, ""
        for number, line in enumerate(lines, 1):
            answer = self.serve(line)
            if answer:
                self.printed += f"line={number} refused={answer}\n"

    def serve(self, line):
        """A refusal's number, or 0."""
        (entry, word), *fields = [part.split("=") for part in line.split(" ")]
        fields = dict(fields)
        if entry == "call":
            self.last += 1
            to = fields.pop("to", "")
            targets = [int(key) for key in to.split(",")] if to not in ("", "all") else []
            held = int(fields.pop("start", fields.pop("value", 0)))
            numbers = {name: int(value) for name, value in fields.items()}
            self.top.append(Op(word, [self.last], targets, held=held, for_all=to == "all", **numbers))
            return 0
        if entry == "step":
            return self.step(word, {name: int(value) for name, value in fields.items()})
        return self.claim(int(word))

    def pending(self):
        units = [unit for station in self.stations for unit in station.units] + [self.top]
        return [label for unit in units for op in unit for label in op.labels]

    def claim(self, label):
        if not 1 <= label <= self.last:
            return 30
        if label in self.pending():
            return 31
        if label not in self.results:
            return 32
        self.printed += self.result_line(label)
        del self.results[label]
        return 0

    def result_line(self, label):
        value, left = self.results[label]
        return f"label={label} value={value} left={','.join(map(str, left))}\n"

    def listing(self):
        lines = [f"nodes={len(self.stations)} results={len(self.results)} pending={len(self.pending())}\n"]
        lines += [f"key={s.key} value={s.value} links={','.join(map(str, s.links))}\n" for s in self.stations]
        return "".join(lines + [self.result_line(label) for label in sorted(self.results)])

    def transcript(self):
        """What cgrun prints for the lines."""
        return self.printed + self.listing()

    def store(self, op):
        value = 0 if op.kind == "map" else op.held
        self.results.update({label: (value, op.targets) for label in op.labels})

    def admit(self):
        op = self.top.pop(0)
        if op.kind == "add":
            key = len(self.stations) + 1
            self.stations.insert(0, Station(key, op.held))
            self.results[op.labels[0]] = (key, [])
        elif self.stations:
            self.stations[0].units.append([op])
        else:
            self.store(op)

    def drain(self):
        while self.pending():
            busy = [station.key for station in self.stations if station.units]
            if not busy:
                self.admit()
            else:
                any(self.step(word, {"at": busy[-1]}) == 0 for word in ("realise", "finish", "move"))

    def step(self, word, fields):
        if word == "drain":
            self.drain()
            return 0
        if word == "admit":
            return self.admit() or 0 if self.top else 21
        place = next((i for i, s in enumerate(self.stations) if s.key == fields["at"]), None)
        if place is None:
            return 20
        station, last = self.stations[place], place + 1 == len(self.stations)
        units, i = station.units, fields.get("unit", 1) - 1
        if i < 0 or i + (word in TWO_UNITS) >= len(units):
            return 21
        return self.at_unit(word, station, last, units, i, fields)

    def at_unit(self, word, station, last, units, i, fields):
        unit = units[i]
        here = [op for op in unit if op.hits(station.key)]
        done = [op for op in unit if not op.has_targets() or (last and op not in here)]
        if word == "realise" and here:
            act(here[0], station)
        elif word == "move" and not here and not last:
            for op in unit:
                op.marked = False
            self.stations[self.stations.index(station) + 1].units.append(units.pop(0))
        elif word == "finish" and done:
            self.store(done[0])
            unit.remove(done[0])
            units[:1] = [unit] if unit else []
        elif word == "join":
            units[i : i + 2] = [unit + units[i + 1]]
        elif word == "split" and 1 <= fields["after"] < len(unit):
            units[i : i + 1] = [unit[: fields["after"]], unit[fields["after"] :]]
        elif word == "swap" and len(unit) == len(units[i + 1]) == 1 and may_swap(unit[0], units[i + 1][0]):
            units[i : i + 2] = [units[i + 1], unit]
        elif word == "fuse" and len(unit) == len(units[i + 1]) == 1 and may_fuse(unit[0], units[i + 1][0]):
            units[i : i + 2] = [[fused(unit[0], units[i + 1][0])]]
        else:
            return 22
        return 0


def act(op, node):
    op.targets, op.marked = [key for key in op.targets if key != node.key], op.for_all
    if op.kind == "map":
        node.value = (op.a * node.value + op.b) % WRAP
    elif op.kind == "link" and len(node.links) < 8:
        node.links = node.links + [op.key]
    elif op.kind == "link":
        op.held += 1
    elif op.kind == "unlink":
        op.held += node.links.count(op.key)
        node.links = [key for key in node.links if key != op.key]
    elif op.kind == "top":
        op.held = max(op.held, node.value, key=signed)
    elif op.kind == "pick":
        op.held = node.value
    elif op.kind == "sum" or op.key in node.links:
        op.held = (op.held + node.value) % WRAP


def signed(number):
    return number if number < WRAP // 2 else number - WRAP


def share_a_target(first, second):
    if first.for_all or second.for_all:
        return first.has_targets() and second.has_targets()
    return bool(set(first.targets) & set(second.targets))


def may_swap(first, second):
    return not share_a_target(first, second) or (first.kind in FOLDS and second.kind in FOLDS)


def may_fuse(first, second):
    maps = first.kind == second.kind == "map"
    same = (first.targets, first.for_all, first.marked) == (second.targets, second.for_all, second.marked)
    return maps and same and len(first.labels + second.labels) <= 4


def fused(first, second):
    a, b = second.a * first.a % WRAP, (second.a * first.b + second.b) % WRAP
    return Op("map", first.labels + second.labels, first.targets, a=a, b=b, for_all=first.for_all, marked=first.marked)
