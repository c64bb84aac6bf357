#!/usr/bin/env python3
"""Sends lines about as long as a reading buffer, or its multiples, to programs that behave like cgrun:

    python3 tests/lines.py PROGRAM..

The lines are of every kind and of each length around 64, 128, 192 and 255 bytes; a number, a comma, the
newline and each fault stand on both sides of these places. What a program must print is computed here,
from the rules (docs/RULES.md) alone. It gets the lines

- as files, with and without the last newline, and moved on by 0 to 63 bytes;
- one by one as the only line of a file and as the last of two, without its newline;
- through a pipe in pieces of 1 to 65 bytes, and of random sizes;
- one at a time: what is printed of a line must come before the next line is sent.

Every output is compared as a whole, byte for byte. The last line is 'N passed, M failed'.
"""

import fcntl
import os
import random
import re
import select
import subprocess
import sys
import tempfile
import termios
import time

# --- The rules: what a line is answered, and what is printed of it.

WORDS = 2**32
CALLS = {
    b"add": [b"value"],
    b"map": [b"a", b"b", b"to"],
    b"link": [b"key", b"to"],
    b"unlink": [b"key", b"to"],
    b"sum": [b"start", b"to"],
    b"top": [b"start", b"to"],
    b"pick": [b"start", b"to"],
    b"near": [b"key", b"start", b"to"],
    b"unmap": [b"a", b"b", b"to"],
}
STEPS = {
    b"admit": [],
    b"realise": [b"at"],
    b"move": [b"at"],
    b"finish": [b"at"],
    b"join": [b"at", b"unit"],
    b"split": [b"at", b"unit", b"after"],
    b"swap": [b"at", b"unit"],
    b"fuse": [b"at", b"unit"],
    b"drain": [],
}


class Refused(Exception):
    """With its number."""


def number(text):
    if not re.fullmatch(rb"0|[1-9][0-9]*", text) or int(text) >= WORDS:
        raise Refused(10)
    return int(text)


def targets(text):
    if text == b"all":
        return "all"
    return [number(part) for part in text.split(b",")] if text else []


def parts(line, entry, kinds):
    """The kind of a line, and its fields by their names: 10, then 11."""
    word, *rest = line.split(b" ")
    kind = word.removeprefix(entry)
    if len(line) >= 256 or not word.startswith(entry) or kind not in kinds or len(rest) != len(kinds[kind]):
        raise Refused(10)
    fields = {}
    for name, text in zip(kinds[kind], rest):
        if not text.startswith(name + b"="):
            raise Refused(10)
        value = text[len(name) + 1 :]
        fields[name.decode()] = targets(value) if name == b"to" else number(value)
    to = fields.get("to", [])
    keys = [fields[name] for name in ("key", "at") if name in fields] + (to if to != "all" else [])
    if any(not 1 <= key <= 64 for key in keys):
        raise Refused(11)
    return kind.decode(), fields


class Session:
    """Calls wait for a drain, which takes them one at a time; steps other than drains are refused,
    as no call waits when they come. 13, 14 and 15 do not occur."""

    def __init__(self):
        self.line, self.last, self.nodes, self.waiting, self.results = 0, 0, [], [], {}

    def serve(self, line):
        """What is printed of a line."""
        self.line += 1
        try:
            if line.startswith(b"step="):
                return self.step(line)
            if line.startswith(b"claim="):
                return self.claim(line)
            return self.call(line)
        except Refused as refusal:
            return b"line=%d refused=%d\n" % (self.line, *refusal.args)

    def call(self, line):
        kind, fields = parts(line, b"call=", CALLS)
        to = fields.get("to")
        if to not in (None, "all") and (len(to) > 8 or any(a >= b for a, b in zip(to, to[1:]))):
            raise Refused(12)
        if kind == "unmap" and fields["a"] % 2 == 0:
            raise Refused(40)
        self.last += 1
        self.waiting.append((self.last, kind, fields))
        assert len(self.nodes) < 64 and len(self.waiting) + len(self.results) <= 64 and self.last < WORDS // 65536
        return b""

    def step(self, line):
        kind, fields = parts(line, b"step=", STEPS)
        if kind == "drain":
            for call in self.waiting:
                self.process(*call)
            self.waiting = []
            return b""
        assert not self.waiting
        raise Refused(20 if fields.get("at", 0) > len(self.nodes) else 21)

    def claim(self, line):
        label = number(line.removeprefix(b"claim=")) if len(line) < 256 else number(b"")
        if not 1 <= label <= self.last:
            raise Refused(30)
        if label in [call[0] for call in self.waiting]:
            raise Refused(31)
        if label not in self.results:
            raise Refused(32)
        return self.results.pop(label)

    def process(self, label, kind, fields):
        if kind == "add":
            self.nodes.insert(0, [len(self.nodes) + 1, fields["value"], []])
            self.results[label] = b"label=%d value=%d left=\n" % (label, len(self.nodes))
            return
        to = fields["to"]
        met = [node for node in self.nodes if to == "all" or node[0] in to]
        left = [key for key in to if key > len(self.nodes)] if to != "all" else []
        held = fields.get("start", 0)
        for node in met:
            _, value, links = node
            if kind == "map":
                node[1] = (fields["a"] * value + fields["b"]) % WORDS
            elif kind == "unmap":
                node[1] = (value - fields["b"]) * pow(fields["a"], -1, WORDS) % WORDS
            elif kind == "link" and len(links) < 8:
                links.append(fields["key"])
            elif kind == "link":
                held += 1
            elif kind == "unlink":
                held += links.count(fields["key"])
                node[2] = [key for key in links if key != fields["key"]]
            elif kind == "pick":
                held = value
            elif kind == "top":
                held = max(held, value, key=lambda word: (word + WORDS // 2) % WORDS)
            elif kind == "sum" or fields["key"] in links:
                held = (held + value) % WORDS
        self.results[label] = b"label=%d value=%d left=%s\n" % (label, held, joined(left))

    def listing(self):
        head = b"nodes=%d results=%d pending=%d\n" % (len(self.nodes), len(self.results), len(self.waiting))
        nodes = [b"key=%d value=%d links=%s\n" % (key, value, joined(links)) for key, value, links in self.nodes]
        return head + b"".join(nodes) + b"".join(text for _, text in sorted(self.results.items()))


def joined(keys):
    return b",".join(b"%d" % key for key in keys)


# --- The lines.

PLACES = [64, 128, 192, 255]
LENGTHS = [62, 63, 64, 65, 66, 127, 128, 129, 191, 192, 193, 254, 255, 256, 257, 320, 512]
GREATEST = b"4294967295"

HEADS = [
    b"call=map a=3 b=4 to=",
    b"call=link key=2 to=",
    b"call=unlink key=2 to=",
    b"call=sum start=0 to=",
    b"call=top start=2147483648 to=",
    b"call=pick start=0 to=",
    b"call=near key=2 start=0 to=",
    b"call=unmap a=3 b=4 to=",
    # With numbers as long as they can be: an unmap of 63 bytes is accepted.
    b"call=map a=4294967295 b=4294967295 to=",
    b"call=near key=64 start=4294967295 to=",
    b"call=unmap a=4294967295 b=4294967295 to=",
    # With a refusal of their own: 40, 11, 11, 11, 11, 10, 10, 10, 10.
    b"call=unmap a=4294967294 b=4294967295 to=",
    b"call=link key=65 to=",
    b"call=unlink key=0 to=",
    b"call=near key=4294967295 start=0 to=",
    b"call=sum start=0 to=65,",
    b"call=sum start=4294967296 to=",
    b"call=map a=3 to=",
    b"call=add value=5 to=",
    b"step=realise at=1 to=",
]
# What stands at a place in a list of keys: right numbers, other refusals, no numbers.
TOKENS = [b"7", b"64", b"20,20", b"21,20", b"0", b"65", b"100", GREATEST, b"4294967296", b"42949672950", b"99999999999999999999"]
TOKENS += [b"", b"00", b"07", b"x", b"1x", b" ", b"1 2", b"1 ", b"=", b"1=2", b"all", b"1 to=2", b" to=", b"-1", b"\r", b"1\r", b"\0", b"\xff"]


def keys(length):
    """A list of keys of so many bytes, rising as far as eight keys go."""
    if length <= 0:
        return b""
    ones = [2, 1, 0][length % 3]
    twos = (length + 1 - 2 * ones) // 3
    return joined([8, 9][2 - ones :] + [10 + at % 55 for at in range(twos)])


def with_token(head, start, token, length):
    """A line of so many bytes with a token from byte `start` on, counted from 1, and keys around it."""
    line = head + keys(start - 2 - len(head))
    line += b"," * (start - 1 - len(line)) + token
    rest = length - len(line)
    return line + b"," * (rest > 0) + keys(rest - 1)


def list_lines():
    """Call lines with each token on each side of each place: last in the line, before a comma at the end,
    and with more keys after it. Four of the heads will do for the places further on."""
    for place in PLACES:
        for head in HEADS if place <= 128 else HEADS[3:16:4]:
            for token in TOKENS:
                for start in range(place - len(token), place + 3):
                    end = start + len(token) - 1
                    for length in (end, end + 1, end + 3 + start % 3, place + 65):
                        yield with_token(head, start, token, length)


def keys_lines():
    """Call lines of each length from the shortest on, of right keys; and some with one key wrong at the end."""
    for head in HEADS:
        for length in range(len(head), 330):
            yield head + keys(length - len(head))
    for head in HEADS:
        for last in (b"9,9", b"9,8", b"8,9,9", b"17,17", b"17,16", b"64", b"65", b"0", b"08", b"x", b"8,", b"8 "):
            for length in LENGTHS[:5]:
                yield with_token(head, length + 1 - len(last), last, length)


def all_lines():
    """to=all, and then something."""
    for head in HEADS:
        for length in [len(head) + 3] + LENGTHS:
            for end in (b"all", b"all,", b"all ", b"alll", b"all=", b"all\0", b"all,all", b"all to="):
                yield (head + end).ljust(length, end[-1:])
            yield head + keys(length - len(head) - 4) + b",all"
            yield head + b"all," + keys(length - len(head) - 4)


def stretched(line):
    """Lines of each length made from one: by bytes after it, before it, and within its last number."""
    for length in LENGTHS:
        more = length - len(line)
        if more < 0:
            continue
        for byte in (b"0", b"1", b" ", b",", b"x", b"=", b"\r", b"\0"):
            yield line + byte * more
        yield b" " * more + line
        yield ((line + b",") * (length // len(line) + 1))[:length]
        yield ((line + b" ") * (length // len(line) + 1))[:length]
        yield line + b"," + keys(more - 1)
        name, equals, last = line.rpartition(b"=")
        yield name + equals + b"0" * more + last
        yield name + equals * (more + 1) + last
        yield name + b" " * more + equals + last


def other_lines():
    """Adds, steps and claims, and lines of none of the forms."""
    yield b""
    for kind, fields in STEPS.items():
        for value in (b"1", b"2", b"64", b"65", b"0", GREATEST):
            line = b"step=" + kind + b"".join(b" %s=%s" % (name, value) for name in fields)
            yield line
            yield from stretched(line)
    for line in (b"call=add value=05", b"call=add value=4294967296", b"claim=0", b"claim=65535", b"claim=" + GREATEST, b"claim=1,2"):
        yield line
        yield from stretched(line)
    # Not the two lines themselves: there are adds and claims enough around.
    yield from stretched(b"call=add value=5")
    yield from stretched(b"claim=1")
    for length in LENGTHS + [600, 1000, 5000]:
        for text in (b"x", b",", b" ", b"0", b"1", b"=", b"\0", b"\xff", b"\r", b"call=", b"step=", b"claim=", b"to=", b"1,"):
            yield (text * length)[:length]
        for start in (b"call=", b"step=", b"claim=", b"call=sum", b"call=sum ", b"call=sum start=", b"call=sum start=0 to"):
            for byte in (b"x", b"1", b" "):
                yield start.ljust(length, byte)
    # Numbers that reach past the place within the fields before the targets.
    for head in HEADS:
        for length in LENGTHS:
            before, name, _ = head.partition(b" to=")
            for digit in (b"0", b"1"):
                yield before.ljust(length - 5, digit) + name + b"1"
                yield before.ljust(length + 2, digit) + name + b"1"


def boundary_lines():
    """For each kind of line each length that the request names, once: for where each line is a run."""
    lines = []
    for length in (63, 64, 65, 127, 128, 129, 255, 256):
        lines += [head + keys(length - len(head)) for head in HEADS]
        lines += [with_token(HEADS[3], length + 1 - len(token), token, length) for token in TOKENS]
        lines += [with_token(HEADS[3], length + 2 - len(token), token, length + 1) for token in (b"x", b"65", GREATEST)]
        for kind, fields in STEPS.items():
            lines.append((b"step=" + kind + b"".join(b" %s=1" % name for name in fields)).ljust(length))
        lines += [text.ljust(length, b"1") for text in (b"call=add value=", b"claim=", b"x", b",", b"step=", b"call=")]
    return lines


# --- Scripts: the lines among others that show that the session and the count of lines are as they should be.


class Script:
    """Lines and what is printed of each. It begins with two adds, a link and their claims."""

    def __init__(self, lines=(), probes=8, begins=True):
        self.session, self.lines, self.printed = Session(), [], []
        if begins:
            for line in (b"call=add value=5", b"call=add value=7", b"call=link key=2 to=1", b"step=drain", b"claim=1", b"claim=2", b"claim=3"):
                self.send(line)
        for at, line in enumerate(lines):
            if at % probes == probes - 1:
                self.call(b"call=near key=2 start=%d to=1,2,64" % self.session.line)
            self.call(line)

    def send(self, line):
        self.lines.append(line)
        self.printed.append(self.session.serve(line))

    def call(self, line):
        """Sends a line; where it is an accepted call, drains and claims too."""
        self.send(line)
        if self.session.waiting:
            self.send(b"step=drain")
            self.send(b"claim=%d" % self.session.last)

    def input(self, newline=True):
        """The last newline may be left out, but after an empty line."""
        return b"\n".join(self.lines) + b"\n" * (newline or not self.lines[-1])

    def output(self):
        return b"".join(self.printed) + self.session.listing()


# --- Runs.

# A program that has not answered by then hangs.
SECONDS = 5
passed = failed = 0


class Late(Exception):
    """A program that fails has had its time."""


def tell(right, program, name, expected=b"", got=b""):
    global passed, failed
    if right:
        passed += 1
        return
    failed += 1
    if failed <= 20:
        print(f"FAILED: {program}: {name}")
    if failed <= 20 and expected + got:
        expected, got = expected.split(b"\n"), got.split(b"\n")
        at = next((at for at, pair in enumerate(zip(expected, got)) if pair[0] != pair[1]), min(len(expected), len(got)))
        print(f"  from line {at + 1} of the output on: expected {expected[at : at + 2]}, got {got[at : at + 2]}"[:400])
    elif failed == 21:
        print("FAILED: more, of which only the number is told")
    if time.monotonic() > deadline:
        raise Late


def from_file(program, name, data, expected):
    with tempfile.TemporaryFile() as file:
        file.write(data)
        file.seek(0)
        try:
            run = subprocess.run([program], stdin=file, stdout=subprocess.PIPE, timeout=SECONDS)
        except subprocess.TimeoutExpired:
            return tell(False, program, f"{name}: no end")
    tell(run.stdout == expected and run.returncode == 0, program, name, expected, run.stdout)


class Pipe:
    """A program that reads from a pipe."""

    def __init__(self, program, stdout):
        self.process = subprocess.Popen([program], stdin=subprocess.PIPE, stdout=stdout, bufsize=0)
        self.stdin, self.stdout = self.process.stdin, self.process.stdout
        self.unread = bytearray(4)

    def send(self, data, size):
        """Sends pieces of these sizes, each when the one before was read. False where that fails."""
        at = 0
        while at < len(data):
            length = size()
            try:
                self.stdin.write(data[at : at + length])
            except OSError:
                return False
            at += length
            end = None
            while fcntl.ioctl(self.stdin, termios.FIONREAD, self.unread) or any(self.unread):
                os.sched_yield()
                end = end or time.monotonic() + SECONDS
                if time.monotonic() > end or self.process.poll() is not None:
                    return False
        return True

    def receive(self, length):
        """So many bytes of what is printed; fewer where they do not come."""
        got = b""
        while len(got) < length and select.select([self.stdout], [], [], SECONDS)[0]:
            more = os.read(self.stdout.fileno(), length - len(got))
            if not more:
                break
            got += more
        return got

    def end(self):
        """The end of the input; the program's status."""
        self.stdin.close()
        try:
            return self.process.wait(SECONDS)
        except subprocess.TimeoutExpired:
            self.process.kill()
            return self.process.wait()


def in_pieces(program, name, data, expected, size):
    with tempfile.TemporaryFile() as file:
        pipe = Pipe(program, file)
        sent = pipe.send(data, size)
        status = pipe.end()
        file.seek(0)
        got = file.read()
    tell(sent and status == 0 and got == expected, program, name, expected, got)


def one_at_a_time(program, script, size):
    """Each line is sent when all that is printed of the lines before has come. After the last: the listing,
    and no more."""
    pipe = Pipe(program, subprocess.PIPE)
    for at, (line, expected) in enumerate(zip(script.lines, script.printed)):
        right = pipe.send(line + b"\n", size)
        got = pipe.receive(len(expected)) if right else b""
        right = right and got == expected
        tell(right, program, f"line {at + 1} of those sent one at a time, of {len(line)} bytes: {line[:40]}", expected, got)
        if not right:
            break
    pipe.stdin.close()
    expected = script.session.listing()
    got = pipe.receive(len(expected) + 1)
    tell(pipe.end() == 0 and got == expected, program, "the listing after lines sent one at a time", expected, got)


def alone(*lines):
    """What is printed of these lines and of their session."""
    session = Session()
    return b"".join([session.serve(line) for line in lines]) + session.listing()


def main(programs):
    global deadline
    every = list(dict.fromkeys([*list_lines(), *keys_lines(), *all_lines(), *other_lines()]))
    boundary = list(dict.fromkeys(boundary_lines()))
    lengths = [b"x" * length for length in range(1, 260)] + [HEADS[3] + keys(length) for length in range(240)]
    whole = Script(every)
    of_a_form = {line for line, printed in zip(whole.lines, whole.printed) if not printed.endswith(b"refused=10\n")}
    of_a_form = [line for line in every if line in of_a_form]
    draw = random.Random(7)

    def some(count):
        """So many lines, of which half are not answered 10."""
        lines = draw.sample(every, count // 2) + draw.sample(of_a_form, count // 2)
        return draw.sample(lines, len(lines))

    empty = Script([b""] * 100000, probes=1000)
    moved = [(by, Script([b"x" * by] + some(600))) for by in range(64)]
    pieces = [(size, Script(some(100) + draw.sample(boundary, 50))) for size in range(1, 66)]
    sizes = [(most, Script(some(400))) for most in (3, 64, 65, 128, 200, 300, 1000, 5000)]
    sizes.append((66, Script([b""] * 3000, probes=50)))
    answered = Script(draw.sample(boundary, len(boundary)))

    def test(program):
        from_file(program, "all lines", whole.input(), whole.output())
        from_file(program, "all lines, without the last newline", whole.input(False), whole.output())
        from_file(program, "empty lines", empty.input(), empty.output())
        for by, script in moved:
            from_file(program, f"lines moved on by {by} bytes", script.input(by % 2), script.output())
        for line in boundary + lengths:
            name = f"a line without newline, of {len(line)} bytes: {line[:60]}"
            from_file(program, name, line, alone(line))
        for line in boundary:
            name = f"a line twice, without the last newline, of {len(line)} bytes: {line[:60]}"
            from_file(program, name, line + b"\n" + line, alone(line, line))
        for size, script in pieces:
            in_pieces(program, f"pieces of {size} bytes", script.input(size % 2), script.output(), lambda: size)
        for most, script in sizes:
            chance = random.Random(most)
            in_pieces(program, f"pieces of 1 to {most} bytes", script.input(False), script.output(), lambda: chance.randint(1, most))
        for most in (64, 1000):
            chance = random.Random(most)
            one_at_a_time(program, answered, lambda: chance.randint(1, most))

    for program in programs:
        deadline = time.monotonic() + 60
        try:
            test(program)
        except Late:
            print(f"FAILED: {program}: tests left out, as it takes too long")
        except OSError as error:
            tell(False, program, error)


if __name__ == "__main__":
    if len(sys.argv) == 1:
        sys.exit("usage: tests/lines.py PROGRAM..")
    main(sys.argv[1:])
    print(f"{passed} passed, {failed} failed")
    sys.exit(failed > 0)
