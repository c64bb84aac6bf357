#!/usr/bin/env python3
"""places.py: the places of each point of the design pass (docs/DESIGN-PASS.md) in crates/*/src.

    tools/places.py [POINT ..] [--in FOLDER] [--list]

Without --list it prints a count for each kind of place, with it each place as FILE: NAME.
"""
import re
import sys
from collections import defaultdict
from pathlib import Path

FUNCTION = re.compile(r"^( *)(?:pub )?(?:extern \"C\" )?fn (\w+)", re.M)
WORD = re.compile(r'b?"[^"]*"|b?\'[^\']+\'|\w+|[^\w\s]')
KEPT = set("as break const continue crate else enum extern false fn for if impl in let loop match mut pub ref return self Self "
           "static struct super true type unsafe use where while bool u8 u16 u32 u64 usize i32 i64".split())


def sources(top):
    return sorted(Path(top).glob("crates/*/src/*.rt"))


def short(path):
    return f"{path.parts[-3]}/{path.name}"


def bare(text):
    """The text without comments and clauses."""
    text = re.sub(r"//.*", "", text)
    return re.sub(r"^ *(requires|ensures|ghost use)\b.*\n", "", text, flags=re.M)


def functions(path):
    """Each function: its name, its whole text, its body."""
    text = path.read_text()
    for found in FUNCTION.finditer(text):
        ends = re.compile(rf"^{found[1]}\}}", re.M).search(text, found.end())
        whole = text[found.start() : ends.end() if ends else None]
        yield found[2], whole, re.split(r"^ *\{\n|\{\n", whole, maxsplit=1, flags=re.M)[-1]


def declared(path, kind):
    for found in re.finditer(rf"^pub {kind} (\w+)[^{{;]*\{{(.*?)^\}}", path.read_text(), re.M | re.S):
        yield found[1], found[2]


def own_results(top):
    for path in sources(top):
        for name, body in declared(path, "enum"):
            if re.search(r"^ *(Not|Missing|Refused\(u32\)|Wrong),", body, re.M):
                yield path, name


def flags(top):
    for path in sources(top):
        for name, body in declared(path, "struct"):
            if re.search(r"\b(is|node|all|mark|full|ok|going|long|open): bool", body):
                yield path, name


def zero_or_refusal(top):
    for path in sources(top):
        for name, whole, body in functions(path):
            if re.search(r"-> u32\b", whole.split("{")[0]) and re.search(r"\breturn [1-4][0-9]?;|=> n,", body):
                yield path, name


def kind_numbers(top):
    for path in sources(top):
        for name, whole, body in functions(path):
            if len(re.findall(r"\w+::\w+(?:\(_\)|\(_, _\)|\(_, _, _\))? => \d+,", body)) > 2 or len(re.findall(r"^\s+\d => \w+::\w+", body, re.M)) > 2:
                yield path, name
        for name, body in declared(path, "struct"):
            if re.search(r"\bkind: u8", body):
                yield path, name


def refusal_numbers(top):
    for path in sources(top):
        for name, whole, body in functions(path):
            for _ in re.finditer(r"Refused\(\d+\)|refused_call\(\d+\)", bare(body)):
                yield path, name


def twins(top):
    shapes = defaultdict(list)
    for path in sources(top):
        for name, whole, _ in functions(path):
            names, shape = {}, []
            for word in WORD.findall(bare(whole)):
                if word[0] in "b\"'" and word[-1] in "\"'":
                    word = '"'
                elif word[0].isdigit():
                    word = "0"
                elif word[0].isalpha() and word not in KEPT or word[0] == "_":
                    word = names.setdefault(word, f"n{len(names)}")
                elif re.fullmatch(r"u8|u16|u32|u64|usize|i32|i64", word):
                    word = "int"
                shape.append(word)
            if len(shape) > 24:
                shapes[tuple(shape)].append((path, name))
    for found in shapes.values():
        if len(found) > 1:
            yield from found


def counted_loops(top):
    for path in sources(top):
        for name, whole, body in functions(path):
            for _ in re.finditer(r"\bwhile\b|\bloop \{", bare(body)):
                yield path, name


def conversions(top):
    for path in sources(top):
        for name, whole, body in functions(path):
            if re.fullmatch(r"\s*\w+ as \w+\s*\}\s*", bare(body)) or re.fullmatch(r"\s*if \w+ \{\s*return 1;\s*\}\s*0\s*\}\s*", bare(body)):
                yield path, name


def comparisons(top):
    for path in sources(top):
        for name, whole, body in functions(path):
            for _ in re.finditer(r"\bcheck::same\(|\bsame\((?!other)", bare(body)):
                yield path, name
            if name in ("same", "and", "or"):
                yield path, name


def repeated_facts(top):
    facts = defaultdict(list)
    for path in sources(top):
        for name, whole, _ in functions(path):
            for clause in re.findall(r"^ *requires(?: \w+)? \{ (.*) \}$", whole, re.M):
                for fact in re.split(r" × ", clause):
                    facts[fact.strip(" ()").replace(".old", "").replace(".now", "")].append((path, name))
    for fact, found in facts.items():
        if len(found) > 2:
            yield from found


def travelling(top):
    for path in sources(top):
        for name, whole, _ in functions(path):
            head = whole.split("requires")[0].split("ensures")[0]
            if re.search(r"out: &mut \[u8\],\s*at: usize", head):
                yield path, name


def counted_buffers(top):
    for path in sources(top):
        for name, body in declared(path, "struct"):
            if re.search(r"\b(count|kept|length|used): ", body):
                yield path, name
        for name, whole, body in functions(path):
            for _ in re.finditer(r"let mut \w+ = \[0", bare(body)):
                yield path, name


def switches(top):
    for path in sources(top):
        for name, whole, body in functions(path):
            arms = re.findall(r"=> (\w+)\(", bare(body))
            if len(arms) > 3:
                yield path, name
        for name, body in declared(path, "enum"):
            if name == "Sought":
                yield path, name


def proof_files(top):
    for path in sorted(Path(top).glob("crates/*/proofs/**/*.antt")):
        yield path, str(len(path.read_text().splitlines()))


POINTS = {
    "1": [("own enums of the shape of Option or Result", own_results), ("a flag beside the value that it speaks of", flags),
          ("functions that give 0 or a refusal's number", zero_or_refusal), ("refusals written as numbers", refusal_numbers),
          ("numbers for kinds", kind_numbers)],
    "2": [("functions that are one but for names, numbers, texts and sizes", twins)],
    "3": [("while and loop", counted_loops)],
    "4": [("conversions by a function of their own", conversions), ("comparisons by a function of their own", comparisons)],
    "5": [("functions with a `requires` that three or more have", repeated_facts), ("functions that take `out` and `at`", travelling)],
    "6": [("arrays with a count or a length beside them, and arrays used as buffers", counted_buffers)],
    "7": [("functions that choose one of four or more functions, and enums that choose a test", switches)],
    "8": [("proof files", proof_files)],
}


def main():
    words = sys.argv[1:]
    top = words[words.index("--in") + 1] if "--in" in words else Path(__file__).resolve().parent.parent
    for point in [word for word in words if word in POINTS] or POINTS:
        for kind, find in POINTS[point]:
            found = list(find(top))
            lines = f", {sum(int(name) for _, name in found)} lines" if point == "8" else ""
            print(f"{point} {kind}: {len(found)}{lines}")
            if "--list" in words:
                for path, name in found:
                    print(f"    {short(path) if point != '8' else '/'.join(path.parts[-4:])}: {name}")


main()
