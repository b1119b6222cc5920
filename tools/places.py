#!/usr/bin/env python3
"""Counts the places of docs/DESIGN-PASS.md in the sources: python3 tools/places.py [POINT ..]

A place is printed as file:line and what was found. It goes by text: what it finds is read, and what it can't see (a kind
that is a number only by its meaning, say) is found by reading."""
import re
import sys
from collections import defaultdict
from pathlib import Path

TOP = Path(__file__).resolve().parent.parent
NAME = r"[A-Za-z_][A-Za-z_0-9]*"


def sources():
    for path in sorted(TOP.glob("crates/*/src/**/*.rt")):
        yield path.relative_to(TOP), path.read_text()


def code(text):
    """The text without comments, each line where it was."""
    return re.sub(r"//[^\n]*", "", text)


def line_of(text, at):
    return text.count("\n", 0, at) + 1


def items(text):
    """(kind, name, start, head, body) of each function and type: head to the opening brace of the body, body between the braces."""
    head = re.compile(rf"^ *(?:pub(?:\([a-z]+\))? )?(?:extern \"C\" )?(fn|struct|enum) ({NAME})", re.M)
    for found in head.finditer(text):
        # The body is the last group of braces that follows; clauses have braces of their own.
        at = found.end()
        start = at
        end_of_item = re.compile(r"^\}|^ {4}\}", re.M).search(text, at)
        stop = end_of_item.end() if end_of_item else len(text)
        opened = [m.start() for m in re.compile(r"^ *\{$|\{$", re.M).finditer(text, start, stop)]
        if not opened:
            continue
        brace = text.index("{", opened[0])
        yield found[1], found[2], found.start(), text[found.start():brace], text[brace + 1:stop - 1]


def point_1():
    """Own Option or Result; a flag or a number that says what a value beside it is."""
    for path, text in sources():
        text = code(text)
        for kind, name, at, _, body in items(text):
            if kind == "enum":
                cases = [c.strip() for c in re.split(r",\n", body) if c.strip()]
                loaded = [c for c in cases if "(" in c]
                if len(cases) <= 3 and (loaded or any(c.split()[-1] == "None" for c in cases)):
                    yield path, line_of(text, at), f"enum {name}: {', '.join(' '.join(c.split()) for c in cases)}"
            if kind == "struct":
                fields = re.findall(rf"({NAME}): ({NAME})", body)
                flags = [f for f, t in fields if t == "bool"]
                if flags and len(flags) * 2 < len(fields) + 1:
                    for flag in flags:
                        yield path, line_of(text, at), f"flag {name}.{flag}"
                for field, of in fields:
                    if field in ("kind", "waiting", "client", "status") and of in ("u8", "Status"):
                        yield path, line_of(text, at), f"number or status beside a value: {name}.{field}"
        for found in re.finditer(r"match [a-z_.]+ \{\n(?:\s+(?:0x)?[0-9A-F]+ => .*\n)", text):
            yield path, line_of(text, found.start()), "match on a number"


def shape(body):
    """A body with its names and numbers taken away."""
    body = re.sub(rf"\b(?!let|mut|if|else|for|in|while|match|return|loop)({NAME})\b", "x", body)
    return re.sub(r"\s+", " ", re.sub(r"\b(0x)?[0-9A-Fa-f]+(usize|u32)?\b", "0", body)).strip()


def point_2():
    """Functions and types of one name, or of one shape."""
    names, shapes = defaultdict(list), defaultdict(list)
    for path, text in sources():
        text = code(text)
        for kind, name, at, _, body in items(text):
            place = f"{path}:{line_of(text, at)} {name}"
            names[kind, name].append(place)
            if kind == "fn" and len(body.split()) >= 12:
                shapes[shape(body)].append(place)
            if kind == "struct":
                shapes["struct " + shape(body)].append(place)
    for (kind, name), places in sorted(names.items()):
        if len(places) > 1 and name not in ("main", "from"):
            yield places[0].split(":")[0], int(places[0].split(":")[1].split()[0]), f"{kind} {name}: {'; '.join(places)}"
    for places in shapes.values():
        if len(places) > 1 and len({p.split()[1] for p in places}) > 1:
            yield places[0].split(":")[0], int(places[0].split(":")[1].split()[0]), f"one shape: {'; '.join(places)}"


def point_3():
    """Loops over an index."""
    for path, text in sources():
        text = code(text)
        for found in re.finditer(rf"\b(while (?!let)[^\n]*|loop|for {NAME} in [^\n]*\.\.[^\n]*) \{{\n", text):
            yield path, line_of(text, found.start()), found[1]


def point_4():
    """Equality, copying, conversion and printing by hand."""
    for path, text in sources():
        text = code(text)
        for kind, name, at, _, body in items(text):
            if kind != "fn":
                continue
            what = []
            if re.search(rf"let mut (next|{NAME}) = [a-z]+;\s+\1\.", body):
                what.append("a copy with fields stored to")
            if len(re.findall(r"== 0\)", body)) >= 3 or len(re.findall(r"!{NAME}\.", body)) >= 3 or body.count(" & !") >= 2:
                what.append("equality by fields")
            if re.search(r"% 256\)|/ 256|256 \*", body) or "b'0' +" in body:
                what.append("bytes or digits of a number")
            if re.fullmatch(rf"\s*match {NAME} \{{(\s*(?:{NAME}::)?(?:{NAME}|0x[0-9A-F]+|[0-9]+) => [A-Za-z0-9_:]+,)+\s*\}}\s*", body):
                what.append("conversion by cases")
            if re.fullmatch(r"\s*if a < b \{ [ab] \} else \{ [ab] \}\s*", body):
                what.append("order")
            for w in what:
                yield path, line_of(text, at), f"{name}: {w}"


def clauses(head):
    for found in re.finditer(r"requires (?:[a-z_]+ )?\{ (.*) \}$", head, re.M):
        for part in re.split(r" × ", found[1]):
            yield part.strip().strip("()")


def point_5():
    """Facts in the `requires` of three or more functions, and parameters of three or more signatures that go together."""
    facts, groups = defaultdict(list), defaultdict(list)
    for path, text in sources():
        text = code(text)
        for kind, name, at, head, _ in items(text):
            if kind != "fn":
                continue
            place = f"{path}:{line_of(text, at)} {name}"
            for fact in set(clauses(head)):
                word = re.sub(r"\b[a-z_.]+\.(old|now)\b", "_", fact)
                word = re.sub(r"^(OnScreen|ValidPort|Placed|Agrees|Legal) .*", r"\1", word)
                facts[word].append(place)
            signature = head[head.index("("):].split("->")[0]
            names = re.findall(rf"({NAME}): ", signature.split("requires")[0].split("ensures")[0])
            for a, b in zip(names, names[1:]):
                groups[a, b].append(place)
    for fact, places in sorted(facts.items()):
        if len(places) >= 3:
            yield places[0].split(":")[0], len(places), f"fact {fact}: {len(places)} functions"
    for pair, places in sorted(groups.items()):
        if len(places) >= 3:
            yield places[0].split(":")[0], len(places), f"parameters {', '.join(pair)}: {len(places)} functions"


def point_6():
    """A slice with a place, a length or an end beside it."""
    for path, text in sources():
        text = code(text)
        for kind, name, at, head, body in items(text):
            if kind == "fn":
                signature = head.split("requires")[0].split("ensures")[0]
                slices = re.findall(rf"({NAME}): &(?:'a )?(?:mut )?\[", signature)
                beside = re.findall(r"\b(from|at|size|start|end|count|next|after): usize", signature)
                if slices and beside:
                    yield path, line_of(text, at), f"{name}: {', '.join(slices)} with {', '.join(beside)}"
            if kind == "struct":
                fields = re.findall(rf"({NAME}): ([^,\n]+)", body)
                arrays = [f for f, t in fields if t.startswith("[")]
                ends = [f for f, t in fields if f in ("start", "end", "count", "length", "next", "lent") and t in ("usize", "u8")]
                if (arrays and ends) or len(ends) >= 2:
                    yield path, line_of(text, at), f"struct {name}: {', '.join(arrays + ends)}"


def point_7():
    """A choice whose arms call functions on the same arguments."""
    for path, text in sources():
        text = code(text)
        for found in re.finditer(r"match ([a-z_.]+) \{\n((?:.*\n)*?)^ {4,8}\}", text, re.M):
            calls = re.findall(rf"=> (?:\{{\s*)?({NAME}(?:::{NAME})*)\(", found[2])
            if len(calls) >= 3:
                yield path, line_of(text, found.start()), f"match {found[1]}: {len(calls)} arms that call"


def point_8():
    """Answers and invariants, by crate."""
    for crate in sorted(p for p in TOP.glob("crates/*") if (p / "proofs").is_dir()):
        files = [p for p in crate.glob("proofs/**/*.antt")]
        lines = sum(len(p.read_text().splitlines()) for p in files)
        answers = sum(len(re.findall(r"^pub ", p.read_text(), re.M)) for p in files if p.name == "Answers.antt")
        yield crate.relative_to(TOP), len(files), f"{answers} answers, {lines} lines of proof"


def main(asked):
    points = {str(n): globals()[f"point_{n}"] for n in range(1, 9)}
    if any(a not in points for a in asked):
        sys.exit("usage: python3 tools/places.py [POINT ..], of 1 to 8")
    for number in asked or points:
        found = list(points[number]())
        print(f"# {number}. {points[number].__doc__} {len(found)}")
        for path, line, what in found:
            print(f"{path}:{line} {what}")


main(sys.argv[1:])
