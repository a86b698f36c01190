#!/usr/bin/env python3
"""Counts, for the points of docs/DESIGN-PASS.md that a text shows, the places in crates/*/src/*.rt.
tools/design_places.py [FOLDER] [POINT]; with a point it prints the places too."""
import collections
import glob
import re
import sys

folder = sys.argv[1] if len(sys.argv) > 1 else "."
wanted = sys.argv[2] if len(sys.argv) > 2 else None


def sources():
    for path in sorted(glob.glob(f"{folder}/crates/*/src/*.rt")):
        crate = path.split("/crates/")[1].split("/")[0]
        yield crate, path, open(path).read()


def code(text):
    return re.sub(r"//[^\n]*", "", text)


def functions():
    for crate, path, text in sources():
        for m in re.finditer(r"fn (\w+)(?:<[^>]*>)?\(([^)]*)\)([^{;]*(?:\{[^}\n]*\}\n[^{;]*)*)", code(text)):
            yield crate, m.group(1), " ".join(m.group(2).split()), m.group(3)


def own_results():
    """1a: enums of two variants, one of which holds a value"""
    for crate, _, text in sources():
        for m in re.finditer(r"enum (\w+) \{(.*?)\n\}", code(text), re.S):
            variants = re.findall(r"^    (\w+)( \{|\()?", m.group(2), re.M)
            if len(variants) == 2 and any(v[1] for v in variants):
                yield f"{crate}::{m.group(1)}"


def flags():
    """1b: functions that write into what is lent and answer a bool or a u64, but for the exported ones and their twins in Rattle"""
    for crate, name, parameters, rest in functions():
        if "&mut" in parameters and re.match(r"\s*-> (u64|bool)\b", rest) and not name.startswith(("yakepuhi_", "enclosure_")):
            yield f"{crate}::{name}"


def flag_fields():
    """1c: fields of type bool beside others"""
    for crate, _, text in sources():
        for m in re.finditer(r"struct (\w+) \{(.*?)\n\}", code(text), re.S):
            for f in re.findall(r"(\w+): bool\b", m.group(2)):
                yield f"{crate}::{m.group(1)}.{f}"


def loops():
    """3: loops that count an index, or go by a number"""
    for crate, path, text in sources():
        for n, line in enumerate(code(text).split("\n"), 1):
            if re.search(r"\bwhile\b|\bfor \w+ in [\w.()]+\.\.", line):
                yield f"{path.split('/crates/')[1]}:{n}: {line.strip()}"


def by_hand():
    """3b: own functions for what the library has: `&&`, `||`, min, max, contains, a widening, a sum that wraps"""
    names = "wide|widened|choose|both|either|least|greater|lesser|sum|is_within|is_either|any_of|room_of|from_zero|low_byte|bits"
    for crate, name, _, _ in functions():
        if re.fullmatch(names, name):
            yield f"{crate}::{name}"


def conversions():
    """4: a refusal's or a rule's number and word, and a verdict's number, each by a function of its own"""
    for crate, name, _, _ in functions():
        if re.fullmatch(r"(number|word|words|code)_of(_\w+)?|held", name):
            yield f"{crate}::{name}"


def facts():
    """5a: facts that stand in the requires of three functions or more of a crate"""
    found = collections.Counter()
    for crate, name, _, rest in functions():
        here = set()
        for r in re.findall(r"requires(?: \w+)? \{ (.*) \}", rest):
            here |= {p.strip("() ").split(" ")[0] for p in r.split(" × ")}
        for fact in here:
            if re.match(r"[A-Z]\w+$", fact):
                found[crate, fact] += 1
    for (crate, fact), n in sorted(found.items(), key=lambda x: -x[1]):
        if n >= 3:
            yield f"{crate}: {fact} in {n}"


def companions():
    """5b: pairs of parameters, by name and type, in five functions or more of a crate"""
    found = collections.Counter()
    for crate, _, parameters, _ in functions():
        ps = [p.strip() for p in parameters.split(",") if ":" in p]
        for i, p in enumerate(ps):
            for q in ps[i + 1 :]:
                found[crate, p, q] += 1
    for (crate, p, q), n in sorted(found.items(), key=lambda x: -x[1]):
        if n >= 5:
            yield f"{crate}: {p}, {q} in {n}"


def steps():
    """7: an enum of bare names that says which step is to run"""
    for crate, _, text in sources():
        for m in re.finditer(r"enum (\w+) \{(.*?)\n\}", code(text), re.S):
            if m.group(1) not in ("Fault", "Refusal") and not re.search(r"[({]", m.group(2)):
                yield f"{crate}::{m.group(1)}"


points = {"1a": own_results, "1b": flags, "1c": flag_fields, "3": loops, "3b": by_hand, "4": conversions, "5a": facts, "5b": companions, "7": steps}
for key, places in points.items():
    if wanted is None or key == wanted:
        found = list(places())
        print(f"{key}  {len(found):3}  {places.__doc__.split(': ', 1)[1]}")
        if wanted:
            print("\n".join("    " + p for p in found))
