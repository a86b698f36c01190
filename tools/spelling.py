#!/usr/bin/env python3
"""Brings the names of the repository's own definitions and lemmas to one spelling: words in snake case, as today's library has them.

usage: python3 tools/spelling.py        at the top of the repository, once, after the kit's own script

A name in camel case that begins with a small letter, or with a dash between words, becomes snake case, wherever it stands in specs/, proofs/,
contracts, must-fail edits and pages. A name that the kit's libraries declare, and one that Rattle makes for a proof, stays.
Where a definition and a lemma on it fall together, the lemma gets `_lem`. Functions of src/, exported names, strings and data stay.
"""
import glob
import os
import re
import subprocess
import sys

# the kit's libraries lie beside its first page
KIT = os.path.join(os.path.dirname(subprocess.run(["rt", "doc"], capture_output=True, text=True, check=True).stdout.strip()), "rattle")
LIBRARIES = ["logic", "core", "std", "std_alloc", "std_collections", "std_heap", "std_io", "antt"]
TOKEN = re.compile(r"--[^\n]*|//[^\n]*|\"(?:[^\"\\]|\\.)*\"|[^\s(){}.;,@\"«»\[\]\\]+")
IMPORT = re.compile(r"use (?:Rattle\.[^\s{]+)\.\{([^}]*)\}")
WORDS = re.compile(r"[A-Za-z0-9₀-₉'ℕℤ⊗]-[A-Za-z0-9ℕℤ]")


def read(path):
    with open(path, encoding="utf-8", newline="") as it:
        return it.read()


def declared_by_the_kit():
    names = set()
    for root in LIBRARIES:
        for folder, _, files in os.walk(os.path.join(KIT, root)):
            for f in files:
                if f.endswith(".antt"):
                    with open(os.path.join(folder, f), errors="replace") as it:
                        for line in it:
                            names.update(m[1] for m in re.finditer(r"([^\s:(){}.;,\[\]λ]+) :", line))
    return names


def is_old(name):
    return bool(WORDS.search(name)) or bool(re.match(r"[a-z]", name) and re.search(r"[a-z0-9][A-Z]", name))


def snake(name):
    name = re.sub(r"(?<=[a-z0-9])([A-Z])", lambda m: "_" + m[1].lower(), name).replace("-", "_")
    return name[0].lower() + name[1:] if re.match(r"[A-Z]_", name) else name


def turned(texts, kit, crates):
    """The new name of each old one: the definition's is its plain snake case, a lemma that falls together with one gets `_lem`,
    and one on a definition in camel case keeps its dash where it falls together with another lemma."""
    used = {m[0] for t in texts for m in TOKEN.finditer(t)} - crates
    old = sorted(n for n in used if is_old(n) and n not in kit and not n.startswith(("--", "//", '"')))
    camel = {n: snake(n) for n in old if "-" not in n}
    taken = set(camel.values())
    names = dict(camel)
    # the kit's script has brought some lemmas to snake case already
    for n in sorted(used & taken):
        names[n] = n + "_lem"
    for n in old:
        if "-" in n:
            new = snake(n)
            if re.search("[a-z][A-Z]", n) and n.replace("-", "_") != n and any(snake(m) == new for m in old if m != n):
                names[n] = "-".join(snake(part) for part in n.split("-"))
                continue
            names[n] = new + "_lem" if new in taken or new in used else new
    fall = {}
    for a, b in names.items():
        fall.setdefault(b, []).append(a)
    together = {b: a for b, a in fall.items() if len(a) > 1}
    if together:
        sys.exit(f"fall together: {together}")
    return names


def renamed(text, names, keep=lambda m: True):
    def one(m):
        t = m[0]
        return names[t] if t in names and keep(m) else t

    return TOKEN.sub(one, text)


def main():
    specs = glob.glob("crates/*/specs/**/*.antt", recursive=True) + glob.glob("crates/*/proofs/*.antt")
    function = [p for p in glob.glob("crates/*/proofs/*/**/*.antt", recursive=True)]
    texts = {p: read(p) for p in specs}
    crates = {os.path.basename(p) for p in glob.glob("crates/*")}
    names = turned(texts.values(), declared_by_the_kit(), crates)
    fields = {m[1] for t in texts.values() for m in re.finditer(r"(?m)^ +pub ([^\s:]+) :", t)}
    done = {}
    for p, t in texts.items():
        done[p] = renamed(t, names)
    for p in function:
        t = read(p)
        listed = {n.split(" as ")[0].strip() for m in IMPORT.finditer(t) for n in m[1].split(",")}

        def own(m, t=t, listed=listed):
            after_dot = m.start() and t[m.start() - 1] == "."
            return m[0] in (fields if after_dot else listed)

        done[p] = renamed(t, names, own)
    for p in glob.glob("crates/*/src/**/*.rt", recursive=True):
        t = read(p)
        functions = set(re.findall(r"fn (\w+)", t))
        done[p] = renamed(t, {a: b for a, b in names.items() if a not in functions or not re.fullmatch(r"[a-z0-9_]+", a)})
    for p in glob.glob("crates/*/must-fail/*.edit"):
        done[p] = "\n".join(l if l.startswith("#") else renamed(l, {a: b for a, b in names.items() if is_old(a)}) for l in read(p).split("\n"))
    for p in ["README.md", *glob.glob("docs/**/*.md", recursive=True)]:
        old = {a: b for a, b in names.items() if is_old(a)}
        done[p] = re.sub(r"`([^`\n]*)`", lambda m: "`" + renamed(m[1], old) + "`", read(p))
    for p, t in done.items():
        if t != read(p):
            with open(p, "w", encoding="utf-8", newline="") as it:
                it.write(t)
    for a, b in sorted(names.items()):
        print(f"{a}\t{b}")


main()
