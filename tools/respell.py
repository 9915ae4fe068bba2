#!/usr/bin/env python3
"""Brings the names of the repository's own definitions, lemmas and fields to snake case.

usage: respell.py [--check] [ROOT]       once, after /opt/rattle/port/port.py has run in ROOT

A name of ours is one that a line of specs/ or proofs/ declares with a small letter at its head: a definition, a lemma, a field or a constructor. Its humps
and dashes become underscores; a lemma that would have a definition's name gets `_lem`. Names that a library declares too, that answer a goal, or that begin
an invariant or a measure keep their spelling, as do types, modules, names of src/, exported names, strings, inputs and outputs. With --check it writes
nothing. It prints names that fall together in a file.
"""

import os
import re
import sys

WORD = re.compile(r"[A-Za-z0-9_'?\-·≤≢≡⊎→+\u0370-\u03ff\u2080-\u209cᴰ]+")
DECLARED = re.compile(r"^( *)(?:(?:abbrev|unfoldable|pub|data|record) +)*([a-z][^ :(){}\[\],;]*)(?: [^=:]*)? :(?= |$)")
ANSWERS = ("Proof.antt", "Invariants.antt", "Answers.antt")

# lemmas whose names port.py made those of a definition: name, its files (all: None), the new name
APART = [
    ("digits_from", ("crates/logs/",), "digits_from_lem"),
    ("letter_at", ("crates/firing/proofs/",), "letter_at_lem"),
    ("read_back", None, "read_back_lem"),
    ("reads_at", None, "reads_at_lem"),
    ("reads_here", None, "reads_here_lem"),
    ("run_fits", ("crates/listing/proofs/", "crates/line/proofs/"), "run_fits_lem"),
    ("same_bool", None, "same_bool_lem"),
    ("same_bytes", ("crates/logs/",), "same_bytes_lem"),
]


def files(root):
    for folder, dirs, names in os.walk(os.path.join(root, "crates")):
        dirs[:] = sorted(d for d in dirs if d not in ("out", "target", ".git"))
        for n in sorted(names):
            if n.endswith((".antt", ".rt")):
                yield os.path.join(folder, n)


def snake(name):
    name = re.sub(r"(?<=[a-z0-9])([A-Z])(?=[a-z0-9_'\-?]|$)", lambda m: "_" + m.group(1).lower(), name)
    name = re.sub(r"([A-Z])", lambda m: m.group(1), name)
    return re.sub(r"(?<=[A-Za-z0-9'?])-(?=[a-zA-Z0-9])", "_", name)


def table_of(root, texts):
    with open(os.path.join(root, "crates.txt")) as f:
        ours = {l.split(":")[0].split()[0] for l in f if l.strip() and not l.startswith("#")}
    library, declared, goals = set(), set(), set()
    for p, t in texts.items():
        for m in re.finditer(r"(?m)^ *(?:ghost )?use ([^{};\n]+)\{([^}]*)\}", t):
            path = m.group(1).split(".")
            if not (path[0] == "Rattle" and path[1] in ours):
                library |= {x.split(" as ")[0].strip() for x in m.group(2).split(",")}
        if not p.endswith(".antt"):
            continue
        goals |= set(re.findall(r"(?m)^(?:abbrev )?(?:pub )?([a-z][^ :]*) : (?:tie|goal|given)\.", t))
        for line in t.splitlines():
            m = DECLARED.match(line)
            if m and not (p.endswith(ANSWERS) and m.group(1)):
                declared.add(m.group(2))
    declared -= library | goals
    table, humps = {}, {snake(n) for n in declared if re.search("[A-Z]", n) and "-" not in n}
    for n in declared:
        to = snake(n)
        if to != n:
            table[n] = to + "_lem" if "-" in n and (to in humps or to in declared or to in library) else to
    return table


def main(argv):
    check = "--check" in argv
    roots = [a for a in argv if not a.startswith("--")]
    root = roots[0] if roots else "."
    texts = {p: open(p, encoding="utf-8").read() for p in files(root)}
    table = table_of(root, texts)
    turned = 0
    for p, t in texts.items():
        at = os.path.relpath(p, root)
        own = dict(table)
        for name, where, to in APART:
            if where is None or at.startswith(where):
                own[name] = to
        words = set(WORD.findall(t))
        to_from = {}
        for w in words:
            to_from.setdefault(own.get(w, w), set()).add(w)
        for to, froms in sorted(to_from.items()):
            if len(froms) > 1:
                print(f"together in {at}: {to}: {', '.join(sorted(froms))}")
        new = WORD.sub(lambda m: own.get(m.group(0), m.group(0)), t)
        if new != t:
            turned += 1
            if not check:
                with open(p, "w", encoding="utf-8") as f:
                    f.write(new)
    print(f"{len(table)} names, {turned} files")


if __name__ == "__main__":
    main(sys.argv[1:])
