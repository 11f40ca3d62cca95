#!/usr/bin/env python3
"""Brings the repository's own definitions and lemmas to today's spelling, once, right after /opt/rattle/port/port.py.

usage: python3 tools/spell.py        at the top of the repository

Words (definitions, fields, constructors, lemmas) go to snake case: `stateFits` becomes `state_fits`, `due-is-now` becomes `due_is_now`. Types and
facts keep their camel case, and so do names that Rattle makes (goals, steps, invariants). An operator's `=` at a field's end becomes `_is`.
It also turns the must-fail edits' texts, which port.py leaves: tight projections, `◌` for an operator's places, tight names, the names above.
It says which names fall together, and then writes nothing.
"""
import glob
import os
import re
import subprocess
import sys

NAME = r"[A-Za-z_][A-Za-z0-9_']*(?:-[A-Za-z0-9_']+)*[?=]?[₀-₉]*"
TOKEN = re.compile(r"(?<![A-Za-z0-9_'◌-])" + NAME)
# A definition, a field or a constructor: the name in front of ' : '.
DEFINED = re.compile(r"^( *)((?:abbrev |unfoldable |pub |data |record )*)(" + NAME + r")((?: [({][^\n]*?[)}])*) :\s", re.M)
# Rattle's own: a function's proof names its goals and its invariants by these types.
MADE = re.compile(r"^ *(?:abbrev |pub )*(" + NAME + r") : (?:tie|goal)\.", re.M)
# Two names that would fall together, or that would hide a word of the library where both are used.
BY_HAND = {
    n: snake_ + "_lem"
    for n, snake_ in [
        ("blank-table", "blank_table"), ("more-tails", "more_tails"), ("is-head", "is_head"), ("is-marked", "is_marked"),
        ("next-instant", "next_instant"), ("due-to", "due_to"), ("listener-wait", "listener_wait"), ("head_in", "head_in"),
        ("known-at", "known_at"), ("phase-known", "phase_known"), ("advance-refusal", "advance_refusal"),
        ("hear-refusal", "hear_refusal"), ("timer-refusal", "timer_refusal"), ("table-e", "table_e"),
    ]
}


def read(path):
    with open(path, encoding="utf-8") as f:
        return f.read()


def snake(name):
    new = re.sub(r"(?<=[a-z0-9])([A-Z])", lambda m: "_" + m[1].lower(), name).replace("-", "_")
    if name.endswith("="):
        new = new[:-1] + "_is"
    return new.replace("?", "_or_not").replace("₂", "_2")


def main():
    files = sorted(glob.glob("crates/*/specs/**/*.antt", recursive=True) + glob.glob("crates/*/proofs/**/*.antt", recursive=True))
    sources = sorted(glob.glob("crates/*/src/**/*.rt", recursive=True))
    edits = sorted(glob.glob("crates/*/must-fail/*.edit"))
    texts = {p: read(p) for p in files + sources + edits}
    own, made = set(), set()
    for p in files:
        made |= set(MADE.findall(texts[p]))
        if p.endswith("/Proof.antt"):
            made |= {n for n in re.findall(r"\b(" + NAME + r") : \{M : Type 1\}", texts[p])}
    for p in files:
        for m in DEFINED.finditer(texts[p]):
            own.add(m[3])
        own |= set(re.findall(r"[{;] *(" + NAME + r") : ", texts[p])) & {"none"}
    before = set()
    for p in files + sources:
        before |= set(TOKEN.findall(texts[p]))
    turned = {}
    for n in sorted(own - made):
        if n[0].isupper() or n.startswith("_"):
            continue
        new = BY_HAND.get(n, snake(n))
        if new != n:
            turned[n] = new
    # Two names fall together where one file has both, other than behind a dot, which is a step or a path.
    bare = re.compile(r"(?<![A-Za-z0-9_'◌.-])" + NAME + r"(?!\.)")
    together = 0
    for p in files + sources:
        seen = {}
        for n in sorted(set(bare.findall(texts[p]))):
            new = turned.get(n, n)
            if new in seen and (p.endswith(".antt") or n in turned and seen[new] in turned):
                print(f"falls together in {p}: {n} and {seen[new]} are {new}")
                together += 1
            seen[new] = n
    for p in sources:
        params = set(re.findall(r"[(,]\s*(?:mut )?(\w+): ", texts[p])) | set(re.findall(r"^ +(?:pub )?(\w+): ", texts[p], re.M))
        for n in set(bare.findall(texts[p])) & set(turned):
            if turned[n] in params:
                print(f"is hidden by a parameter in {p}: {n} is {turned[n]}")
                together += 1
    if together or "--dry" in sys.argv:
        return print(len(turned), "names")
    for p, t in texts.items():
        new = t
        if p.endswith(".edit"):
            lines = []
            for line in new.split("\n"):
                if line.startswith(("old: ", "new: ")):
                    line = re.sub(r"(?<=[\w')\]]) \.(?=[\w])", ".", line)
                    line = re.sub(r"(?<![\w'])_([^\w\s]+)_(?![\w'])", r"◌\1◌", line)
                lines.append(line)
            new = "\n".join(lines)
        new = TOKEN.sub(lambda m: turned.get(m[0], m[0]), new)
        if new != t:
            with open(p, "w", encoding="utf-8") as f:
                f.write(new)
    print(f"spell: {len(turned)} names")


main()
