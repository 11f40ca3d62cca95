#!/usr/bin/env python3
"""Places of docs/DESIGN-PASS.md in src/, by patterns: python3 tools/design.py [REV] [-l POINT]

Without REV the working tree is read. -l lists the places of one point. Each pattern finds lines; the page says which
of them are places.
"""
import re
import subprocess
import sys
from collections import Counter

PATTERNS = [
    ("1 own Result: a verdict", r"Verdict::(Accepted|Refused)|enum Verdict"),
    ("1 own Result: a verdict beside a record", r"\b(Judged|Booked|TableRead|Written|Opened|Piece)\b"),
    ("1 a number for none", r"return 0;|\b(OUTSIDE|NO_BYTE|NO_PHASE)\b|missing: u64|refusal: u8|-> u8 \{ *$|kind [!=]= 0"),
    ("2 functions of one name", r"^ *(pub )?(extern \"C\" )?fn [a-z0-9_]+"),
    ("2 one function at several widths", r"fn (bits|number)(8|16|32)\b|\b(bits|number)(8|16|32)\("),
    ("3 loops that count by hand", r"^ *while |= loop \{|^ *loop \{"),
    ("4 equality by hand", r"fn (same_[a-z]+|is_zero|all_zero|is_blank|no_wake|either)\b"),
    ("4 one test a branch", r"return (false|true);"),
    ("4 a field copied to itself", r"\b([a-z_]+): (\1|[a-z]+\.\1),"),
    ("4 conversion by hand", r"fn (number|kind|head|slot|read|phase|phase_from|letter)\("),
    ("5 facts asked", r"requires \{"),
    ("6 room and place, bytes and used", r"\b(at|used): usize|, used|, at[,)]"),
    ("6 arrays beside arrays", r"\[[a-zA-Z0-9]+; (64|256)\]"),
    ("7 switches", r"match letter\(|match x \{|match self \{"),
]

PROOFS = [
    ("8 answer files", "answers"),
    ("8 invariant files", "invariants"),
    ("8 lines of proofs", "lines"),
    ("8 imports from the logic's own modules", "logic"),
]


def files(rev, suffix, part):
    """The texts of the tracked files below a folder of that name."""
    command = ["git", "ls-tree", "-r", "--name-only", rev] if rev else ["git", "ls-files"]
    names = subprocess.check_output(command, text=True).split("\n")
    for name in names:
        if name.startswith("crates/") and f"/{part}/" in name and name.endswith(suffix):
            text = subprocess.check_output(["git", "show", f"{rev}:{name}"], text=True) if rev else open(name).read()
            yield name, text


def code(line):
    return not line.lstrip().startswith("//")


def main():
    arguments = sys.argv[1:]
    listed = arguments[arguments.index("-l") + 1] if "-l" in arguments else None
    if listed:
        at = arguments.index("-l")
        del arguments[at:at + 2]
    rev = arguments[0] if arguments else None
    sources = list(files(rev, ".rt", "src"))
    for name, pattern in PATTERNS:
        found = [(f, k, l) for f, t in sources for k, l in enumerate(t.split("\n"), 1) if code(l) and re.search(pattern, l)]
        if name.startswith("2 functions of one"):
            words = Counter(re.search(r"fn ([a-z0-9_]+)", l).group(1) for _, _, l in found)
            found = [p for p in found if words[re.search(r"fn ([a-z0-9_]+)", p[2]).group(1)] > 1]
        print(f"{len(found):5}  {name}")
        if listed and name.startswith(listed):
            for f, k, l in found:
                print(f"         {f}:{k}: {l.strip()}")
    proofs = list(files(rev, ".antt", "proofs"))
    lines = [l for _, t in proofs for l in t.split("\n")]
    counts = {
        "answers": sum(f.endswith("Answers.antt") for f, _ in proofs),
        "invariants": sum(f.endswith("Invariants.antt") for f, _ in proofs),
        "lines": sum(t.count("\n") for _, t in proofs),
        "logic": sum(bool(re.match(r"use (mathlib|lib|Prim|native|borrow|mir|contract|denote)\.", l)) for l in lines),
    }
    for name, key in PROOFS:
        print(f"{counts[key]:5}  {name}")
    facts = Counter()
    for _, t in sources:
        for clause in re.findall(r"requires (?:[a-z_]+ )?\{(.*)\}", t):
            for fact in clause.split("×"):
                facts[re.sub(r"^ *\(|\) *$", "", fact.strip())] += 1
    print("\nfacts that stand in three or more contracts")
    for fact, count in facts.most_common():
        if count >= 3:
            print(f"{count:5}  {fact}")


if __name__ == "__main__":
    main()
