#!/usr/bin/env python3
"""Brings this repository's own definitions and lemmas to snake case, after the kit's scripts have run.

usage: python3 tools/respell.py [TOP]

A dash stays where it joins the names of two functions (JOINED); elsewhere it becomes `_`. Names that the kit makes for
goals, and names that come from the kit's libraries, stay as they are. It prints each name that it turned, and stops
without a change where two names would fall together."""

import glob
import os
import re
import sys

# names with a dash that stays, or that take a word of today's library
JOINED = {
    "length-contents": "length-contents",
    "length-put-in": "length-put_in",
    "length-turned": "length-turned",
    "row-set-other": "row-set_other",
    "row-set-same": "row-set_same",
    "row-getD": "row-get_or",
    "place-take": "place-take",
    "folded-append": "folded-append",
    "stage-append": "stage-append",
    "sum-put-in": "sum_by-put_in",
    "sum-turned": "sum_by-turned",
    "getD-low": "get_or_low",
    "getD-nth": "get_or-slice_get",
    "getD-place": "get_or-place",
    "getD-turned": "get_or-turned",
    "nth-made": "slice_get-made",
    "nth-turned": "slice_get-turned",
    "same-getD": "same_get_or",
    "same-nth": "same_slice_get",
    "bit-and": "bit-and",
    "bit-or": "bit-or",
    "wordwise-and": "wordwise-and",
    "wordwise-or": "wordwise-or",
    "Bad-book": "BadBook",
    # lemmas that would have the name of a function of src/
    "first-unknown": "first_unknown_lem",
    "first-wanting": "first_wanting_lem",
    "is-crossed": "is_crossed_lem",
}
DECLARED = re.compile(r"\s*(?:(?:abbrev|pub|unfoldable|opaque)\s+)*(?:record\s+|data\s+)?([A-Za-z][^\s:(){},.;=|]*)(?:\s+[^=]*?)?\s*:(?:\s|$)")
CONTINUED = re.compile(r"\s*(?:(?:abbrev|pub|unfoldable|opaque)\s+)+([A-Za-z][^\s:(){},.;=|]*)\s*$")
LETTER = r"[^\s(){}\[\].,;:=|\"`]"


def files(top, *ends):
    return sorted(f for e in ends for f in glob.glob(os.path.join(top, "crates", "*", "**", "*" + e), recursive=True) if "/out/" not in f)


def main(argv):
    top = argv[0] if argv else "."
    text = {f: open(f, encoding="utf-8").read() for f in files(top, ".antt", ".rt", ".edit")}
    proofs = {f: t for f, t in text.items() if f.endswith(".antt")}
    goals = {m for t in proofs.values() for m in re.findall(r"\bgoal\.([A-Za-z][^\s(){}.,;:=]*)", t)}
    library = {w for t in text.values() for names in re.findall(r"use (?:Rattle\.std|Prim|borrow|denote|native|mathlib|lib)\b[^{;\n]*\{([^}]*)\}", t) for n in names.split(",") for w in n.split()}
    own = set()
    for t in proofs.values():
        for line in t.split("\n"):
            m = DECLARED.match(line) or CONTINUED.match(line)
            if m and "-" in m[1]:
                own.add(m[1])
    kept = set(JOINED.values())
    turned = {n: JOINED.get(n) or n.replace("-", "_") for n in own if n not in goals and n not in library and n not in kept}
    turned = {a: b for a, b in turned.items() if a != b}
    if not turned:
        print("no name to turn")
        return 0
    words = {w for t in proofs.values() for w in re.findall(LETTER + "+", re.sub(r"--.*", "", t))}
    clash = sorted(a for a, b in turned.items() if b in words or b in library or sum(c == b for c in turned.values()) > 1)
    if clash:
        print("these would fall together with other names: " + ", ".join(f"{a} ({turned[a]})" for a in clash))
        return 1
    word = re.compile("(?<!" + LETTER + ")(" + "|".join(re.escape(a) for a in sorted(turned, key=len, reverse=True)) + ")(?!" + LETTER + ")")
    for f, t in text.items():
        new = word.sub(lambda m: turned[m[1]], t)
        if new != t:
            with open(f, "w", encoding="utf-8") as out:
                out.write(new)
    for a, b in sorted(turned.items()):
        print(f"{a} -> {b}")
    print(f"{len(turned)} names turned; left, as names of goals or of the kit: {' '.join(sorted(n for n in own if n in goals or n in library and n not in goals)) or 'none'}")
    return 0


if __name__ == "__main__":
    sys.exit(main(sys.argv[1:]))
