#!/usr/bin/env python3
"""places.py [FOLDER]: lists, by patterns, the places in crates/*/src (and proofs, for 8) that docs/DESIGN-PASS.md counts.
It finds candidates; the page says of each whether it is a place, and what became of it."""
import collections
import glob
import re
import sys

root = sys.argv[1] if len(sys.argv) > 1 else "."
files = {f: open(f).read() for f in sorted(glob.glob(root + "/crates/*/src/**/*.rt", recursive=True))}


def crate(f):
    return f.split("/crates/")[1].split("/")[0]


def short(f):
    return f.split("/crates/")[1].replace("/src/", ": ")


def lines(pattern, skip_tests=True):
    for f, text in files.items():
        if skip_tests and f.endswith("tests.rt"):
            continue
        for n, line in enumerate(text.split("\n"), 1):
            if re.search(pattern, line) and not line.strip().startswith(("//", "ensures", "requires", "ghost")):
                yield f"{short(f)}:{n}  {line.strip()[:110]}"


def show(title, rows):
    rows = list(rows)
    print(f"== {title}: {len(rows)}")
    for row in rows:
        print("   " + row)


def functions():
    for f, text in files.items():
        for m in re.finditer(r"\bfn (\w+)(?:<[^{;]*?>)?\(([^)]*)\)", text):
            yield f, m.group(1), m.group(2)


show("1a a flag beside other fields", lines(r"^\s*(pub )?\w+: bool,$"))
show("1b success as a bool", lines(r"fn (insert|add|push|put|accept|store)\w*\(.*-> bool"))
show("1c numbers for kinds or refusals", lines(r"\bnumber: u(8|32)\b|-> u8\b|\brank\(\) *[<>=!]|Refusal::new\(\d"))
show("1d an Option or a Result handed on by hand", lines(r"None => (None|return None|Err\(|return Err\()|Err\(_\) => (return )?(None|Err)|Some\(\w+\) => Ok\(|Err\(\w+\) => Err\(|let (Some|Ok)\(.*\) = .* else"))

seen = collections.defaultdict(set)
for f, name, _ in functions():
    if not f.endswith("tests.rt"):
        seen[name].add(crate(f))
own = {"new", "main", "fmt", "eq", "clone", "from", "number", "values", "has", "steps", "is_tied", "is_block", "part", "price", "len", "is_empty", "get", "start", "count", "of", "next"}
show("2a functions of one name in several crates", (f"{n}: {', '.join(sorted(c))}" for n, c in sorted(seen.items()) if len(c) > 1 and n not in own))

show("3a while and loop", lines(r"\b(while|loop) *[\w{(]"))
show("3b for over a range of numbers", lines(r"\bfor \w+ in .*\.\."))
show("3c counting by hand", lines(r"\+= 1;|saturating_add\(1\)"))
show("3d enumerate", lines(r"enumerate\(\)"))

show("4a impls by hand", lines(r"^impl.*\b(PartialEq|Eq|PartialOrd|Ord|Clone|Copy|From|TryFrom|Display|Debug)(<.*>)? for "))
show("4b comparing and converting in functions", lines(r"fn (same_\w+|are_same|is_sheet|\w+_to|read|rank|name|meant|agrees|with_no_saving|placed)\b"))

clauses = collections.Counter()
for f, text in files.items():
    for m in re.finditer(r"(?:requires|ensures)(?: [a-z_]+)? \{ (.*) \}", text):
        clauses[(crate(f), m.group(1))] += 1
show("5a a clause that stands three times or more in a crate", (f"{n} x {c}: {t}" for (c, t), n in clauses.items() if n > 2))
pairs = collections.Counter()
for f, _, params in functions():
    names = [p.split(":")[0].strip().replace("mut ", "") for p in params.split(",") if ":" in p]
    for i, a in enumerate(names):
        for b in names[i + 1:]:
            pairs[(crate(f), a, b)] += 1
show("5b two parameters together in three functions or more", (f"{n} x {c}: {a}, {b}" for (c, a, b), n in sorted(pairs.items()) if n > 2))

show("6a arrays, and lists of fixed room, in fields and types", lines(r"(: |= |Vec<|<)\[\w[^\]]*; \w+\]|ArrayVec<|^\s*(pub )?len: usize"))
show("7a traits", lines(r"^(pub )?trait "))
show("7b dyn and function pointers", lines(r"\bdyn \w|: fn\("))

answers = collections.Counter()
size = collections.Counter()
for f in glob.glob(root + "/crates/*/proofs/**/*.antt", recursive=True):
    text = open(f).read()
    size[crate(f)] += text.count("\n")
    if f.endswith("Answers.antt"):
        answers[crate(f)] += len(re.findall(r"^pub [\w\-']+ : goal\.", text, re.M))
show("8 answers, and lines of proofs", (f"{c}: {answers[c]} answers, {size[c]} lines" for c in sorted(size)))
