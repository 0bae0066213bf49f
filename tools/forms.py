#!/usr/bin/env python3
"""Counts the older forms that docs/DESIGN-PASS.md speaks of, in src/ and proofs/: `tools/forms.py`, or `tools/forms.py -v` for each place."""
import glob
import re
import sys

SOURCES = sorted(glob.glob("crates/*/src/*.rt"))
PROOFS = sorted(glob.glob("crates/*/proofs/**/*.antt", recursive=True))
ANSWERS = [p for p in PROOFS if p.endswith(("Answers.antt", "Invariants.antt"))]
NUMBERED = r"fn (refusal_number|refused|returned|reply_to|geckoneedle_\w+|write_in|hand_over)\([^{;]*?-> (i64|u32)"
# What the library has a name for, by its shape and not by our names.
BY_HAND = {
    "the smaller, the larger, a distance or a magnitude by if": r"if ([\w.]+) (<|<=) ([\w.]+) \{ (\1|\3|\3 - \1|\(-1 - \1\) as u64 \+ 1)( as \w+)? \}",
    "a least one by if": r"if (\w+) < (\w+(?:\[\w+\])?) \{\n(?:[^}\n]*\n)?\s+\2 = \1;",
    "a high end and a low end by if": r"if (\w+) <= (\w+) \{\n\s+\1 as \w+\n\s+\} else if \2 <= ",
    "a match of trues and falses": r"=> (true|false),\n\s+\w+::\w+(\(_\))? => (true|false),",
    "a test of one value after another": r"if (\w+)\((\w+), (\d+), \3\) \{\n\s+return true",
    "a 0 or 1 of a bool": r"\{\n\s+return [01];\n\s+\}\n\s+[01]\n",
    "a struct that is copied field by field": r"(\w+): (\w+)\.\1,\n\s+(\w+): \2\.\3,",
    "places that are written one by one": r"(\w+)\[0\] = (\w+)\[0\];\n\s+\1\[1\] = \2\[1\];",
    "items that are copied or compared one by one": r"^ +(?:while (\w+) < [^{]+|for (\w+) in [^{]+)\{\n\s+(if \w+\[\w+\] != |\w+\[[^\]]*\] = \w+(\[[^\]]*\])?;)",
    "a number of two bytes": r"\+ 256 \* \(",
    "a digit of base sixteen": r"if \w+ < 10 \{ (48|b'0') \+ ",
    "an order that is asked number by number": r"if (\w+)\.(\w+) != (\w+)\.\w+ \{\n\s+return \1\.\2 < ",
    "a variant of a number by if": r"if (\w+) == 1 \{\n\s+return \w+::",
    "a number of a variant by match": r"\w+::\w+ => 1,\n\s+\w+::\w+ => 2,",
    "a call of integers that the library has a method for": r"integers::(magnitude|larger|clip)\(",
}


def text(path):
    return open(path, encoding="utf-8").read()


def bare(path):
    return re.sub(r"//[^\n]*", "", text(path))


def found(pattern):
    places = []
    for path in SOURCES:
        code = bare(path)
        for m in re.finditer(pattern, code, re.M):
            places.append(f"{path}:{code[: m.start()].count(chr(10)) + 1}: {m[0].strip().split(chr(10))[0]}")
    return places


def functions():
    for path in SOURCES:
        code = bare(path)
        for m in re.finditer(r"fn (\w+)(<[^{(]*>)?\(([^)]*(?:\([^)]*\)[^)]*)*)\)", code):
            yield path, m[1], [p.strip() for p in m[3].split(",") if p.strip()]


def counted_loops():
    places = []
    for path in SOURCES:
        code = bare(path)
        for m in re.finditer(r"^( *)while [^{]*\{\n((?:\1 .*\n|\n)*)", code, re.M):
            if re.search(r"^ *(\w+) (\+|-)= 1;", m[2], re.M):
                places.append(f"{path}: {m[0].splitlines()[0].strip()}")
    return places


def report():
    whole = list(functions())
    lent = [(p, n, a) for p, n, a in whole if any(re.search(r"&(mut )?\[", x) for x in a)]
    yield "1 enums", found(r"^(pub )?enum \w+")
    yield "1 answers that are a refusal's number", found(NUMBERED)
    yield "1 flags `stopped` in a struct", found(r"^ +pub stopped: bool")
    yield "2 sizes told to the compiler by a call with a constant", found(r"^    if (w|n|q|rows) == (\d+) \{\n +return \w+\([^;]*\b\2\b")
    yield "3 loops by while", found(r"^ *(while|loop) ")
    yield "3 loops that count an index by hand", counted_loops()
    yield "3 `for` over an index", found(r"for \w+ in (0|1|\w+)\.\.|for \w+ in \(\w+\.\.")
    for name, pattern in BY_HAND.items():
        yield "4 " + name, found(pattern)
    yield "5 functions of six or more parameters", [f"{p}: {n} {len(a)}" for p, n, a in whole if len(a) > 5]
    yield "5 clauses on the length of a lent array", found(r"length (minima|limits|points|axes|tables|numbers)\.(old|now) ≡ \w+")
    yield "6 a slice with a place or a length beside it", [
        f"{p}: {n}" for p, n, a in lent if any(re.match(r"(at|from|to|n|first|place|count|rows): usize", x) for x in a)
    ]
    yield "7 a switch on which step to run", found(r"match .*advance")
    yield "8 files of answers and invariants", ANSWERS
    yield "8 of these, files that cite inner names of a proof", [p for p in ANSWERS if re.search(r"\b(lts|reads)\.", text(p))]


def main():
    for name, places in report():
        print(f"{len(places):5} {name}")
        if "-v" in sys.argv[1:]:
            for place in places:
                print("         ", place)
    lengths = [sum(len(text(p).splitlines()) for p in group) for group in (SOURCES, ANSWERS, PROOFS)]
    print("{:5} lines in src/, {} in answers and invariants, {} in all of proofs/".format(*lengths))


main()
