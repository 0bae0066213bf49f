#!/usr/bin/env python3
"""Brings this repository's own definitions and lemmas to today's spelling: words in snake case, a prime as an apostrophe.

usage: tools/respell.py        at the top of the repository, once, after Rattle's own port script

A definition in camel case (`keyCount`) and a lemma with dashes (`keys-rise`) become `key_count` and `keys_rise`. A dash stays where it joins
the names of definitions (`length-up_from`) or a type to a word. Where a lemma and a definition would fall together, the lemma ends in `_lem`.
Functions of src/, names that Rattle makes, strings, inputs and outputs keep theirs. Names are respelled in clauses, definitions, proofs and
must-fail edits, and in comments and pages where they stand in backquotes.
"""
import collections
import glob
import os
import re

# Dashed lemmas that the port script had turned already, and whose definition it had left in camel case.
TURNED = "by_number chosen_by entries_from entry_place is_open keys_in least_first owner_at read_back read_whole row_from".split()
# Words of the library in the names of our lemmas.
LIBRARY = {"getD": "get_or", "leZ": "le_z", "ltZ": "lt_z", "natAbs": "nat_abs", "reverseAux": "reverse_aux", "subℕ": "sub_ℕ"}
TOKEN = re.compile(r"[^\s(){}\[\],;.«»`]+")
DECLARED = re.compile(r"^\s*(?:(?:abbrev|unfoldable|pub)\s+)*([^\s(){}\[\],;.:«»=`]+(?:\s+[^\s(){}\[\],;.:«»=`]+)*)\s+:\s")
KEYWORDS = {"use", "module", "where", "let", "in", "data", "record", "open", "elim", "unfolding", "infixl", "infixr", "λ"}
# Names that a file brings from the library.
LENT = re.compile(r"(?m)^ *use (?!Rattle\.(?!std\b))\S+\.\{(.*)\}")
# What Rattle asks of a proof file, under the name that the file gives it.
GOAL = re.compile(r"^\s*(?:abbrev\s+)?(?:pub\s+)?(\S+)\s+:\s+(?:tie|goal)\.(?:Need|Inv|Measure|Decreases)")


def texts(*patterns):
    for pattern in patterns:
        for path in sorted(glob.glob(pattern, recursive=True)):
            if "/out/" not in path:
                with open(path, encoding="utf-8") as f:
                    yield path, f.read()


def snake(word):
    word = LIBRARY.get(word, word)
    if word[:1].islower():
        word = re.sub(r"(?<=[a-z0-9])([A-Z])", lambda m: "_" + m.group(1).lower(), word)
    return word


def respelled(name):
    name = name.replace("′", "'")
    parts = name.split("-")
    joins = len(parts) > 1 and any(re.search(r"[a-z0-9][A-Z]", p) or p[:1].isupper() for p in parts)
    if joins:
        # the part that is a definition's name is joined by a dash, the words beside it by an underscore
        out = snake(parts[0])
        for before, part in zip(parts, parts[1:]):
            named = any(re.search(r"[a-z0-9][A-Z]", p) or p[:1].isupper() for p in (before, part))
            out += ("-" if named else "_") + snake(part)
        return out
    return "_".join(snake(p) for p in parts)


def declared(text):
    for line in text.split("\n"):
        line = re.sub(r"--.*", "", line)
        m = DECLARED.match(line)
        if m and m.group(1).split()[0] not in KEYWORDS:
            yield from m.group(1).split()


def table():
    names = set()
    for path, text in texts("crates/**/*.antt"):
        goals = {m.group(1) for line in text.split("\n") for m in [GOAL.match(line)] if m}
        names |= set(declared(text)) - goals
    old = {n for n in names if "-" in n or "′" in n or re.search(r"[a-z0-9][A-Z]", n) and n[0].islower()}
    new = {n: respelled(n) for n in old}
    new = {n: s for n, s in new.items() if n != s}
    taken = collections.defaultdict(list)
    for n in sorted(new):
        taken[new[n]].append(n)
    for spelled, both in taken.items():
        here = spelled in names and spelled not in TURNED
        if len(both) > 1 or here:
            for n in both:
                if "-" in n:
                    new[n] = spelled + "_lem"
    for n in TURNED:
        new[n] = n + "_lem"
    return new


def in_line(line, new, keep=()):
    """A line of code with its names respelled. After a dot a name is a field or a step, which has no lemma's ending."""

    def word(m):
        w = m.group(0)
        if w not in new or w in keep:
            return w
        if line[m.start() - 1 : m.start()] == "." and m.start() > 0 and not re.search(r"[A-Z]\w*\.$", line[: m.start()]):
            return w if w in TURNED else respelled(w)
        return new[w]

    return TOKEN.sub(word, line)


def in_words(text, new):
    """Words of a comment or a page: names in camel case, and others where they stand in backquotes."""
    text = re.sub(r"`([^`\n]+)`", lambda m: "`" + in_line(m.group(1), {k: v for k, v in new.items() if k not in TURNED}) + "`", text)
    camel = {k: v for k, v in new.items() if "-" not in k and re.search(r"[a-z0-9][A-Z]", k)}
    return re.sub(r"[A-Za-z0-9_]+", lambda m: camel.get(m.group(0), m.group(0)), text)


def in_proof(text, new, keep):
    out = []
    for line in text.split("\n"):
        code, dash, said = line.partition("--") if re.search(r"(^|\s)--(\s|$)", line) else (line, "", "")
        out.append(in_line(code, new, keep) + dash + in_words(said, new))
    return "\n".join(out)


def in_source(text, new):
    out = []
    for line in text.split("\n"):
        if line.lstrip().startswith("//"):
            out.append(in_words(line, new))
        elif re.search(r"ghost use|requires|ensures|[≡≤×→λ∷<+]", line) and '"' not in line:
            out.append(in_line(line, new))
        else:
            out.append(re.sub(r"[A-Za-z0-9_]+", lambda m: new.get(m.group(0), m.group(0)) if re.search("[A-Z]", m.group(0)) and m.group(0)[0].islower() else m.group(0), line) if '"' not in line else line)
    return "\n".join(out)


def main():
    new = table()
    # steps of a proof are named after functions, whose names keep their spelling
    steps = set()
    for _, text in texts("crates/*/src/*.rt"):
        steps |= set(re.findall(r"\bfn (\w+_\w+)", text))
    dashed = {s.replace("_", "-"): s for s in steps}
    changed = 0
    for path, text in texts("crates/**/*.antt", "crates/*/src/*.rt", "crates/*/must-fail/*.edit", "docs/**/*.md", "README.md"):
        if path.endswith(".antt"):
            keep = {m.group(1) for line in text.split("\n") for m in [GOAL.match(line)] if m}
            keep |= {w.strip() for m in LENT.finditer(text) for w in m.group(1).split(",")}
            turned = in_proof(text, new, keep)
            turned = re.sub(r"(?<=\w\.)([a-z][\w-]*-[\w-]*)(?![\w'-])", lambda m: dashed.get(m.group(1), m.group(1)), turned)
        elif path.endswith(".rt"):
            turned = in_source(text, {k: v for k, v in new.items() if k not in TURNED})
        elif path.endswith(".edit"):
            turned = "\n".join(in_line(l, {k: v for k, v in new.items() if k not in TURNED}) if l.startswith(("old:", "new:")) else in_words(l, new) for l in text.split("\n"))
        else:
            turned = in_words(text, new)
        if turned != text:
            changed += 1
            with open(path, "w", encoding="utf-8") as f:
                f.write(turned)
    for n in sorted(new):
        print(n, new[n])
    print(f"respell: {len(new)} names, {changed} files")


if __name__ == "__main__":
    os.chdir(os.path.dirname(os.path.dirname(os.path.abspath(__file__))))
    main()
