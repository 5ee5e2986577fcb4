#!/usr/bin/env python3
"""Spells the names that this repository's specs/ and proofs/ declare as today's Rattle does: a word in snake case, a prime as an apostrophe.

usage: tools/respell.py        once, at the top of the repository, after port.py

A name that begins with a small letter and has a capital inside is turned, as `keyOf` to `key_of`, wherever it stands as a whole word: in .antt files, and in
.rt files, whose own names have no capital inside. A field or a constructor with a dash gets an underscore. Types, modules, text in quotes and
the names of Rust functions stay. A new spelling that some file has already for another thing is listed, and that name stays.
"""
import collections
import glob
import re
import sys

WORD = re.compile(r"[^\s(){}.;,@\"«»\[\]|:]+")


# A lemma that would have its function's name, and a function that would have a field's.
OTHER = {
    "all_after": "all_after_lem", "all_new": "all_new_lem", "all_sound": "all_sound_lem", "in_order": "in_order_lem", "keyIn": "key_inside",
    "one_key": "one_key_lem", "row_from": "row_from_lem", "rows_told": "rows_told_lem",
}


def may(m, p):
    """Whether a word of OTHER is the lemma here, and neither a Rust function, a step nor a path."""
    return m[0] == "keyIn" or p.endswith(".antt") and m.string[m.start() - 1] != "."


def snake(name):
    return re.sub(r"(?<=[a-z0-9])([A-Z])", lambda m: "_" + m[1].lower(), name).replace("′", "'")


def files():
    return sorted(p for end in ("antt", "rt") for p in glob.glob(f"crates/*/**/*.{end}", recursive=True) if "/out/" not in p)


# A word of its own: behind no dot, and in no path. Rust's functions and the steps that Rattle names after them are apart from the words of clauses.
ALONE = re.compile(r"(?<![^\s(){};,@«\[|])(?!Rattle\.)[^\s(){}.;,@\"«»\[\]|:]+")


def words(text):
    return set(WORD.findall(text))


def main():
    texts = {p: open(p, encoding="utf-8").read() for p in files()}
    has = {p: words(t) for p, t in texts.items()}
    everywhere = collections.Counter(w for ws in has.values() for w in ws)
    alone = {p: set(ALONE.findall(re.sub(r"(?m)^use [^{\n]*", "", t))) if p.endswith(".antt") else set() for p, t in texts.items()}
    loose = set().union(*alone.values())
    camel = sorted(w for w in everywhere if re.fullmatch(r"[a-z][A-Za-z0-9'′₀-₉_-]*", w) and re.search(r"[a-z0-9][A-Z]", w) and ("-" not in w or w in loose))
    turned = {w: snake(w) for w in camel}
    turned.update({w: n for w, n in OTHER.items() if everywhere[w]})
    # of records and data: fields and constructors with a dash
    for p, t in texts.items():
        if not p.endswith(".antt") or "/out/" in p:
            continue
        for block in re.findall(r"(?m)^(?:pub )?(?:record|data) .*\n(?:(?:[ \t].*)?\n)*", t):
            for f in re.findall(r"(?m)^[ \t]+(?:pub )?([a-z][\w'′]*(?:-[\w'′]+)+)(?= )", block):
                turned[f] = re.sub("-", "_", snake(f))
    # a name that would meet another
    targets = collections.defaultdict(list)
    for old, new in turned.items():
        targets[new].append(old)
    stay = {}
    for new, olds in targets.items():
        for o in olds:
            if len(olds) > 1 and "-" in o:
                stay[o] = f"{' and '.join(olds)} would both be {new}"
            if new != o:
                both = [p for p in texts if o in has[p] and new in alone[p] and new not in turned]
                if both:
                    stay.setdefault(o, f"{new} stands in {len(both)} files with it, as {both[0]}")
    for o, why in sorted(stay.items()):
        print(f"stays: {o}: {why}")
    turned = {o: n for o, n in turned.items() if o not in stay and o != n}
    changed = 0
    for p, t in texts.items():
        parts = re.split(r'("(?:[^"\\\n]|\\.)*")', t)
        for i in range(0, len(parts), 2):
            parts[i] = WORD.sub(lambda m: m[0] if m[0] in OTHER and not may(m, p) else turned.get(m[0], m[0].replace("′", "'") if p.endswith(".antt") else m[0]), parts[i])
        new = "".join(parts)
        if new != t:
            changed += 1
            if "--check" not in sys.argv:
                open(p, "w", encoding="utf-8").write(new)
    print(f"{len(turned)} names turned, {len(stay)} stay, {changed} files")
    if "--list" in sys.argv:
        for o, n in sorted(turned.items()):
            print(o, n)


main()
