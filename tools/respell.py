#!/usr/bin/env python3
"""Respells the names that specs/ and proofs/ define, after the kit's port.py: types in camel case, all else in snake case.

usage: python3 tools/respell.py     once, at the top of the repository

A dash stays in a lemma's name beside a word of the library, as in length-lengths. Goals and what Rattle makes keep
their names, and so does everything that src/ defines.
"""
import glob
import re

FILES = sorted(glob.glob("crates/*/specs/**/*.antt", recursive=True) + glob.glob("crates/*/proofs/**/*.antt", recursive=True))
SOURCES = sorted(glob.glob("crates/*/src/**/*.rt", recursive=True))
EDITS = sorted(glob.glob("crates/*/must-fail/*.edit"))
NAME = r"[A-Za-z0-9_'ℕ][\w'\-ℕ⊎]*"
DEFINED = re.compile(r"^\s*(?:(?:abbrev|pub|record|data|unfoldable|pattern)\s+)*(" + NAME + r")((?:\s[^:=\n]*)?)\s:\s(.*)$", re.M)
LET = re.compile(r"\blet (" + NAME + r")(?=\s*[:=])")
TAKEN = re.compile(r"λ ((?:" + NAME + r"\s+)*" + NAME + r")\.(?=\s)")
# words of the library that a dash joins to a lemma's name
WORDS = "length map append take drop filter set get_or replicate sum_by max min".split()


def read(path):
    with open(path, encoding="utf-8") as f:
        return f.read()


def camel(name):
    return "".join(p[:1].upper() + p[1:] for p in name.split("-"))


def snake(name):
    return name.replace("-", "_")


def lemma(name):
    """A lemma's name: a dash stays beside a word of the library at its head or its end."""
    head, _, rest = name.partition("-")
    if head in WORDS and rest:
        return head + "-" + snake(rest)
    rest, _, tail = name.rpartition("-")
    return snake(rest) + "-" + tail if tail in WORDS and rest else snake(name)


def whole(names, before):
    """Any of the names, standing alone."""
    return re.compile(r"(?<![\w'\-" + before + r"])(" + "|".join(sorted(map(re.escape, names), key=len, reverse=True)) + r")(?![\w'\-])")


def main():
    specs, lemmas, inner = set(), set(), set()
    for path in FILES:
        text = read(path)
        inner |= {m.group(1) for m in LET.finditer(text)} | {n for m in TAKEN.finditer(text) for n in m.group(1).split()}
        for m in DEFINED.finditer(text):
            name, kind = m.group(1), m.group(3)
            if "-" in name and not re.match(r"(goal|given|need)\.", kind):
                (specs if "/specs/" in path else lemmas).add(name)
    turned = {n: camel(n) if n[0].isupper() else snake(n) for n in specs}
    for n in lemmas - specs:
        turned[n] = camel(n) if n[0].isupper() else lemma(n)
    inner = {n for n in inner if "-" in n} - set(turned)
    by_new = {}
    for old, new in turned.items():
        by_new.setdefault(new, []).append(old)
    for new, olds in by_new.items():
        if len(olds) > 1:
            print(f"fall together: {olds} as {new}")
    every, local = whole(turned, ""), whole(inner, ".")
    for path in FILES + SOURCES + EDITS:
        text = read(path)
        new = every.sub(lambda m: turned[m.group(1)], text)
        if path in FILES:
            new = local.sub(lambda m: snake(m.group(1)), new)
        if new != text:
            with open(path, "w", encoding="utf-8") as f:
                f.write(new)
    for old, new in sorted(turned.items()):
        if old != new:
            print(f"{old} {new}")


if __name__ == "__main__":
    main()
