#!/usr/bin/env python3
"""Brings this repository's own definitions and lemmas to snake case. Run once, at the top, right after port.py.

usage: python3 tools/respell.py [--list]

Own names are those that a .antt file of crates/ declares. A name in camel case becomes snake case. A dash stays where it joins
two names of definitions, as in distance-sym; a plain word hangs on by an underscore. Types, functions of src/, strings and
inputs keep their names. It stops where two names would fall together.
"""
import glob
import os
import re
import sys

# Words that are names of definitions, or of operators in lemmas: between two of them a dash stays.
JOINED = set("""add mul neg plus minus times total zero one suc sub mod div pow length take drop append map sum cond le lt leb
differing distance weight codeword check candidate moved message least least_with none some first_not
and or not bit set get sym mono bits code table shifts multiplied value size number piece report""".split())

# What port.py leaves by hand: two spellings of one name of the library in one file.
LEFT = {"bit-xor": "bit_xor", "bitXor": "bit_xor"}

DECLARED = re.compile(r"^ *(?:(?:unfoldable|abbrev|pub|data|record) )*([^\s:(){}.]+)(?: \{[^}]*\})?(?: \([^)]*\))* :(?= |\n)", re.M)
WORD = r"[A-Za-z0-9_'₀-₉ℕ-]"
# Goals, invariants and measures are named by Rattle: only their spelling of functions of src/ is ours to bring over.
MADE = re.compile(r"^(returns|loop|overflow|bounds|slice_bounds|invariant|decreases|ghost|nonzero|prove|exactly|promised|tried)(-|$)|-requires(-\d+)?$")


def files():
    found = []
    for pattern in ("crates/*/specs/**/*.antt", "crates/*/proofs/**/*.antt", "crates/*/src/**/*.rt"):
        found += glob.glob(pattern, recursive=True)
    return sorted(p for p in found if "/out/" not in p)


def snake(word):
    return re.sub(r"(?<=[a-z0-9])([A-Z])", r"_\1", word).lower() if word[:1].islower() else word


def respelled(name):
    parts = [snake(part) for part in name.split("-")]
    out = parts[0]
    for before, after in zip(parts, parts[1:]):
        out += ("-" if before in JOINED and after in JOINED or before[:1].isupper() else "_") + after
    return out


def main():
    declared = set()
    for path in files():
        if path.endswith(".antt"):
            with open(path, encoding="utf-8") as f:
                text = f.read()
            declared |= {n for n in DECLARED.findall(text) if not MADE.search(n)}
    table = dict(LEFT)
    for name in sorted(declared):
        new = respelled(name)
        if new != name:
            table[name] = new
    taken = {}
    for name in declared:
        taken.setdefault(table.get(name, name), []).append(name)
    clash = {new: old for new, old in taken.items() if len(old) > 1}
    if clash:
        print("would fall together:", clash, file=sys.stderr)
        return 1
    if "--list" in sys.argv:
        for name, new in table.items():
            print(f"{name} {new}")
        return 0
    names = re.compile(f"(?<!{WORD})(" + "|".join(sorted(map(re.escape, table), key=len, reverse=True)) + f")(?!{WORD})")
    for path in files():
        with open(path, encoding="utf-8") as f:
            text = f.read()
        if path.endswith(".rt"):
            # In a source file only ghost text has such names: Rust's own words have neither dashes nor inner capitals.
            new = "".join(part if part.startswith('"') else names.sub(lambda m: table[m.group(1)], part)
                          for part in re.split(r'("(?:[^"\\\n]|\\.)*")', text))
        else:
            new = names.sub(lambda m: table[m.group(1)], text)
        if new != text:
            with open(path, "w", encoding="utf-8") as f:
                f.write(new)
            print("respelled:", path)
    return 0


if __name__ == "__main__":
    sys.exit(main())
