#!/usr/bin/env python3
"""Brings the names in proof files that Rattle makes of names in src/ to today's spelling. Run once, after respell.py.

A name of src/ keeps its underscores in the name of a goal and in a step of a proof; older proof files have dashes there.
"""
import glob
import re

WORDS = {"overflow-" + w: "overflow_" + w for w in ("add", "sub", "mul", "neg", "div", "rem", "shl", "shr", "cast", "step")}
WORDS.update({"nonzero-div": "nonzero_div", "nonzero-rem": "nonzero_rem", "type-inv": "type_inv",
              "in-default": "in_default", "in-err": "in_err", "in-ok": "in_ok"})
# Generic code names the members of its bounds by the bound.
MEMBERS = {r"\bring kind\.now": "K.ring kind.now", r"\bmeaning list\.now": "L.meaning list.now"}
names = set()
for path in glob.glob("crates/*/src/**/*.rt", recursive=True):
    with open(path, encoding="utf-8") as f:
        names |= {n for n in re.findall(r"\b[a-z][a-z0-9]*(?:_[a-z0-9]+)+\b", f.read())}
for name in names:
    WORDS[name.replace("_", "-")] = name
either = re.compile(r"(?<![A-Za-z0-9_'])(" + "|".join(sorted(map(re.escape, WORDS), key=len, reverse=True)) + r")(?![A-Za-z0-9_'])")
for path in sorted(glob.glob("crates/*/proofs/**/*.antt", recursive=True)):
    if "/out/" in path or not path.endswith(("Answers.antt", "Invariants.antt")):
        continue
    with open(path, encoding="utf-8") as f:
        text = f.read()
    new = either.sub(lambda m: WORDS[m.group(1)], text)
    if new != text:
        with open(path, "w", encoding="utf-8") as f:
            f.write(new)
        print("mended:", path)
for path in sorted(glob.glob("crates/*/src/**/*.rt", recursive=True)):
    with open(path, encoding="utf-8") as f:
        text = f.read()
    new = text
    for old, by in MEMBERS.items():
        new = re.sub(r"(?<![KL]\.)" + old, by, new)
    if new != text:
        with open(path, "w", encoding="utf-8") as f:
            f.write(new)
        print("mended:", path)
