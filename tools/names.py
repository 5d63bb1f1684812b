#!/usr/bin/env python3
"""Whether the pages name what there is: tools/names.py

Says which file of specs/ or proofs/ docs/MAP.md does not list, or lists and is not there, and which name between backticks on a page stands
nowhere in the code, the definitions, the proofs, the edits or the names of files. The exit status is 1 where it says anything. The pages that
are history (CHANGES.md, DESIGN-PASS.md, PORT.md) and the one that is written by a script (FUNCTIONS.md) are passed over.
"""
import re
import sys
from pathlib import Path

TOP = Path(__file__).resolve().parent.parent
PASSED_OVER = {"CHANGES.md", "DESIGN-PASS.md", "PORT.md", "FUNCTIONS.md"}
WORD = re.compile(r"[A-Za-z_][A-Za-z0-9_']*")
# Stand-ins for what a reader gives, words of commands, and examples of what is wrong.
OTHERS = set("PROGRAM CRATE SHELF COUNT EVENT REFUSAL CAUSE PLACE LAYER BLOCK ERASES failed version wea x7 xor inturn_".split())


def paths(crate):
    """The files of specs/ and proofs/ themselves, without Lib, as MAP.md writes them."""
    return {f"{folder}/{p.stem}" for folder in ("specs", "proofs") for p in (crate / folder).glob("*.antt") if p.stem != "Lib"}


def listed(text):
    """What MAP.md lists below each crate's name, or in the row of it."""
    found, crates = {}, []
    for line in text.split("\n"):
        named = re.match(r"\*\*`\w+`|\| `[^|]*", line)
        if named:
            crates = re.findall(r"`(\w+)`", named[0])
        elif line.startswith("#"):
            crates = []
        for crate in crates:
            found.setdefault(crate, []).extend(re.findall(r"`((?:specs|proofs)/\w+)`", line))
    return found


def words():
    """Every word of the code, the definitions, the proofs and the edits, and of the names of files."""
    known = set(OTHERS)
    for p in TOP.rglob("*"):
        inside = p.relative_to(TOP).parts
        if {"out", "target", ".git"} & set(inside) or PASSED_OVER & set(inside):
            continue
        known.update(WORD.findall(p.name))
        if p.suffix in (".rt", ".antt", ".edit"):
            known.update(WORD.findall(p.read_text()))
    return known


wrong = []
on_map = listed((TOP / "docs" / "MAP.md").read_text())
for crate in sorted((TOP / "crates").iterdir()):
    there, told = paths(crate), on_map.get(crate.name)
    if told is None:
        wrong.append(f"MAP.md does not have the crate {crate.name}")
        continue
    wrong += [f"MAP.md does not list {p} of {crate.name}" for p in sorted(there - set(told))]
    wrong += [f"MAP.md lists {p} of {crate.name}, which is not there" for p in told if p not in there]

known = words()
for page in [TOP / "README.md", *sorted((TOP / "docs").glob("*.md"))]:
    if page.name in PASSED_OVER:
        continue
    text = re.sub(r"```.*?```", "", page.read_text(), flags=re.S)
    for name in re.findall(r"`([^`]+)`", text):
        wrong += [f"{page.name}: `{name}`: no {word} anywhere" for word in WORD.findall(name) if word not in known]

print("\n".join(wrong) or "every file is on the map, and every name stands somewhere")
sys.exit(bool(wrong))
