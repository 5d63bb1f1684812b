#!/usr/bin/env python3
"""Spells the definitions, fields and lemmas of this repository in snake case, where they were in camel case or had dashes.

usage: tools/respell.py [--list]        at the top; --list prints what would change, and names that would fall together

It is for one run, behind the toolchain's own script that turns an older repository; a second run is not meant.
Names of the source's functions and types stay, and so do the names of goals, which the toolchain makes.
"""
import collections
import glob
import os
import re
import sys

NAME = r'[^\s(){}.;,@"«»\[\]]+'
DECLARED = re.compile(r"^\s*(?:(?:pub|abbrev|unfoldable|syntax)\s+)*(" + NAME + r")(?:\s*\{[^{}\n]*\})*\s+:\s(.*)$")
RECORD = re.compile(r"^\s*(?:pub\s+)?(?:record|data)\s")
USE = re.compile(r"\buse\s+((?:package|[A-Za-z_][\w'-]*)(?:\.[^\s{};]+?)*)\.?\{([^}]*)\}")
KEYWORDS = {"record", "data", "module", "use", "where", "let", "in", "elim", "abbrev", "pub", "mutual", "ruleset", "unfolding"}
# Names that would meet another name of their file, or one of the library, by the rule.
OVERRIDES = {
    "fault-place": "fault_place_is",
    "may-move": "may_move_means",
    "no-seat": "no_seat_from",
    "with_all": "has_with_all",
}
# Facts, which have the spelling of types.
FACTS = {"madeInTurn": "MadeInTurn"}
LIBRARY = re.compile(r"^Rattle\.(std|core|heap)\b|^(borrow|denote|mathlib|lib|Prim|base|contract|logic|mir)\b")


def in_snake_case(name):
    words = re.sub(r"(?<=[a-z0-9])[A-Z]", lambda m: "_" + m[0].lower(), name)
    return words.replace("-", "_")


def texts():
    found = []
    for pattern in ("crates/*/specs/**/*.antt", "crates/*/proofs/**/*.antt", "crates/*/src/**/*.rt"):
        found += glob.glob(pattern, recursive=True)
    return sorted(p for p in found if "/out/" not in p)


def without_comment(path, line):
    mark = "//" if path.endswith(".rt") else "--"
    at = line.find(mark)
    while at > 0 and mark == "--" and not line[at - 1].isspace():
        at = line.find(mark, at + 1)
    if mark == "//" and at > 0 and line[at - 1] == ":":
        at = -1
    return (line, "") if at < 0 else (line[:at], line[at:])


def declared(path, text):
    """The names that a text of specs or proofs declares, but for goals."""
    names = set()
    for line in text.split("\n"):
        code, _ = without_comment(path, line)
        if RECORD.match(code) or "ghost " in code:
            continue
        m = DECLARED.match(code)
        if not m or m[1] in KEYWORDS or m[2].lstrip().startswith("goal."):
            continue
        names.add(m[1])
    return names


def imported(text):
    """The names that a text imports from a library."""
    names = set()
    for path, items in USE.findall(text):
        if not LIBRARY.match(path):
            continue
        for item in items.split(","):
            names.add(item.split(" as ")[0].strip())
    return names


def turned(path, text, table, keep):
    def token(m):
        return table[m[0]] if m[0] in table and m[0] not in keep else m[0]

    lines = []
    for line in text.split("\n"):
        code, comment = without_comment(path, line)
        parts = code.split('"')
        parts[::2] = [re.sub(NAME, token, p) for p in parts[::2]]
        if comment:
            comment = re.sub(NAME, lambda m: token(m) if "-" not in m[0] else m[0], comment)
        lines.append('"'.join(parts) + comment)
    return "\n".join(lines)


def main(argv):
    contents = {p: open(p, encoding="utf-8").read() for p in texts()}
    own, by_file = set(), {}
    for p, t in contents.items():
        if p.endswith(".antt"):
            by_file[p] = declared(p, t)
            own |= by_file[p]
    table = {}
    for n in own:
        new = FACTS.get(n) or OVERRIDES.get(n) or in_snake_case(n)
        if new != n and (n[0].islower() or n in FACTS):
            table[n] = new
    lent = {p: imported(t) for p, t in contents.items()}
    if "--list" in argv:
        meets = collections.defaultdict(set)
        for n in own:
            meets[table.get(n, n)].add(n)
        for new, olds in sorted(meets.items()):
            if len(olds) > 1:
                print("together:", new, sorted(olds), [p for p in by_file if olds & by_file[p]])
        for p, t in contents.items():
            words = set(re.findall(NAME, t))
            for n in words & set(table):
                if n in lent[p]:
                    print("library's:", n, p)
                elif table[n] in lent[p]:
                    print("meets the library's:", n, table[n], p)
                elif table[n] in words and table[n] not in by_file.get(p, ()) and "/proofs/" in p:
                    print("met:", n, table[n], p)
        print(len(table), "names")
        return 0
    for p, t in contents.items():
        new = turned(p, t, table, lent[p])
        if new != t:
            with open(p, "w", encoding="utf-8") as f:
                f.write(new)
    return 0


if __name__ == "__main__":
    raise SystemExit(main(sys.argv[1:]))
