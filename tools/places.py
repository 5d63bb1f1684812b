#!/usr/bin/env python3
"""Counts forms of the older language in crates/*/src, by the points of docs/DESIGN-PASS.md: tools/places.py [-v] [TOP].
With -v each place is listed. What a pattern cannot see (a twin under other names, a plainer type) is found by reading, and stands in that page."""
import re
import sys
from collections import defaultdict
from pathlib import Path

verbose = "-v" in sys.argv
tops = [a for a in sys.argv[1:] if a != "-v"]
top = Path(tops[0] if tops else ".")


def without_clauses(text):
    """The code, with comments and ghost lines blank, so that places keep their lines."""
    text = re.sub(r"//[^\n]*", "", text)
    return "\n".join("" if re.match(r"\s*(ghost |requires |ensures |#\[)", line) else line for line in text.split("\n"))


files = {p: p.read_text() for p in sorted(top.glob("crates/*/src/**/*.rt")) if "out" not in p.parts}
code = {p: without_clauses(t) for p, t in files.items()}


def found(pattern, texts=code):
    rule = re.compile(pattern, re.S)
    return [(p, t.count("\n", 0, m.start()) + 1) for p, t in texts.items() for m in rule.finditer(t)]


def functions():
    """Each function: file, line, name, parameters, clauses, body."""
    rule = re.compile(r"^( *)(?:pub(?:\([a-z]+\))? )?fn (\w+)[^(]*\((.*?)\)(?: -> ([^\n{;]*))?((?:\n[^\n]*?(?:requires|ensures)[^\n]*|\n {12,}[^\n]*)*)\s*\{(?:[^\n]*\}|(\n.*?)\n\1\})$", re.S | re.M)
    for p, t in files.items():
        for m in rule.finditer(t):
            yield p, t.count("\n", 0, m.start()) + 1, m.group(2), m.group(3), m.group(5), m.group(6) or ""


def doubles():
    """A function that only calls one of the same file with the same clauses."""
    seen = list(functions())
    clauses = {(p, n): re.sub(r"\b(value|answer) (?=\{)", "", c).split() for p, l, n, a, c, b in seen}
    for p, line, name, params, clause, body in seen:
        m = re.fullmatch(r"\s*(?:self\.|\w+::)?(\w+)(?:::<[^(]*>)?\([^;]*\);?\s*", body)
        if m and m.group(1) != name and clause.strip() and clauses.get((p, m.group(1))):
            mine, other = " ".join(clauses[p, name]), " ".join(clauses[p, m.group(1)])
            if other in mine or mine in other:
                yield p, line


def twins():
    """Bodies of three lines or more that are the same but for names of types, of parts and numbers."""
    groups = defaultdict(list)
    for p, line, name, params, clause, body in functions():
        plain = re.sub(r"\s+", " ", without_clauses(body))
        if body.count("\n") < 3 or "ensures" in body:
            continue
        plain = re.sub(r"\b(?:[A-Z]\w*|\d+|broadcast|consensus|proposals?|proposer|taker|notes|events|wears|labels|take|propose)\b", "_", plain)
        groups[plain].append((p, line))
    return [q for g in groups.values() if len(g) > 1 for q in g]


def travelling():
    """Groups of two or more parameters, by name and type, that stand together in three or more functions."""
    groups = defaultdict(list)
    for p, line, name, params, clause, body in functions():
        names = [re.sub(r"\s+", " ", q.strip()) for q in re.split(r",(?![^<(]*[>)])", params) if ":" in q]
        for i in range(len(names) - 1):
            groups[names[i], names[i + 1]].append((p, line))
    return [(min(v)[0], "%s: %d functions" % (", ".join(k), len(v))) for k, v in groups.items() if len(v) > 2]


def repeated():
    """A clause with `requires` whose text stands in three or more functions."""
    texts = defaultdict(list)
    for p, t in files.items():
        for m in re.finditer(r"requires (?:\w+ )?\{([^\n]*)\}", t):
            texts[m.group(1).strip()].append((p, t.count("\n", 0, m.start()) + 1))
    return [(v[0][0], "%s: %d functions" % (k[:60], len(v))) for k, v in texts.items() if len(v) > 2]


def arrays(test):
    out = []
    for p, t in code.items():
        for m in re.finditer(r"struct \w+[^{;]*\{(.*?)\n\}", t, re.S):
            fields = re.findall(r"(\w+): ([^\n]*),", m.group(1))
            if test([f for f in fields if f[1].startswith("[")], [f for f in fields if re.match(r"(len|count|size)$", f[0])]):
                out.append((p, t.count("\n", 0, m.start()) + 1))
    return out


counts = [
    ("1", "an error handed on by hand", found(r"if let Err\((\w+)\) = [^{]*\{\s*return Err\(\1\)|Err\(\w+\) => return Err\(|Err\((\w+)\) => Err\(\2\)|Err\(_\) => Err\(")),
    ("1", "a None made an error by hand", found(r"let Some\([^=]*= [^{;]*else \{\s*return Err\(|None => Err\(|Some\(_\) => Ok\(\(\)\)")),
    ("1", "an Option or Result mapped by hand", found(r"None => None|Some\((\w+)\) => Some\(|Some\(\w+\) => Some\(\*|Ok\((\w+)\) => Ok\(\2\)|if [^{]*\{ Some\([^}]*\} else \{ None \}|=> if [^{]*\{ Some")),
    ("1", "an enum of one's own: each read for its shape", found(r"\benum \w+")),
    ("1", "a number in place of a refusal, in a clause", found(r"\banswered\b|\bnat_eq \(answered", {p: re.sub(r"//[^\n]*|ghost use[^\n]*", "", t) for p, t in files.items()})),
    ("2", "a function that only calls another with the same clauses", list(doubles())),
    ("2", "functions with one body but for names and numbers", twins()),
    ("3", "a loop that counts by hand", found(r"while [^\n]*[<>][^\n]*\{|for (\w+) in 0\.\.[^{]*\{[^}]*\[\1\]")),
    ("3", "a loop over numbers from 0", found(r"for \w+ in 0\.\.")),
    ("3", "a recursion down a slice", found(r"split_first\(\) else")),
    ("3", "a loop that only answers true or false, or finds", found(r"for [^{]*\{\s*if [^{]*\{\s*return (?:false|true|i|Some\(\w+\));")),
    ("4", "an order, a conversion or a text by hand", found(r"fn (?:at_most|same|may_precede|wire_of|answer_of|letter_of|line_of|wire|broadcast|consensus|state|print|rest_word|card_word|word|name|call_of)\b")),
    ("5", "parameters that travel together", travelling()),
    ("5", "a clause that is asked in three or more functions", repeated()),
    ("6", "a fixed array with its length beside it", arrays(lambda a, n: a and n)),
    ("6", "arrays side by side", arrays(lambda a, n: len(a) > 1)),
    ("6", "a bound tested by hand before an index", found(r"if \w+ < \d+[^{]*\{\s*(?:return )?self\.\w+\[|< \d+ && self\.\w+\[")),
    ("7", "a switch on what to do", found(r"match (?:call|event|wire|letter|state|kind|pile\.\w+|\(pile[^{]*)\s*\{|if lot <")),
]
for point, what, places in counts:
    print("%s  %-62s %4d" % (point, what, len(places)))
    if verbose:
        for p, line in places:
            print("      %s:%s" % (p.relative_to(top), line))
answers = sorted(top.glob("crates/*/proofs/**/Answers.antt"))
proofs = [p for p in top.glob("crates/*/proofs/**/*.antt")]
print("8  %-62s %4d" % ("files of answers", len(answers)))
print("8  %-62s %4d" % ("lines in proofs", sum(len(p.read_text().split("\n")) - 1 for p in proofs)))
