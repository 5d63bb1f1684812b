#!/usr/bin/env python3
"""Every public function, the names of its contract's clauses, and the edits of its code that the prover must refuse.

Usage: tools/functions.py            writes docs/FUNCTIONS.md
       tools/functions.py --check    says whether that page is up to date, and which public function has no edit; exit status 1 if any

An edit belongs to the function whose text it changes, and one of a constant to the functions that name it. One of a private function counts for the public functions that call it, by way of
others or at once. A method of a trait that only calls the type's own method of that name has that one's edits. A function that a trait declares has no code of its own: its contract holds for every implementation. Nobody calls the
functions of a program from outside, so of these only those with a contract are listed.
"""
import os
import re
import sys

TOP = os.path.dirname(os.path.dirname(os.path.abspath(__file__)))
OPENS, CLOSES = "({[", ")}]"


def past(text, at):
    """The place behind the bracket that closes the one at `at`; comments and literals are passed over."""
    depth = 0
    while at < len(text):
        two, one = text[at : at + 2], text[at]
        if two == "//":
            at = text.find("\n", at)
            continue
        if one == '"':
            at += 1
            while text[at] != '"':
                at += 2 if text[at] == "\\" else 1
        elif one == "'" and re.match(r"'(\\.|[^\\'])'", text[at:]):
            at += len(re.match(r"'(\\.|[^\\'])'", text[at:]).group()) - 1
        elif one in OPENS:
            depth += 1
        elif one in CLOSES:
            depth -= 1
            if depth == 0:
                return at + 1
        at += 1
    raise ValueError("a bracket is not closed")


class Function:
    def __init__(self, crate, path, text, match, owner):
        self.crate, self.path, self.name = crate, path, match.group("name")
        self.owner = owner
        self.start = match.start()
        self.public = match.group("vis") == "pub " or (owner is not None and owner["trait"])
        at = past(text, text.index("(", match.end()))
        self.clauses = []
        while True:
            found = re.compile(r"//[^\n]*|\b(ensures|requires|ghost)\b|[{;]").search(text, at)
            word = found.group()
            if word.startswith("//"):
                at = found.end()
                continue
            if word == ";":
                self.body, self.end = "", found.end()
                return
            if word == "{":
                self.end = past(text, found.start())
                self.body = text[found.start() : self.end]
                return
            brace = text.index("{", found.end())
            if word == "ensures":
                self.clauses.append(text[found.end() : brace].strip() or "returns")
            at = past(text, brace)

    def label(self):
        return (self.owner["name"] + "::" if self.owner else "") + self.name


def owners(text):
    """The blocks of a file that functions stand in: where each begins and ends, its name, and whether it is a trait's or an implementation's."""
    pattern = re.compile(r"^(?:pub(?:\(crate\))? )?(?P<kind>impl|trait)\b(?P<head>[^{]*)\{", re.M)
    for match in pattern.finditer(text):
        head = re.sub(r"<[^<>]*>", "", re.sub(r"<[^<>]*>", "", match.group("head")))
        named = re.search(r"(\w+) for (\w+)", head)
        if match.group("kind") == "trait":
            name, trait = re.match(r"\s*(\w+)", head).group(1), True
        else:
            name, trait = (named.group(2) + " as " + named.group(1), True) if named else (re.search(r"(\w+)", head).group(1), False)
        yield {"start": match.start(), "end": past(text, match.end() - 1), "name": name, "trait": trait, "declares": match.group("kind") == "trait"}


def functions(crate):
    """The functions of a crate; those of tests are left out, and those of a trait that is private to the crate are no public ones."""
    found, private = [], set()
    for folder, _, files in os.walk(os.path.join(TOP, "crates", crate, "src")):
        for file in sorted(set(files) - {"tests.rt"}):
            path = os.path.join(folder, file)
            with open(path) as source:
                text = source.read()
            private |= set(re.findall(r"^(?:pub\(crate\) )?trait (\w+)", text, re.M))
            blocks = list(owners(text))
            for match in re.finditer(r"^[ \t]*(?P<vis>pub |pub\(\w+\) )?fn (?P<name>\w+)", text, re.M):
                owner = next((b for b in blocks if b["start"] < match.start() < b["end"]), None)
                if "#[test]" not in text[max(0, match.start() - 10) : match.start()]:
                    found.append(Function(crate, os.path.relpath(path, os.path.join(TOP, "crates", crate)), text, match, owner))
    for f in found:
        if f.owner and f.owner["trait"] and f.owner["name"].split(" as ")[-1] in private:
            f.public = False
    return found


def edits(crate):
    """The edits of a crate's code, a change at a time: the name, the file, the place that it changes, and the text that stood there. Of an edit that
    changes definitions too, only the changes of the code are told."""
    where = os.path.join(TOP, "crates", crate, "must-fail")
    for name in sorted(os.listdir(where)) if os.path.isdir(where) else []:
        path = ""
        with open(os.path.join(where, name)) as lines:
            for line in lines:
                word, _, text = line.rstrip("\n").partition(": ")
                if word == "file":
                    path = text
                elif word == "old" and path.startswith("src/"):
                    with open(os.path.join(TOP, "crates", crate, path)) as source:
                        at = source.read().find(text)
                    if at >= 0:
                        yield name[: -len(".edit")], path, at, text


def calls(function, other):
    """Whether a function calls another: a method behind a dot or a path, any other by its bare name."""
    before = r"(?<=[.:])" if other.owner else r"(?<![.:\w])"
    return re.search(before + other.name + r"(::<[^>]*>)?\(", function.body) is not None


def public_above(function, known, seen):
    """The public functions that reach a function by calls."""
    if function.public:
        return {function}
    seen.add(function)
    return {p for caller in known if caller not in seen and calls(caller, function) for p in public_above(caller, known, seen)}


def table(crate):
    """The rows of a crate's table, and the public functions without an edit."""
    known = functions(crate)
    program = os.path.exists(os.path.join(TOP, "crates", crate, "src", "main.rt"))
    edited = {f: [] for f in known if f.public and (f.clauses or not program)}
    for name, path, at, old in edits(crate):
        inside = [f for f in known if f.path == path and f.start <= at < f.end]
        constant = re.match(r"[A-Z_]+\b", old)
        if not inside and constant:
            inside = [f for f in known if constant.group() in f.body]
        for f in {p for g in inside for p in public_above(g, known, set())} & set(edited):
            if "`%s`" % name not in edited[f]:
                edited[f].append("`%s`" % name)
    for f in edited:
        # A method of a trait that is the type's own method of that name has that one's edits.
        own = [g for g in known if f.owner and " as " in f.owner["name"] and g.label() == f.owner["name"].split(" as ")[0] + "::" + f.name]
        if own and not edited[f] and calls(f, own[0]):
            edited[f] = edited[own[0]]
    rows, bare = [], []
    for f in edited:
        declared = f.owner is not None and f.owner["declares"]
        clauses = ", ".join(f.clauses) or ("as the trait has it" if f.owner and f.owner["trait"] else "none")
        if not edited[f] and not declared:
            bare.append("%s: %s" % (crate, f.label()))
        rows.append("| `%s` | %s | %s |" % (f.label(), clauses, ", ".join(edited[f]) or ("every implementation's" if declared else "**none**")))
    return rows, bare


def page():
    lines = [
        "# Public functions",
        "",
        "Written by `tools/functions.py`. For each public function: the names of the clauses of its contract (`returns` where a clause has no name), and",
        "the edits of its code, or of private code that it calls, that the prover refuses; the gate tries each.",
        "A function of a trait stands here once where it is declared, with its contract, and once for each implementation.",
        "",
    ]
    missing = []
    with open(os.path.join(TOP, "crates.txt")) as listed:
        crates = [line.split(":")[0] for line in listed if line.strip() and not line.startswith("#")]
    for crate in sorted(crates):
        rows, bare = table(crate)
        missing += bare
        if rows:
            lines += ["## " + crate, "", "| function | contract | edits |", "|---|---|---|"] + rows + [""]
    return "\n".join(lines), missing


def main():
    if sys.argv[1:] not in ([], ["--check"]):
        sys.exit(__doc__.strip())
    text, missing = page()
    path = os.path.join(TOP, "docs", "FUNCTIONS.md")
    if not sys.argv[1:]:
        with open(path, "w") as out:
            out.write(text)
        return
    with open(path) as page_there:
        stale = page_there.read() != text
    for name in missing:
        print("no edit for", name)
    if stale:
        print("docs/FUNCTIONS.md is not up to date: run tools/functions.py")
    if stale or missing:
        sys.exit(1)
    print("docs/FUNCTIONS.md is up to date, and every public function has an edit")


if __name__ == "__main__":
    main()
