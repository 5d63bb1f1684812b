#!/usr/bin/env python3
"""Plants small bugs in a crate's code by fixed recipes, one at a time, and checks the crate on each: tools/plant.py [--most N] [--jobs J] [--out FILE] CRATE..

It works on clones of this repository in a folder of its own, and changes nothing here. A plant is refused when the check finds a fact that is no longer proved;
it is no source when it does not compile (such a plant is passed over, and the next one is tried). Where the crate still proves and is a program, it is run: the
plant is told when it prints anything but what is stored, or ends otherwise. Else it lives. FILE gets a line of JSON for each plant; the table of
docs/PLANTED_BUGS.md is made of these lines by tools/planted.py."""
import argparse
import concurrent.futures
import hashlib
import json
import re
import shutil
import subprocess
import tempfile
from pathlib import Path

TOP = Path(__file__).resolve().parent.parent


def code_lines(text):
    """The lines that hold code: no comment, no clause, no import, no ghost member, no attribute."""
    deep, out, number = 0, [], -1
    for line in text.split("\n"):
        number += 1
        plain = re.sub(r"//.*", "", line)
        ghost = deep > 0 or re.match(r"\s*(ghost|requires|ensures|decreases|use|pub use|pub mod|mod|#!?\[)", plain) or plain.lstrip().startswith("#")
        if ghost:
            deep += plain.count("{") + plain.count("(") - plain.count("}") - plain.count(")")
            deep = max(deep, 0)
            continue
        if plain.strip():
            out.append(number)
    return out


SWAPS = [(" <= ", " < ", "comparison"), (" >= ", " > ", "comparison"), (" == ", " != ", "comparison"), (" != ", " == ", "comparison"), (" && ", " || ", "connective"),
         (" || ", " && ", "connective"), (" + ", " - ", "operand"), (" - ", " + ", "operand"), ("..=", "..", "range"), (" << ", " >> ", "operand"), (" >> ", " << ", "operand"),
         ("true", "false", "constant"), ("false", "true", "constant"), (".all(", ".any(", "method"), (".any(", ".all(", "method"), (".is_some()", ".is_none()", "method"),
         (".is_none()", ".is_some()", "method"), (".is_ok()", ".is_err()", "method"), (".is_err()", ".is_ok()", "method"), (".min(", ".max(", "method"), (".push_back", ".push_front", "method"),
         ("broadcast.", "consensus.", "operand"), ("proposals.", "decisions.", "operand"), (".from", ".to", "operand"), (".to,", ".from,", "operand")]


def plants_of_line(line, inside):
    """Each (recipe, new line) for one line of code. `inside`: it stands in a body."""
    body = re.sub(r"//.*", "", line)
    text = body.strip()
    if text.startswith(("pub fn", "fn ", "impl", "pub struct", "struct", "pub enum", "enum", "pub trait", "trait", "const", "pub const", "type ", "pub(crate) fn", "pub(super) fn")):
        return
    for old, new, recipe in SWAPS:
        for m in re.finditer(re.escape(old), body):
            yield recipe, line[: m.start()] + new + line[m.end():]
    m = re.search(r"(?<![\w.<])< (?=\w)", body)
    if re.search(r"\w < \w", body) and "<'" not in body:
        k = body.index(" < ")
        yield "comparison", line[:k] + " <= " + line[k + 3:]
    if re.search(r"\w > \w", body):
        k = body.index(" > ")
        yield "comparison", line[:k] + " >= " + line[k + 3:]
    for m in re.finditer(r"(?<![\w.\"'])(\d+)(?![\w\"'])", body):
        yield "constant", line[: m.start()] + str(int(m.group(1)) + 1) + line[m.end():]
    for m in re.finditer(r"\((\w+(?:\.\w+)?), (\w+(?:\.\w+)?)\)", body):
        if m.group(1) != m.group(2):
            yield "swapped arguments", line[: m.start()] + f"({m.group(2)}, {m.group(1)})" + line[m.end():]
    for m in re.finditer(r"(?<![=!\w])!(?=[\w(])", body):
        yield "dropped not", line[: m.start()] + line[m.end():]
    if inside and re.fullmatch(r"(self\.|\*?\w+(\.|\[)).*;", text) and not text.startswith(("let ", "return", "use ")):
        yield "dropped write", re.sub(r"\S.*", "", body)
    if inside and re.fullmatch(r"return .*;", text):
        yield "dropped early return", re.sub(r"\S.*", "", body)
    if text.startswith("Some(") and text.endswith(")"):
        yield "early return", body[: len(body) - len(body.lstrip())] + "None"


def wrong_operands(text):
    """One parameter in the place of another of the same type, on each line of a body."""
    rule = re.compile(r"fn \w+(?:<[^(]*>)?\(([^)]*)\)")
    heads = [(text.count("\n", 0, m.start()), dict(re.findall(r"(\w+): ([^,]+)", re.sub(r"\s+", " ", m.group(1))))) for m in rule.finditer(text)]
    lines = text.split("\n")
    for k, (start, params) in enumerate(heads):
        end = heads[k + 1][0] if k + 1 < len(heads) else len(lines)
        same = [(a, b) for a in params for b in params if a != b and params[a].strip() == params[b].strip()]
        for number in code_lines(text):
            if not start < number < end or not lines[number].startswith("    "):
                continue
            for a, b in same:
                new = re.sub(r"(?<![\w.])%s(?![\w:])" % a, b, lines[number], count=1)
                if new != lines[number] and re.search(r"(?<![\w.])%s(?![\w:])" % a, re.sub(r"//.*", "", lines[number])) and not re.match(r"\s*\w+: ", lines[number]):
                    yield number, "wrong operand", new


def missed_cases(text):
    """The answer of one arm given in the arm before it, too."""
    lines = text.split("\n")
    arm = re.compile(r"(\s*)(.+?) => (.+),$")
    for number in range(len(lines) - 1):
        one, two = arm.match(lines[number]), arm.match(lines[number + 1])
        if one and two and one.group(1) == two.group(1) and one.group(3) != two.group(3) and "{" not in one.group(3) + two.group(3):
            yield number, "missed case", f"{one.group(1)}{one.group(2)} => {two.group(3)},"


def early_returns(text):
    """A body left at once: of functions that give nothing or `Result<(), ..>`."""
    rule = re.compile(r"fn \w+[^;{]*?(-> Result<\(\), \w+>)?((?:\n\s+(?:requires|ensures)[^\n]*)*)\s*\n(\s*)\{\n", re.S)
    for m in rule.finditer(text):
        head = m.group(0)
        if "->" in head.split("ensures")[0] and not m.group(1):
            continue
        give = "return Ok(());" if m.group(1) else "return;"
        yield text.count("\n", 0, m.end()), "early return", give


def sources(crate):
    return [path for path in sorted((TOP / "crates" / crate / "src").glob("**/*.rt")) if path.name != "tests.rt"]


def plants(crate):
    for path in sources(crate):
        text = path.read_text()
        lines = text.split("\n")
        name = str(path.relative_to(TOP / "crates" / crate))
        for number in code_lines(text):
            for recipe, new in plants_of_line(lines[number], lines[number].startswith("        ")):
                if new != lines[number]:
                    yield {"crate": crate, "file": name, "line": number + 1, "recipe": recipe, "old": lines[number].strip(), "new": new.strip(), "text": (number, new)}
        for number, recipe, new in list(wrong_operands(text)) + list(missed_cases(text)):
            yield {"crate": crate, "file": name, "line": number + 1, "recipe": recipe, "old": lines[number].strip(), "new": new.strip(), "text": (number, new)}
        for number, recipe, give in early_returns(text):
            yield {"crate": crate, "file": name, "line": number + 1, "recipe": recipe, "old": "", "new": give, "text": (number, give + "\n" + lines[number])}


def wrong_variants(lines, number):
    """Another variant of an enum in the place of one, of those that this file names."""
    for m in re.finditer(r"\b([A-Z]\w+)::([A-Z]\w+)\b", re.sub(r"//.*", "", lines[number])):
        others = sorted({b for a, b in re.findall(r"\b([A-Z]\w+)::([A-Z]\w+)\b", "\n".join(lines)) if a == m.group(1) and b != m.group(2)})
        if others:
            yield "wrong variant", lines[number][: m.start(2)] + others[0] + lines[number][m.end(2) :]


def lesser_plants_of_line(lines, number):
    """Recipes for a crate in which the others find too few places."""
    line = lines[number]
    body = re.sub(r"//.*", "", line)
    for m in re.finditer(r"(?<![\w.\"'])([1-9]\d*)(?![\w\"'])", body):
        yield "constant", line[: m.start()] + str(int(m.group(1)) - 1) + line[m.end() :]
    for m in re.finditer(r'"(\{\w*\}|[^"{\\])*?([a-y])', body):
        yield "text", line[: m.start(2)] + chr(ord(m.group(2)) + 1) + line[m.end(2) :]
    yield from wrong_variants(lines, number)
    for m in re.finditer(r"\b(\w+)\.(\w+)\.(\w+)", body):
        yield "dropped step", line[: m.start()] + m.group(1) + "." + m.group(3) + line[m.end() :]
    if body.strip().startswith("if ") and body.rstrip().endswith("{"):
        yield "dropped test", body.replace("if ", "if true || ", 1)


def lesser_plants(crate):
    for path in sources(crate):
        text = path.read_text()
        lines = text.split("\n")
        for number in code_lines(text):
            for recipe, new in lesser_plants_of_line(lines, number):
                name = str(path.relative_to(TOP / "crates" / crate))
                yield {"crate": crate, "file": name, "line": number + 1, "recipe": recipe, "old": lines[number].strip(), "new": new.strip(), "text": (number, new)}


def spread(found):
    """All of them in one order, the same at every run: spread over places and recipes."""
    found.sort(key=lambda p: hashlib.sha256(json.dumps([p["file"], p["line"], p["recipe"], p["new"]]).encode()).hexdigest())
    out, seen = [], {}
    for turn in range(len(found)):
        for p in found:
            key = (p["recipe"],)
            if p not in out and seen.get(key, 0) <= turn:
                seen[key] = seen.get(key, 0) + 1
                out.append(p)
        if len(out) == len(found):
            break
    return out


def ran(crate):
    """What a run of the program says of a plant that its contracts let through."""
    stored = crate / "stdout"
    if not stored.exists():
        return "lives", ""
    given = crate / "stdin"
    try:
        run = subprocess.run(["rt", "try"], cwd=crate, input=given.read_bytes() if given.exists() else b"", capture_output=True, timeout=400)
    except subprocess.TimeoutExpired:
        return "told", "it does not end within 400 s"
    if run.stdout != stored.read_bytes():
        return "told", "it prints something else"
    return ("lives", "") if run.returncode == 0 else ("told", "it ends otherwise")


def try_one(folder, plant):
    path = folder / "crates" / plant["crate"] / plant["file"]
    before = path.read_text()
    lines = before.split("\n")
    number, new = plant["text"]
    lines[number] = new
    path.write_text("\n".join(lines))
    crate = folder / "crates" / plant["crate"]
    try:
        run = subprocess.run(["rt", "check"], cwd=crate, capture_output=True, text=True, timeout=400)
        said = run.stdout + run.stderr
        # The last such line is the crate's own; those before it are of crates below, and notes may follow it.
        if re.findall(r"^logic=(\S+)", said, re.M)[-1:] == ["proved"]:
            return ran(crate)
    except subprocess.TimeoutExpired:
        return "refused", "no answer within 400 s"
    finally:
        path.write_text(before)
    first = re.search(r"^note: (src/\S+: it is not proved[^\n]*)", said, re.M)
    if first:
        return "refused", first.group(1)[:160]
    if re.search(r"^src/\S+: error", said, re.M):
        return "no source", re.search(r"^src/\S+: error[^\n]*", said, re.M).group(0)[:160]
    where = re.search(r"^(\S+: error[^\n]*|fn \S+: no[^\n]*)", said, re.M)
    return "refused", where.group(1)[:160] if where else said[-160:]


def work(job):
    crate, most, folder = job
    done = []
    counted = 0
    for plant in spread(list(plants(crate))) + spread(list(lesser_plants(crate))):
        if counted >= most:
            break
        verdict, why = try_one(folder, plant)
        row = {k: v for k, v in plant.items() if k != "text"} | {"verdict": verdict, "why": why}
        done.append(row)
        counted += verdict != "no source"
        print(crate, counted, verdict, f"{row['file']}:{row['line']}", row["recipe"], "|", row["new"][:70], "|", why[:90], flush=True)
    return done


def main():
    args = argparse.ArgumentParser(description=__doc__)
    args.add_argument("--most", type=int, default=14)
    args.add_argument("--jobs", type=int, default=2)
    args.add_argument("--out", default="/tmp/planted.jsonl")
    args.add_argument("crates", nargs="+")
    args = args.parse_args()
    place = Path(tempfile.mkdtemp(prefix="plants"))
    folders = []
    for k in range(args.jobs):
        subprocess.run(["git", "clone", "-q", str(TOP), str(place / str(k))], check=True)
        folders.append(place / str(k))
    free = list(folders)

    def one(crate):
        folder = free.pop()
        try:
            subprocess.run(["rt", "check"], cwd=folder / "crates" / crate, capture_output=True)
            return work((crate, args.most, folder))
        finally:
            free.append(folder)

    with concurrent.futures.ThreadPoolExecutor(args.jobs) as pool, open(args.out, "a") as out:
        for rows in pool.map(one, args.crates):
            for row in rows:
                out.write(json.dumps(row) + "\n")
            out.flush()
    shutil.rmtree(place)


main()
