#!/usr/bin/env python3
"""Times the proved program beside the same program written by hand in plain Rust, and prints tables: docs/SPEED.md says what they mean.

Usage: tools/speed.py [ROUNDS]

ROUNDS is how often each time is taken, 7 if it is left out; the shortest counts. Times are processor time, user and system. It builds, in
target/speed, tools/speed/plain.rs by rustc, and tools/speed/many.rt.in by rt in a copy of the crates; the latter takes some minutes, once. It
is no part of the gate.
"""
import os
import shutil
import subprocess
import sys
import tempfile

TOP = os.path.dirname(os.path.dirname(os.path.abspath(__file__)))
WORK = os.path.join(TOP, "target", "speed")
CARRIER = os.path.join(TOP, "crates", "carrier", "out", "carrier")
MANY = os.path.join(WORK, "many")
PLAIN = os.path.join(WORK, "plain")
EMPTY = os.path.join(WORK, "empty")

# As rt compiles a program: clang's -O3, for x86-64-v2, in one module.
RUSTC = ["rustc", "--edition", "2024", "-C", "opt-level=3", "-C", "codegen-units=1", "-C", "target-cpu=x86-64-v2"]

PILES = [turn + broadcast + " " + consensus for turn in ("", "inturn ") for broadcast in ("relay", "allack", "board") for consensus in ("register", "flood")]
MOST = 65535
# A time is taken over so many turns that they take this long, in seconds.
ENOUGH = 0.05


def is_older(file, *others):
    return not os.path.exists(file) or any(os.path.getmtime(file) < os.path.getmtime(it) for it in others)


def build():
    os.makedirs(WORK, exist_ok=True)
    source = os.path.join(TOP, "tools", "speed", "plain.rs")
    if is_older(PLAIN, source):
        subprocess.run([*RUSTC, "-o", PLAIN, source], check=True)
    if is_older(EMPTY):
        subprocess.run([*RUSTC, "-o", EMPTY, "-"], input=b"fn main() {}", check=True)
    subprocess.run([os.path.join(TOP, ".ci", "build"), "carrier"], check=True)
    many = os.path.join(TOP, "tools", "speed", "many.rt.in")
    if is_older(MANY, many, CARRIER):
        print("building tools/speed/many.rt.in; this takes some minutes, once", file=sys.stderr)
        with tempfile.TemporaryDirectory() as tree:
            build_many(many, tree)


def build_many(source, tree):
    """Builds the program as one more crate. The gate reads every .rt file and crates.txt below the top, so that is done elsewhere."""
    unneeded = shutil.ignore_patterns("must-fail", "data", "incremental")
    shutil.copytree(os.path.join(TOP, "crates"), os.path.join(tree, "crates"), ignore=unneeded)
    folder = os.path.join(tree, "crates", "many")
    os.makedirs(os.path.join(folder, "src"))
    shutil.copy(source, os.path.join(folder, "src", "main.rt"))
    lines = open(os.path.join(TOP, "crates.txt")).read().splitlines()
    used = next(line for line in lines if line.startswith("carrier:"))
    with open(os.path.join(tree, "crates.txt"), "w") as out:
        out.write("\n".join(lines + [used.replace("carrier:", "many:", 1)]) + "\n")
    with open(os.path.join(WORK, "many.build"), "w") as log:
        subprocess.run(["rt", "run"], cwd=folder, stdin=subprocess.DEVNULL, stdout=log, stderr=log)
    made = os.path.join(folder, "out", "many")
    if not os.path.exists(made):
        sys.exit("it could not be built: see target/speed/many.build")
    shutil.copy(made, MANY)


class Program:
    """One of the two: the command for a single report, and the one that does things many times."""

    def __init__(self, name, once, many):
        self.name = name
        self.once = once
        self.many = many


PROGRAMS = [Program("proved", [CARRIER], [MANY]), Program("plain", [PLAIN], [PLAIN, "many"])]


def said(command, data):
    return subprocess.run(command, input=data, stdout=subprocess.PIPE, check=True).stdout


def put(data, name="input"):
    path = os.path.join(WORK, name)
    with open(path, "wb") as file:
        file.write(data)
    return path


def once(command, path):
    """The processor time of one process, in seconds."""
    actions = [
        (os.POSIX_SPAWN_OPEN, 0, path, os.O_RDONLY, 0),
        (os.POSIX_SPAWN_OPEN, 1, os.devnull, os.O_WRONLY, 0),
    ]
    pid = os.posix_spawn(command[0], command, os.environ, file_actions=actions)
    _, status, used = os.wait4(pid, 0)
    if status:
        sys.exit("%s failed on %s" % (command, path))
    return used.ru_utime + used.ru_stime


def best(command, path, rounds):
    return min(once(command, path) for _ in range(rounds))


class Clock:
    def __init__(self, rounds):
        self.rounds = rounds
        self.none = {}

    def each(self, program, what, data):
        """The time in seconds that the program takes each time to read, run or report a file, without the start of a process."""
        def order(times):
            return put(b"%s %d\n" % (what.encode(), times) + data)

        times = 4
        while once(program.many, order(times)) < ENOUGH:
            times *= 2
        whole = best(program.many, order(times), self.rounds)
        start = best(program.many, order(0), self.rounds)
        return (whole - start) / times

    def process(self, command, data):
        return best(command, put(data), 300 * self.rounds)


def contents(pile, cards, notes, events):
    return "kind wear\ncards %d\npile %s\nnotes %d\nevents %d\n" % (cards, pile, notes, events)


def schedule(pile, cards, notes, events):
    book = "".join("%d %d\n" % (7 * m % 32, m) for m in range(notes))
    return (contents(pile, cards, notes, len(events)) + book + "".join(event + "\n" for event in events)).encode()


def one_batch(pile, cards, notes, limit):
    """The cards post all notes in turn, and then the carrier settles."""
    return schedule(pile, cards, notes, ["b %d %d" % (m % cards, m) for m in range(notes)] + ["r %d" % limit])


def note_by_note(pile, cards, notes, limit):
    """The carrier settles after each post, so that there are as many instances as notes."""
    return schedule(pile, cards, notes, [event for m in range(notes) for event in ("b %d %d" % (m % cards, m), "r %d" % limit)])


def refused(pile, count):
    """Events whose numbers are long, and each of which is refused."""
    return schedule(pile, 6, 32, ["s 65535 65535"] * count)


def steps_of(data):
    reports = {program.name: said(program.once, data) for program in PROGRAMS}
    if len(set(reports.values())) > 1:
        sys.exit("the programs differ on this file:\n" + data.decode())
    return int(reports["plain"].split(b"steps ")[1].split()[0])


def step_time(clock, program, story, pile, cards, notes):
    """The steps of a story, and the seconds of each: those of the file, less those of the same file where no settle makes a step."""
    steps = steps_of(story(pile, cards, notes, MOST))
    whole = clock.each(program, "run", story(pile, cards, notes, MOST))
    posts = clock.each(program, "run", story(pile, cards, notes, 0))
    return steps, (whole - posts) / steps


def row(*cells):
    print("| " + " | ".join(str(cell) for cell in cells) + " |", flush=True)


def head(title, *cells):
    print("\n%s\n" % title)
    row(*cells)
    row(*["---"] + ["---:"] * (len(cells) - 1))


def both(measure):
    return [measure(program) for program in PROGRAMS]


def carries(clock):
    for title, story in (("One batch: steps per second, in millions", one_batch), ("Note by note: steps per second, in millions", note_by_note)):
        head(title, "pile, 6 cards and 32 notes", "steps", "proved", "plain", "plain / proved")
        for pile in PILES:
            (steps, proved), (_, plain) = both(lambda program: step_time(clock, program, story, pile, 6, 32))
            row(pile, steps, "%.1f" % (1e-6 / proved), "%.1f" % (1e-6 / plain), "%.1f" % (proved / plain))


def new_carriers(clock):
    head("New carriers of 6 cards per second, in thousands", "pile", "proved", "plain", "plain / proved")
    for pile in PILES:
        proved, plain = both(lambda program: clock.each(program, "run", schedule(pile, 6, 0, [])))
        row(pile, "%.0f" % (1e-3 / proved), "%.0f" % (1e-3 / plain), "%.1f" % (proved / plain))
    head("Reports of a short schedule (3 cards, 4 notes, one settle) per second, in thousands", "pile", "proved", "plain", "plain / proved")
    for pile in PILES:
        proved, plain = both(lambda program: clock.each(program, "report", one_batch(pile, 3, 4, MOST)))
        row(pile, "%.0f" % (1e-3 / proved), "%.0f" % (1e-3 / plain), "%.1f" % (proved / plain))


def processes(clock):
    nothing = clock.process([EMPTY], b"")
    start = both(lambda program: clock.process(program.once, b""))
    title = "One process for each file, in microseconds; a Rust program that does nothing takes %.0f" % (nothing * 1e6)
    head(title, "file", "proved", "plain", "proved, less that of the empty file", "plain, likewise")
    row("the empty file (a fault)", *["%.0f" % (it * 1e6) for it in start], 0, 0)
    files = [
        ("no note, no event, board register", schedule("board register", 6, 0, [])),
        ("no note, no event, relay flood", schedule("relay flood", 6, 0, [])),
        ("one batch, 6 cards and 32 notes, relay flood", one_batch("relay flood", 6, 32, MOST)),
        ("note by note, 6 cards and 32 notes, relay flood", note_by_note("relay flood", 6, 32, MOST)),
    ]
    for name, data in files:
        times = both(lambda program: clock.process(program.once, data))
        more = [whole - alone for whole, alone in zip(times, start)]
        row(name, *["%.0f" % (it * 1e6) for it in times + more])


def reading(clock):
    head("Reading, in millions of bytes per second", "file", "bytes", "proved", "plain", "plain / proved")
    data = refused("board register", 4096)
    for name, what, file in (
        ("4,096 events, read", "read", data),
        ("the same and one byte more, refused", "read", data + b"\n"),
        ("4,096 events, each refused and reported", "report", data),
    ):
        proved, plain = both(lambda program: clock.each(program, what, file))
        row(name, len(file), "%.0f" % (len(file) * 1e-6 / proved), "%.0f" % (len(file) * 1e-6 / plain), "%.1f" % (proved / plain))


def growth(clock):
    sizes = [(3, 32), (6, 8), (6, 16), (6, 32)]
    for name, story in (("One batch", one_batch), ("Note by note", note_by_note)):
        for program in PROGRAMS:
            title = "%s, %s: nanoseconds per step (steps)" % (name, program.name)
            head(title, "pile", *["%d cards, %d notes" % size for size in sizes])
            for pile in PILES:
                cells = [step_time(clock, program, story, pile, cards, notes) for cards, notes in sizes]
                row(pile, *["%.1f (%d)" % (each * 1e9, steps) for steps, each in cells])
    head("Refused events, each reported: nanoseconds per event", "events", "proved", "plain", "plain / proved")
    for count in (512, 1024, 2048, 4096):
        proved, plain = both(lambda program: clock.each(program, "report", refused("board register", count)))
        row(count, "%.0f" % (proved / count * 1e9), "%.0f" % (plain / count * 1e9), "%.1f" % (proved / plain))


def machine():
    model = next(line.split(":")[1].strip() for line in open("/proc/cpuinfo") if line.startswith("model name"))
    rustc = subprocess.run(["rustc", "--version"], stdout=subprocess.PIPE, text=True).stdout.strip()
    return "%s, %d cores, %s; load %.2f" % (model, os.cpu_count(), rustc, os.getloadavg()[0])


if __name__ == "__main__":
    build()
    clock = Clock(int(sys.argv[1]) if len(sys.argv) > 1 else 7)
    print(machine())
    for part in (carries, new_carriers, processes, reading, growth):
        part(clock)
    print("\nload at the end %.2f" % os.getloadavg()[0])
