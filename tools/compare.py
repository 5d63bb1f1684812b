#!/usr/bin/env python3
"""Random schedules: the order law is checked on the report of tools/reference.py, and the report of the program is compared with it.

Usage: tools/compare.py COUNT [START] [PROGRAM]

START picks another sequence of schedules; PROGRAM is crates/carrier/out/carrier if it is left out.
"""
import os
import random
import subprocess
import sys

import lawful
import reference

EDGE = 4294967295


def random_note(rng, kind):
    if kind == "wear":
        return "%d %d" % (rng.choice([0, 1, 2, 3, EDGE]), rng.choice([0, 1, 5, EDGE]))
    return "".join(rng.choice(" AB~") for _ in range(rng.randint(1, 3)))


def random_event(rng, cards, notes):
    def card():
        return rng.randint(0, cards - 1) if rng.random() < 0.95 else rng.randint(0, 7)

    def note():
        return rng.randint(0, max(notes - 1, 0)) if rng.random() < 0.95 else rng.randint(0, 33)

    item = rng.choice([0, 0, 0, 1, 2, 3, 9])
    kinds = [
        (20, lambda: "b %d %d" % (card(), note())),
        (25, lambda: "c b %d" % item),
        (17, lambda: "c c %d" % item),
        (10, lambda: "p %d" % card()),
        (10, lambda: "t %d" % card()),
        (3, lambda: "x %d" % card()),
        (6, lambda: "s %d %d" % (card(), card())),
        (4, lambda: "l %s %d" % (rng.choice("bc"), item)),
        (5, lambda: "r %d" % rng.choice([0, 1, 2, 5, 20, 60000])),
    ]
    (make,) = rng.choices([k[1] for k in kinds], [k[0] for k in kinds])
    return make()


def random_schedule(rng):
    cards = rng.randint(1, 6)
    notes = rng.choice([0, 1, 2, 3, 4, 6, 12, 32])
    kind = rng.choice(["wear", "label"])
    pile = [rng.choice(["relay", "allack", "board"]), rng.choice(["flood", "register"])]
    if rng.random() < 0.5:
        pile.insert(0, "inturn")
    events = [random_event(rng, cards, notes) for _ in range(rng.choice([0, 3, 8, 20, 40, 80]))]
    if rng.random() < 0.6:
        events += ["s %d %d" % (q, p) for q in range(cards) for p in range(cards)] + ["r 60000"]
    lines = ["kind " + kind, "cards %d" % cards, "pile " + " ".join(pile), "notes %d" % notes, "events %d" % len(events)]
    lines += [random_note(rng, kind) for _ in range(notes)] + events
    return "".join(line + "\n" for line in lines).encode()


def law_on(schedule, report):
    """Whether the report ends at rest under full suspicion, and what it breaks of the order law."""
    cards, (_, broadcast, consensus), _, calls = reference.read(schedule)
    bound = (6 if broadcast == "board" else 30) + cards * ((1 if consensus == "register" else 30) + 2)
    seen = lawful.Seen(calls, report)
    return seen.settled, list(lawful.broken(seen, broadcast != "relay", bound))


def arguments():
    """How many schedules, a generator of random numbers, and the program."""
    top = os.path.dirname(os.path.dirname(os.path.abspath(__file__)))
    given = sys.argv[1:]
    if not 1 <= len(given) <= 3 or not all(word.isdigit() for word in given[:2]):
        sys.exit(__doc__.strip())
    program = given[2] if len(given) > 2 else os.path.join(top, "crates", "carrier", "out", "carrier")
    if not os.access(program, os.X_OK):
        sys.exit("there is no program '%s' that can be run; ./carrier examples/two_cards.schedule builds ours" % program)
    return int(given[0]), random.Random(int(given[1]) if len(given) > 1 else 1), os.path.abspath(program)


def main():
    count, rng, program = arguments()
    settled = amiss = 0
    for _ in range(count):
        schedule = random_schedule(rng)
        expected = reference.report(schedule)
        rest, words = law_on(schedule, expected)
        settled += rest
        printed = subprocess.run([program], input=schedule, capture_output=True).stdout.decode()
        if words:
            print("the second carrier breaks the order law on this schedule:", schedule.decode(), *words, sep="\n")
        if printed != expected:
            print("the reports differ on this schedule:", schedule.decode(), "printed:", printed, "expected:", expected, sep="\n")
        amiss += bool(words) or printed != expected
    print("%d schedules: %d end at rest under full suspicion, %d differ or break the law" % (count, settled, amiss))
    sys.exit(1 if amiss else 0)


if __name__ == "__main__":
    main()
