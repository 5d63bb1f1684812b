#!/usr/bin/env python3
"""Checks the order law on the reports of a program, where its cards have a broadcast or a consensus of their own.

Usage: tools/lawful.py [--uniform] [--bounds B C] PROGRAM [SHELF..]

PROGRAM is given each readable schedule of the collection on standard input, and prints its report. What is compared is not the report, but
whether it keeps each sentence of the order law (docs/ORDER.md) that a report can break: with --uniform also that of a uniform broadcast, and with
--bounds the bound on the steps, for a broadcast of bound B and a consensus of bound C. A line for each schedule that breaks one, and one for
all; the status is 1 if there is any.
"""
import argparse
import os
import subprocess
import sys

import reference

SHELVES = os.path.join(os.path.dirname(os.path.dirname(os.path.abspath(__file__))), "crates", "collection", "data")


class Seen:
    """What a report says of the calls of its schedule."""

    def __init__(self, calls, report):
        refused, self.logs, down = set(), {}, set()
        *lines, last = [line.split(" ") for line in report.splitlines()]
        for fields in lines:
            if fields[0] == "no":
                refused.add(int(fields[1]))
            elif fields[0] == "log":
                self.logs[int(fields[1])] = fields[3:]
                if fields[2] == "down":
                    down.add(int(fields[1]))
            else:
                raise ValueError(fields[0])
        word, steps, end = last
        if word != "steps" or end not in ("rest", "more"):
            raise ValueError(word)
        self.steps, self.rest = int(steps), end == "rest"
        accepted = [call for i, call in enumerate(calls) if i not in refused]
        self.poster = {str(v[1]): v[0] for letter, v in accepted if letter == "b"}
        self.told_apart = down == {v[0] for letter, v in accepted if letter == "x"}
        suspected = {tuple(v) for letter, v in accepted if letter == "s"}
        self.running = {p: log for p, log in self.logs.items() if p not in down}
        self.crashed = {p: log for p, log in self.logs.items() if p in down}
        self.settled = self.rest and all((q, p) in suspected for q in self.running for p in down)


def begins(a, b):
    return b[: len(a)] == a


def broken(seen, uniform, bound):
    """In words, each sentence of the order law that the report breaks. `bound` is B + n × (C + 2), or None."""
    logs, running = list(seen.logs.values()), list(seen.running.values())
    if any(not begins(a, b) and not begins(b, a) for a in logs for b in logs):
        yield "of two logs none is a beginning of the other"
    if any(len(set(log)) != len(log) for log in logs):
        yield "a log holds a note twice"
    if any(not set(log) <= set(seen.poster) for log in logs):
        yield "a log holds a note that was not posted"
    if seen.settled:
        if any(log != running[0] for log in running):
            yield "the logs of two running cards differ, at rest under full suspicion"
        if any(m not in log for log in running for m, by in seen.poster.items() if by in seen.running):
            yield "a running card lacks a note that a running card posted, at rest under full suspicion"
        if uniform and any(not begins(log, other) for log in seen.crashed.values() for other in running):
            yield "the log of a crashed card does not begin that of a running one, at rest under full suspicion"
    if bound is not None and seen.steps > len(seen.poster) * bound:
        yield "there are more steps than the bound allows"


def breaks(program, schedule, uniform, bounds):
    """What the program's report of the schedule breaks, in words."""
    cards, _, _, calls = reference.read(schedule)
    printed = subprocess.run([program], input=schedule, stdout=subprocess.PIPE, stderr=subprocess.DEVNULL).stdout
    try:
        seen = Seen(calls, printed.decode())
    except (ValueError, IndexError):
        return ["what it prints is no report"]
    if sorted(seen.logs) != list(range(cards)):
        return ["not every card has its log"]
    if not seen.told_apart:
        return ["the cards that are down are not those that crashed"]
    return list(broken(seen, uniform, bounds and bounds[0] + cards * (bounds[1] + 2)))


def schedules(shelf):
    folder = os.path.join(SHELVES, shelf)
    for name in sorted(os.listdir(folder)):
        if name.endswith(".schedule"):
            with open(os.path.join(folder, name), "rb") as file:
                yield shelf + "/" + name.removesuffix(".schedule"), file.read()


def main():
    readable = [shelf for shelf in sorted(os.listdir(SHELVES)) if shelf != "unreadable"]
    args = argparse.ArgumentParser(description=__doc__, formatter_class=argparse.RawDescriptionHelpFormatter)
    args.add_argument("--uniform", action="store_true")
    args.add_argument("--bounds", nargs=2, type=int, metavar=("B", "C"))
    args.add_argument("program", metavar="PROGRAM")
    args.add_argument("shelves", metavar="SHELF", nargs="*", help="one of " + ", ".join(readable))
    args = args.parse_args()
    if not os.access(args.program, os.X_OK):
        sys.exit("there is no program '%s' that can be run" % args.program)
    for shelf in args.shelves:
        if shelf not in readable:
            sys.exit("there is no shelf '%s' of schedules that read; there are: %s" % (shelf, ", ".join(readable)))
    count = lawless = 0
    for shelf in args.shelves or readable:
        for name, schedule in schedules(shelf):
            words = breaks(os.path.abspath(args.program), schedule, args.uniform, args.bounds)
            count += 1
            lawless += bool(words)
            if words:
                print("%s: %s" % (name, "; ".join(words)))
    print("in all: %d schedules, %d break the order law" % (count, lawless))
    sys.exit(1 if lawless else 0)


if __name__ == "__main__":
    main()
