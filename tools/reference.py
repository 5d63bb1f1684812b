#!/usr/bin/env python3
"""A second carrier, written from the rules and sharing no line with the proved one.

It reads a schedule file (standard input, or the files named) and prints the report. It is slow and plain on purpose:
tools/compare.py compares its reports with what the proved program prints.
"""
import sys

CARRIER = 7


class Refused(Exception):
    def __init__(self, number):
        self.number = number


class Part:
    """What a broadcast and a consensus share: cards, crashes, suspicions, a wire of (sender, destination, load)."""

    def __init__(self, n):
        self.n = n
        self.down = set()
        self.doubts = set()
        self.wire = []

    def need_card(self, *cards):
        if any(c >= self.n for c in cards):
            raise Refused(1)

    def need_up(self, card):
        if card in self.down:
            raise Refused(2)

    def send(self, sender, load):
        for to in range(self.n):
            if to != sender and to not in self.down:
                self.wire.append((sender, to, load))

    def carry(self, i):
        if i >= len(self.wire):
            raise Refused(6)
        self.receive(*self.take(i))

    def lose(self, i):
        if i >= len(self.wire):
            raise Refused(6)
        if self.wire[i][0] not in self.down:
            raise Refused(7)
        self.take(i)

    def take(self, i):
        return self.wire.pop(i)

    def crash(self, p):
        self.need_card(p)
        self.need_up(p)
        self.down.add(p)
        self.wire = [item for item in self.wire if item[1] != p]

    def suspect(self, q, p):
        self.need_card(q, p)
        self.need_up(q)
        if p not in self.down:
            raise Refused(5)
        self.doubts.add((q, p))
        self.suspected(q)

    def suspected(self, q):
        pass

    def unsuspected(self, q):
        return {c for c in range(self.n) if (q, c) not in self.doubts}

    def card_count(self):
        return self.n

    def has_crashed(self, p):
        return p in self.down

    def wire_len(self):
        return len(self.wire)


class Broadcast(Part):
    def __init__(self, n):
        super().__init__(n)
        self.poster = {}
        self.sets = [set() for _ in range(6)]
        self.order = []

    def post(self, p, m):
        self.need_card(p)
        self.need_up(p)
        if m > 31:
            raise Refused(3)
        if m in self.poster:
            raise Refused(4)
        self.poster[m] = p
        self.order.append(m)
        self.posted(p, m)

    def handed(self, p):
        return self.sets[p]


class Relay(Broadcast):
    def posted(self, p, m):
        self.sets[p].add(m)
        self.send(p, m)

    def receive(self, sender, to, m):
        if m not in self.sets[to]:
            self.sets[to].add(m)
            self.send(to, m)


class AllAck(Broadcast):
    def __init__(self, n):
        super().__init__(n)
        self.counted = {}

    def relay(self, p, m):
        if (p, m) not in self.counted:
            self.counted[p, m] = {p}
            self.send(p, m)

    def hand_over(self, p, m):
        if self.unsuspected(p) <= self.counted[p, m]:
            self.sets[p].add(m)

    def posted(self, p, m):
        self.relay(p, m)
        self.hand_over(p, m)

    def receive(self, sender, to, m):
        self.relay(to, m)
        self.counted[to, m].add(sender)
        self.hand_over(to, m)

    def suspected(self, q):
        for p, m in self.counted:
            if p == q:
                self.hand_over(p, m)


class Board(Broadcast):
    def posted(self, p, m):
        for to in range(self.n):
            if to not in self.down:
                self.wire.append((CARRIER, to, m))

    def receive(self, sender, to, m):
        self.sets[to].add(m)


def held_in_turn(order, poster, below):
    """The notes that count as handed: those of which all earlier posts of their poster, and they themselves, are handed below."""
    blocked, out = set(), set()
    for m in order:
        if m not in below:
            blocked.add(poster[m])
        elif poster[m] not in blocked:
            out.add(m)
    return out


def in_turn(lower):
    class InTurn(lower):
        def handed(self, p):
            return held_in_turn(self.order, self.poster, super().handed(p))

    return InTurn


class Consensus(Part):
    def __init__(self, n):
        super().__init__(n)
        self.proposal = {}
        self.decision = {}

    def proposal_of(self, k, p):
        return self.proposal.get((k, p))

    def decision_of(self, k, p):
        return self.decision.get((k, p))

    def propose(self, k, p, notes):
        self.need_card(p)
        self.need_up(p)
        if (k, p) in self.proposal:
            raise Refused(8)
        if not notes or k > 31:
            raise Refused(9)
        self.proposal[k, p] = frozenset(notes)
        self.proposed(k, p)


class Register(Consensus):
    def __init__(self, n):
        super().__init__(n)
        self.register = {}

    def proposed(self, k, p):
        self.wire.append((p, CARRIER, k))

    def receive(self, p, to, k):
        self.register.setdefault(k, self.proposal[k, p])
        if p not in self.down:
            self.decision[k, p] = self.register[k]


class Flood(Consensus):
    def __init__(self, n):
        super().__init__(n)
        self.round = {}
        self.known = {}
        self.counted = {}
        self.kept = {}

    def proposed(self, k, p):
        self.known[k, p] = {p}
        self.enter(k, p, 1)
        self.move(k, p)

    def enter(self, k, p, r):
        self.round[k, p] = r
        self.counted[k, p] = {p}
        self.send(p, (k, r, frozenset(self.known[k, p])))
        for sender, known in self.kept.pop((k, p, r), []):
            self.count(k, p, sender, known)

    def count(self, k, p, sender, known):
        if (p, sender) not in self.doubts:
            self.counted[k, p].add(sender)
            self.known[k, p] |= known

    def last_round(self):
        return self.n

    def decided_of(self, k, known):
        return self.proposal[k, min(known)]

    def may_move_again(self):
        return True

    def move(self, k, p):
        while (k, p) not in self.decision and self.unsuspected(p) <= self.counted[k, p]:
            if self.round[k, p] == self.last_round():
                self.decision[k, p] = self.decided_of(k, self.known[k, p])
            else:
                self.enter(k, p, self.round[k, p] + 1)
            if not self.may_move_again():
                return

    def receive(self, sender, to, load):
        k, r, known = load
        at = self.round.get((k, to), 0)
        if (to, sender) in self.doubts or (k, to) in self.decision or r < at:
            return
        if r > at:
            self.kept.setdefault((k, to, r), []).append((sender, known))
        else:
            self.count(k, to, sender, known)
            self.move(k, to)

    def suspected(self, q):
        for k in range(32):
            if (k, q) in self.round:
                self.move(k, q)


class Carrier:
    def __init__(self, n, ranking, broadcast, consensus):
        if not 1 <= n <= 6 or len(ranking) > 32:
            n = 0
        self.ranking = ranking
        self.b = broadcast(n)
        self.c = consensus(n)
        self.log = [[] for _ in range(6)]
        self.instance = [0] * 6
        self.steps = 0

    def need_card(self, p):
        if p >= self.b.card_count():
            raise Refused(1)

    def need_up(self, p):
        if self.b.has_crashed(p):
            raise Refused(2)

    def post(self, p, m):
        self.need_card(p)
        self.need_up(p)
        if m >= len(self.ranking):
            raise Refused(3)
        self.b.post(p, m)

    def wire(self, w):
        return self.b if w == "b" else self.c

    def carry(self, w, i):
        self.wire(w).carry(i)
        self.steps += 1

    def lose(self, w, i):
        self.wire(w).lose(i)
        self.steps += 1

    def crash(self, p):
        self.b.crash(p)
        self.c.crash(p)

    def suspect(self, q, p):
        self.b.suspect(q, p)
        self.c.suspect(q, p)

    def log_of(self, p):
        return self.log[p]

    def instance_of(self, p):
        return self.instance[p]

    def waiting(self, p):
        return self.b.handed(p) - set(self.log[p])

    def propose(self, p):
        self.need_card(p)
        self.c.propose(self.instance_of(p), p, self.waiting(p))
        self.steps += 1

    def take(self, p):
        self.need_card(p)
        self.need_up(p)
        batch = self.c.decision_of(self.instance_of(p), p)
        if batch is None:
            raise Refused(10)
        self.log[p] += sorted(batch, key=lambda m: self.ranking[m])
        self.instance[p] += 1
        self.steps += 1

    def can_take(self, p):
        return not self.b.has_crashed(p) and self.c.decision_of(self.instance_of(p), p) is not None

    def can_propose(self, p):
        k = self.instance_of(p)
        return not self.c.has_crashed(p) and self.c.proposal_of(k, p) is None and k < 32 and bool(self.waiting(p))

    def first_that(self, able):
        return next((p for p in range(self.b.card_count()) if able(p)), None)

    def first_step(self):
        """The first possible step of a settle, if there is one."""
        if self.b.wire_len():
            return self.carry, ("b", 0)
        if self.c.wire_len():
            return self.carry, ("c", 0)
        taker = self.first_that(self.can_take)
        if taker is not None:
            return self.take, (taker,)
        proposer = self.first_that(self.can_propose)
        if proposer is not None:
            return self.propose, (proposer,)
        return None

    def at_rest(self):
        return self.first_step() is None

    def settle(self, limit):
        for _ in range(limit):
            step = self.first_step()
            if step is None:
                return
            make, values = step
            make(*values)


class Bad(Exception):
    pass


def number(text, most):
    if not text or not all(c in b"0123456789" for c in text) or (text[0:1] == b"0" and len(text) > 1):
        return None
    value = int(text)
    return value if value <= most else None


def read(data):
    if len(data) > 65536:
        raise Bad(11, 65536, "file")
    at = 0

    def line(cause, layer):
        nonlocal at
        start = at
        end = data.find(b"\n", start)
        if end < 0:
            raise Bad(cause, start, layer)
        at = end + 1
        return start, data[start:end]

    def contents(key, parse):
        start, text = line(12, "contents")
        fields = text.split(b" ")
        value = parse(fields[1:]) if fields[0] == key else None
        if value is None:
            raise Bad(12, start, "contents")
        return value

    def counted(low, high):
        def parse(fields):
            value = number(fields[0], high) if len(fields) == 1 else None
            return value if value is not None and value >= low else None
        return parse

    def kind(fields):
        return fields[0].decode() if fields in ([b"wear"], [b"label"]) else None

    def pile(fields):
        turn = fields[:1] == [b"inturn"]
        rest = fields[1:] if turn else fields
        if len(rest) == 2 and rest[0] in (b"relay", b"allack", b"board") and rest[1] in (b"flood", b"register"):
            return turn, rest[0].decode(), rest[1].decode()
        return None

    k = contents(b"kind", kind)
    n = contents(b"cards", counted(1, 6))
    stack = contents(b"pile", pile)
    notes = contents(b"notes", counted(0, 32))
    events = contents(b"events", counted(0, 4096))
    book = []
    for _ in range(notes):
        start, text = line(13, "notes")
        if k == "label":
            value = text if 1 <= len(text) <= 8 and all(32 <= c <= 126 for c in text) else None
        else:
            fields = text.split(b" ")
            pair = tuple(number(f, 2**32 - 1) for f in fields)
            value = pair if len(pair) == 2 and None not in pair else None
        if value is None:
            raise Bad(13, start, "notes")
        book.append(value)
    calls = []
    shapes = {b"b": "nn", b"p": "n", b"t": "n", b"x": "n", b"s": "nn", b"c": "wn", b"l": "wn", b"r": "n"}
    for _ in range(events):
        start, text = line(13, "events")
        fields = text.split(b" ")
        shape = shapes.get(fields[0])
        values = []
        if shape is not None and len(fields) == len(shape) + 1:
            for s, f in zip(shape, fields[1:]):
                if s == "n":
                    values.append(number(f, 65535))
                else:
                    values.append(f.decode() if f in (b"b", b"c") else None)
        if shape is None or len(values) != len(shape) or None in values:
            raise Bad(13, start, "events")
        calls.append((fields[0].decode(), values))
    if at < len(data):
        raise Bad(14, at, "file")
    return n, stack, book, calls


def ranked(book):
    return sorted(range(len(book)), key=lambda m: (book[m], m))


def report(data):
    try:
        n, (turn, broadcast, consensus), book, calls = read(data)
    except Bad as bad:
        return "bad %d %d %s\n" % bad.args
    ranking = {m: place for place, m in enumerate(ranked(book))}
    lower = {"relay": Relay, "allack": AllAck, "board": Board}[broadcast]
    c = Carrier(n, ranking, in_turn(lower) if turn else lower, {"flood": Flood, "register": Register}[consensus])
    does = {"b": c.post, "p": c.propose, "t": c.take, "x": c.crash, "s": c.suspect, "c": c.carry, "l": c.lose, "r": c.settle}
    out = []
    for i, (letter, values) in enumerate(calls):
        try:
            does[letter](*values)
        except Refused as refused:
            out.append("no %d %d" % (i, refused.number))
    for p in range(c.b.card_count()):
        out.append(" ".join(["log", str(p), "down" if c.b.has_crashed(p) else "up"] + [str(m) for m in c.log_of(p)]))
    out.append("steps %d %s" % (c.steps, "rest" if c.at_rest() else "more"))
    return "".join(line + "\n" for line in out)


if __name__ == "__main__":
    for name in sys.argv[1:] or ["-"]:
        data = sys.stdin.buffer.read() if name == "-" else open(name, "rb").read()
        sys.stdout.write(report(data))
