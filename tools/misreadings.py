#!/usr/bin/env python3
"""Which schedules of the collection tell each wrong reading of the rules.

Usage: tools/misreadings.py

A wrong reading is a small change to the second carrier, tools/reference.py. A schedule tells it where the changed carrier's report is not
the one that stands beside the schedule. Every reading is to be told by at least one schedule.

The edits of the parts and of the carrier, in must-fail of their crates, are wrong readings too: each is to be named once, by the
reading that stands for it, or below under a reason why no report can tell it. The exit status is 1 where anything of this is amiss.
"""
import contextlib
import os
import sys

import reference as r

READINGS = []
CRATES_WITH_EDITS = "allack board cards flooding histories inturn parts register relay spread tables total_order wire".split()


def reading(words, owner, name, *edits):
    """Registers a function that makes the wrong method of `owner` from the right one, and the edits of the code that mean the same."""

    def register(make):
        READINGS.append((words, owner, name, make, edits))
        return make

    return register


# Why no report tells an edit.
UNTOLD = {
    "the bound of a part is no step, and is not printed": [
        "allack/bound_too_small",
        "board/bound_too_small",
        "flooding/bound_too_small",
        "inturn/bound_of_30",
        "register/bound_too_small",
        "relay/bound_too_small",
    ],
    "nobody asks during a run whether a broadcast is quiet or uniform": [
        "allack/quiet_asks_no_suspicion",
        "board/quiet_without_suspicions",
        "cards/quiet_asks_no_suspicion",
        "inturn/quiet_without_asking_below",
        "relay/says_it_is_uniform",
        "spread/quiet_asks_no_suspicion",
        "total_order/quiet_turned_round",
    ],
    "nobody asks during a run who posted a note": [
        "allack/poster_of_the_first",
        "board/poster_of_the_first",
        "inturn/poster_is_sender",
        "relay/poster_of_the_first",
        "spread/poster_of_the_first",
        "tables/poster_is_the_note",
        "tables/poster_of_another_note",
        "tables/refused_post_changes_poster",
    ],
    "nobody asks a part during a run who sent an item": [
        "allack/sender_of_the_first",
        "board/sender_of_the_first",
        "flooding/sender_of_a_kept_item",
        "inturn/sender_is_poster",
        "register/sender_of_the_first",
        "relay/sender_of_the_first",
        "spread/sender_of_the_first",
    ],
    "nobody asks a part during a run who suspects whom": [
        "allack/suspicion_read_backwards",
        "board/suspicion_backwards",
        "flooding/suspicion_the_other_way_round",
        "inturn/suspects_the_other_way_round",
        "register/suspicion_backwards",
        "relay/suspicion_read_backwards",
    ],
    "nobody asks in turn for a single note, or takes the layer off": [
        "inturn/counts_as_handed_below",
        "inturn/into_lower_crashes_a_card",
        "inturn/into_one_layer_posts",
    ],
    "no note above 31 is ever posted": ["inturn/post_of_a_note_above_31_not_recorded"],
    "nobody asks what a crashed card was handed: it may not propose, and rest looks at running cards": ["inturn/handed_of_crashed_card_emptied"],
    "nobody asks what a crashed card decided: it may not take, and rest looks at running cards": ["register/decides_at_crashed_card"],
    "the register does nothing at a suspicion, and the broadcast says whether it is accepted": ["register/suspects_backwards"],
    "the broadcast says first whether there is such a card": ["flooding/always_six_cards", "register/card_count_fixed"],
    "the broadcast says first whether there is such a card, and the register does the same for each": ["register/always_six_cards"],
    "no file has seven cards or 33 notes": [
        "cards/seven_cards_make_six",
        "total_order/new_beyond_six_cards",
        "total_order/new_consensus_of_more_cards",
    ],
    "no file asks for a place past the end of a table": [
        "allack/counts_of_seven_cards",
        "cards/room_for_seven_cards",
        "cards/suspicions_of_seven_cards",
        "register/registers_of_33_instances",
        "tables/posters_of_33_notes",
        "tables/sets_of_seven_cards",
        "total_order/room_for_seven_cards",
    ],
    "what settle answers is not printed": [
        "total_order/call_of_a_settle_tells_no_steps",
        "total_order/settle_invents_its_count",
        "total_order/settle_reports_rest_at_its_limit",
    ],
    "the broadcast and the consensus know of the same crashes": ["total_order/has_crashed_asks_the_consensus"],
    "room is a question of memory; a wire of relay or all-ack never holds more than 800 items, and one of flooding not nearly as many as it has room for": [
        "flooding/room_too_small",
        "spread/room_too_small",
        "wire/no_room_reserved",
    ],
    "a card counts itself where it relays, so it has counted itself of every note that it can be handed": ["allack/new_counts_not_empty"],
    "an item of a past round comes from a card that its receiver suspects": ["flooding/item_of_a_past_round_counted"],
    "what is kept of a suspected card is dropped when its round comes": ["flooding/new_item_of_a_suspected_card_kept"],
    "a card enters a round once, so what is kept for a past round does nothing": ["flooding/taken_items_stay_kept"],
    "a second decision is the first again, as what is known has not changed": ["flooding/decides_twice"],
    "a card stands in one undecided instance at a time": ["flooding/instances_descending"],
}


# The ranking and the carrier.


@reading("equal notes rank by the higher number", r, "ranked")
def _(right):
    return lambda book: sorted(range(len(book)), key=lambda m: (book[m], -m))


@reading("a longer label ranks before its beginning", r, "ranked")
def _(right):
    return lambda book: sorted(range(len(book)), key=lambda m: (book[m] + b"\x7f" if isinstance(book[m], bytes) else book[m], m))


@reading("wear notes rank by their count first", r, "ranked")
def _(right):
    return lambda book: sorted(range(len(book)), key=lambda m: (book[m] if isinstance(book[m], bytes) else book[m][::-1], m))


@reading("a batch is logged by note number", r.Carrier, "take")
def _(right):
    def take(self, p):
        before = len(self.log[p])
        right(self, p)
        self.log[p][before:] = sorted(self.log[p][before:])

    return take


@reading("a decision is taken twice", r.Carrier, "take", "total_order/decision_taken_twice")
def _(right):
    def take(self, p):
        right(self, p)
        if self.instance[p] == 1 and self.log[p].count(self.log[p][0]) == 1:
            self.instance[p] = 0

    return take


@reading("waiting notes include the log", r.Carrier, "waiting", "total_order/waiting_notes_of_the_log")
def _(right):
    return lambda self, p: set(self.b.handed(p))


@reading("a loss is no step", r.Carrier, "lose")
def _(right):
    def lose(self, w, i):
        right(self, w, i)
        self.steps -= 1

    return lose


@reading("a take of nothing decided is refused by 3", r.Carrier, "take", "total_order/take_refused_by_another_number")
def _(right):
    def take(self, p):
        try:
            right(self, p)
        except r.Refused as refused:
            raise r.Refused(3 if refused.number == 10 else refused.number)

    return take


@reading("a take is no step", r.Carrier, "take")
def _(right):
    def take(self, p):
        right(self, p)
        self.steps -= 1

    return take


def counts_refusals(name, *edits):
    @reading("a refused %s is a step" % name, r.Carrier, name, *edits)
    def _(right):
        def call(self, *values):
            try:
                right(self, *values)
            except r.Refused:
                self.steps += 1
                raise

        return call


counts_refusals("carry", "total_order/refusal_counted", "total_order/refusal_counted_by_its_rule")
counts_refusals("lose")
counts_refusals("propose")
counts_refusals("take")


@reading("rest forgets the broadcast's wire", r.Carrier, "at_rest")
def _(right):
    def at_rest(self):
        wire, self.b.wire = self.b.wire, []
        answer = right(self)
        self.b.wire = wire
        return answer

    return at_rest


@reading("rest forgets the consensus's wire", r.Carrier, "at_rest", "total_order/rest_forgets_a_wire")
def _(right):
    def at_rest(self):
        wire, self.c.wire = self.c.wire, []
        answer = right(self)
        self.c.wire = wire
        return answer

    return at_rest


@reading("settle goes on to rest whatever its limit", r.Carrier, "settle")
def _(right):
    return lambda self, limit: right(self, 10**6 if limit else 0)


@reading("settle makes one step too many", r.Carrier, "settle", "total_order/settle_one_step_beyond_its_limit", "total_order/settle_one_step_beyond_by_its_rule")
def _(right):
    return lambda self, limit: right(self, limit + 1)


@reading("settle makes one step too few", r.Carrier, "settle")
def _(right):
    return lambda self, limit: right(self, max(limit - 1, 0))


@reading("settle lets the highest card go first", r.Carrier, "first_that")
def _(right):
    return lambda self, able: next((p for p in reversed(range(self.b.card_count())) if able(p)), None)


@reading("settle carries the last item", r.Carrier, "carry")
def _(right):
    def carry(self, w, i):
        stepping = sys._getframe(1).f_code.co_name == "settle"
        right(self, w, len(self.wire(w).wire) - 1 if stepping else i)

    return carry


@reading("a post beyond the book is accepted", r.Carrier, "post", "total_order/post_accepted_beyond_the_book")
def _(right):
    return lambda self, p, m: self.b.post(p, m)


@reading("a crash does not reach the consensus", r.Carrier, "crash", "total_order/crash_kept_from_the_consensus")
def _(right):
    return lambda self, p: self.b.crash(p)


@reading("a suspicion does not reach the consensus", r.Carrier, "suspect", "total_order/suspicion_turned_round")
def _(right):
    return lambda self, q, p: self.b.suspect(q, p)


def steps_printed(words, change, edit):
    @reading(words, r, "report", edit)
    def _(right):
        def report(data):
            *lines, last = right(data).split("\n")[:-1]
            fields = last.split(" ")
            if fields[0] == "steps":
                fields[1] = str(change(int(fields[1])))
            return "".join(line + "\n" for line in lines + [" ".join(fields)])

        return report


steps_printed("no step is counted", lambda steps: 0, "total_order/step_not_counted")
steps_printed("every other step is counted", lambda steps: steps // 2, "total_order/half_the_steps")


@reading("a loss is a carry", r.Carrier, "lose", "total_order/call_of_a_loss_carries")
def _(right):
    return lambda self, w, i: self.carry(w, i)


@reading("a loss on the consensus's wire is a carry", r.Carrier, "lose", "total_order/lose_that_carries")
def _(right):
    return lambda self, w, i: self.carry(w, i) if w == "c" else right(self, w, i)


@reading("settle lets the highest card propose first", r.Carrier, "first_that", "total_order/propose_at_the_highest_card")
def _(right):
    def first_that(self, able):
        cards = range(self.b.card_count())
        return next((p for p in (reversed(cards) if able == self.can_propose else cards) if able(p)), None)

    return first_that


@reading("settle makes two steps for one", r.Carrier, "settle", "total_order/settle_made_in_its_first_step", "total_order/settle_makes_two_steps_for_one")
def _(right):
    return lambda self, limit: right(self, 2 * limit)


@reading("settle runs to rest, whatever its limit, and counts one step", r.Carrier, "settle", "total_order/settle_runs_to_rest_in_its_first_step")
def _(right):
    def settle(self, limit):
        before = self.steps
        right(self, 1000000)
        self.steps = min(self.steps, before + 1)

    return settle


@reading("whether a card can propose is asked in card 0's instance", r.Carrier, "can_propose", "total_order/can_propose_asks_the_first_instance")
def _(right):
    def can_propose(self, p):
        own, self.instance[p] = self.instance[p], self.instance[0]
        answer = right(self, p)
        self.instance[p] = own
        return answer

    return can_propose


@reading("a card can take where card 0 can", r.Carrier, "can_take", "total_order/can_take_asks_the_first_card")
def _(right):
    return lambda self, p: right(self, 0)


@reading("each card has come to card 0's instance", r.Carrier, "instance_of", "total_order/instance_of_the_first_card")
def _(right):
    return lambda self, p: right(self, 0)


@reading("each card's log is card 0's", r.Carrier, "log_of", "total_order/log_of_the_first_card")
def _(right):
    return lambda self, p: right(self, 0)


@reading("a sixth card does not count", r.Broadcast, "card_count", "total_order/card_count_without_the_sixth")
def _(right):
    return lambda self: min(right(self), 5)


@reading("every proposal is for the first instance", r.Consensus, "propose", "total_order/propose_in_the_first_instance")
def _(right):
    return lambda self, k, p, notes: right(self, 0, p, notes)


@reading("the consensus's wire counts as empty", r.Consensus, "wire_len", "total_order/wire_of_the_broadcast_alone")
def _(right):
    return lambda self: 0


# What the parts share.


@reading("an item is sent to its sender too", r.Part, "send", "wire/item_to_the_sender")
def _(right):
    def send(self, sender, load):
        for to in range(self.n):
            if to not in self.down:
                self.wire.append((sender, to, load))

    return send


@reading("an item is sent to a crashed card", r.Part, "send", "wire/item_to_crashed_card")
def _(right):
    def send(self, sender, load):
        for to in range(self.n):
            if to != sender:
                self.wire.append((sender, to, load))

    return send


@reading("destinations descend", r.Part, "send", "wire/descending_destinations")
def _(right):
    def send(self, sender, load):
        for to in reversed(range(self.n)):
            if to != sender and to not in self.down:
                self.wire.append((sender, to, load))

    return send


@reading("new items join the front of the wire", r.Part, "send", "wire/joins_the_front")
def _(right):
    def send(self, sender, load):
        before, self.wire = self.wire, []
        right(self, sender, load)
        self.wire += before

    return send


@reading("a crash drops what the card has sent", r.Part, "crash", "wire/crash_drops_sent_items")
def _(right):
    def crash(self, p):
        right(self, p)
        self.wire = [item for item in self.wire if item[0] != p]

    return crash


@reading(
    "a crash leaves the items that go to the card",
    r.Part,
    "crash",
    "wire/crash_lets_go_of_another_cards_items",
    "board/crash_keeps_items",
    "spread/crash_keeps_items",
    "flooding/crash_lets_go_what_is_kept",
)
def _(right):
    def crash(self, p):
        wire = self.wire
        right(self, p)
        self.wire = wire

    return crash


@reading("an item of a running sender can be lost", r.Part, "lose")
def _(right):
    def lose(self, i):
        if i >= len(self.wire):
            raise r.Refused(6)
        self.wire.pop(i)

    return lose


@reading("a lost item arrives", r.Part, "lose")
def _(right):
    def lose(self, i):
        item = self.wire[i] if i < len(self.wire) else None
        right(self, i)
        self.receive(*item)

    return lose


@reading("a running card can be suspected", r.Part, "suspect")
def _(right):
    def suspect(self, q, p):
        self.need_card(q, p)
        self.need_up(q)
        self.doubts.add((q, p))
        self.suspected(q)

    return suspect


@reading(
    "a suspicion is the other way round",
    r.Part,
    "unsuspected",
    "cards/suspicion_read_backwards",
    "cards/suspicion_written_backwards",
    "spread/suspicion_read_backwards",
    "allack/suspected_cards_counted_on",
)
def _(right):
    return lambda self, q: {c for c in range(self.n) if (c, q) not in self.doubts}


@reading("a crashed card that suspects itself is refused by 5", r.Part, "suspect")
def _(right):
    def suspect(self, q, p):
        self.need_card(q, p)
        if p not in self.down or p == q:
            raise r.Refused(5)
        right(self, q, p)

    return suspect


@reading("a note can be posted twice", r.Broadcast, "post")
def _(right):
    def post(self, p, m):
        self.poster.pop(m, None)
        right(self, p, m)

    return post


@reading("an item is lost if its sender runs, and only then", r.Part, "lose", "wire/loses_item_of_running_card")
def _(right):
    def lose(self, i):
        if i < len(self.wire) and self.wire[i][0] in self.down:
            raise r.Refused(7)
        if i >= len(self.wire):
            raise r.Refused(6)
        self.wire.pop(i)

    return lose


@reading("a loss asks for the sender of item 0", r.Part, "lose", "wire/sender_of_the_first")
def _(right):
    def lose(self, i):
        if not self.wire:
            raise r.Refused(6)
        if self.wire[0][0] not in self.down:
            raise r.Refused(7)
        del self.wire[i : i + 1]

    return lose


@reading(
    "a loss is of item 0, whatever its number",
    r.Part,
    "lose",
    "allack/loses_the_first",
    "board/loses_the_first",
    "register/loses_the_first",
    "relay/loses_the_first",
    "spread/loses_the_first",
)
def _(right):
    return lambda self, i: right(self, 0)


@reading(
    "a carry is of item 0, whatever its number",
    r.Part,
    "carry",
    "allack/carries_the_first",
    "relay/carries_the_first",
    "total_order/carry_of_another_item",
)
def _(right):
    return lambda self, i: right(self, 0)


@reading("carry and lose look for an item, and take off item 0", r.Part, "take", "wire/takes_the_first")
def _(right):
    return lambda self, i: right(self, 0)


@reading("where item 0 is carried or lost, the last one leaves", r.Part, "take", "wire/first_taken_is_the_last")
def _(right):
    return lambda self, i: right(self, -1 if i == 0 else i)


@reading("a crash lets go only what higher cards sent to the card", r.Part, "crash", "wire/lets_too_few_go")
def _(right):
    def crash(self, p):
        wire = self.wire
        right(self, p)
        self.wire = [item for item in wire if item[1] != p or item[0] < p]

    return crash


@reading("a crash is not written down", r.Part, "crash", "cards/crash_not_written")
def _(right):
    def crash(self, p):
        right(self, p)
        self.down.discard(p)

    return crash


@reading("a running card counts as crashed", r.Part, "__init__", "cards/running_card_has_crashed")
def _(right):
    def init(self, n):
        right(self, n)
        self.down = set(range(n))

    return init


@reading("there are six cards whatever their number", r.Part, "need_card", "cards/count_of_cards_does_not_matter")
def _(right):
    def need_card(self, *cards):
        if any(c >= 6 for c in cards):
            raise r.Refused(1)

    return need_card


@reading("the carrier is one of six cards", r.Carrier, "__init__", "cards/count_of_cards_is_fixed")
def _(right):
    return lambda self, n, *rest: right(self, 6, *rest)


@reading(
    "the broadcast is one of six cards",
    r.Broadcast,
    "__init__",
    "allack/always_six_cards",
    "board/always_six_cards",
    "inturn/new_always_of_six_cards",
    "relay/always_six_cards",
    "spread/always_six_cards",
)
def _(right):
    return lambda self, n: right(self, 6)


@reading(
    "the broadcast says that it has six cards",
    r.Broadcast,
    "card_count",
    "allack/card_count_fixed",
    "board/card_count_fixed",
    "inturn/card_count_of_6",
    "relay/card_count_fixed",
    "spread/card_count_fixed",
)
def _(right):
    return lambda self: 6


@reading("a crashed card that suspects a running one is refused by 5", r.Part, "suspect", "cards/suspected_card_checked_first")
def _(right):
    def suspect(self, q, p):
        if max(q, p) < self.n and p not in self.down:
            raise r.Refused(5)
        right(self, q, p)

    return suspect


@reading(
    "the suspected card is named first",
    r.Broadcast,
    "suspect",
    "allack/suspicion_backwards",
    "board/suspects_backwards",
    "inturn/suspect_the_other_way_round",
    "relay/suspicion_backwards",
    "spread/suspicion_backwards",
)
def _(right):
    return lambda self, q, p: right(self, p, q)


@reading("a crash is of card 0 in the broadcast", r.Broadcast, "crash", "allack/crash_of_another_card", "relay/crash_of_another_card")
def _(right):
    return lambda self, p: right(self, 0)


@reading("a crash is of card 0 in the consensus", r.Consensus, "crash", "register/crash_of_the_first")
def _(right):
    def crash(self, p):
        if 0 not in self.down:
            right(self, 0)

    return crash


@reading(
    "the broadcast says of each card what it knows of card 0, whether it has crashed",
    r.Broadcast,
    "has_crashed",
    "allack/crashed_like_the_first",
    "board/crash_of_another_card",
    "relay/crashed_like_the_first",
    "spread/crashed_like_the_first",
)
def _(right):
    return lambda self, p: right(self, 0)


@reading(
    "the consensus says of each card what it knows of card 0, whether it has crashed",
    r.Consensus,
    "has_crashed",
    "register/crash_read_of_another_card",
)
def _(right):
    return lambda self, p: right(self, 0)


@reading("the consensus says of no card that it has crashed", r.Consensus, "has_crashed", "flooding/crashed_when_it_suspects_itself")
def _(right):
    return lambda self, p: False


@reading(
    "the length of the wire is the number of cards",
    r.Part,
    "wire_len",
    "allack/wire_length_is_card_count",
    "board/wire_length_is_card_count",
    "inturn/wire_len_of_the_cards",
    "register/wire_length_is_card_count",
    "relay/wire_length_is_card_count",
    "spread/wire_length_is_card_count",
)
def _(right):
    return lambda self: self.n


@reading("the length of the wire is its room", r.Part, "wire_len", "wire/length_is_room")
def _(right):
    return lambda self: 960


@reading("all posts are there before the first", r.Broadcast, "__init__", "tables/new_posters_not_empty")
def _(right):
    def init(self, n):
        right(self, n)
        self.poster = {m: 0 for m in range(32)}

    return init


@reading("note 0 is handed before the first post", r.Broadcast, "__init__", "tables/new_sets_not_empty")
def _(right):
    def init(self, n):
        right(self, n)
        self.sets = [{0} for _ in range(6)]

    return init


@reading("a post is of the note with the card's number", r.Broadcast, "post", "allack/posts_the_card_number", "relay/posts_the_card_number")
def _(right):
    return lambda self, p, m: right(self, p, p)


@reading(
    "each card is handed what card 0 is",
    r.Broadcast,
    "handed",
    "allack/handed_to_the_first_card",
    "board/set_of_the_first",
    "relay/handed_to_the_first_card",
    "spread/relayed_by_the_first_card",
    "tables/set_of_another_card",
)
def _(right):
    return lambda self, p: right(self, 0)


@reading("the set of no notes can be proposed", r.Consensus, "propose", "tables/empty_set_proposed")
def _(right):
    def propose(self, k, p, notes):
        self.need_card(p)
        self.need_up(p)
        if (k, p) in self.proposal:
            raise r.Refused(8)
        if k > 31:
            raise r.Refused(9)
        self.proposal[k, p] = frozenset(notes)
        self.proposed(k, p)

    return propose


@reading("the set of note 0 alone cannot be proposed", r.Consensus, "propose", "tables/set_of_note_0_not_proposed")
def _(right):
    return lambda self, k, p, notes: right(self, k, p, notes if set(notes) != {0} else set())


@reading(
    "what is decided is found by card and then by instance",
    r.Consensus,
    "decision_of",
    "tables/ballot_read_backwards",
    "tables/ballot_written_backwards",
)
def _(right):
    return lambda self, k, p: right(self, p, k)


@reading("what is decided is found at the card that has the instance's number", r.Consensus, "decision_of", "tables/grid_read_at_the_instance")
def _(right):
    return lambda self, k, p: right(self, k, k)


@reading("what is decided is written down at card 0 only", r.Consensus, "decision_of", "tables/grid_written_at_the_first_card")
def _(right):
    return lambda self, k, p: right(self, k, p) if p == 0 else None


@reading(
    "nothing is decided in the last of 32 instances",
    r.Consensus,
    "decision_of",
    "tables/grid_of_31_instances",
    "tables/grid_without_its_last_instance",
)
def _(right):
    return lambda self, k, p: right(self, k, p) if k < 31 else None


@reading("what is proposed is found by card and then by instance", r.Consensus, "proposal_of", "register/proposal_backwards")
def _(right):
    return lambda self, k, p: right(self, p, k)


@reading("what a card proposes is decided", r.Consensus, "decision_of", "flooding/decision_is_the_proposal", "register/decision_is_the_proposal")
def _(right):
    return lambda self, k, p: self.proposal_of(k, p)


@reading("what is not decided is not proposed", r.Consensus, "proposal_of", "flooding/proposal_is_the_decision")
def _(right):
    return lambda self, k, p: self.decision_of(k, p)


@reading("no notes are proposed and decided before the first proposal", r.Consensus, "__init__", "tables/new_ballots_not_empty")
def _(right):
    def init(self, n):
        right(self, n)
        self.proposal = {(k, p): frozenset() for k in range(32) for p in range(6)}
        self.decision = dict(self.proposal)

    return init


@reading("what is refused by 1 is refused by 2, and the other way round", r.Refused, "__init__", "parts/first_two_refusals_change_numbers")
def _(right):
    return lambda self, number: right(self, {1: 2, 2: 1}.get(number, number))


@reading("what is refused by 10 is refused by 9", r.Refused, "__init__", "parts/nothing_decided_is_nothing_proposed")
def _(right):
    return lambda self, number: right(self, min(number, 9))


# Relay and all-ack.


@reading("relay: no relay at first receipt", r.Relay, "receive")
def _(right):
    return lambda self, sender, to, m: self.sets[to].add(m)


@reading("relay: a relay at every receipt", r.Relay, "receive", "spread/relay_at_every_receipt")
def _(right):
    def receive(self, sender, to, m):
        if len(self.wire) < 200:
            self.sets[to].add(m)
            self.send(to, m)

    return receive


@reading("relay: the poster is not handed its note", r.Relay, "posted")
def _(right):
    return lambda self, p, m: self.send(p, m)


@reading("relay: not back to the card that it came from", r.Relay, "receive")
def _(right):
    def receive(self, sender, to, m):
        before = len(self.wire)
        right(self, sender, to, m)
        self.wire[before:] = [item for item in self.wire[before:] if item[1] != sender]

    return receive


@reading("relay: the post sends nothing", r.Relay, "posted", "spread/poster_not_handed")
def _(right):
    return lambda self, p, m: None


@reading("relay: a card relays what the card of the note's number has not relayed of its own", r.Relay, "receive", "spread/relayed_note_forgotten")
def _(right):
    def receive(self, sender, to, m):
        if len(self.wire) < 200 and not (m < 6 and to in self.sets[m]):
            self.sets[to].add(m)
            self.send(to, m)

    return receive


@reading("all-ack: what a card has relayed it is handed", r.AllAck, "hand_over", "allack/handed_before_all_are_counted")
def _(right):
    return lambda self, p, m: self.sets[p].add(m)


@reading("all-ack: what is handed over is taken out", r.AllAck, "hand_over", "tables/adds_no_notes")
def _(right):
    return lambda self, p, m: self.sets[p].discard(m)


@reading("all-ack: the poster is not counted", r.AllAck, "posted", "allack/poster_not_counted")
def _(right):
    def posted(self, p, m):
        self.relay(p, m)
        self.counted[p, m] = set()
        self.hand_over(p, m)

    return posted


@reading("all-ack: the receiver is not counted", r.AllAck, "receive", "allack/receiver_not_counted")
def _(right):
    def receive(self, sender, to, m):
        if (to, m) not in self.counted:
            self.relay(to, m)
            self.counted[to, m] = set()
        self.counted[to, m].add(sender)
        self.hand_over(to, m)

    return receive


@reading("all-ack: a receipt hands nothing over", r.AllAck, "receive", "allack/receipt_hands_nothing_over")
def _(right):
    def receive(self, sender, to, m):
        self.relay(to, m)
        self.counted[to, m].add(sender)

    return receive


@reading("all-ack: whether the relayer has counted the card", r.AllAck, "hand_over", "allack/counts_read_backwards")
def _(right):
    def hand_over(self, p, m):
        if all(p in self.counted.get((q, m), ()) for q in self.unsuspected(p)):
            self.sets[p].add(m)

    return hand_over


@reading("all-ack: counted is the note with the card's number", r.AllAck, "hand_over", "allack/counts_the_card_number")
def _(right):
    def hand_over(self, p, m):
        counted = set().union(*(cards for (q, _), cards in self.counted.items() if q == p))
        if m == p and self.unsuspected(p) <= counted:
            self.sets[p].add(m)

    return hand_over


@reading("all-ack: no relay at first receipt", r.AllAck, "receive", "spread/no_relay_at_first_receipt")
def _(right):
    def receive(self, sender, to, m):
        self.counted.setdefault((to, m), {to}).add(sender)
        self.hand_over(to, m)

    return receive


@reading("all-ack: handed over before all unsuspected cards are counted", r.AllAck, "hand_over")
def _(right):
    def hand_over(self, p, m):
        if len(self.unsuspected(p) - self.counted[p, m]) <= 1:
            self.sets[p].add(m)

    return hand_over


@reading("all-ack: the poster is handed its note at once", r.AllAck, "posted", "allack/poster_handed_at_once")
def _(right):
    def posted(self, p, m):
        right(self, p, m)
        self.sets[p].add(m)

    return posted


@reading("all-ack: a suspicion hands nothing over", r.AllAck, "suspected", "allack/suspicion_hands_nothing_over")
def _(right):
    return lambda self, q: None


@reading("all-ack: the relayer is not counted", r.AllAck, "receive", "allack/relayer_not_counted")
def _(right):
    def receive(self, sender, to, m):
        self.relay(to, m)
        self.hand_over(to, m)

    return receive


@reading("all-ack: the first receipt does not count the relayer", r.AllAck, "receive")
def _(right):
    def receive(self, sender, to, m):
        if (to, m) in self.counted:
            right(self, sender, to, m)
        else:
            self.relay(to, m)
            self.hand_over(to, m)

    return receive


@reading("all-ack: a receipt from a suspected card does nothing", r.AllAck, "receive")
def _(right):
    def receive(self, sender, to, m):
        if (to, sender) not in self.doubts:
            right(self, sender, to, m)

    return receive


# The board.


@reading("board: the poster gets no item", r.Board, "posted")
def _(right):
    def posted(self, p, m):
        right(self, p, m)
        self.wire.remove((r.CARRIER, p, m))
        self.sets[p].add(m)

    return posted


@reading("board: the poster is the sender", r.Board, "posted")
def _(right):
    def posted(self, p, m):
        right(self, p, m)
        self.wire = [(p if load == m else sender, to, load) for sender, to, load in self.wire]

    return posted


@reading("board: an item for a crashed card", r.Board, "posted")
def _(right):
    return lambda self, p, m: self.wire.extend((r.CARRIER, to, m) for to in range(self.n))


@reading("board: an item is of the note with the poster's number", r.Board, "posted", "board/announces_the_card")
def _(right):
    return lambda self, p, m: right(self, p, p)


@reading("board: a receipt hands nothing over", r.Board, "receive", "board/handed_note_dropped")
def _(right):
    return lambda self, sender, to, m: None


@reading("board: what comes is the note with the card's number", r.Board, "receive", "tables/adds_the_card")
def _(right):
    return lambda self, sender, to, m: right(self, sender, to, to)


@reading("board: the wire has no room for the last of 192 items", r.Board, "posted", "board/room_too_small")
def _(right):
    def posted(self, p, m):
        right(self, p, m)
        del self.wire[191:]

    return posted


# In turn. The layer's handed set is made from the posts, their posters and what is handed below.


@reading(
    "in-turn: all counts that is handed below",
    r,
    "held_in_turn",
    "inturn/blocked_card_forgotten",
    "inturn/handed_as_below",
)
def _(right):
    return lambda order, poster, below: set(below)


@reading("in-turn: the order is by note number", r, "held_in_turn", "inturn/order_by_note_number")
def _(right):
    return lambda order, poster, below: right(sorted(order), poster, below)


@reading("in-turn: posters are not compared", r, "held_in_turn", "inturn/missing_note_blocks_every_card")
def _(right):
    return lambda order, poster, below: right(order, {m: 0 for m in poster}, below)


@reading("in-turn: the last post does not count", r, "held_in_turn")
def _(right):
    return lambda order, poster, below: right(order[:-1], poster, below)


@reading("in-turn: a note counts once the earlier ones are handed", r, "held_in_turn", "inturn/the_note_itself_not_asked_for")
def _(right):
    def held(order, poster, below):
        blocked, out = set(), set()
        for m in order:
            if poster[m] not in blocked:
                out.add(m)
            if m not in below:
                blocked.add(poster[m])
        return out

    return held


@reading("in-turn: the last post of each card does not count", r, "held_in_turn")
def _(right):
    def held(order, poster, below):
        last = {poster[m]: m for m in order}
        return right(order, poster, below) - set(last.values())

    return held


@reading("in-turn: all posts of a card count once one of them is handed", r, "held_in_turn", "inturn/any_of_the_posts_handed")
def _(right):
    def held(order, poster, below):
        begun = {poster[m] for m in order if m in below}
        return {m for m in order if poster[m] in begun}

    return held


@reading("in-turn: the walk is from the end, so that a missing note keeps back the earlier ones", r, "held_in_turn", "inturn/walk_from_the_end")
def _(right):
    return lambda order, poster, below: right(order[::-1], poster, below)


@reading(
    "in-turn: a refused post blocks its poster",
    r.Broadcast,
    "post",
    "inturn/refused_post_recorded",
    "inturn/table_filled_before_post_accepted",
)
def _(right):
    def post(self, p, m):
        try:
            right(self, p, m)
        except r.Refused as refused:
            if refused.number == 4:
                self.poster[m] = p
            raise

    return post


@reading("in-turn: the first post does not count", r, "held_in_turn", "inturn/first_post_not_counted")
def _(right):
    return lambda order, poster, below: right(order, poster, below) - set(order[:1])


@reading(
    "in-turn: there is no room for the last of 32 posts",
    r,
    "held_in_turn",
    "inturn/last_post_not_recorded",
    "inturn/room_for_31_posts",
)
def _(right):
    return lambda order, poster, below: right(order[:31], poster, below)


@reading(
    "in-turn: poster and note are exchanged",
    r,
    "held_in_turn",
    "inturn/note_and_card_exchanged",
    "inturn/post_recorded_the_other_way_round",
)
def _(right):
    def held(order, poster, below):
        blocked, out = set(), set()
        for m in order:
            if poster[m] not in below:
                blocked.add(m)
            elif m not in blocked:
                out.add(poster[m])
        return out

    return held


def in_turn_with(words, edit, **methods):
    """A reading by which the layer has other methods than those of the broadcast below."""

    @reading("in-turn: " + words, r, "in_turn", edit)
    def _(right):
        return lambda lower: type("InTurn", (right(lower),), methods)


in_turn_with("a carry loses the item", "inturn/carry_loses", carry=lambda self, i: self.lose(i))
in_turn_with("a loss carries the item", "inturn/lose_carries", lose=lambda self, i: self.carry(i))
in_turn_with("a crash is a suspicion of oneself", "inturn/crash_suspects", crash=lambda self, p: self.suspect(p, p))
in_turn_with("no card has crashed", "inturn/has_crashed_if_it_suspects_itself", has_crashed=lambda self, p: False)


# The register.


@reading("register: the last that is carried stays", r.Register, "receive", "register/register_overwritten")
def _(right):
    def receive(self, p, to, k):
        self.register.pop(k, None)
        right(self, p, to, k)

    return receive


@reading("register: every card decides its own proposal", r.Register, "receive", "register/decides_its_own_proposal")
def _(right):
    def receive(self, p, to, k):
        right(self, p, to, k)
        if (k, p) in self.decision:
            self.decision[k, p] = self.proposal[k, p]

    return receive


@reading("register: the item of a crashed card fills nothing", r.Register, "receive")
def _(right):
    def receive(self, p, to, k):
        if p not in self.down:
            right(self, p, to, k)

    return receive


@reading("register: all proposers decide at once", r.Register, "receive")
def _(right):
    def receive(self, p, to, k):
        right(self, p, to, k)
        for q in range(self.n):
            if (k, q) in self.proposal and q not in self.down:
                self.decision[k, q] = self.register[k]

    return receive


@reading("register: every proposal is sent by card 0", r.Register, "proposed", "register/item_from_another_card")
def _(right):
    return lambda self, p, k: self.wire.append((0, r.CARRIER, k))


@reading("register: it is filled with no notes before the first item", r.Register, "__init__", "register/new_registers_not_empty")
def _(right):
    def init(self, n):
        right(self, n)
        self.register = {k: frozenset() for k in range(32)}

    return init


@reading("register: one register serves all instances", r.Register, "receive", "register/register_of_the_first")
def _(right):
    def receive(self, p, to, k):
        right(self, p, to, k)
        if (k, p) in self.decision and 0 in self.register:
            self.decision[k, p] = self.register[0]

    return receive


# Flooding.


@reading(
    "flooding: an item of a suspected card is counted",
    r.Flood,
    "receive",
    "flooding/item_of_a_suspected_card_counted",
    "flooding/new_item_of_a_suspected_card_counted",
)
def _(right):
    def receive(self, sender, to, load):
        doubted, self.doubts = self.doubts, self.doubts - {(to, sender)}
        if (load[0], to) not in self.decision and load[1] == self.round.get((load[0], to), 0):
            self.count(load[0], to, sender, load[2])
        self.doubts = doubted
        right(self, sender, to, load)
        if (load[0], to) in self.round:
            self.move(load[0], to)

    return receive


@reading(
    "flooding: a kept item counts though its sender is suspected by now",
    r.Flood,
    "enter",
    "flooding/kept_item_of_a_suspected_card_counted",
)
def _(right):
    def enter(self, k, p, n):
        doubted, self.doubts = self.doubts, {pair for pair in self.doubts if pair[0] != p}
        right(self, k, p, n)
        self.doubts = doubted

    return enter


@reading("flooding: one round fewer", r.Flood, "last_round", "flooding/one_round_fewer", "histories/one_round_fewer")
def _(right):
    return lambda self: max(self.n - 1, 1)


@reading("flooding: the highest known card's proposal is decided", r.Flood, "decided_of", "flooding/highest_known_decides")
def _(right):
    return lambda self, k, known: self.proposal[k, max(known)]


@reading("flooding: a card decides its own proposal", r.Flood, "move")
def _(right):
    def move(self, k, p):
        right(self, k, p)
        if (k, p) in self.decision:
            self.decision[k, p] = self.proposal[k, p]

    return move


@reading("flooding: kept items are taken in before sending", r.Flood, "enter", "flooding/takes_in_before_sending")
def _(right):
    def enter(self, k, p, n):
        for sender, known in self.kept.get((k, p, n), []):
            if (p, sender) not in self.doubts:
                self.known[k, p] |= known
        right(self, k, p, n)

    return enter


@reading("flooding: what is kept for other cards in the round is let go", r.Flood, "enter", "flooding/items_of_other_cards_let_go")
def _(right):
    def enter(self, k, p, n):
        right(self, k, p, n)
        self.kept = {place: items for place, items in self.kept.items() if (place[0], place[2]) != (k, n)}

    return enter


@reading("flooding: counted cards are carried over to the next round", r.Flood, "enter", "flooding/counted_cards_carried_over")
def _(right):
    def enter(self, k, p, n):
        counted = self.counted.get((k, p), set())
        right(self, k, p, n)
        self.counted[k, p] |= counted

    return enter


@reading("flooding: an item of a later round is counted at once", r.Flood, "receive")
def _(right):
    def receive(self, sender, to, load):
        k, n, known = load
        at = self.round.get((k, to), 0)
        right(self, sender, to, (k, at if at else n, known))

    return receive


@reading("flooding: an item before the proposal is dropped", r.Flood, "receive")
def _(right):
    def receive(self, sender, to, load):
        if (load[0], to) in self.round:
            right(self, sender, to, load)

    return receive


@reading("flooding: a card moves only once", r.Flood, "may_move_again", "flooding/moves_only_once")
def _(right):
    return lambda self: False


@reading("flooding: a suspicion moves nobody", r.Flood, "suspected", "flooding/the_suspected_card_moves")
def _(right):
    return lambda self, q: None


@reading("flooding: there are no cards", r.Flood, "__init__", "flooding/new_without_cards")
def _(right):
    return lambda self, n: right(self, 0)


@reading("flooding: an item does nothing", r.Flood, "receive", "flooding/carried_item_does_not_arrive")
def _(right):
    return lambda self, sender, to, load: None


@reading("flooding: the proposer does not know itself", r.Flood, "proposed", "flooding/proposer_does_not_know_itself")
def _(right):
    def proposed(self, k, p):
        self.known[k, p] = set()
        self.enter(k, p, 1)
        self.move(k, p)

    return proposed


@reading("flooding: a proposal moves nobody", r.Flood, "proposed", "flooding/proposer_does_not_move_on")
def _(right):
    def proposed(self, k, p):
        self.known[k, p] = {p}
        self.enter(k, p, 1)

    return proposed


@reading("flooding: the length of the wire is that of what is kept", r.Flood, "wire_len", "flooding/length_of_what_is_kept")
def _(right):
    return lambda self: sum(len(items) for items in self.kept.values())


@reading("flooding: a loss is of what is kept", r.Flood, "lose", "flooding/lost_from_what_is_kept")
def _(right):
    def lose(self, i):
        kept = [(sender, place) for place, items in self.kept.items() for sender, _ in items]
        if i >= len(kept):
            raise r.Refused(6)
        if kept[i][0] not in self.down:
            raise r.Refused(7)
        self.kept[kept[i][1]].pop(0)

    return lose


@reading("flooding: the first item that is ever kept is passed over", r.Flood, "receive")
def _(right):
    def receive(self, sender, to, load):
        right(self, sender, to, load)
        if self.kept and not hasattr(self, "passed_over"):
            self.passed_over = self.kept.popitem()

    return receive


@contextlib.contextmanager
def misread(owner, name, make):
    own = name in vars(owner)
    right = getattr(owner, name)
    setattr(owner, name, make(right))
    try:
        yield
    finally:
        if own:
            setattr(owner, name, right)
        else:
            delattr(owner, name)


MOST_STEPS = 32 * (30 + 6 * (30 + 2))


def patient(right):
    """A settle that goes by a wrong reading may try what is refused, and would try it again: nothing changes. Or it may go on for ever: more
    than the most steps that the bound allows any run need not be seen."""

    def settle(self, limit):
        try:
            right(self, min(limit, MOST_STEPS + 1))
        except r.Refused:
            pass

    return settle


def report(schedule):
    try:
        return r.report(schedule)
    except (KeyError, IndexError, ValueError, TypeError) as broken:
        return "broken: %r" % broken


CRATES = os.path.join(os.path.dirname(os.path.dirname(os.path.abspath(__file__))), "crates")


def collection():
    top = os.path.join(CRATES, "collection", "data")
    for shelf in sorted(os.listdir(top)):
        for name in sorted(os.listdir(os.path.join(top, shelf))):
            if name.endswith(".schedule"):
                path = os.path.join(top, shelf, name)
                with open(path, "rb") as file, open(path[: -len("schedule")] + "report") as told:
                    yield shelf + "/" + name[: -len(".schedule")], file.read(), told.read()


def edits_there():
    for crate in CRATES_WITH_EDITS:
        for name in sorted(os.listdir(os.path.join(CRATES, crate, "must-fail"))):
            if name.endswith(".edit"):
                yield crate + "/" + name[: -len(".edit")]


def edits_amiss():
    """The edits that are not named exactly once, and the names that are no edit's."""
    named = [edit for _, _, _, _, edits in READINGS for edit in edits] + [edit for edits in UNTOLD.values() for edit in edits]
    there = set(edits_there())
    for edit in sorted(there | set(named)):
        if edit not in there:
            yield "no such edit: " + edit
        elif named.count(edit) != 1:
            yield "named %d times: %s" % (named.count(edit), edit)


def main():
    if sys.argv[1:]:
        sys.exit(__doc__.strip())
    schedules = list(collection())
    amiss = ["the second carrier differs from the report of " + name for name, schedule, told in schedules if r.report(schedule) != told]
    amiss += edits_amiss()
    r.Carrier.settle = patient(r.Carrier.settle)
    for words, owner, name, make, _ in READINGS:
        with misread(owner, name, make):
            tell = [where for where, schedule, told in schedules if report(schedule) != told]
        print("%4d tell: %s%s" % (len(tell), words, ", as %s" % min(tell, key=len) if tell else ""))
        if not tell:
            amiss.append("no schedule tells: " + words)
    for reason, edits in UNTOLD.items():
        print("untold, as %s: %s" % (reason, ", ".join(edits)))
    for words in amiss:
        print("AMISS", words)
    print("%d schedules, %d wrong readings, %d amiss" % (len(schedules), len(READINGS), len(amiss)))
    sys.exit(1 if amiss else 0)


if __name__ == "__main__":
    main()
