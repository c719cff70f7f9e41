"""Makes random traces for tests/traces.py: dialogues of tests/oracle/random_dialogues.py, some of them with a planted
fault, interleaved at random, with or without quiet marks between them. Their IDs are their own, come again, or are
few."""

import random_dialogues
import runs
import trace_rows
from ends import FAILURE, SUCCESS, Table
from trace_cut import Heading
from trace_rows import element

# Octets that are no message, but whose IDs can be read.
NO_MESSAGES = {
    "Begin": lambda own, peer: element("62", element("48", own), "6C00"),
    "Continue": lambda own, peer: element("65", element("48", own), element("49", peer), "6C00"),
    "End": lambda own, peer: element("64", element("49", peer), "6B00"),
    "Abort": lambda own, peer: element("67", element("49", peer), "4A0200FF"),
}
# Messages beyond a limit of the profile: an operation code of five octets.
WIDE = trace_rows.invoke("01", "0100000000")
BEYOND = {
    "Begin": lambda own, peer: trace_rows.begin(own, WIDE),
    "Continue": lambda own, peer: trace_rows.go_on(own, peer, WIDE),
    "End": lambda own, peer: trace_rows.end(peer, WIDE),
}
# Octets whose IDs can't be read, each with the kind that its tag gives.
UNREAD = [
    (None, trace_rows.OTHER_TAG),
    ("Begin", trace_rows.NO_OCTETS),
    ("End", trace_rows.FIVE_OCTETS),
    ("Begin", trace_rows.BAD_LENGTH),
    # Two originating IDs, or two destination IDs, that differ.
    ("Continue", "6509" "480101" "490101" "480102"),
    ("Abort", "6706" "490102" "490103"),
]
# Octets that are no message, whose kind and IDs are read all the same: for each form, its kind, whether it has an
# originating and a destination ID, and what makes the octets of the two IDs.
PARTLY_READ = [
    # The last element is cut.
    ("Begin", True, False, lambda own, peer: element("62", element("48", own), "6C09A1")),
    ("Continue", True, True, lambda own, peer: element("65", element("48", own), element("49", peer), "6B")),
    # An ID is missing, or is one of a sort that the kind lacks; the order is another one; or an ID is there twice.
    ("Continue", True, False, lambda own, peer: element("65", element("48", own))),
    ("End", True, True, lambda own, peer: element("64", element("49", peer), element("48", own))),
    ("Begin", True, True, lambda own, peer: element("62", element("49", peer), element("48", own))),
    ("Begin", True, False, lambda own, peer: element("62", element("48", own), element("48", own))),
    # Nothing is read after end-of-contents octets, or after an element whose length is a limit.
    ("Continue", True, False, lambda own, peer: element("65", element("48", own), "0000", element("49", peer))),
    ("Continue", True, False, lambda own, peer: element("65", element("48", own), "0485", element("49", peer))),
    # Another tag than a message's.
    (None, True, True, lambda own, peer: element("63", element("48", own), element("49", peer))),
]


def any_table(rng):
    """Returns an operation table with each operation that is invoked."""
    table = random_dialogues.any_table(rng)
    return Table({**table.operations, 99: (rng.choice([1, 2, 3, 4]), (), True)}, table.prearranged)


def sent(end, message, writer):
    """Returns a message's heading and digits."""
    ids = (message.otid if message.kind in ("Begin", "Continue") else None, message.dtid)
    return Heading(end, message.kind, *ids), writer.message(message).hex()


def no_message(rng, end, own, peer):
    """Returns an entry that is no message, with these IDs, some of them, or none that can be read."""
    chance = rng.random()
    if chance < 0.2:
        kind, digits = rng.choice(UNREAD)
        return Heading(end, kind, None, None), digits
    if chance < 0.5:
        kind, has_otid, has_dtid, form = rng.choice(PARTLY_READ)
        return Heading(end, kind, own if has_otid else None, peer if has_dtid else None), form(own.hex(), peer.hex())
    kinds = NO_MESSAGES if rng.random() < 0.6 else BEYOND
    kind = rng.choice(sorted(kinds))
    ids = (own if kind in ("Begin", "Continue") else None, None if kind == "Begin" else peer)
    return Heading(end, kind, *ids), kinds[kind](own.hex(), peer.hex())


def planted(rng, entries):
    """Returns the entries of a dialogue with a fault: one is sent twice, is missing, is the other end's, comes sooner,
    or is no message."""
    at, choice = rng.randrange(len(entries)), rng.random()
    if choice < 0.3:
        entries.insert(rng.randint(at, len(entries)), entries[at])
    elif choice < 0.5:
        del entries[at]
    elif choice < 0.6:
        heading, digits = entries[at]
        entries[at] = heading._replace(end="B" if heading.end == "A" else "A"), digits
    elif choice < 0.75:
        entries.insert(rng.randint(0, at), entries.pop(at))
    else:
        ids = [id for heading, _ in entries for id in (heading.otid, heading.dtid) if id is not None] or [b"\1"]
        entries.insert(at + 1, no_message(rng, rng.choice("AB"), rng.choice(ids), rng.choice(ids)))
    return entries


def answers_to(rng, table, invoked):
    """Returns answers to invocations as their classes allow; there may be none."""
    made = []
    for id, code in invoked:
        allowed = [("result", id, True, None)] * (table.class_of(code) in SUCCESS)
        allowed += [("error", id, 1)] * (table.class_of(code) in FAILURE)
        made += rng.sample(allowed, min(len(allowed), rng.choice([0, 1, 1])))
    return made


def lawful(rng, table, ids):
    """Yields the messages of a dialogue in which both ends keep the rules: they send in turn, and each hears the
    other."""
    ends, asks = rng.sample("AB", 2), rng.random() < 0.3
    count, heard = rng.choice([1, 2, 2, 3, 4]), []
    for number in range(count):
        end, peer = ends[number % 2], ends[1 - number % 2]
        # Each message has new invoke IDs.
        invoked = [(10 * number + at, rng.choice(random_dialogues.CODES)) for at in range(1, rng.choice([1, 2, 3]))]
        components = answers_to(rng, table, heard) + [("invoke", id, None, code) for id, code in invoked]
        dialogue = [("AARQ",), random_dialogues.ACCEPTED][number] if asks and number < 2 else None
        kind = "Begin" if number == 0 else "End" if number + 1 == count else "Continue"
        yield end, runs.Message(kind, ids[end], None if number == 0 else ids[peer], None, dialogue, components)
        heard = invoked


class Maker:
    """Makes the traces of one random table."""

    def __init__(self, rng):
        self.rng, self.table, self.writer = rng, any_table(rng), runs.Writer(rng, plain=True)
        self.next, self.few = 0, [bytes([number]) for number in range(1, rng.choice([3, 5, 12]))]

    def new_id(self):
        self.next += 1
        return self.next.to_bytes(self.rng.choice([2, 3, 4]), "big")

    def dialogue(self, how):
        rng = self.rng
        if rng.random() < 0.08:
            component = ("invoke", 1, None, rng.choice(random_dialogues.CODES))
            return [sent(rng.choice("AB"), runs.Message("Unidirectional", components=[component]), self.writer)]
        ids = {end: self.new_id() if how == "own" else rng.choice(self.few) for end in "AB"}
        if how == "tangled" and rng.random() < 0.3:
            messages = random_dialogues.FewIds(rng).messages()
        elif rng.random() < 0.6:
            messages = lawful(rng, self.table, ids)
        else:
            made = random_dialogues.Transaction(rng, self.table)
            made.ids, messages = ids, made.messages()
        entries = [sent(end, message, self.writer) for end, message in messages]
        return planted(rng, entries) if rng.random() < 0.25 else entries

    def segment(self):
        """Returns the entries of a segment: dialogues side by side, or one after the other, or both."""
        rng, how = self.rng, self.rng.choice(["own", "again", "again", "tangled"])
        dialogues = [self.dialogue(how) for _ in range(rng.choice([1, 2, 3, 4, 6, 8]))]
        side_by_side = {"own": 6, "again": 2, "tangled": 4}[how]
        made, under_way = [], []
        while dialogues or under_way:
            while dialogues and len(under_way) < side_by_side and (not under_way or rng.random() < 0.4):
                under_way.append(dialogues.pop(0))
            one = rng.choice(under_way)
            if one:
                made.append(one.pop(0))
            else:
                under_way.remove(one)
        return made

    def segments(self):
        """Yields a segment, or its parts if quiet marks come too early."""
        made = self.segment()
        while len(made) > 1 and self.rng.random() < 0.3:
            at = self.rng.randrange(1, len(made))
            yield made[:at]
            made = made[at:]
        yield made

    def trace(self):
        """Returns the segments of a trace, with a quiet mark between two; and whether one comes after the last."""
        segments = [part for _ in range(self.rng.choice([1, 1, 2, 3])) for part in self.segments()]
        return segments, self.rng.random() < 0.3
