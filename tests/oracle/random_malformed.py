"""Makes random dialogues with a malformed message, and a random reaction of its receiver, for tests/malformed.py. An
entry is an end and octets, or None for a quiet mark."""

import random_dialogues
import random_traces
import runs
from decoding import KINDS
from ends import GENERAL, Message
from runs import OTHER

TAGS = {"OTID": 0x48, "DTID": 0x49}
OTHER_TAGS = bytes.fromhex("63603066687f00e2")
# Octets that are no component; the last has a code beyond a limit of the profile.
BAD_COMPONENTS = [bytes.fromhex(digits) for digits in (
    "a906020101020138", "a00602010102012d", "830602010102012d", "a103020101", "a1060200010002012d", "a105020002012d",
    "a1070202010102012d", "a1060a010102012d", "a10602010102022d", "a1060201010a012d", "a206020101300102",
    "a2050201010500",
    "a303020101", "a407050101800100", "a406020101840100", "a40702010180010000", "a10902010102012d050000",
    "0000", "00", "a1", "a108020101", "bf2206020101020138", "a480050080010100", "a10b0201010206010000000000",
)]
# Octets that are no dialogue portion; the last has a name that is a limit of the profile.
BAD_DIALOGUES = [bytes.fromhex(digits) for digits in (
    "6b00", "6b0728050603001186", "6b020500", "6b0b2809060700118605010101", "6b0428020600",
    "6b0d280b060700118605010101a000",
    "6b1e281c060700118605010101a011600f80020780a509060704000001001302",
    "6b1e281c060700118605010101a011600f80020780a109060704000001001382",
    "6b152812060700118605010101a0076405800100be0000", "6b0728050603060601",
)]
AFTER = [bytes.fromhex(digits) for digits in ("00", "0000", "0500", "6c00", "480101", "6203480101", "ff", "3003020101")]
FAULTS = "component component component dialogue cut cut after tag order size within twice kind empty".split()


class Spoiler:
    """Writes messages that are malformed."""

    def __init__(self, rng):
        self.rng, self.writer = rng, runs.Writer(rng, plain=rng.random() < 0.8)

    def good(self, message):
        return self.writer.message(message)

    def ids(self, message):
        """Returns the tag and the octets of each transaction ID."""
        found = [(TAGS["OTID"], message.otid)] if message.kind in ("Begin", "Continue") else []
        return found + ([(TAGS["DTID"], message.dtid)] if message.kind in ("Continue", "End", "Abort") else [])

    def assembled(self, message, ids, dialogue, components, *others):
        """Returns a message of these parts, which are octets."""
        element, parts = self.writer.element, [self.writer.element(tag, id) for tag, id in ids]
        portion = [element(0x6C, *components)] if components else []
        cause = [self.writer.integer(0x4A, message.cause)] if message.cause is not None else []
        return element(runs.TAGS[message.kind], *parts, *cause, dialogue, *portion, *others)

    def with_fault(self, message, fault):
        """Returns the octets of a message with that fault; some have none all the same."""
        rng, octets = self.rng, self.good(message)
        components = [self.writer.component(it) for it in message.components]
        ids, dialogue = self.ids(message), self.writer.dialogue(message.dialogue)
        if fault == "cut":
            return octets[: rng.randint(1, len(octets) - 1)]
        if fault == "after":
            return octets + rng.choice(AFTER)
        if fault == "tag":
            return bytes([rng.choice(OTHER_TAGS)]) + octets[1:]
        if fault == "kind":
            return bytes([rng.choice(sorted(KINDS))]) + octets[1:]
        if fault == "component":
            good = rng.sample(components, min(len(components), rng.choice([0, 0, 1])))
            components = [*components, rng.choice(BAD_COMPONENTS), *good]
        elif fault == "dialogue":
            dialogue = rng.choice(BAD_DIALOGUES)
        elif fault == "empty":
            return self.assembled(message, ids, dialogue, [b""])
        elif fault == "within":
            return self.assembled(message, ids, dialogue, components, rng.choice(AFTER))
        else:
            ids = self.with_bad_ids(ids, fault)
        return self.assembled(message, ids, dialogue, components)

    def with_bad_ids(self, ids, fault):
        rng, at = self.rng, self.rng.randrange(len(ids)) if ids else 0
        if not ids:
            return [(rng.choice(sorted(TAGS.values())), b"\1")]
        if fault == "order":
            return rng.choice([[*reversed(ids)], [(5, b""), *ids], [ids[0], (5, b""), *ids[1:]]])
        if fault == "size":
            size = rng.choice([0, 5])
            return [(tag, id.rjust(size, b"\1")[:size] if number == at else id) for number, (tag, id) in enumerate(ids)]
        tag, id = ids[at]
        # Twice alike, twice with different octets, one of the other sort, or missing.
        more = [(tag, id)], [(tag, id + b"\1")], [(0x91 - tag, id)]
        return rng.choice([*(ids + it for it in more), ids[:at] + ids[at + 1 :]])


# ---- reactions


class Reactions:
    """Makes messages by which an end may react to a message that is malformed."""

    def __init__(self, rng, table, end, ids):
        self.rng, self.table, self.end = rng, table, end
        self.own, self.peer = ids[end], ids[OTHER[end]]

    def dtid(self):
        """Returns mostly the right destination ID."""
        return self.peer if self.rng.random() < 0.92 else self.rng.choice([self.own, b"\x0b", self.peer + b"\1"])

    def otid(self):
        return self.own if self.rng.random() < 0.9 else self.rng.choice([self.peer, b"\x0b"])

    def abort(self):
        return Message("Abort", dtid=self.dtid(), cause=self.rng.choice([0, 1, 2, 2, 3, 3, 4]))

    def provider(self):
        """Returns an Abort by the provider of the dialogue service, or by the user."""
        return Message("Abort", dtid=self.dtid(), dialogue=self.rng.choice([("ABRT", 1)] * 3 + [("ABRT", 0), None]))

    def reject(self):
        rng = self.rng
        id, problem = rng.choice([None, None, 1, 1, 1, 2, 11]), rng.choice([0, 0, 0, 1, 1, 1, 2, 2, 2, 3])
        made = [("reject", id, rng.choice([GENERAL] * 15 + [1]), problem)]
        if rng.random() < 0.15:
            made += made if rng.random() < 0.5 else [("reject", None, GENERAL, rng.choice([0, 1, 2]))]
        if rng.random() < 0.3:
            made.insert(rng.randint(0, len(made)), random_dialogues.any_component(rng))
        return self.with_components(made)

    def with_components(self, components):
        if self.rng.random() < 0.5:
            return Message("End", dtid=self.dtid(), components=components)
        return Message("Continue", self.otid(), self.dtid(), components=components)

    def going_on(self):
        """Returns a message that has nothing to do with the malformed one, or that answers its components."""
        components = [random_dialogues.any_component(self.rng) for _ in range(self.rng.choice([0, 0, 1, 2]))]
        return self.with_components(components)

    def fitting(self, fault, kind):
        """Returns a reaction that fits a fault, in a message of that kind."""
        if fault in ("component", "empty"):
            reject = ("reject", self.rng.choice([None, 1]), GENERAL, self.rng.choice([0, 1, 2]))
            if self.rng.random() < 0.5:
                return Message("End", dtid=self.peer, components=[reject])
            return Message("Continue", self.own, self.peer, components=[reject])
        if fault == "dialogue" and self.rng.random() < 0.5:
            return Message("Abort", dtid=self.peer, dialogue=("ABRT", 1))
        causes = [0] if fault == "tag" else [2, 3, 4 if kind == "Begin" else 1]
        return Message("Abort", dtid=self.peer, cause=self.rng.choice(causes))

    def some(self, fault, kind):
        """Returns some reactions."""
        if self.rng.random() < 0.5:
            first, made = [(self.end, self.fitting(fault, kind))], self.rng.choice([0, 0, 0, 1])
        else:
            first, made = [], self.rng.choice([0, 1, 1, 2])
        kinds = [self.abort, self.abort, self.abort, self.provider, self.reject, self.going_on]
        return first + [(self.end, self.rng.choice(kinds)()) for _ in range(made)]


# ---- dialogues


def ids_of(rng):
    """Returns an ID of each end, now and then one for both."""
    return dict(zip("AB", rng.choice([(b"\1", b"\7"), (b"\1", b"\7"), (b"\1", b"\1"), (b"\0\0\1\1", b"\x81")])))


def messages(rng, table, ids):
    """Returns the messages of a dialogue, most of which keep the rules."""
    if rng.random() < 0.7:
        return [*random_traces.lawful(rng, table, ids)]
    made = random_dialogues.Transaction(rng, table)
    made.ids = ids
    return [*made.messages()]


def last(rng, message):
    """Returns an End or an Abort in place of a message of a transaction that began."""
    dialogue = message.dialogue if message.kind == "Continue" else None
    if rng.random() < 0.5:
        return Message("End", dtid=message.dtid, dialogue=dialogue, components=message.components)
    return Message("Abort", dtid=message.dtid, cause=rng.choice([None, 0, 2]))


def dialogue(rng, table):
    """Returns the entries of a dialogue in which one message is malformed, or now and then two."""
    ids, spoiler = ids_of(rng), Spoiler(rng)
    sent = messages(rng, table, ids)
    number, fault = rng.randrange(len(sent)), rng.choice(FAULTS)
    end, message = sent[number]
    if message.kind == "Continue" and rng.random() < 0.2:
        message = last(rng, message)
    before, rest = sent[:number], sent[number + 1 :]
    after = Reactions(rng, table, OTHER[end], ids).some(fault, message.kind)
    if rng.random() < 0.35:
        after = [*after, *rest] if rng.random() < 0.7 else [*rest, *after]
    made = [(of, spoiler.good(it)) for of, it in before]
    made.append((end, spoiler.with_fault(message, fault)))
    made += [(of, spoiler.good(it)) for of, it in after]
    if rng.random() < 0.1:
        of, it = rng.choice(sent)
        made.insert(rng.randint(0, len(made)), (of, spoiler.with_fault(it, rng.choice(FAULTS))))
    return made + [None] * (rng.random() < 0.25)
