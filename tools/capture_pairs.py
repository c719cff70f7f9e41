"""Finds the pairs of ends of a capture, each with its messages up to the first fault that may be of the pair."""

import collections

from capture_ends import Answers, Ends, text_of
from capture_frames import Fault
from signalling import Label


# The number of missing messages is unknown after a message with this fault: each of its segments may have it.
UNCOUNTED = "segment"
NO_CODE = None, None


class Pair:
    """The messages of one pair of ends, in order, up to the first fault; and that fault."""

    def __init__(self, ends):
        self.ends, self.messages, self.fault, self.behind, self.notes = ends, [], None, 0, []
        # Whether each message that is missing because of a fault is one that was found.
        self.is_counted = True
        # The pairs of codes that copies of its messages went between, which the ends do not show.
        self.hops = set()

    def both(self):
        """Returns the two ends, which may have one name."""
        return min(self.ends, key=text_of), max(self.ends, key=text_of)

    def stop(self, fault, is_counted=False):
        """Notes a fault, and whether it is of a message that was found. The first fault counts."""
        self.is_counted = self.is_counted and is_counted
        if self.fault is None or fault.place < self.fault.place:
            self.fault = fault

    def cut(self):
        """Keeps the messages before the fault, and counts the others."""
        if self.fault:
            whole, self.messages = self.messages, [one for one in self.messages if one.place < self.fault.place]
            self.behind = len(whole) - len(self.messages)


class Reach:
    """The point codes by which the messages of an end go, those of them that no other title has, and whether the end
    has a title itself, so that any transfer point may be on the way."""

    def __init__(self, addresses, titles):
        self.codes = {code_of(address) for address in addresses} - {NO_CODE}
        mine = {address.gt for address in addresses} | {None}
        self.own = {code for code in self.codes if titles[code] <= mine}
        self.has_title = len(mine) > 1


def code_of(address):
    """Returns the point code of an address with its network, or what an address of SUA has in its place."""
    return next(((address.ni, part) for part in (address.pc, address.gt, address.host) if part is not None), NO_CODE)


class Labels:
    """The labels that unreadable messages may have: each is two point codes with their network, in any order."""

    def __init__(self, labels):
        self.labels = {frozenset(((label.ni, label.opc), (label.ni, label.dpc))) for label in labels}
        self.codes = frozenset().union(*self.labels)

    def may_be_of(self, one, other, hops):
        """Returns whether a message with one of these labels may go between two ends, perhaps over these hops."""
        if not self.labels.isdisjoint(hops):
            return True
        if other.has_title and self.codes & one.own or one.has_title and self.codes & other.own:
            return True
        return any(frozenset((code, to)) in self.labels for code in one.codes for to in other.codes)


def with_ends(messages, addresses, words):
    """Returns the messages with known ends, with the faults of answers in them; the ends; and the faults of the other
    messages."""
    ends, known, faults = Ends(words.by, addresses), [], []
    for message in messages:
        sender, receiver = ends.name(message.sender), ends.name(message.receiver)
        if sender is None or receiver is None:
            lacking = f"nothing of {', '.join(words.by)} tells its {'sender' if sender is None else 'receiver'}"
            label = Label(message.sender.ni, message.sender.pc, message.receiver.pc)
            labels = None if None in label[1:] else frozenset([label])
            faults.append(Fault(message.place, "ends", lacking, labels))
        else:
            known.append(message)
    answers = Answers(ends, known, words)
    for message in known:
        answers.take(message)
    return known, ends, faults


def pairs_of(messages, ends):
    """Returns the pairs in the order in which they occur, with their messages and the faults of these."""
    pairs, known = {}, {}

    def pair_of(*two):
        if two not in known:
            both = frozenset(map(ends.find, two))
            known[two] = pairs.setdefault(both, Pair(both))
        return known[two]

    for message in messages:
        own = pair_of(message.sender, message.receiver)
        own.messages.append(message)
        own.hops |= message.hops
        if message.fault:
            for pair in [own, *(pair_of(*two) for two in message.fault.pairs)]:
                pair.stop(message.fault, pair is own and message.fault.name != UNCOUNTED)
        if len(own.ends) == 1:
            name = text_of(message.sender.name)
            own.stop(Fault(message.place, "ends", f"both ends are {name}: they can't be told apart so"), True)
    return list(pairs.values())


def stop_by(faults, pairs, ends):
    """Ends each pair at each fault of the capture that it may have, and removes the pair's messages after its first
    fault. Returns how many pairs each fault may be of."""
    titles = collections.defaultdict(set)
    for address in ends.named:
        titles[code_of(address)].add(address.gt)
    reaches = {end: Reach(ends.of(end), titles) for pair in pairs for end in pair.ends}
    met = {None: pairs}
    for fault in faults:
        if fault.labels not in met:
            labels = Labels(fault.labels)
            met[fault.labels] = [pair for pair in pairs if labels.may_be_of(*(reaches[end] for end in pair.both()), pair.hops)]
        for pair in met[fault.labels]:
            pair.stop(fault)
    for pair in pairs:
        pair.cut()
    return [len(met[fault.labels]) for fault in faults]


def lone_of(pair, ends):
    """Returns the messages of a pair to IDs that their receiver did not send before."""
    known, lone = set(), []
    for message in pair.messages:
        if message.dtid and (ends.find(message.receiver), message.dtid) not in known:
            lone.append(message)
        if message.otid:
            known.add((ends.find(message.sender), message.otid))
    return lone
