"""Cuts a trace into dialogues, and notes facts about each: an independent reading in Python for tests/traces.py. In a
segment between quiet marks, messages that share an ID of one end, directly or through others, are one dialogue. It
shares nothing with the code under test."""

import bisect
from collections import namedtuple

# What is read of an entry: who sent it, its kind, and its transaction IDs. What can't be read is None.
Heading = namedtuple("Heading", "end kind otid dtid")
# The entries between two quiet marks; and the number of the first entry after the directive `#: under way`, if there is
# one.
Segment = namedtuple("Segment", "headings under_way")
# A dialogue. numbers: its entries in the segment. ids: pairs of an end and octets. again: an ID of it came again.
# unsettled: the ID's owner may have had no part in the earlier use. is_over: it has an End or an Abort. unread: the
# number of the unreadable entry that may have been part of it. late: it begins after the directive. in_use: the IDs by
# which it may have been under way at the mark before it.
Cut = namedtuple("Cut", "numbers ids again unsettled is_over unread late in_use")
OTHER = {"A": "B", "B": "A"}


def own(heading):
    return {(heading.end, heading.otid)} if heading.otid is not None else set()


def peers(heading):
    return {(OTHER[heading.end], heading.dtid)} if heading.dtid is not None else set()


def ids_in(heading):
    """Returns the IDs of a message: its OTID belongs to its sender, its DTID to its receiver."""
    return own(heading) | peers(heading)


def is_last(heading):
    return heading.kind in ("End", "Abort")


def sent_from(headings):
    """Returns the IDs from which their owners sent one of these."""
    return set().union(*map(own, headings))


# ---- IDs that are used once


def connected(headings):
    """Returns the connected parts, as lists of numbers, by a union-find over the entries through their IDs."""
    above, first = list(range(len(headings))), {}

    def root(number):
        while above[number] != number:
            above[number] = above[above[number]]
            number = above[number]
        return number

    for number, heading in enumerate(headings):
        for id in ids_in(heading):
            above[root(number)] = root(first.setdefault(id, number))
    parts = {}
    for number in range(len(headings)):
        parts.setdefault(root(number), []).append(number)
    return [(numbers, False, False) for numbers in parts.values()]


# ---- IDs that may come again


class Course:
    """A dialogue as it develops."""

    def __init__(self):
        self.numbers, self.ids, self.used, self.begun, self.senders = [], set(), set(), set(), set()
        self.over, self.again, self.unsettled = None, False, False

    def add(self, number, heading):
        self.numbers.append(number)
        self.ids |= ids_in(heading)
        self.used |= own(heading)
        self.senders.add(heading.end)
        if heading.kind == "Begin":
            self.begun |= own(heading)
        if is_last(heading) and self.over is None:
            self.over = number

    def join(self, other):
        self.numbers += other.numbers
        for name in ("ids", "used", "begun", "senders"):
            getattr(self, name).update(getattr(other, name))
        self.over = min((over for over in (self.over, other.over) if over is not None), default=None)
        self.again |= other.again
        self.unsettled |= other.unsettled


class Coming:
    """The dialogues of a segment as its entries come: those whose IDs are free, and the others. `known` are the IDs
    from which their owners sent in an earlier segment. Dialogues may have been under way from the entry `under_way`
    on."""

    def __init__(self, known, under_way, linger):
        self.known, self.under_way, self.linger = known, under_way, linger
        self.done, self.live, self.named = [], [], set()

    def is_late(self, number):
        return self.under_way is not None and number >= self.under_way

    def accepts(self, heading, course):
        """Returns whether a message accepts the Begin of another dialogue, in which its sender sent nothing."""
        begun = peers(heading) & course.begun and heading.end not in course.senders
        return begun and not own(heading) & course.ids

    def is_free(self, course, number, heading):
        """Returns whether a message is the first of another dialogue that uses an ID of this one, which is over."""
        if course.over is None or not own(heading) & course.ids:
            return False
        if heading.kind == "Begin":
            return True
        if heading.kind != "Continue":
            return False
        # It may be part of a dialogue that began before the segment, if nobody named its destination ID in the segment.
        may_go_on = self.is_late(number) or peers(heading) & self.known
        is_new = bool(course.begun) and not peers(heading) & self.named
        return any(self.accepts(heading, it) for it in self.live) or may_go_on and is_new

    def take(self, number, heading):
        past = [it for it in self.live if it.over is not None and number > it.over + self.linger]
        past += [it for it in self.live if it not in past and self.is_free(it, number, heading)]
        self.live = [it for it in self.live if it not in past]
        self.done += past
        here = Course()
        for it in [it for it in self.live if it.ids & ids_in(heading)]:
            here.join(it)
            self.live.remove(it)
        self.note(here, ids_in(heading) - here.ids)
        here.add(number, heading)
        self.live.append(here)
        self.named |= ids_in(heading)

    def note(self, here, new):
        """Notes which of these IDs came again, and whether their owners had sent from them. In a dialogue that may
        have been under way, messages sent from them may be missing."""
        earlier = [(it, it.ids & new) for it in self.done]
        came = set().union(*(ids for _, ids in earlier))
        firm = set().union(*(ids if self.is_late(min(it.numbers)) else ids & it.used for it, ids in earlier))
        here.again |= bool(came)
        here.unsettled |= bool(came - firm)


def coming(segment, known, linger):
    """Returns the dialogues as they come."""
    courses = Coming(known, segment.under_way, linger)
    for number, heading in enumerate(segment.headings):
        courses.take(number, heading)
    return [(sorted(it.numbers), it.again, it.unsettled) for it in courses.done + courses.live]


# ---- facts about a dialogue


def unread_of(headings, unread, first):
    """Returns the unreadable entry that may have been part of a dialogue with that first entry."""
    at = bisect.bisect(unread, first) if headings[first].kind == "Begin" else 0
    return unread[at] if at < len(unread) else None


class Before:
    """What is known about earlier segments: the IDs from which their owners sent, and those that may be in use over a
    mark."""

    def __init__(self):
        self.sent, self.in_use = set(), set()

    def in_use_of(self, headings, ids):
        """Returns the IDs by which a dialogue may be one that was under way at the mark before it."""
        return peers(headings[0]) & self.sent | ids & self.in_use

    def add(self, segment, cuts):
        """Adds a segment with its dialogues."""
        self.sent |= sent_from(segment.headings)
        self.in_use -= set().union(*(it.ids for it in cuts))
        for it in cuts:
            both = {segment.headings[number].end for number in it.numbers} == {"A", "B"}
            if it.in_use or both and not it.is_over:
                self.in_use |= it.ids


def cut_segment(segment, before, is_once, linger):
    """Returns the dialogues of a segment, by their entries."""
    headings, found = segment.headings, []
    unread = [at for at, it in enumerate(headings) if not ids_in(it) and it.kind != "Unidirectional"]
    for numbers, again, unsettled in connected(headings) if is_once else coming(segment, before.sent, linger):
        mine = [headings[number] for number in numbers]
        ids = set().union(*map(ids_in, mine))
        late = segment.under_way is not None and numbers[0] >= segment.under_way
        in_use = set() if again else before.in_use_of(mine, ids)
        may_be = unread_of(headings, unread, numbers[0]) if ids else None
        found.append(Cut(numbers, ids, again, unsettled, any(map(is_last, mine)), may_be, late, in_use))
    return sorted(found, key=lambda it: it.numbers)


def cut(segments, is_once, linger=10_000):
    """Yields the dialogues of each segment of a trace."""
    before = Before()
    for segment in segments:
        cuts = cut_segment(segment, before, is_once, linger)
        before.add(segment, cuts)
        yield cuts
