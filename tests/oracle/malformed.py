"""Judges how an end of a dialogue reacts to a malformed message, octets that are no message of Q.773: an independent
reading of the rules of Q.774 3.2.1, 3.2.2.2 and 3.3.4 for what an end may do with such octets. It shares nothing with
the code under test.

X is the end that is judged, and m the malformed message of its peer. Each way in which X may have taken m is a
*reading*: a record without m, in which X is judged as usual. The first of these rules that applies decides:

0. The peer sent no malformed message, or X is blamed before the first: the usual verdict.
1. The peer sent several: `inconc`.
2. X aborts the transaction of m, and then goes on with it: `fail`.
3. X is LAWFUL in a reading that is not doubtful: `pass`.
4. X is LAWFUL in the doubtful reading: `inconc`.
5. In some reading X is neither LAWFUL nor blamed, or its blame is `inconc`: `inconc`.
6. In each reading X is blamed at an entry that is wrong no matter what X read in m: `fail`.
7. Otherwise: `inconc`."""

from dataclasses import dataclass, replace

from decoding import KINDS, Content, component, content_of, transaction
from elements import LIMITS, Fault, element_at, whole_elements
from ends import GENERAL, Message
from judgement import Entry

BEGIN, CONTINUE, END, ABORT = "Begin", "Continue", "End", "Abort"
OTID, DTID, DIALOGUE_PORTION, COMPONENT_PORTION, INVOKE_ID = 0x48, 0x49, 0x6B, 0x6C, 2
# The transaction IDs of each kind of message, in their order.
IDS_OF = {BEGIN: [OTID], CONTINUE: [OTID, DTID], END: [DTID], ABORT: [DTID]}
# The cause by which a provider refuses a Begin or a Continue.
REFUSES = {BEGIN: 4, CONTINUE: 1}
UNKNOWN_KIND, BAD_PORTIONS = 0, (2, 3)
# The general problems of a Reject that answers a bad component.
FITTING = (0, 1, 2)
NONE = object()


# ---- what is read of m


@dataclass(frozen=True)
class Heading:
    """What is read of octets that are no message: the kind, the IDs, and whether these are the first elements, as that
    kind has them. `follows` is the tag of the next whole element then."""

    kind: str
    otid: bytes = None
    dtid: bytes = None
    is_in_place: bool = False
    follows: bytes = None


def id_of(octets, element, tag):
    """Returns the octets of a transaction ID of that tag, or None if the element is none."""
    is_id = element.tag == bytes([tag]) and 1 <= element.end - element.begin <= 4
    return octets[element.begin : element.end] if is_id else None


def heading_of(octets):
    """Returns the heading of octets that are no message."""
    kind, bounds = KINDS.get(octets[0]) if octets else None, content_of(octets)
    if kind == "Unidirectional" or bounds is None:
        return Heading(kind)
    elements = whole_elements(octets, *bounds)
    found = {tag: {id_of(octets, it, tag) for it in elements} - {None} for tag in (OTID, DTID)}
    if any(len(ids) > 1 for ids in found.values()):
        return Heading(kind)
    otid, dtid = (next(iter(found[tag]), None) for tag in (OTID, DTID))
    wanted = IDS_OF.get(kind)
    if wanted is None:
        return Heading(kind, otid, dtid)
    first = [id_of(octets, it, tag) is not None for it, tag in zip(elements, wanted)]
    is_in_place = all(first) and len(first) == len(wanted) and not any(found[tag] for tag in found if tag not in wanted)
    follows = elements[len(wanted)].tag if is_in_place and len(elements) > len(wanted) else None
    return Heading(kind, otid, dtid, is_in_place, follows)


@dataclass(frozen=True)
class Sound:
    """The sound part of a message whose component portion is no list of components, and the invoke ID of the component
    at fault if it can be read."""

    message: Message
    id: int = None


def id_at_fault(octets, at, end):
    """Returns the invoke ID of the component that begins at an offset, or None if it can't be read."""
    try:
        faulty = element_at(octets, at, end)
        first = element_at(octets, faulty.begin, faulty.end) if faulty.begin < faulty.end else None
    except Fault:
        return None
    if first is None or first.tag != bytes([INVOKE_ID]) or first.end - first.begin != 1:
        return None
    return int.from_bytes(octets[first.begin : first.end], "big", signed=True)


def sound_part(octets):
    """Returns the sound part of octets that are no message, or None if they have none."""
    if not octets or KINDS.get(octets[0]) not in (BEGIN, CONTINUE):
        return None
    try:
        outer = element_at(octets, 0, len(octets))
        content = Content(octets, outer.begin, outer.end)
        message = transaction(KINDS[octets[0]], content)
        portion = content.take(COMPONENT_PORTION)[1]
    except Fault:
        return None
    if outer.next < len(octets) or content.at < content.end:
        return None
    while portion.at < portion.end:
        at = portion.at
        try:
            message.components.append(component(portion))
        except Fault:
            return Sound(message, id_at_fault(octets, at, portion.end))
    return None if message.components else Sound(message)


# ---- messages of X


def is_provider_abort(message):
    return message.kind == ABORT and message.cause is not None


def is_provider_abrt(message):
    """Returns whether a message is an Abort by the provider of the dialogue service."""
    return message.kind == ABORT and message.cause is None and message.dialogue == ("ABRT", 1)


def fits(component, sound):
    """Returns whether a component is a Reject of the component at fault."""
    if component[0] != "reject" or component[2] != GENERAL or component[3] not in FITTING:
        return False
    return component[1] is None or sound.id is not None and component[1] == sound.id


# ---- one malformed message


@dataclass(frozen=True)
class Reading:
    """A way in which X may have taken m: the entries as it read them, each with its number in the dialogue."""

    way: str
    entries: list
    numbers: list
    is_doubtful: bool = False


class Reaction:
    """The entries of a dialogue with one malformed message of the peer of X."""

    def __init__(self, entries, end, number):
        self.entries, self.end, self.number = entries, end, number
        octets = entries[number].octets
        self.heading, self.sound = heading_of(octets), sound_part(octets)
        self.is_opening = self.heading.kind in (BEGIN, CONTINUE) and self.heading.is_in_place
        self.later = [at for at in range(number + 1, len(entries)) if self.is_later(entries[at])]
        self.answer = self.answer_of_x()

    def is_later(self, entry):
        """Returns whether an entry is a message of X to the originating ID of m."""
        is_message = entry is not None and entry.end == self.end and entry.message is not None
        return is_message and self.heading.otid is not None and entry.message.dtid == self.heading.otid

    def message(self, number):
        return self.entries[number].message

    def has_answering_cause(self, message):
        """Returns whether a message has a cause by which a provider may answer octets that are no message."""
        causes = (*BAD_PORTIONS, UNKNOWN_KIND) if self.heading.kind is None else BAD_PORTIONS
        return message.kind == ABORT and message.cause in causes

    def answer_of_x(self):
        """Returns the number of the Abort by which X answers m, or None."""
        by_cause = [at for at in self.later if self.has_answering_cause(self.message(at))]
        by_abrt = [at for at in self.later if is_provider_abrt(self.message(at))]
        return next(iter([*by_cause, *by_abrt]), None)

    def goes_on(self):
        """Returns the number of the first message of X to m's originating ID after its answer that is no Abort of the
        provider, or None."""
        if self.answer is None:
            return None
        return next((at for at in self.later if at > self.answer and not is_provider_abort(self.message(at))), None)

    # ---- readings

    def reading(self, way, given, changed=(), is_doubtful=False):
        """Returns a reading: with that message in place of m, or without m if it is None; and likewise with each of the
        changed messages in place of the one with its number."""
        now = dict([(self.number, given), *changed])
        kept = [at for at in range(len(self.entries)) if now.get(at, NONE) is not None]
        entries = [Entry(self.entries[at].end, b"", now[at]) if at in now else self.entries[at] for at in kept]
        return Reading(way, entries, kept, is_doubtful)

    def closing(self):
        """Returns the Abort that stands for m if its half was closed, or None if m has no destination ID."""
        return Message(ABORT, dtid=self.heading.dtid) if self.heading.dtid is not None else None

    def rejecting(self):
        """Returns the first message of X that rejects the component at fault, with its number, and without that
        Reject; or None."""
        for at in self.later:
            components = self.message(at).components
            place = next((place for place, it in enumerate(components) if fits(it, self.sound)), None)
            if place is not None:
                return at, replace(self.message(at), components=components[:place] + components[place + 1 :])
        return None

    def refuses(self):
        """Returns whether X refuses m as if its portions after the IDs were not read."""
        if not self.is_opening or self.sound:
            return False
        later = map(self.message, self.later)
        return any(it.kind == ABORT and it.cause == REFUSES[self.heading.kind] for it in later)

    def names_answer(self):
        """Returns whether the answer is what Q.774 names for m."""
        message, kind = self.message(self.answer), self.heading.kind
        if self.sound or kind in (END, ABORT):
            return False
        if kind is None:
            return message.cause == UNKNOWN_KIND
        return message.cause in BAD_PORTIONS or self.heading.follows == bytes([DIALOGUE_PORTION])

    def readings(self):
        """Yields the readings, in their order."""
        yield self.reading("dropped", None)
        if self.heading.dtid is not None:
            yield self.reading("closed", self.closing())
        if self.sound:
            yield self.reading("in part", self.sound.message)
            rejected = self.rejecting()
            if rejected:
                yield self.reading("rejected", self.sound.message, [rejected])
        if self.answer is not None:
            is_doubtful = not self.names_answer() or self.goes_on() is not None
            yield self.reading("aborted", self.closing(), [(self.answer, None)], is_doubtful)
        if self.refuses():
            ids = self.heading.otid, self.heading.dtid if self.heading.kind == CONTINUE else None
            yield self.reading("refused", Message(self.heading.kind, *ids))

    # ---- what makes an entry a fault of X

    def ids_of(self, entry):
        """Returns the IDs of a message: that of X, and that of its peer; each may be None."""
        m = entry.message
        return (m.otid, m.dtid) if entry.end == self.end else (m.dtid, m.otid)

    def messages(self):
        return [entry for entry in self.entries if entry is not None and entry.message is not None]

    def is_known(self):
        """Returns whether both ends have only one transaction with the IDs of m, so that X, which answered m, may not
        go on (rule 2)."""
        own, peer = self.heading.dtid, self.heading.otid
        messages = self.messages()
        if self.heading.kind == BEGIN:
            return not any(it.end != self.end and it.message.otid == peer for it in messages)
        before = [it for it in self.entries[: self.number] if it is not None and it.message is not None]
        if not any(it.end == self.end and it.message.otid == own for it in before):
            return False
        # Each Continue with one of the two IDs has both.
        pairs = [self.ids_of(it) for it in messages if it.message.kind == CONTINUE]
        if any((ours == own) != (theirs == peer) for ours, theirs in pairs):
            return False
        begins = [it for it in messages if it.message.kind == BEGIN]
        return sum(it.message.otid == (own if it.end == self.end else peer) for it in begins) == 1

    def goes_on_wrongly(self):
        """Returns the number of the message with which X goes on although it aborted the transaction, or None."""
        return self.goes_on() if self.is_opening and self.is_known() else None

    def is_joined(self, number):
        """Returns whether a message before an Abort of X joins m's destination ID, as that of X, with the destination
        ID of the Abort."""
        joined = (self.heading.dtid, self.message(number).dtid)
        before = [it for it in self.entries[:number] if it is not None and it.message is not None]
        return self.heading.dtid is not None and any(self.ids_of(it) == joined for it in before)

    def may_answer(self, number):
        """Returns whether an Abort of the provider of X may answer m."""
        message, heading = self.message(number), self.heading
        if message.dtid == heading.otid:
            return message.cause in REFUSES.values() and not self.is_opening
        return heading.kind in (CONTINUE, None) and self.has_answering_cause(message) and self.is_joined(number)

    def is_fault(self, number):
        """Returns whether a blame at that entry holds no matter what X read in m."""
        entry = self.entries[number]
        if entry is None:
            return False
        if entry.message is None:
            return entry.end == self.end
        return is_provider_abort(entry.message) and not self.may_answer(number)


# ---- the verdict


@dataclass(frozen=True)
class Verdict:
    """A verdict on an end: the entry at fault, or the way of the reading in which it passes, with the number of messages
    that it did not hear. `rule` is the number of the rule that decides."""

    verdict: str
    entry: int = None
    way: str = None
    rule: int = None
    unheard: int = 0


def of_blame(blamed, is_sure=True, rule=0):
    """Returns the verdict of a blame."""
    return Verdict("fail", blamed.entry, rule=rule) if blamed.is_sure and is_sure else Verdict("inconc", rule=rule)


def today(judge, end, entries, may_pass):
    """Returns the verdict on an end whose peer sent no malformed message."""
    found = judge.of_end(end, entries)
    if found.what == "blamed":
        return of_blame(found)
    return Verdict("pass" if found.what == "lawful" and may_pass else "inconc", rule=0)


def by_readings(judge, reaction, may_pass, is_sure):
    """Returns the verdict by rules 3 to 7."""
    found = [(reading, judge.of_end(reaction.end, reading.entries)) for reading in reaction.readings()]
    lawful = [(reading, judged) for reading, judged in found if judged.what == "lawful"]
    sure = [(reading.way, judged.unheard) for reading, judged in lawful if not reading.is_doubtful]
    if sure:
        (way, unheard), *_ = sure
        # A message that is dropped was not heard.
        unheard += way == "dropped"
        return Verdict("pass", way=way, rule=3, unheard=unheard) if may_pass else Verdict("inconc", rule=3)
    if lawful:
        return Verdict("inconc", rule=4)
    if any(judged.what == "neither" or not judged.is_sure for _, judged in found):
        return Verdict("inconc", rule=5)
    at = [reading.numbers[judged.entry] for reading, judged in found]
    if all(map(reaction.is_fault, at)):
        return Verdict("fail", max(at), rule=6) if is_sure(max(at)) else Verdict("inconc", rule=6)
    return Verdict("inconc", rule=7)


def before_limit(entries):
    """Returns the entries before the first that is beyond a limit of the profile."""
    limits = [at for at, entry in enumerate(entries) if entry is not None and entry.fault in LIMITS]
    return entries[: limits[0]] if limits else entries


def malformed_of_peer(entries, end):
    """Returns the numbers of the malformed messages of the peer of an end."""
    bad = [at for at, entry in enumerate(entries) if entry is not None and entry.fault is not None]
    return [at for at in bad if entries[at].end != end]


def first_malformed(entries, end):
    """Returns the number of the first malformed message of the peer of an end, or None."""
    return next(iter(malformed_of_peer(before_limit(entries), end)), None)


def any_entry(_number):
    return True


def verdict_on(judge, end, entries, may_pass=True, is_sure=any_entry):
    """Returns the verdict on an end of a dialogue. An entry is one of judgement.py, or None for a quiet mark.
    `may_pass` and `is_sure`, of the number of a blamed entry, say what other dialogues of the trace allow."""
    kept = before_limit(entries)
    may_pass &= not any(entry is not None and entry.end == end for entry in entries[len(kept) :])
    malformed = malformed_of_peer(kept, end)
    if not malformed:
        found = today(judge, end, kept, may_pass)
        return found if found.verdict != "fail" or is_sure(found.entry) else Verdict("inconc", rule=0)
    before = judge.of_end(end, kept[: malformed[0]])
    if before.what == "blamed":
        return of_blame(before, is_sure(before.entry))
    if len(malformed) > 1:
        return Verdict("inconc", rule=1)
    reaction = Reaction(kept, end, malformed[0])
    gone_on = reaction.goes_on_wrongly()
    if gone_on is not None:
        return Verdict("fail", gone_on, rule=2) if is_sure(gone_on) else Verdict("inconc", rule=2)
    return by_readings(judge, reaction, may_pass, is_sure)
