"""Gives the evidence for a fault of an end, and the lines in which `tcapjudge explain` prints it after REFUTED and
BLAMED. It is an independent reading of docs/FORMAT.md (what `explain` prints) and docs/VERDICTS.md (the kinds), over
the output of `show` and `table`, and shares nothing else with the code under test. tests/facts.py compares the lines
with what the program prints.

Entries are named in order. If components are counted, an entry is named as often as it has such a component."""

from dataclasses import dataclass

from before import NO_HALF, Before, Half, is_end, is_request
from kinds import Sending, component_at_fault
from shown import (
    ANSWERS,
    BEGIN,
    CONTINUE,
    ERROR,
    GENERAL,
    INVOKE,
    LAST,
    NO_MESSAGE,
    NOT_LAST,
    OF_ERROR,
    OF_INVOKE,
    OF_RESULT,
    QUIET,
    REJECT,
    RESULTS,
)

# What each kind says about an entry.
WORDS = {
    "F1": "its octets are no message",
    "F2": "its peer sent nothing from the destination ID that it could answer",
    "F3": "its end has used the originating ID",
    "F4": "its end has ended this dialogue",
    "F5": "it answers or rejects what its peer never sent",
    "F6": "it invokes or answers an operation as the table does not allow",
    "F7": "its dialogue portion is one that it may not carry",
    "F8": "its end has no transaction over which it may send it",
    "F9": "its dialogue portion does not fit how the dialogue stands",
    "F10": "it invokes an ID that is in use",
    "F11": "it is linked to an invocation that its end did not receive, has answered, or may not link it to",
    "F12": "it answers an invocation that was answered already",
    "F13": "it rejects with a problem that nothing received has",
    "F14": "it is an Abort of the provider that answers nothing which is left",
}
HALVES = {
    "accepted": "began by the peer's Begin",
    "refused": "the peer's Begin was refused",
    "begun": "began by its own Begin, which the peer answered",
    "unanswered": "began by its own Begin, which no Continue with an AARE answers",
    "none": "none",
}
# Other possible causes.
ELSE = {
    "F1": ["`tcapjudge show --why RECORD` says what is wrong with its octets"],
    "F2": ["it may be, too, that a message of the peer is missing from the record"],
    "F3": ["it may be, too, that a quiet mark is missing, behind which IDs are free again, or a message"],
    "F15": ["it may be, too, that the mark was set too early, or that an End is missing from the record"],
}
OVER_HALF = {"F8", "F9", "F10", "F11", "F12", "F13"}
# The most entries that are named.
MOST = 8


# ---- what entries show


@dataclass(frozen=True)
class Ground:
    """Entries of an end that show something. If there are none, a line says so, or there is no line."""

    end: str
    words: str
    entries: list
    tells_none: bool = False

    def lines(self):
        if not self.entries and not self.tells_none:
            return []
        named = ", ".join(str(number) for number in self.entries[:MOST])
        more = f" and {len(self.entries) - MOST} more" if len(self.entries) > MOST else ""
        some = f"{'entry' if len(self.entries) == 1 else 'entries'} {named}{more}"
        return [f"{self.end}: {self.words}: {some if self.entries else 'none'}"]


def is_reject(of, *problems):
    """Returns a test whether a component is a Reject with a problem of that kind, and with one of these problems if
    any are given."""
    return lambda c: c.kind == REJECT and c.of == of and (not problems or c.problem in problems)


SORTS = {
    "Invokes": lambda c: c.kind == INVOKE,
    "linked Invokes": lambda c: c.kind == INVOKE and c.linked is not None,
    "Return Results": lambda c: c.kind in RESULTS,
    "Return Results Last": lambda c: c.kind == LAST,
    "Return Results Not Last": lambda c: c.kind == NOT_LAST,
    "Return Errors": lambda c: c.kind == ERROR,
    "Rejects with a general problem": is_reject(GENERAL),
    "Rejects with an invoke problem": is_reject(OF_INVOKE),
    "Rejects with duplicateInvokeID": is_reject(OF_INVOKE, 0),
    "Rejects with a problem of a link": is_reject(OF_INVOKE, 5, 6, 7),
    "Rejects with a return result problem": is_reject(OF_RESULT),
    "Rejects with a return error problem": is_reject(OF_ERROR),
}
LASTING = "not expiring Invokes"
# For these a line says that the peer sent none.
TOLD = {"Invokes", "linked Invokes", "Return Results", "Return Errors"}


class Scene:
    """A message at fault, the component at fault, and the invoke ID whose components are counted; for F11 that is the
    linked ID."""

    def __init__(self, sending, at, kind):
        self.sending, self.at, self.table, self.half = sending, at, sending.table, sending.half
        self.message, self.before = sending.message, sending.before
        self.end, self.peer = self.message.end, "B" if self.message.end == "A" else "A"
        self.component = None if at is None else self.message.components[at]
        self.id = self.component and (self.component.linked if kind == "F11" else self.component.id)

    # -- messages

    def from_there(self, words, passes):
        """Returns the peer's messages from the destination ID."""
        numbers = [m.number for m in self.sending.there if passes(m)]
        return Ground(self.peer, f"{words} from its destination ID", numbers, True)

    def begins(self):
        return self.from_there("Begins", lambda m: m.kind == BEGIN)

    def requests(self):
        return self.from_there("Begins with AARQ", is_request)

    def continues(self):
        return self.from_there("Continues", lambda m: m.kind == CONTINUE)

    def sent(self, words, passes, tells_none=False):
        """Returns own messages."""
        return Ground(self.end, words, [m.number for m in self.before.own if passes(m)], tells_none)

    def used(self):
        own = self.message.otid
        return self.sent("messages from its originating ID before it", lambda m: own is not None and m.otid == own)

    def gone_elsewhere(self):
        otid, dtid = self.message.otid, self.message.dtid
        words = "Continues from its originating ID to another ID before it"
        return self.sent(words, lambda m: m.kind == CONTINUE and m.otid == otid and m.dtid != dtid)

    def own_begins(self, words="Begins", passes=lambda m: m.kind == BEGIN):
        """Returns the own Begins from the own ID of the half, or else from that of the message."""
        own = self.message.otid if self.half.own is None else self.half.own
        return self.sent(f"{words} from the own ID", lambda m: passes(m) and m.otid == own, True)

    def own_requests(self):
        return self.own_begins("Begins with AARQ", is_request)

    def told(self, words="messages", passes=lambda m: m.cause is None):
        """Returns the own messages to the destination ID."""
        dtid = self.message.dtid
        return self.sent(f"{words} to its destination ID before it", lambda m: m.dtid == dtid and passes(m))

    def gone_on(self):
        return self.told("Continues", lambda m: m.kind == CONTINUE)

    def ended(self):
        return self.told("Ends and user Aborts", is_end)

    def replies(self, cause):
        return self.told(f"Aborts with cause {cause}", lambda m: m.cause == cause)

    # -- components of the invoke ID

    def counted(self, end, sort, messages, place, of_class=None):
        """Returns the components of that sort in these messages. If a class is given, only Invokes of that class."""

        def passes(c):
            is_lasting = c.kind == INVOKE and not self.table.expires(c.operation)
            is_sorted = is_lasting if sort == LASTING else SORTS[sort](c)
            return c.id == self.id and is_sorted and of_class in (None, self.table.class_of(c.operation))

        numbers = sorted(m.number for m in messages for c in m.components if passes(c))
        classed = "" if of_class is None else f" of class {of_class}"
        tells_none = end == self.peer and sort in TOLD and of_class is None
        return Ground(end, f"{sort} of {self.id}{classed} {place}", numbers, tells_none)

    def asked(self, sort, of_class=None):
        return self.counted(self.peer, sort, self.sending.there, "from its destination ID", of_class)

    def heard(self, sort, of_class=None):
        return self.counted(self.peer, sort, self.half.heard, "in this transaction", of_class)

    def invoked(self, sort, of_class=None):
        return self.counted(self.end, sort, self.half.invoked, "in this transaction", of_class)

    def ahead(self, sort):
        return self.counted(self.end, sort, self.sending.ahead_of(self.at), "before it")

    def whole(self, sort):
        messages = [*self.sending.told, self.message]
        return self.counted(self.end, sort, messages, "in its messages to its destination ID and in this one")


# ---- the evidence for each kind


def of_classes(place):
    """Returns the Invokes in a place, of any class and of each class that reports something."""
    return [place("Invokes", of_class) for of_class in (None, 1, 2, 3)]


def takings(s):
    """Returns what took an invocation before the component."""
    return [s.ahead(sort) for sort in ("Return Results Last", "Return Errors", "Rejects with an invoke problem")]


def answered(s):
    """F5. A Reject without ID, or with a general problem, is of nothing that could be read."""
    c = s.component
    if c.kind == REJECT and (c.id is None or c.of == GENERAL):
        return []
    return [s.asked({OF_RESULT: "Return Results", OF_ERROR: "Return Errors"}.get(c.of, "Invokes"))]


def allowed(s):
    """F6."""
    return of_classes(s.asked) if s.component.kind in ANSWERS else []


def dialogue(s):
    """F9."""
    return [s.own_begins(), s.own_requests()] if s.half.how == "begun" else [s.begins(), s.requests(), s.gone_on()]


def in_use(s):
    """F10."""
    heard = ("Return Results Last", "Return Results Not Last", "Return Errors")
    rejected = ("Rejects with an invoke problem", "Rejects with a general problem")
    refused = ("Rejects with a return result problem", "Rejects with a general problem")
    lasting = [s.invoked(LASTING, of_class) for of_class in (None, 1, 3)]
    return [s.whole("Invokes"), *lasting, *map(s.heard, heard + rejected), *map(s.whole, refused)]


def rejected_invoke(s):
    """F13 for an invoke problem: duplicateInvokeID, or a problem of a link."""
    if s.component.problem == 0:
        return [s.heard("Invokes"), s.ahead("Rejects with duplicateInvokeID")]
    if s.component.problem in (5, 6, 7):
        return [s.heard("linked Invokes"), s.ahead("Rejects with a problem of a link")]
    return []


def rejected(s):
    """F13."""
    if s.component.of == OF_INVOKE:
        return rejected_invoke(s)
    answers, of = ["Return Results", "Return Errors"], "result"
    if s.component.of == OF_ERROR:
        answers, of = answers[::-1], "error"
    return [*map(s.heard, answers), s.ahead(f"Rejects with a return {of} problem"), *of_classes(s.invoked)]


GROUNDS = {
    "F2": lambda s: [s.begins(), s.continues()],
    "F3": lambda s: [s.gone_elsewhere()],
    "F4": lambda s: [s.ended()],
    "F5": answered,
    "F6": allowed,
    "F7": lambda s: [s.begins(), s.requests()],
    "F8": lambda s: [s.begins(), s.replies(4), s.continues(), s.own_begins(), s.gone_on(), s.replies(1)],
    "F9": dialogue,
    "F10": in_use,
    "F11": lambda s: [s.heard("Invokes"), *takings(s)],
    "F12": lambda s: of_classes(s.heard) + takings(s),
    "F13": rejected,
    "F14": lambda s: [s.begins(), s.continues(), s.replies(4), s.replies(1), s.told()],
}
# The evidence for a message without destination ID; the other kinds are evident there.
ALONE = {"F3": lambda s: [s.used()], "F10": lambda s: [s.ahead("Invokes")]}


# ---- invocations whose operations and links a kind compares


def compared(s, kind):
    """Returns the messages that have them: for F6 of an answer, those from the destination ID; for F10, and for a
    Reject of an answer, those with own invocations; for F11, F12 and other Rejects, those that the half heard."""
    if kind == "F6":
        return s.sending.there if s.component.kind in ANSWERS else []
    if kind == "F10" or (kind == "F13" and s.component.of in (OF_RESULT, OF_ERROR)):
        return s.half.invoked
    return s.half.heard if kind in ("F11", "F12", "F13") else []


def invocation_line(s, number, c):
    of_class, linked = s.table.class_of(c.operation), "" if c.linked is None else f", linked to {c.linked}"
    classed = ", which the table lacks" if of_class is None else f", of class {of_class}"
    return f"invocation {s.id} in entry {number} is of {c.operation}{classed}{linked}"


def invocation_lines(s, kind):
    """Returns their lines in the order of their entries: the first eight, and how many more there are."""
    messages = sorted(compared(s, kind), key=lambda m: m.number)
    found = [(m.number, c) for m in messages for c in m.components if c.kind == INVOKE and c.id == s.id]
    more = [f"and {len(found) - MOST} more invocations of it"] if len(found) > MOST else []
    return [invocation_line(s, number, c) for number, c in found[:MOST]] + more


# ---- what is known about an entry at fault


@dataclass(frozen=True)
class Evidence:
    """The evidence for the fault of an entry: the component at fault, the half over which its message would go, what
    shows the fault, and the lines of the invocations whose operations and links are compared."""

    component: int = None
    half: Half = NO_HALF
    grounds: tuple = ()
    invocations: tuple = ()


def open_continues(before):
    """F15: the Continues from IDs whose halves are certainly open."""
    found = [m.number for m in before.own if m.kind == CONTINUE and before.is_surely_open(m.otid)]
    return Ground(before.end, "Continues of transactions that are open", found)


def since_mark(entries, number):
    """Returns the entries before that one, since the last quiet mark."""
    marks = [entry.number for entry in entries[:number] if entry.kind == QUIET]
    return entries[marks[-1] + 1 if marks else 0 : number]


def evidence(entries, table, end, number, kind, of_both=False):
    """Returns the evidence for that kind at an entry, for that end. If it is for both ends, F5 is asked as `judge`
    does."""
    entry, before = entries[number], Before(table, end, since_mark(entries, number))
    if entry.kind == NO_MESSAGE:
        return Evidence()
    if entry.kind == QUIET:
        return Evidence(grounds=(open_continues(before),))
    sending = Sending(before, entry)
    at = component_at_fault(sending, kind, of_both)
    shows = (GROUNDS if entry.dtid is not None else ALONE).get(kind, lambda s: [])
    s = Scene(sending, at, kind)
    return Evidence(at, sending.half, tuple(shows(s)), tuple(invocation_lines(s, kind)))


# ---- lines


def message_lines(entry, component):
    """Returns the lines of the message and of the component, as `show` prints them."""
    return [f"  {entry.head}"] + ([f"  {entry.components[component].line}"] if component is not None else [])


def half_lines(entry, kind, half):
    if kind not in OVER_HALF or entry.dtid is None:
        return []
    return [f"the transaction of {entry.end}: {HALVES[half.how]}" + (f", own ID {half.own}" if half.own else "")]


def else_lines(table, entry, kind, component):
    if kind != "F6":
        return ELSE.get(kind, [])
    c = entry.components[component]
    return ["the table lacks this operation"] if c.kind == INVOKE and not table.has(c.operation) else []


def lines(entries, table, end, number, kind, of_both=False):
    """Returns the lines of an entry at fault, without the two blanks before each."""
    entry, found = entries[number], evidence(entries, table, end, number, kind, of_both)
    shown = [line for ground in found.grounds for line in ground.lines()]
    if entry.kind == QUIET:
        return [f"entry {number}: a transaction of {end} is open at this quiet mark", *shown, *ELSE[kind]]
    component = "" if found.component is None else f", component {found.component}"
    first = f"entry {number} of {end}{component}: {WORDS[kind]}"
    if entry.kind == NO_MESSAGE:
        return [first, *ELSE[kind]]
    above = [first, *message_lines(entry, found.component), *half_lines(entry, kind, found.half)]
    return [*above, *shown, *else_lines(table, entry, kind, found.component), *found.invocations]
