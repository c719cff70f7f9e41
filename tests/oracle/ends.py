"""One end of TCAP as docs/MODEL.md describes it (Q.774 3.2 and 3.3; Q.771, operation classes): what it may send, what
it does with messages that it receives, what its provider replies, and its hidden steps. It was written from that page
alone, for tests/fuzz.py, and shares nothing with the code under test.

A message is a Message. A component is a tuple: ("invoke", id, linked, code), ("result", id, last, code), ("error", id,
code) or ("reject", id, of, number). A linked ID, the code of a result and the ID of a Reject may be None; `of` is 0 to
3, the kind of the problem: general, invoke, return result, return error."""

from dataclasses import dataclass, field

GENERAL, INVOKE, RESULT, ERROR = range(4)
# The classes that report success, and those that report failure.
SUCCESS, FAILURE = (1, 3), (1, 2)


class Refused(Exception):
    """A step that does not exist, with the number of its reason."""


@dataclass
class Message:
    """A message. The kind is "Unidirectional", "Begin", "Continue", "End" or "Abort". A dialogue is ("AARQ",),
    ("AARE", result, source, diagnostic), ("ABRT", source) or ("AUDT",)."""

    kind: str
    otid: bytes = None
    dtid: bytes = None
    cause: int = None
    dialogue: tuple = None
    components: list = field(default_factory=list)


class Table:
    """Operations by their codes: a class, the codes that may be linked, and whether an invocation may expire."""

    def __init__(self, operations, prearranged=False):
        self.operations, self.prearranged = operations, prearranged

    def class_of(self, code):
        return self.operations[code][0] if code in self.operations else None

    def linked(self, code):
        return self.operations[code][1] if code in self.operations else ()

    def expires(self, code):
        return code in self.operations and self.operations[code][2]


def needs(holds, reason):
    if not holds:
        raise Refused(reason)


class Half:
    """A half of a transaction."""

    def __init__(self, phase, own, peer, asked):
        self.phase, self.own, self.peer = phase, own, peer
        self.dialogue = "asked" if asked else "none"
        # The number of the entry that is its Begin, which the player of a run notes.
        self.entry = None
        # Own invocations by their IDs: the code, and whether the last answer came.
        self.out = {}
        # Received invocations, and received answers, by their IDs, the oldest first.
        self.inn, self.grants = {}, {}

    def copy(self):
        other = Half(self.phase, self.own, self.peer, False)
        other.dialogue, other.entry, other.out = self.dialogue, self.entry, dict(self.out)
        other.inn = {id: list(items) for id, items in self.inn.items()}
        other.grants = {id: list(items) for id, items in self.grants.items()}
        return other

    def is_open(self):
        return self.phase != "Closed"

    def close(self):
        self.phase, self.dialogue = "Closed", "none"
        self.out, self.inn, self.grants = {}, {}, {}

    def activate(self, own=None, peer=None):
        self.phase, self.own, self.peer = "Active", own or self.own, peer or self.peer
        if self.dialogue == "asked":
            self.dialogue = "confirmed"

    # ---- components that are sent

    def send(self, table, component):
        {"invoke": self.send_invoke, "result": self.send_result, "error": self.send_error, "reject": self.send_reject}[
            component[0]
        ](table, *component[1:])

    def send_invoke(self, table, id, linked, code):
        needs(table.class_of(code) is not None, 44)
        needs(id not in self.out, 45)
        if linked is not None:
            needs(any(code in table.linked(to) for to, _ in self.inn.get(linked, ())), 49)
        self.out[id] = (code, False)

    def take(self, items, id, fits):
        """Takes the oldest item of an ID that fits."""
        at = next(at for at, item in enumerate(items[id]) if fits(item))
        del items[id][at]
        if not items[id]:
            del items[id]

    def send_result(self, table, id, last, code):
        needs(id in self.inn, 46)
        allowed = [to for to, _ in self.inn[id] if table.class_of(to) in SUCCESS]
        needs(allowed, 47)
        needs(code is None or code in allowed, 48)
        if last:
            self.take(self.inn, id, lambda item: table.class_of(item[0]) in SUCCESS and code in (None, item[0]))

    def send_error(self, table, id, _code):
        needs(id in self.inn, 46)
        needs(any(table.class_of(to) in FAILURE for to, _ in self.inn[id]), 47)
        self.take(self.inn, id, lambda item: table.class_of(item[0]) in FAILURE)

    def send_reject(self, _table, id, of, number):
        if of == INVOKE:
            needs(any(number in problems for _, problems in self.inn.get(id, ())), 50)
            self.take(self.inn, id, lambda item: number in item[1])
        else:
            needs(of in (RESULT, ERROR) and id is not None, 50)
            needs(any(kind == of and number in problems for kind, problems in self.grants.get(id, ())), 50)
            self.take(self.grants, id, lambda item: item[0] == of and number in item[1])

    # ---- components that are received

    def receive(self, table, component):
        kind, id = component[:2]
        if kind == "invoke":
            self.receive_invoke(table, *component[1:])
        elif kind in ("result", "error"):
            self.receive_answer(table, kind == "result", id, kind == "error" or component[2])
        elif component[2] == INVOKE:
            self.out.pop(id, None)

    def is_sent(self, id):
        return id in self.out and not self.out[id][1]

    def receive_invoke(self, table, id, linked, code):
        problems = {1, 2, 3, 4}
        if id in self.inn:
            problems.add(0)
        if linked is not None:
            if not self.is_sent(linked):
                problems.add(5)
            elif not table.linked(self.out[linked][0]):
                problems.add(6)
            elif code not in table.linked(self.out[linked][0]):
                problems.add(7)
        self.inn.setdefault(id, []).append((code, frozenset(problems)))

    def receive_answer(self, table, is_result, id, last):
        own = table.class_of(self.out[id][0]) if self.is_sent(id) else None
        if own is None:
            problems = {0}
        elif own not in (SUCCESS if is_result else FAILURE):
            problems = {1}
        else:
            problems = {2} if is_result else {2, 3, 4}
            if last:
                self.out[id] = (self.out[id][0], True)
        self.grants.setdefault(id, []).append((RESULT if is_result else ERROR, frozenset(problems)))


def fits(half, message):
    """Returns whether a message that is sent over a half may have its dialogue portion."""
    dialogue = message.dialogue
    if message.kind == "Abort":
        if half.phase == "Received" and half.dialogue == "asked":
            rejects = dialogue and dialogue[0] == "AARE" and dialogue[1:3] == (1, "user") and 0 <= dialogue[3] <= 2
            return dialogue in (None, ("ABRT", 0)) or rejects
        return dialogue is None or (dialogue == ("ABRT", 0) and half.phase == "Active" and half.dialogue == "confirmed")
    if half.phase == "Received" and half.dialogue == "asked":
        return dialogue in (("AARE", 0, "user", 0), ("AARE", 0, "provider", 0))
    return dialogue is None


class End:
    """One end: its halves since the last quiet mark, also closed ones, the oldest first."""

    def __init__(self, table):
        self.table, self.halves = table, []

    def copy(self):
        other = End(self.table)
        other.halves = [half.copy() for half in self.halves]
        return other

    def with_own(self, id):
        return next((half for half in self.halves if half.own == id), None)

    def with_peer(self, id):
        return next((half for half in self.halves if half.peer == id), None)

    def open_with_own(self, id):
        half = self.with_own(id)
        return half if half and half.is_open() else None

    # ---- sending

    def send(self, message):
        """Sends a message. If it may not, raises Refused with the reason, and the end is unchanged."""
        before = [half.copy() for half in self.halves]
        try:
            self.try_to_send(message)
        except Refused:
            self.halves = before
            raise

    def try_to_send(self, message):
        if message.kind == "Unidirectional":
            return self.send_alone(message)
        if message.kind == "Begin":
            needs(self.with_own(message.otid) is None, 41)
            needs(message.dialogue in (None, ("AARQ",)), 43)
            half = Half("Sent", message.otid, None, message.dialogue is not None)
            self.halves.append(half)
        elif message.kind == "Continue":
            half = self.half_of_continue(message)
            needs(fits(half, message), 43)
            half.activate(own=message.otid)
        else:
            needs(message.cause is None, 42)
            half = self.with_peer(message.dtid)
            needs(half, 40)
            needs(half.is_open(), 42)
            needs(fits(half, message), 43)
        for component in message.components:
            half.send(self.table, component)
        if message.kind in ("End", "Abort"):
            half.close()
        return None

    def half_of_continue(self, message):
        half = self.with_own(message.otid)
        if half:
            needs(half.phase == "Active", 42)
            needs(half.peer == message.dtid, 40)
            return half
        half = self.with_peer(message.dtid)
        needs(half, 40)
        needs(half.phase == "Received", 42)
        return half

    def send_alone(self, message):
        needs(message.dialogue in (None, ("AUDT",)), 43)
        ids = set()
        for component in message.components:
            needs(component[0] == "invoke", 46)
            _, id, linked, code = component
            needs(self.table.class_of(code) is not None, 44)
            needs(self.table.class_of(code) == 4, 53)
            needs(id not in ids, 45)
            needs(linked is None, 49)
            ids.add(id)

    # ---- receiving

    def receive(self, message):
        """Receives a message. If it can't, raises Refused with the reason, and the end is unchanged."""
        if message.kind == "Begin":
            needs(self.with_peer(message.otid) is None, 41)
            half = Half("Received", None, message.otid, message.dialogue == ("AARQ",))
            self.halves.append(half)
        elif message.kind == "Continue":
            half = self.open_with_own(message.dtid)
            needs(half, 40)
            if half.phase == "Sent":
                needs(self.with_peer(message.otid) is None, 41)
                has_response = message.dialogue is not None and message.dialogue[0] == "AARE"
                needs(half.dialogue != "asked" or has_response, 43)
                half.activate(peer=message.otid)
            else:
                needs(half.peer == message.otid, 40)
        else:
            half = self.open_with_own(message.dtid) if message.kind != "Unidirectional" else None
            if half:
                half.close()
            return
        for component in message.components:
            half.receive(self.table, component)

    # ---- replies and hidden steps

    def reply_to(self, message):
        """Returns the cause of the Abort by which the provider may answer a message, or None if it may not."""
        if message.kind == "Begin" and self.with_peer(message.otid) is None:
            return 4
        if message.kind == "Continue" and not self.open_with_own(message.dtid):
            return 1
        return None

    def may_expire(self, half, id):
        return half.is_open() and id in half.out and (half.out[id][1] or self.table.expires(half.out[id][0]))

    def may_close(self, half):
        return half.is_open() and (half.phase == "Sent" or self.table.prearranged)

    def is_quiet(self):
        return not any(half.is_open() for half in self.halves)

    def make_room(self, message):
        """Ends the invocations whose IDs the message invokes again."""
        if message.kind == "Unidirectional":
            return
        half = self.with_peer(message.dtid) if message.kind == "End" else self.with_own(message.otid)
        for component in message.components:
            if half and component[0] == "invoke" and self.may_expire(half, component[1]):
                del half.out[component[1]]
