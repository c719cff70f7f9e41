"""Plays random runs of two ends with tests/oracle/ends.py, for tests/fuzz.py: records with the certificate of the
fates of their messages. Both ends keep the rules, or only one of them, and the other sends anything."""

import json

from ends import ERROR, INVOKE, RESULT, End, Message, Refused, Table

OTHER = {"A": "B", "B": "A"}
IDS = [bytes.fromhex(digits) for digits in "01 02 03 0001 00000001 ff 7fffffff abcd 00 04 05 06 07 08 09 0a".split()]
INVOKE_IDS = [1, 2, 3, 0, -1, 127, -128]
LOCALS = [45, 46, 47, 48, 50, -1, 2**31 - 1, -(2**31), 128]
GLOBALS = [bytes.fromhex(digits) for digits in "2a0304 2a0305 2a 04000001001302".split()]
DIALOGUE, UNIDIALOGUE = bytes.fromhex("060700118605010101"), bytes.fromhex("060700118605010201")
CONTEXT = bytes.fromhex("a109060704000001001302")
TAGS = {"Unidirectional": 0x61, "Begin": 0x62, "End": 0x64, "Continue": 0x65, "Abort": 0x67}


# ---- tables


def code_text(code):
    return code.hex() if isinstance(code, bytes) else code


def table_text(table):
    """Returns the text of a table."""
    rows = []
    for code, (operation_class, linked, expires) in table.operations.items():
        row = {"class": operation_class, "code": code_text(code)}
        if linked:
            row["linked"] = [code_text(other) for other in linked]
        if not expires:
            row["expires"] = False
        rows.append(row)
    return json.dumps({"operations": rows, "prearranged": table.prearranged}).encode()


def usual_table(rng):
    """Returns a table like that of the worked rows: an operation of each class, and one to which another may be
    linked."""
    lasting = rng.choice([(), (45,), (45, 46, 48), (45, 46, 47, 48)])
    rows = {code: (code - 44, (), code not in lasting) for code in (45, 46, 47, 48)}
    rows[50] = (1, (48,), True)
    return Table(rows, rng.random() < 0.2)


def any_table(rng):
    codes = rng.sample(LOCALS + GLOBALS, rng.randint(2, 9))
    rows = {}
    for code in codes:
        linked = tuple(rng.sample(codes, rng.randint(1, 2))) if rng.random() < 0.4 else ()
        rows[code] = (rng.randint(1, 4), linked, rng.random() < 0.6)
    return Table(rows, rng.random() < 0.3)


# ---- octets of messages


class Writer:
    """Writes messages; some lengths are padded or indefinite."""

    def __init__(self, rng, plain=False):
        self.rng, self.plain = rng, plain

    def element(self, tag, *contents):
        content, form = b"".join(contents), 9 if self.plain else self.rng.randrange(12)
        if form == 0 and tag & 0x20:
            return bytes([tag, 0x80]) + content + b"\0\0"
        size = len(content)
        octets = (size.bit_length() + 7) // 8 or 1
        if form == 1:
            octets = self.rng.randint(octets, 4)
        elif size < 0x80:
            return bytes([tag, size]) + content
        return bytes([tag, 0x80 | octets]) + size.to_bytes(octets, "big") + content

    def integer(self, tag, value):
        return self.element(tag, value.to_bytes((value + (value < 0)).bit_length() // 8 + 1, "big", signed=True))

    def code(self, code):
        return self.element(6, code) if isinstance(code, bytes) else self.integer(2, code)

    def parameter(self):
        if self.rng.random() < 0.7:
            return b""
        return self.element(self.rng.choice([4, 0x30, 0x80, 0xA0]), self.rng.choice([b"", b"\x04\0", b"\x04\x02ab"]))

    def component(self, component):
        kind, id = component[:2]
        own = b"\x05\0" if id is None else self.integer(2, id)
        if kind == "invoke":
            link = b"" if component[2] is None else self.integer(0x80, component[2])
            return self.element(0xA1, own, link, self.code(component[3]), self.parameter())
        if kind == "result":
            named = b"" if component[3] is None else self.element(0x30, self.code(component[3]), self.parameter())
            return self.element(0xA2 if component[2] else 0xA7, own, named)
        if kind == "error":
            return self.element(0xA3, own, self.code(component[2]), self.parameter())
        return self.element(0xA4, own, self.integer(0x80 + component[2], component[3]))

    def dialogue(self, dialogue):
        if dialogue is None:
            return b""
        kind = dialogue[0]
        version = self.rng.choice([b"", bytes.fromhex("80020780")])
        info = self.rng.choice([b"", b"", bytes.fromhex("be00"), bytes.fromhex("be022800")])
        if kind in ("AARQ", "AUDT"):
            pdu = self.element(0x60, version, CONTEXT, info)
        elif kind == "AARE":
            source = self.element(0xA1 if dialogue[2] == "user" else 0xA2, self.integer(2, dialogue[3]))
            outcome = self.element(0xA2, self.integer(2, dialogue[1])) + self.element(0xA3, source)
            pdu = self.element(0x61, version, CONTEXT, outcome, info)
        else:
            pdu = self.element(0x64, self.integer(0x80, dialogue[1]), info)
        syntax = UNIDIALOGUE if kind == "AUDT" else DIALOGUE
        return self.element(0x6B, self.element(0x28, syntax, self.element(0xA0, pdu)))

    def message(self, message):
        parts = []
        if message.otid is not None and message.kind in ("Begin", "Continue"):
            parts.append(self.element(0x48, message.otid))
        if message.dtid is not None and message.kind in ("Continue", "End", "Abort"):
            parts.append(self.element(0x49, message.dtid))
        if message.kind == "Abort" and message.cause is not None:
            parts.append(self.integer(0x4A, message.cause))
        else:
            parts.append(self.dialogue(message.dialogue))
        if message.components and message.kind != "Abort":
            parts.append(self.element(0x6C, *map(self.component, message.components)))
        return self.element(TAGS[message.kind], *parts)


# ---- messages of an end that keeps the rules


def invoke_for(rng, table, half):
    linked = None
    if half and half.inn and rng.random() < 0.4:
        linked = rng.choice(list(half.inn))
        may = [code for to, _ in half.inn[linked] for code in table.linked(to) if table.class_of(code)]
        if may:
            return ("invoke", rng.choice(INVOKE_IDS), linked, rng.choice(may))
    return ("invoke", rng.choice(INVOKE_IDS[: rng.choice([2, 7])]), linked, rng.choice(list(table.operations)))


def component_for(rng, table, half):
    """Returns a component that a half might send."""
    if half and half.inn and rng.random() < 0.5:
        id = rng.choice(list(half.inn))
        code, problems = rng.choice(half.inn[id])
        return rng.choice(
            [
                ("result", id, True, rng.choice([None, code])),
                ("result", id, False, rng.choice([None, code])),
                ("error", id, rng.choice([1, -5, 34, GLOBALS[0]])),
                ("reject", id, INVOKE, rng.choice(sorted(problems))),
            ]
        )
    if half and half.grants and rng.random() < 0.5:
        id = rng.choice(list(half.grants))
        kind, problems = rng.choice(half.grants[id])
        return ("reject", id, kind, rng.choice(sorted(problems)))
    return invoke_for(rng, table, half)


def free_ids(end):
    return [id for id in IDS if end.with_own(id) is None]


def head_for(rng, end):
    """Returns a message without components that an end may send, and the half over which it goes; or None if no ID is
    free."""
    halves = [half for half in end.halves if half.phase in ("Received", "Active")]
    free = free_ids(end)
    choice = rng.random()
    if choice < 0.04:
        return Message("Unidirectional", dialogue=rng.choice([None, ("AUDT",)])), None
    if not halves or choice < 0.1 + 0.2 / len(halves):
        dialogue = rng.choice([None, None, ("AARQ",)])
        return (Message("Begin", rng.choice(free), dialogue=dialogue), None) if free else None
    half = rng.choice(halves)
    kind = rng.choices(["Continue", "End", "Abort"], [10, 3, 1])[0]
    asked = half.phase == "Received" and half.dialogue == "asked"
    dialogue = rng.choice([("AARE", 0, "user", 0), ("AARE", 0, "provider", 0)]) if asked else None
    if kind == "Abort":
        if asked:
            dialogue = rng.choice([None, ("ABRT", 0), ("AARE", 1, "user", rng.randint(0, 2))])
        else:
            confirmed = half.phase == "Active" and half.dialogue == "confirmed"
            dialogue = rng.choice([None, ("ABRT", 0)]) if confirmed else None
    if kind == "Continue" and half.own is None and not free:
        return None
    own = None if kind != "Continue" else half.own if half.own is not None else rng.choice(free)
    return Message(kind, own, half.peer, dialogue=dialogue), half


def may_send(end, message):
    trial = end.copy()
    trial.make_room(message)
    try:
        trial.send(message)
    except Refused:
        return False
    return True


def message_for(rng, end):
    """Returns a message that an end may send, or None if none was found."""
    made = head_for(rng, end)
    if made is None:
        return None
    message, half = made
    if message.kind == "Unidirectional":
        fours = [code for code, row in end.table.operations.items() if row[0] == 4]
        ids = rng.sample(INVOKE_IDS, rng.randint(1, 2))
        message.components = [("invoke", id, None, rng.choice(fours)) for id in ids if fours]
        return message if fours else None
    if not may_send(end, message):
        return None
    for _ in range(rng.choice([0, 1, 1, 2, 3, 6]) if message.kind != "Abort" else 0):
        component = component_for(rng, end.table, half)
        message.components.append(component)
        if not may_send(end, message):
            message.components.pop()
    return message


# ---- messages of an end that keeps no rules


def any_dialogue(rng):
    return rng.choice(
        [
            None,
            ("AARQ",),
            ("AUDT",),
            ("ABRT", rng.choice([0, 1, 2])),
            ("AARE", rng.choice([0, 1, 2]), rng.choice(["user", "provider"]), rng.choice([0, 1, 2, 3])),
        ]
    )


def any_component(rng, table):
    id, code = rng.choice(INVOKE_IDS[:3]), rng.choice(list(table.operations) + LOCALS[:1])
    return rng.choice(
        [
            ("invoke", id, rng.choice([None, None, 1, 2]), code),
            ("result", id, rng.random() < 0.7, rng.choice([None, code])),
            ("error", id, 1),
            ("reject", rng.choice([id, id, id, None]), rng.randrange(4), rng.choice([0, 0, 1, 1, 2, 3, 4, 5, 6, 7, 8])),
        ]
    )


def any_message(rng, table, seen):
    """Returns a message of any kind, with IDs that were seen, or others."""
    ids = (seen or IDS[:3]) + IDS[:4]
    kind = rng.choices(list(TAGS), [1, 3, 3, 8, 3])[0]
    dialogue = any_dialogue(rng) if rng.random() < 0.3 else None
    message = Message(kind, rng.choice(ids), rng.choice(ids), dialogue=dialogue)
    if kind == "Abort" and rng.random() < 0.6:
        message.cause = rng.choice([1, 1, 1, 4, 4, 0, 2, 127])
    elif kind != "Abort":
        message.components = [any_component(rng, table) for _ in range(rng.choice([0, 1, 1, 2, 3]))]
        if kind == "Unidirectional" and not message.components:
            message.components = [any_component(rng, table)]
    return message


def with_other_part(rng, table, component, part):
    """Returns the component with one part, such as its ID, from another component of its kind."""
    others = [other for other in (any_component(rng, table) for _ in range(20)) if other[0] == component[0]]
    changed = list(component)
    changed[part] = others[0][part] if others else changed[part]
    return tuple(changed)


def any_reject(rng, half):
    """Returns a Reject of something that a half received, with a problem that may not be allowed."""
    if half.inn and rng.random() < 0.6:
        return ("reject", rng.choice(list(half.inn)), INVOKE, rng.randrange(9))
    if half.grants:
        id = rng.choice(list(half.grants))
        return ("reject", id, rng.choice(half.grants[id])[0], rng.randrange(6))
    return ("reject", rng.choice(INVOKE_IDS[:2]), rng.choice([INVOKE, RESULT, ERROR]), rng.randrange(3))


def with_fault(rng, end, message, seen):
    """Changes one thing in a message, which may then be wrong. Returns the message."""
    table, half = end.table, end.with_peer(message.dtid) if message.dtid is not None else None
    part, components = rng.randrange(12), message.components
    if part in (10, 11) and half and message.kind != "Abort":
        components.append(any_reject(rng, half))
        return message
    at = rng.randrange(len(components)) if components else 0
    if part == 0 and message.otid is not None:
        message.otid = rng.choice(seen + IDS[:4])
    elif part == 1 and message.dtid is not None:
        message.dtid = rng.choice(seen + IDS[:4])
    elif part == 2:
        message.dialogue = any_dialogue(rng)
    elif part == 3 and components:
        del components[at]
    elif part in (4, 5) and components:
        # The component comes twice, unchanged or with another ID.
        components.append(components[at] if part == 4 else with_other_part(rng, table, components[at], 1))
    elif part in (6, 7) and components:
        components[at] = with_other_part(rng, table, components[at], rng.choice([1, 2, -1]))
    elif message.kind != "Abort":
        message.components.insert(rng.randint(0, len(message.components)), any_component(rng, table))
    if message.kind == "Unidirectional" and not message.components:
        message.components = [any_component(rng, table)]
    return message


# ---- runs


class Play:
    """A run in progress, and the record and the certificate that it makes."""

    def __init__(self, rng, table, keepers, calm):
        self.rng, self.table, self.keepers, self.calm = rng, table, keepers, calm
        self.ends = {"A": End(table), "B": End(table)}
        # An entry is an end and a message, or None for a quiet mark.
        self.entries, self.fates, self.expire, self.close = [], [], [], []
        self.waiting, self.since = {"A": [], "B": []}, 0

    def chance(self, share):
        return self.rng.random() < (share / 5 if self.calm else share)

    # ---- a gap

    def pass_gap(self, last=False):
        for side in self.keepers:
            if self.chance(0.1):
                self.close_one(side)
        for side in self.keepers:
            if self.chance(0.25):
                self.expire_one(side)
        self.deliver(last)

    def close_one(self, side):
        """Closes a half, in a hidden step."""
        may = [half for half in self.ends[side].halves if self.ends[side].may_close(half) and half.entry is not None]
        if may:
            half = self.rng.choice(may)
            half.close()
            self.close.append({"at": len(self.entries), "end": side, "entry": half.entry})

    def expire_one(self, side):
        """Lets an invocation expire. Any Invoke of its ID in its half identifies it."""
        end, may = self.ends[side], []
        for number in range(self.since, len(self.entries)):
            sender, message = self.entries[number]
            half = end.with_own(message.otid) if sender == side and message.kind in ("Begin", "Continue") else None
            for place, component in enumerate(message.components if half else ()):
                if component[0] == "invoke" and end.may_expire(half, component[1]):
                    may.append((half, component[1], number, place))
        if may:
            half, id, number, place = self.rng.choice(may)
            del half.out[id]
            self.expire.append({"at": len(self.entries), "component": place, "end": side, "entry": number})

    def deliver(self, last):
        """Delivers or loses some of the waiting messages, in the order of the entries."""
        stopped = {side: not last and self.chance(0.5) for side in "AB"}
        while True:
            heads = [self.waiting[side][0] for side in "AB" if self.waiting[side] and not stopped[side]]
            if not heads:
                return
            number = min(heads)
            sender, message = self.entries[number]
            if self.chance(0.03) or last and self.chance(0.3):
                self.take(sender, "lost")
            elif self.receives(OTHER[sender], message, number):
                self.take(sender, len(self.entries))
            elif last or OTHER[sender] not in self.keepers or self.chance(0.5):
                # A message that can't be received is lost, now or later.
                self.take(sender, "lost")
            else:
                stopped[sender] = True
            if not last and self.chance(0.2):
                stopped[sender] = True

    def receives(self, side, message, number):
        end = self.ends[side]
        try:
            end.receive(message)
        except Refused:
            return False
        if message.kind == "Begin":
            end.halves[-1].entry = number
        return True

    def take(self, sender, fate):
        self.fates[self.waiting[sender].pop(0)] = fate

    # ---- an entry

    def add(self, side, message):
        self.waiting[side].append(len(self.entries))
        self.entries.append((side, message))
        self.fates.append("lost")

    def mark(self):
        """Adds a quiet mark, if all may be quiet: waiting messages are lost. Returns whether it did."""
        if not all(self.ends[side].is_quiet() for side in self.keepers):
            return False
        for side in "AB":
            while self.waiting[side]:
                self.take(side, "lost")
        self.entries.append(None)
        self.fates.append(len(self.entries))
        self.since = len(self.entries)
        self.ends = {"A": End(self.table), "B": End(self.table)}
        return True

    def reply(self, side):
        """Has the provider of an end answer the first message that waits for it. Returns whether it did."""
        other = OTHER[side]
        if not self.waiting[other]:
            return False
        _, message = self.entries[self.waiting[other][0]]
        cause = self.ends[side].reply_to(message)
        if cause is None:
            return False
        self.take(other, {"by": len(self.entries)})
        self.add(side, Message("Abort", dtid=message.otid, cause=cause))
        return True

    def seen(self):
        """Returns the transaction IDs so far."""
        messages = [entry[1] for entry in self.entries if entry]
        return [id for message in messages for id in (message.otid, message.dtid) if id is not None]

    def tell(self, side):
        """Sends any message of an end, often one that the rules allow."""
        end, message = self.ends[side], None
        asked = [entry[1].otid for entry in self.entries[self.since :] if entry and entry[0] != side and entry[1].otid]
        if asked and self.rng.random() < 0.06:
            # Its provider answers what it may not.
            message = Message("Abort", dtid=self.rng.choice(asked), cause=self.rng.choice([1, 1, 4]))
        elif self.rng.random() < 0.93:
            message = message_for(self.rng, end)
        if message is None:
            message = any_message(self.rng, self.table, self.seen())
        elif message.cause is None and self.rng.random() < 0.3:
            message = with_fault(self.rng, end, message, self.seen())
        if may_send(end, message):
            end.make_room(message)
            end.send(message)
            if message.kind == "Begin":
                end.halves[-1].entry = len(self.entries)
        self.add(side, message)
        return True

    def send(self, side):
        end = self.ends[side]
        if side not in self.keepers:
            return self.tell(side)
        message = message_for(self.rng, end)
        if message is None or not may_send(end, message):
            return False
        end.make_room(message)
        end.send(message)
        if message.kind == "Begin":
            end.halves[-1].entry = len(self.entries)
        self.add(side, message)
        return True

    def play_entry(self):
        """Adds an entry. Returns whether it did."""
        side = self.rng.choice("AB")
        for _ in range(8):
            choice = self.rng.random()
            if choice < 0.1:
                done = self.mark()
            elif choice < 0.35 and side in self.keepers:
                done = self.reply(side)
            else:
                done = self.send(side)
            if done:
                return True
            side = self.rng.choice("AB")
        return False

    def play(self, count):
        """Adds this many entries, or fewer if an end finds nothing to send; then the gap that was passed last is the
        last one."""
        self.pass_gap(last=count == 0)
        for at in range(count):
            if not self.play_entry():
                break
            self.pass_gap(last=at + 1 == count)
        for side in "AB":
            while self.waiting[side]:
                self.take(side, "lost")

    def certificate(self):
        return {"close": self.close, "expire": self.expire, "fates": self.fates, "version": 1}

    def octets(self, writer):
        """Returns the octets of each entry."""
        return [b"\x51" if entry is None else entry[0].encode() + writer.message(entry[1]) for entry in self.entries]
