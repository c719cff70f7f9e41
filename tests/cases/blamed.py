"""Records, with what `tcapjudge blame RECORD TABLE` prints of them: `tests/program.py` runs them. Those of ROWS are written
as in judged.py. Of those of faults.json the lines of both ends are made of what is known of these."""

import json

import judged
from judged import (
    ACCEPTED,
    AGAIN,
    BAD_VERSION,
    BEGIN,
    CONTINUE,
    END,
    INVOKE,
    LASTING,
    LINKED,
    NO_MESSAGE,
    REFUSED,
    REQUEST,
    RESULT,
    TABLE,
    TO_NINE,
    TWICE,
    UNEXPECTED,
    UNRECOGNIZED,
    WITH_RESULT,
)

FAULTS = "tests/cases/faults.json"

BACK, OTHER_OWN, UNHEARD = "6506480101490102", "6506480103490102", "6506480101490107"
BEGIN_7, TWO_RESULTS, DUPLICATE = "6203480107", "640F4901016C0AA203020101A203020101", "640D4901016C08A406020101810100"
END_1, BEGIN_2, FROM_7 = "6403490101", "6203480102", "6506480107490101"
INVOKE_FROM_5, WITH_RESULT_TO_5 = "65104801054901016C08A10602010102012D", "650D4801014901056C05A203020101"
# An End with a Reject of an invocation with a general problem.
UNREADABLE, MISTYPED, BADLY_STRUCTURED = (f"640D4901016C08A40602010180010{problem}" for problem in range(3))

# The entries, what is printed, and, where it is not TABLE, the table.
ROWS = [
    # Nothing is blamed: a lawful record, and one that no fact decides. An end is lawful alone or nothing is said of it.
    ("", ["LAWFUL 0", "LAWFUL A 0 unheard 0", "LAWFUL B 0 unheard 0"]),
    (f"A {INVOKE} B {RESULT}", ["LAWFUL 2", "LAWFUL A 2 unheard 0", "LAWFUL B 2 unheard 0"]),
    (f"A {REQUEST} B {ACCEPTED} A {END}", ["LAWFUL 3", "LAWFUL A 3 unheard 0", "LAWFUL B 3 unheard 0"]),
    ("Q Q", ["LAWFUL 2", "LAWFUL A 2 unheard 0", "LAWFUL B 2 unheard 0"]),
    (
        f"A {INVOKE} B {WITH_RESULT} A {UNRECOGNIZED}",
        ["UNDECIDED 0 66/51", "NOT BLAMED A 3", "LAWFUL B 3 unheard 0"],
        LASTING,
    ),
    (
        f"A {INVOKE} B {CONTINUE} B {WITH_RESULT} A {AGAIN} A {UNEXPECTED}",
        ["UNDECIDED 4 65/50", "NOT BLAMED A 5", "LAWFUL B 5 unheard 0"],
    ),
    # Each end by itself is lawful, and so is the record, though the certificate that is proposed does not show it.
    (
        f"A {BEGIN} B {CONTINUE} A {BACK} B {END_1} A {BACK}",
        ["LAWFUL 5", "LAWFUL A 5 unheard 0", "LAWFUL B 5 unheard 1"],
    ),
    # One end, by a kind that refutes.
    (f"A {INVOKE} B {TO_NINE}", ["REFUTED 1 F2", "BLAMED B 1 F2", "LAWFUL A 2 unheard 0"]),
    (f"A {BEGIN} B {CONTINUE} A {END} A {END}", ["REFUTED 3 F4", "BLAMED A 3 F4", "LAWFUL B 4 unheard 0"]),
    # One end, by a further kind: the record is undecided.
    (f"A {BEGIN} B {BEGIN_7} A {UNHEARD}", ["UNDECIDED 2 65/42", "BLAMED A 2 F8", "LAWFUL B 3 unheard 1"]),
    (f"A {REQUEST} B {CONTINUE}", ["UNDECIDED 1 65/43", "BLAMED B 1 F9", "LAWFUL A 2 unheard 1"]),
    (f"A {TWICE}", ["UNDECIDED 0 65/45", "BLAMED A 0 F10", "LAWFUL B 1 unheard 0"]),
    (f"A {INVOKE} B {LINKED}", ["UNDECIDED 1 65/49", "BLAMED B 1 F11", "LAWFUL A 2 unheard 0"]),
    (f"A {INVOKE} B {TWO_RESULTS}", ["UNDECIDED 1 65/46", "BLAMED B 1 F12", "LAWFUL A 2 unheard 0"]),
    (f"A {INVOKE} B {DUPLICATE}", ["UNDECIDED 1 65/50", "BLAMED B 1 F13", "LAWFUL A 2 unheard 0"]),
    (f"A {BEGIN} B {REFUSED} B {REFUSED}", ["UNDECIDED 1 64", "BLAMED B 2 F14", "LAWFUL A 3 unheard 0"]),
    (f"A {BEGIN} B {CONTINUE} Q", ["UNDECIDED 2 67", "BLAMED B 2 F15", "LAWFUL A 3 unheard 1"]),
    # An ID is free again, where the invocation may have ended unseen.
    (f"A {INVOKE} B {CONTINUE} A {AGAIN}", ["LAWFUL 3", "LAWFUL A 3 unheard 0", "LAWFUL B 3 unheard 0"]),
    # Both ends: the lower entry stands first, and at one mark A.
    (f"A {BEGIN} B {TO_NINE} A {TO_NINE}", ["REFUTED 1 F2", "BLAMED B 1 F2", "BLAMED A 2 F2"]),
    (f"A {TO_NINE} B {TO_NINE}", ["REFUTED 0 F2", "BLAMED A 0 F2", "BLAMED B 1 F2"]),
    (f"A {BEGIN} B {CONTINUE} A {BACK} Q", ["UNDECIDED 3 67", "BLAMED A 3 F15", "BLAMED B 3 F15"]),
    # What is refuted stands behind what is blamed first.
    (f"A {TWICE} B {TO_NINE}", ["REFUTED 1 F2", "BLAMED A 0 F10", "BLAMED B 1 F2"]),
    # A negative test: B breaks a rule, and A keeps them, or breaks one too.
    (
        f"B {BEGIN} A {CONTINUE} B {END} B {BACK} A 67064901014A0101",
        ["REFUTED 3 F4", "BLAMED B 3 F4", "LAWFUL A 5 unheard 0"],
    ),
    (
        f"B {BEGIN} A {CONTINUE} B {END} B {BACK} A 6506480103490101",
        ["REFUTED 3 F4", "BLAMED B 3 F4", "BLAMED A 4 F8"],
    ),
    # IDs that B tangles: it goes on from another ID, and A, which answers there, is not at fault.
    (
        f"B {BEGIN_2} A {BACK} B {INVOKE_FROM_5} A {WITH_RESULT_TO_5}",
        ["REFUTED 3 F3", "BLAMED B 2 F8", "NOT BLAMED A 4"],
    ),
    # An own ID that is used again once its transaction may be over: that end has no fault from there to the mark but octets that
    # are no message. Where the transaction goes on, it is a fault.
    (f"A {BEGIN} B {END_1} A {BEGIN}", ["REFUTED 2 F3", "NOT BLAMED A 3", "LAWFUL B 3 unheard 1"]),
    (f"A {BEGIN} B {CONTINUE} A {END} A {BEGIN}", ["REFUTED 3 F3", "NOT BLAMED A 4", "LAWFUL B 4 unheard 1"]),
    (f"A {BEGIN} B {CONTINUE} A {BEGIN}", ["REFUTED 2 F3", "BLAMED A 2 F3", "LAWFUL B 3 unheard 1"]),
    (f"A {BEGIN} B {END_1} A {BEGIN} A {TO_NINE}", ["REFUTED 2 F3", "NOT BLAMED A 4", "LAWFUL B 4 unheard 1"]),
    (f"A {BEGIN} B {END_1} A {BEGIN} Q A {TO_NINE}", ["REFUTED 2 F3", "BLAMED A 4 F2", "LAWFUL B 5 unheard 1"]),
    (f"A {BEGIN} B {END_1} A {BEGIN} A {NO_MESSAGE}", ["REFUTED 2 F3", "BLAMED A 3 F1", "NOT BLAMED B 3"]),
    # An own ID given to the peer's next dialogue tangles what the peer sends there, behind its End to that ID.
    (
        f"A {BEGIN} B {END_1} B {BEGIN_7} A {UNHEARD} B {FROM_7}",
        ["REFUTED 4 F4", "NOT BLAMED A 5", "NOT BLAMED B 5"],
    ),
    # A stack may call a component mistyped or badly structured that this profile takes; each is of a known type.
    (f"A {INVOKE} B {MISTYPED}", ["REFUTED 1 F5", "LAWFUL A 2 unheard 0", "NOT BLAMED B 2"]),
    (f"A {INVOKE} B {BADLY_STRUCTURED}", ["REFUTED 1 F5", "LAWFUL A 2 unheard 0", "NOT BLAMED B 2"]),
    (f"A {INVOKE} B {UNREADABLE}", ["REFUTED 1 F5", "BLAMED B 1 F5", "LAWFUL A 2 unheard 0"]),
    # Octets that are no message: what is behind them is not looked at, of either end, and is not counted.
    (f"A {BEGIN} A {NO_MESSAGE} B {TO_NINE}", ["REFUTED 1 F1", "BLAMED A 1 F1", "NOT BLAMED B 1"]),
    (f"A {BEGIN} B {NO_MESSAGE} B {TO_NINE}", ["REFUTED 1 F1", "BLAMED B 1 F1", "NOT BLAMED A 1"]),
    (f"A {BEGIN} A {BAD_VERSION} B {TO_NINE}", ["UNDECIDED 1 68/12", "NOT BLAMED A 1", "NOT BLAMED B 1"]),
]


def status_of(lines):
    """The exit status, by the lines that are printed: that of REFUTED only where an end is blamed."""
    if any(line.startswith("BLAMED") for line in lines):
        return judged.STATUSES["REFUTED"]
    return judged.STATUSES["LAWFUL" if lines[0].startswith("LAWFUL") else "UNDECIDED"]


def rows():
    """Of each row the octets of the record, those of the table, what is to be printed, and the exit status."""
    for entries, lines, *table in ROWS:
        status = status_of(lines)
        printed = "".join(f"{line}\n" for line in lines).encode()
        yield judged.octets_of(entries), (table or [TABLE])[0].encode(), printed, status


def line_alone(end, line, count):
    """What is printed of an end on which nothing is blamed, by what is said of it alone, where so many entries are looked at."""
    return line.replace("LAWFUL", f"LAWFUL {end}") if line.startswith("LAWFUL") else f"NOT BLAMED {end} {count}"


def lines_of(faults, alone, count):
    """What is printed of both ends, by the entry that is blamed on each and its kinds, and by what is said of each alone, where so
    many entries are looked at."""
    found = sorted((fault[0], end, fault[1][0]) for end, fault in faults.items() if fault)
    lines = [f"BLAMED {end} {entry} {kind}" for entry, end, kind in found]
    return lines + [line_alone(end, alone[end], count) for end, fault in faults.items() if not fault]


def first_line(line, ends, count):
    """The first line that is printed, by that of `judge` and the lines of both ends, where so many entries are looked at: that the
    record is lawful, where each end by itself is."""
    return f"LAWFUL {count}" if ends and all(it.startswith("LAWFUL") for it in ends) else line


def count_of(shown):
    """How many entries stand before the first that is no message, or how many there are, by what `show` prints."""
    entries = [line for line in shown.splitlines() if not line.startswith(b"  ")]
    return next((number for number, line in enumerate(entries) if b" FAULT " in line), len(entries))


def parts_of(octets):
    """The elements, of short or of long definite length, that octets are, one after the other: the tag of each, and its octets.
    None where they are not."""
    parts, at = [], 0
    while at < len(octets):
        if at + 2 > len(octets) or octets[at + 1] == 0x80:
            return None
        more = octets[at + 1] - 0x80 if octets[at + 1] > 0x80 else 0
        start = at + 2 + more
        stop = start + (int.from_bytes(octets[at + 2 : start], "big") if more else octets[at + 1])
        parts.append((octets[at], octets[at:start], octets[start:stop]))
        at = stop
    return parts if at == len(octets) else None


def entries_of(record):
    """The entries of a record whose messages have a definite length."""
    entries, at = [], 0
    while at < len(record):
        stop = at + 1
        if record[at] != 0x51:
            more = record[at + 2] - 0x80 if record[at + 2] > 0x80 else 0
            length = int.from_bytes(record[at + 3 : at + 3 + more], "big") if more else record[at + 2]
            stop = at + 3 + more + length
        entries.append(record[at:stop])
        at = stop
    return entries


def under_other_ids(entry):
    """An entry with each transaction ID of its message turned into another of as many octets."""
    if entry == b"\x51":
        return entry
    _, head, content = parts_of(entry[1:])[0]
    parts = parts_of(content)
    if parts is None:
        return entry
    turned = [(tag, h, bytes([c[0] ^ 0x80]) + c[1:] if tag in (0x48, 0x49) and c else c) for tag, h, c in parts]
    return entry[:1] + head + b"".join(h + c for _, h, c in turned)


def moved(faults, entry):
    """What is blamed on the ends where each entry has another number."""
    return {end: fault and [entry(fault[0]), fault[1]] for end, fault in faults.items()}


# A dialogue that has ended, with the IDs that most records use, and a quiet mark.
BEFORE = bytes.fromhex("41" + BEGIN + "42" + CONTINUE + "41" + END + "51")


def known_rows():
    """Of each record of faults.json its number and name, its octets, those of its table, and its row."""
    with open(FAULTS, encoding="utf-8") as file:
        known = json.load(file)
    for number, row in enumerate(known["records"]):
        table = json.dumps(known["tables"][row["table"]]).encode()
        yield f"record {number} of faults.json, {row['name']}", bytes.fromhex(row["record"]), table, row


def known_faults():
    """Of each record of faults.json its number and name, its octets, those of its table, and what is blamed on its ends."""
    for name, record, table, row in known_rows():
        yield name, record, table, {"A": row["A"], "B": row["B"]}


def faults():
    """The same, and of each record behind a quiet mark, and with each entry twice, the second time under other IDs."""
    for name, record, table, ends in known_faults():
        yield name, record, table, ends
        yield f"{name}, behind a mark", BEFORE + record, table, moved(ends, lambda entry: entry + 4)
        twice = b"".join(entry + under_other_ids(entry) for entry in entries_of(record))
        yield f"{name}, twice", twice, table, moved(ends, lambda entry: 2 * entry)
