"""Records, with what is said of one end alone, by the certificate that is proposed for it (`judge --end`) and by a certificate that
is given (`check --end`): `tests/program.py` runs them. They are written as in judged.py."""

import blamed
import judged
from blamed import BEGIN_2, END_1
from judged import BACK, BEGIN, CLOSED, CONTINUE, END, INVOKE, NO_MESSAGE, OTHER, REFUSED, REQUEST, RESULT, TABLE, TO_NINE

# The same table, where transactions may end by prearrangement.
PREARRANGED = TABLE[:-1] + ',"prearranged":true}'

CONTINUE_3, BEGIN_4, CLOSED_1, LINKED_TO_NINE = "6506480103490101", "6203480104", "67064901014A0101", "6506480102490109"

# The entries, what `judge --end A` prints, what `judge --end B` prints, and, where it is not TABLE, the table.
JUDGED = [
    ("", "LAWFUL 0 unheard 0", "LAWFUL 0 unheard 0"),
    (f"A {INVOKE} B {RESULT}", "LAWFUL 2 unheard 0", "LAWFUL 2 unheard 0"),
    # B ends a dialogue and goes on: A's provider answers; or A ends it too, so it did not hear the End; or A breaks a rule.
    (f"B {BEGIN} A {CONTINUE} B {END} B {BACK} A {CLOSED_1}", "LAWFUL 5 unheard 0", "REFUTED 3 F4"),
    (f"B {BEGIN} A {CONTINUE} B {END} B {BACK} A {END_1}", "LAWFUL 5 unheard 1", "REFUTED 3 F4"),
    (f"B {BEGIN} A {CONTINUE} B {END} B {BACK} A {CONTINUE_3}", "REFUTED 4 F8", "REFUTED 3 F4"),
    # The record is undecided, and lawful of both ends: for A alone the second Continue is not heard.
    (f"A {BEGIN} B {CONTINUE} A {END} B {CONTINUE}", "LAWFUL 4 unheard 1", "LAWFUL 4 unheard 0"),
    # What the end cannot receive: a Begin from an ID that it knows, a Continue to no half, one without the AARE that is waited
    # for, and one from an ID that another half has as its peer's.
    (f"B {BEGIN} B {BEGIN}", "LAWFUL 2 unheard 1", "REFUTED 1 F3"),
    (f"B {LINKED_TO_NINE}", "LAWFUL 1 unheard 1", "REFUTED 0 F2"),
    (f"A {REQUEST} B {CONTINUE}", "LAWFUL 2 unheard 1", "REFUTED 1 F9"),
    (f"B {BEGIN_2} A {BEGIN} B {CONTINUE}", "LAWFUL 3 unheard 1", "REFUTED 2 F8"),
    # What is wrong and can be received, is: an End to nothing.
    (f"B {TO_NINE}", "LAWFUL 1 unheard 0", "REFUTED 0 F2"),
    # A Begin that was given up closes at the mark; what nobody answered before a mark was not heard; a half that is active is
    # open, unless the table lets it close.
    (f"A {BEGIN} Q", "LAWFUL 2 unheard 0", "LAWFUL 2 unheard 1"),
    (f"A {BEGIN} B {CONTINUE} Q", "LAWFUL 3 unheard 1", "REFUTED 2 F15"),
    (f"A {BEGIN} B {CONTINUE} A {BACK} Q", "REFUTED 3 F15", "REFUTED 3 F15"),
    (f"A {BEGIN} B {CONTINUE} A {BACK} Q", "LAWFUL 4 unheard 0", "LAWFUL 4 unheard 0", PREARRANGED),
    # Octets that are no message end the look, whoever sent them.
    (f"A {BEGIN} B {NO_MESSAGE}", "UNDECIDED 1 68/11", "REFUTED 1 F1"),
]


def given(fates, close="", expire=""):
    """The text of a certificate."""
    return f'{{"close":[{close}],"expire":[{expire}],"fates":[{fates}],"version":1}}'


# The entries, the certificate, what `check --end A` prints, what `check --end B` prints, and, where it is not TABLE, the table.
CHECKED = [
    ("", given(""), "LAWFUL 0 unheard 0", "LAWFUL 0 unheard 0"),
    (f"A {INVOKE} B {RESULT}", given("1,2"), "LAWFUL 2 unheard 0", "LAWFUL 2 unheard 0"),
    # The count of fates and their ranges are asked of every entry.
    (f"A {INVOKE} B {RESULT}", given("1"), "NOT SHOWN 1 61", "NOT SHOWN 1 61"),
    (f"A {INVOKE} B {RESULT}", given("1,1"), "NOT SHOWN 1 62", "NOT SHOWN 1 62"),
    (f"A {INVOKE} B {RESULT}", given("1,2,3"), "NOT SHOWN 2 61", "NOT SHOWN 2 61"),
    (f"A {BEGIN} B {NO_MESSAGE}", given("1,2"), "NOT SHOWN 1 68/11", "NOT SHOWN 1 68/11"),
    # The times of the end's own messages say nothing, those of its peer are looked at.
    (f"A {BEGIN} A {OTHER} A {BEGIN_4}", given("3,2,3"), "LAWFUL 3 unheard 0", "NOT SHOWN 1 63"),
    # The peer's provider needs nothing that it answers; the end's own does.
    (f"A {BEGIN} B {REFUSED}", given("1,2"), "LAWFUL 2 unheard 0", "NOT SHOWN 1 64"),
    (f"A {BEGIN} B {REFUSED}", given('{"by":1},2'), "LAWFUL 2 unheard 0", "LAWFUL 2 unheard 0"),
    # No message of the peer is taken by another one of its own.
    (f"B {BEGIN_2} B {REFUSED}", given('{"by":1},2'), "NOT SHOWN 1 64", "NOT SHOWN 1 64"),
    # What the certificate lists of the peer's halves is passed over.
    (
        f"A {BEGIN} B {CONTINUE}",
        given("1,2", close='{"at":1,"end":"B","entry":0}'),
        "LAWFUL 2 unheard 0",
        "NOT SHOWN 0 66/52",
    ),
    # A message of the peer comes in its gap, not before; what comes too late is not there when the end goes on.
    (f"B {BEGIN} A {CONTINUE}", given("1,2"), "LAWFUL 2 unheard 0", "LAWFUL 2 unheard 0"),
    (f"B {BEGIN} A {CONTINUE}", given("2,2"), "NOT SHOWN 1 65/40", "LAWFUL 2 unheard 0"),
    # What is lost is not heard.
    (f"A {BEGIN} B {CONTINUE} A {END}", given('1,"lost",3'), "NOT SHOWN 2 65/40", "LAWFUL 3 unheard 0"),
    (f"A {INVOKE}", given('"lost"'), "LAWFUL 1 unheard 0", "LAWFUL 1 unheard 1"),
    # Halves that may close do at a mark, the other end's are not looked at.
    (f"A {BEGIN} Q", given('"lost",2'), "LAWFUL 2 unheard 0", "LAWFUL 2 unheard 1"),
    (f"A {BEGIN} B {CONTINUE} Q", given("1,2,3"), "NOT SHOWN 2 67", "NOT SHOWN 2 67"),
    (f"A {BEGIN} B {CONTINUE} Q", given("1,2,3"), "LAWFUL 3 unheard 0", "LAWFUL 3 unheard 0", PREARRANGED),
    (f"A {BEGIN} B {CONTINUE} Q", given('1,"lost",3'), "LAWFUL 3 unheard 1", "NOT SHOWN 2 67"),
    # A message that nothing can receive at its gap is a discard, and changes nothing.
    (f"A {BEGIN} B {CONTINUE} A {END} B {CONTINUE}", given("1,2,4,4"), "LAWFUL 4 unheard 1", "LAWFUL 4 unheard 0"),
    (
        f"A {BEGIN} B {CONTINUE} A {END} B {CONTINUE} A {CLOSED}",
        given('1,2,4,{"by":4},5'),
        "LAWFUL 5 unheard 0",
        "LAWFUL 5 unheard 0",
    ),
]

STATUSES = {"LAWFUL": 0, "REFUTED": 1, "UNDECIDED": 2, "NOT": 2}


def rows():
    """Of each row and end the words before the files, the octets of the record, those of the table, those of the certificate, if
    there is one, what is to be printed, and the exit status."""
    for entries, *lines, table in ((*row, TABLE)[:4] if len(row) == 3 else row for row in JUDGED):
        for end, line in zip("AB", lines):
            octets = judged.octets_of(entries)
            yield ["judge", "--end", end], octets, table.encode(), None, f"{line}\n".encode(), STATUSES[line.split()[0]]
    for entries, cert, *lines, table in ((*row, TABLE)[:5] if len(row) == 4 else row for row in CHECKED):
        for end, line in zip("AB", lines):
            octets = judged.octets_of(entries)
            yield ["check", "--end", end], octets, table.encode(), cert.encode(), f"{line}\n".encode(), STATUSES[line.split()[0]]


def later(line, count):
    """A line, where so many entries stand before the record."""
    words = line.split()
    words[1] = str(int(words[1]) + count)
    return " ".join(words)


def known():
    """Of each record of faults.json, and of it behind a quiet mark, its name, its octets, those of its table, and for each end what
    is said of it alone."""
    for name, record, table, row in blamed.known_rows():
        yield name, record, table, row["alone"]
        behind = {end: later(line, 4) for end, line in row["alone"].items()}
        yield f"{name}, behind a mark", blamed.BEFORE + record, table, behind
