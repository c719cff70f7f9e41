"""Cases for tests/traces.py of the words in which `test` says what an end is blamed for, worked out by hand from docs/TRACES.md and
docs/FORMAT.md: why octets are no message (F1), which operation is meant (F6), which invocations are compared (F11 to F13), what is
wrong with a dialogue portion (F9), which of two ends comes first, and the message of a testcase of JUnit's XML."""

import re
import xml.etree.ElementTree
from dataclasses import dataclass

import trace_rows
from traced import Checks, Report, agree, look_at_messages, put, run
from trace_rows import BACK, INVOKE, RESULT, SHORT, abort, accepted, begin, dialogue, element, end, error, go_on, invoke, lines, reject, request, uni

LONG_NAME = "x" * 10_000
NAMED = (
    '{"tables":[{"operations":[{"class":1,"code":45,"name":"ask"},{"class":2,"code":46,"name":"tell"},{"class":3,"code":47},'
    '{"class":4,"code":48},{"class":2,"code":"2a03","name":"far"},{"class":2,"code":49,"name":"' + LONG_NAME + '"}]}]}'
)
# The lines that say which fault it is.
WHICH = re.compile("  (why: |invocation |and [0-9]+ more inv|the result names )")
BLAME = re.compile("  [AB]: (fail|inconc)")
MISSING = "an AARE is missing: this is the first answer to a Begin with an AARQ, entry 0"
TOO_MANY = "only the first answer to a Begin may have an AARE, and that was entry 1"
NO_REQUEST = "an ABRT of the user needs an AARQ, and the Begin of the transaction has none"
LACKS = "inconclusive: the table lacks the operation"
AGAIN = "invocation 1 of ask 45 was answered already, by the Return Result in this message"
NO_FIVE = "invoke ID 5 is not one that A had invoked in this transaction"
BAD_OCTETS = "its octets are no message: empty component portion, at octet 8 of it"
TWICE = "this message invokes ID 1 twice"
LACKS_99 = "the table lacks operation 99"
ON_99 = "invocation 1 in entry 0 is of operation 99, which the table lacks"

ASKS, ACCEPTS = request("2A0304"), accepted("2A0304")
# An AARE that refuses, by the user; and an ABRT of the user (Q.773 4.2.3).
REFUSES = dialogue(
    element("61", element("A1", element("06", "2A0304")), element("A2", "020101"), element("A3", element("A1", "020101")))
)
ABORTS = dialogue(element("64", "800100"))
GLOBAL = element("A1", "020101", element("06", "2A03"))
# A Reject of the Invoke 2: a link is unexpected, since the operation that is linked to lists none.
UNLINKED = reject("02", "06")
LASTING = '{"tables":[{"operations":[{"class":1,"code":45,"name":"ask","expires":false},{"class":3,"code":47}]}]}'
NONE_OF_1 = "invoke ID 1 is not one that A had invoked in this transaction"


def names(id, *code):
    """A Return Result that names an operation."""
    return element("A2", element("02", id), element("30", *code))


def not_last(id, *code):
    return element("A7", element("02", id), element("30", *code))


@dataclass
class Said:
    """A trace with one dialogue that doesn't pass: which fault it is by each end, the lines of the ends that are blamed in their
    order, and the message of its testcase."""

    name: str
    entries: list
    which: dict
    blames: list
    message: str
    words: str = ""
    table: str = NAMED


def one(name, entries, which, blamed, sentence, at=None, verdict="fail", before=(), **more):
    """One end is blamed, with that sentence, at the last entry of the dialogue where no other is named. Entries stand in lines from 1 on, behind those
    of another dialogue."""
    at, (of, kind) = len(entries) - 1 if at is None else at, blamed.split()
    line = len(before) + at + 1
    told = sentence.removesuffix(f"; {LACKS}")
    said = f"  {of}: {verdict} at entry {at} of the dialogue, line {line}, {kind}: {told}"
    return Said(name, [*before, *entries], {of: which}, [said], f"{of}: line {line}, {kind}: {sentence}", **more)


ONE = [
    # ---- F1: the octet is counted from 0, and at most 8 stand on each side of it
    one(
        "the example of docs/FORMAT.md",
        ["A 620d4801016c08a10602010130012d"],
        [
            "  why: unexpected tag; place 12 of the message; Begin / components / Invoke / operation code; "
            "octets 01 6c 08 a1 06 02 01 01 [30] 01 2d; Begin otid=01"
        ],
        "A F1",
        "its octets are no message: unexpected tag, at octet 12 of it",
    ),
    one(
        "an empty component portion, in the third entry",
        ["A 6203480101", "B 6506480107490101", "A 65084801014901076C00"],
        [
            "  why: empty component portion; place 8 of the message; Continue / components; "
            "octets 65 08 48 01 01 49 01 07 [6c] 00; Continue otid=01 dtid=07"
        ],
        "A F1",
        "its octets are no message: empty component portion, at octet 8 of it",
    ),
    one(
        "another tag than a message's",
        [f"B {trace_rows.OTHER_TAG}"],
        ["  why: unexpected tag; place 0 of the message; message; octets [63] 03 04 01 01"],
        "B F1",
        "its tag, 63, is none of the five messages",
        before=SHORT,
    ),
    one(
        "an ID of no octets",
        [f"A {trace_rows.NO_OCTETS}"],
        ["  why: bad transaction ID; place 2 of the message; Begin / originating transaction ID; octets 62 02 [48] 00; Begin"],
        "A F1",
        "its octets are no message: bad transaction ID, at octet 2 of it",
        before=SHORT,
    ),
    # ---- F2 and F5: what a trace that is out of order, or has the ends mixed up, looks like
    one(
        "an answer before the Begin that it answers",
        [BACK, SHORT[0], SHORT[1]],
        [],
        "B F2",
        "it goes to 01, and A had sent nothing from 01 in this dialogue before entry 1: is the trace in order?",
        at=0,
        words="--ids once",
    ),
    one(
        "an answer before its Invoke",
        [SHORT[0], f"B {go_on('07', '01', RESULT)}", f"A {go_on('01', '07', INVOKE)}"],
        [],
        "B F5",
        "invoke ID 1 is not one that A had invoked in this transaction before entry 2: is the trace in order?",
        at=1,
    ),
    one(
        "a message to an ID of its own end",
        [SHORT[0], BACK, f"B {go_on('07', '07')}"],
        [],
        "B F2",
        "it goes to 07, and A had sent nothing from 07 in this dialogue; this is B's own ID: are the ends mixed up?",
    ),
    one(
        "an Abort with a cause that Q.773 lacks",
        [SHORT[0], f"B {abort('01', '05')}"],
        [],
        "B F2",
        "cause 5 is not in Q.773",
    ),
    # ---- F6
    one(
        "an error of class 3",
        [f"A {begin('01', invoke('01', '2F'))}", f"B {end('01', error('01'))}"],
        [],
        "B F6",
        "invocation 1 in entry 0 is of operation 47, of class 3, which allows no Return Error",
    ),
    one(
        "a result of class 2",
        [f"A {begin('01', invoke('01', '2E'))}", f"B {end('01', RESULT)}"],
        [],
        "B F6",
        "invocation 1 in entry 0 is of tell 46, of class 2, which allows no Return Result",
    ),
    one(
        "an answer to class 4, of an ID below 0",
        [f"A {begin('01', invoke('FF', '30'))}", f"B {end('01', error('FF'))}"],
        [],
        "B F6",
        "invocation -1 in entry 0 is of operation 48, of class 4, which allows no Return Error",
    ),
    one(
        "the result names another operation than was invoked",
        [f"A {begin('01', INVOKE)}", f"B {end('01', names('01', '02012E', '0400'))}"],
        ["  invocation 1 in entry 0 is of ask 45, of class 1", "  the result names tell 46"],
        "B F6",
        "ask 45 was invoked under ID 1, and the result names tell 46",
    ),
    one(
        "so does one that is not the last, and names what the table lacks",
        [f"A {begin('01', INVOKE)}", f"B {go_on('07', '01', not_last('01', '06032A0405'))}"],
        ["  invocation 1 in entry 0 is of ask 45, of class 1", "  the result names 2a0405"],
        "B F6",
        "ask 45 was invoked under ID 1, and the result names operation 2a0405",
    ),
    one(
        "a global operation by its name, of class 2",
        [f"A {begin('01', GLOBAL)}", f"B {end('01', names('01', '06022A03'))}"],
        ["  the result names far 2a03"],
        "B F6",
        "invocation 1 in entry 0 is of far 2a03, of class 2, which allows no Return Result",
    ),
    one(
        "two invocations of the ID, and not those of other IDs, of the end itself, or behind the answer",
        [
            f"A {begin('01', invoke('01', '30'), invoke('02', '2D'))}",
            f"B {go_on('07', '01', invoke('01', '2D'))}",
            f"A {go_on('01', '07', invoke('01', '2E'))}",
            f"B {go_on('07', '01', RESULT)}",
            f"A {go_on('01', '07', invoke('01', '2D'))}",
        ],
        [
            "  invocation 1 in entry 0 is of 48, of class 4, which allows no Return Result",
            "  invocation 1 in entry 2 is of tell 46, of class 2, which allows no Return Result",
        ],
        "B F6",
        "none of the 2 invocations of 1 allows this Return Result by its class",
        at=3,
    ),
    one(
        "of ten invocations the first eight",
        [
            *SHORT[:1],
            BACK,
            *[f"A {go_on('01', '07', invoke('01', '30'))}"] * 8,
            f"A {go_on('01', '07', invoke('01', '30'), invoke('02', '30'))}",
            f"A {go_on('01', '07', invoke('01', '30'))}",
            f"B {end('01', RESULT)}",
        ],
        [
            *(f"  invocation 1 in entry {at} is of 48, of class 4, which allows no Return Result" for at in range(2, 10)),
            "  and 2 more invocations of it",
        ],
        "B F6",
        "none of the 10 invocations of 1 allows this Return Result by its class",
    ),
    one(
        "what another ID of the peer invoked is not meant",
        [
            f"A {begin('01', invoke('01', '2F'))}",
            f"A {begin('02', INVOKE)}",
            f"B {go_on('07', '01', error('01'))}",
            f"B {go_on('07', '02')}",
        ],
        [],
        "B F6",
        "invocation 1 in entry 0 is of operation 47, of class 3, which allows no Return Error",
        at=2,
    ),
    one(
        "a Unidirectional of class 1; one of class 4 stands before it",
        [f"A {uni(invoke('02', '30'), INVOKE)}"],
        [],
        "A F6",
        "ask 45 is of class 1, and a Unidirectional may invoke operations of class 4 alone",
    ),
    one(
        "a Unidirectional of an operation that the table lacks",
        [f"A {uni(invoke('01', '63'))}"],
        [],
        "A F6",
        f"{LACKS_99}; {LACKS}",
        verdict="inconc",
    ),
    one(
        "a name of 10,000 characters",
        [f"A {begin('01', invoke('01', '31'))}", f"B {end('01', RESULT)}"],
        [],
        "B F6",
        "invocation 1 in entry 0 is of operation 49, of class 2, which allows no Return Result",
    ),
    # ---- F11 to F13
    one(
        "an Invoke linked to an operation that lists none",
        [f"A {begin('01', INVOKE)}", f"B {go_on('07', '01', invoke('05', '30', '01'))}"],
        ["  invocation 1 in entry 0 is of ask 45, of class 1"],
        "B F11",
        "it is linked to invocation 1 of ask 45, which does not list operation 48",
    ),
    one(
        "two answers to one invocation, and not to that of another ID",
        [f"A {begin('01', INVOKE, invoke('02', '2E'))}", f"B {end('01', RESULT, RESULT)}"],
        ["  invocation 1 in entry 0 is of ask 45, of class 1"],
        "B F12",
        AGAIN,
    ),
    one(
        "two errors for invocations of class 1 and class 3: no error answers the second",
        [f"A {begin('01', INVOKE)}", BACK, f"A {go_on('01', '07', invoke('01', '2F'))}", f"B {end('01', error('01'), error('01'))}"],
        ["  invocation 1 in entry 0 is of ask 45, of class 1", "  invocation 1 in entry 2 is of 47, of class 3"],
        "B F12",
        "with it, more answers or Rejects of 1 were sent than its 2 invocations allow",
    ),
    one(
        "a Reject of a link that the table allows",
        [f"A {begin('01', invoke('01', '32'))}", f"B {go_on('07', '01', invoke('02', '30', '01'))}", f"A {go_on('01', '07', UNLINKED)}"],
        ["  invocation 2 in entry 1 is of leaf 48, of class 4, linked to 1"],
        "A F13",
        "invoke problem 6 (linkedResponseUnexpected) rejects the link of an Invoke of 2, and in this transaction A had received none that is "
        "linked to an operation that lists none",
        table='{"tables":[{"operations":[{"class":1,"code":50,"linked":[48]},{"class":4,"code":48,"name":"leaf"}]}]}',
    ),
    # ---- F10
    one(
        "of two invocations of the ID one does not expire",
        [f"A {begin('01', invoke('01', '2F'))}", BACK, *[f"A {go_on('01', '07', INVOKE)}"] * 2],
        ["  invocation 1 in entry 0 is of 47, of class 3", "  invocation 1 in entry 2 is of ask 45, of class 1"],
        "A F10",
        "not all invocations of ID 1 are over: 1 of them does not expire",
        table=LASTING,
    ),
    # ---- F9
    one(
        "no AARE in a Continue",
        [f"A {begin('01', asks=ASKS)}", BACK],
        [],
        "B F9",
        MISSING,
    ),
    one(
        "no AARE in an End",
        [f"A {begin('01', asks=ASKS)}", SHORT[1]],
        [],
        "B F9",
        MISSING,
    ),
    one(
        "an AARE in the second Continue too",
        [f"A {begin('01', asks=ASKS)}", *[f"B {go_on('07', '01', asks=ACCEPTS)}"] * 2],
        [],
        "B F9",
        TOO_MANY,
    ),
    one(
        "an AARE in the End too",
        [f"A {begin('01', asks=ASKS)}", f"B {go_on('07', '01', asks=ACCEPTS)}", f"B {end('01', asks=ACCEPTS)}"],
        [],
        "B F9",
        TOO_MANY,
    ),
    one(
        "an AARE in an Abort behind that",
        [
            f"A {begin('01', asks=ASKS)}",
            f"B {go_on('07', '01', asks=ACCEPTS)}",
            f"B {element('67', element('49', '01'), REFUSES)}",
        ],
        [],
        "B F9",
        TOO_MANY,
    ),
    one(
        "the first answer lacks it: the second, which has it, is not looked at",
        [f"A {begin('01', asks=ASKS)}", BACK, f"B {go_on('07', '01', asks=ACCEPTS)}"],
        [],
        "B F9",
        MISSING,
        at=1,
    ),
    one(
        "an ABRT of the user, where the Begin has no AARQ",
        [SHORT[0], f"B {element('67', element('49', '01'), ABORTS)}"],
        [],
        "B F9",
        NO_REQUEST,
    ),
    one(
        "so by the end that began",
        [SHORT[0], BACK, f"A {element('67', element('49', '07'), ABORTS)}"],
        [],
        "A F9",
        NO_REQUEST,
    ),
    one(
        "an AARE where there was no AARQ is F7, which says it",
        [SHORT[0], f"B {go_on('07', '01', asks=ACCEPTS)}"],
        [],
        "B F7",
        "an AARE answers an AARQ, and A had sent none from 01 in this dialogue",
    ),
    # ---- other kinds, which have no such lines
    one(
        "answered twice",
        [f"A {begin('01', INVOKE)}", f"B {end('01', RESULT, RESULT)}"],
        ["  invocation 1 in entry 0 is of ask 45, of class 1"],
        "B F12",
        AGAIN,
    ),
    one(
        "one end alone is asked: what comes later is not said to",
        [f"A {begin('01', INVOKE, INVOKE)}", f"B {end('01', trace_rows.result('05'))}"],
        [],
        "B F5",
        NO_FIVE,
        words="--of B",
    ),
]

# What `--ids once` says of SHORT's ID, which is begun again in line 3.
UNDECIDED = "it is not found how it can have sent its part, and no entry of it is blamed"
ONCE = "; A uses its ID 01 again at line 3, and by --ids once no ID is free before the next quiet mark"

SAID = [
    *ONE,
    # ---- both ends
    Said(
        "an answer before a Continue of its peer, and before its Begin: the Continue comes first",
        [BACK, f"A {go_on('01', '07')}", SHORT[0]],
        {},
        [
            "  B: fail at entry 0 of the dialogue, line 1, F2: it goes to 01, and A had sent nothing from 01 in this dialogue before entry 1: "
            "is the trace in order?",
            "  A: fail at entry 1 of the dialogue, line 2, F8: the Continue from 07 in entry 0 goes to 01, and A had begun nothing from 01 in "
            "this dialogue; it comes later, and may follow from that of B",
        ],
        "B: line 1, F2: it goes to 01, and A had sent nothing from 01 in this dialogue before entry 1: is the trace in order?; A: line 2, F8: "
        "the Continue from 07 in entry 0 goes to 01, and A had begun nothing from 01 in this dialogue",
        "--ids once",
    ),
    *[
        Said(
            f"a Reject with result problem {number} of an answer to no invocation",
            [SHORT[0], f"B {go_on('07', '01', RESULT)}", f"A {end('07', element('A4', '020101', element('82', f'0{number}')))}"],
            {},
            [
                f"  B: fail at entry 1 of the dialogue, line 2, F5: {NONE_OF_1}",
                f"  A: fail at entry 2 of the dialogue, line 3, F13: return result problem {number} ({name}) rejects a Return Result of 1, and "
                "A had invoked no 1 in this transaction; it comes later, and may follow from that of B",
            ],
            f"B: line 2, F5: {NONE_OF_1}; A: line 3, F13: return result problem {number} ({name}) rejects a Return Result of 1, and A had "
            "invoked no 1 in this transaction",
        )
        for number, name in ((1, "returnResultUnexpected"), (2, "mistypedParameter"))
    ],
    Said(
        "B is at fault before A",
        [SHORT[0], f"B {go_on('07', '01', trace_rows.result('05'))}", f"A {trace_rows.BAD_CONTINUE}"],
        {},
        [
            f"  B: fail at entry 1 of the dialogue, line 2, F5: {NO_FIVE}",
            f"  A: fail at entry 2 of the dialogue, line 3, F1: {BAD_OCTETS}; it comes later, and may follow from that of B",
        ],
        f"B: line 2, F5: {NO_FIVE}; A: line 3, F1: {BAD_OCTETS}",
    ),
    Said(
        "A is at fault before B",
        [f"A {begin('01', INVOKE, INVOKE)}", f"B {end('01', trace_rows.result('05'))}"],
        {},
        [
            f"  A: fail at entry 0 of the dialogue, line 1, F10: {TWICE}",
            f"  B: fail at entry 1 of the dialogue, line 2, F5: {NO_FIVE}; it comes later, and may follow from that of A",
        ],
        f"A: line 1, F10: {TWICE}; B: line 2, F5: {NO_FIVE}",
    ),
    Said(
        "both are inconclusive: B answers what A invoked",
        [f"A {begin('01', invoke('01', '63'))}", f"B {end('01', RESULT)}"],
        {"B": []},
        [
            f"  A: inconc at entry 0 of the dialogue, line 1, F6: {LACKS_99}",
            f"  B: inconc at entry 1 of the dialogue, line 2, F6: {ON_99}; it comes later, and may follow from that of A",
        ],
        f"A: line 1, F6: {LACKS_99}; {LACKS}",
    ),
    Said(
        "what comes first is inconclusive: the testcase fails by the other",
        [f"A {begin('01', INVOKE, invoke('02', '63'))}", f"B {end('01', RESULT, RESULT)}"],
        {"B": ["  invocation 1 in entry 0 is of ask 45, of class 1"]},
        [
            f"  A: inconc at entry 0 of the dialogue, line 1, F6: {LACKS_99}",
            f"  B: fail at entry 1 of the dialogue, line 2, F12: {AGAIN}; it comes later, and may follow from that of A",
        ],
        f"B: line 2, F12: {AGAIN}",
    ),
    Said(
        "both at one quiet mark",
        [SHORT[0], BACK, f"A {go_on('01', '07')}", "Q"],
        {},
        [
            "  A: inconc at entry 3 of the dialogue, line 4, F15: a transaction of A is open at this quiet mark: that from 01, as in entry 2",
            "  B: inconc at entry 3 of the dialogue, line 4, F15: a transaction of B is open at this quiet mark: that from 07, as in entry 1",
        ],
        "A: line 4, F15: a transaction of A is open at this quiet mark: that from 01, as in entry 2; "
        "inconclusive: the trace's quiet mark is the bench's word, and it may stand too early",
    ),
    # ---- no end is blamed
    Said(
        "a limit of the profile, below a long comment",
        [SHORT[0], f"# {'y' * 10_000}", f"B {trace_rows.LIMIT_END}"],
        {},
        [f"  B: inconc: entry 1 of the dialogue, line 3 ({'y' * 10_000}) is no message that is judged, and is its own or stands before others of its own"],
        "B: line 3, which is no message that is judged, and is its own or stands before others of its own",
    ),
    Said(
        "open",
        [SHORT[0], BACK],
        {},
        [
            "  A: inconc: the dialogue is open at the end of its trace",
            "  B: inconc: the dialogue is open at the end of its trace",
        ],
        "A: the dialogue is open at the end of its trace; it waits for an End or an Abort",
        "--complete",
    ),
    Said(
        "undecided",
        [*SHORT, SHORT[0], f"B {end('01', trace_rows.result('05'))}"],
        {},
        [
            f"  A: inconc: {UNDECIDED}{ONCE}; the search stopped at A's Begin at entry 2 of the dialogue, line 3",
            f"  B: inconc: {UNDECIDED}{ONCE}; the search stopped at B's End at entry 3 of the dialogue, line 4",
        ],
        f"A: {UNDECIDED}{ONCE}; the search stopped at A's Begin at entry 2 of the dialogue, line 3",
        "--ids once",
    ),
    Said(
        "open at a quiet mark",
        [SHORT[0], "Q"],
        {},
        [
            "  A: inconc: the dialogue is open at the quiet mark after it",
            "  B: inconc: the dialogue is open at the quiet mark after it",
        ],
        "A: the dialogue is open at the quiet mark after it; it waits for an answer of B to the Begin in entry 0",
        "--complete",
    ),
    Said(
        "a quiet mark that came too early",
        [SHORT[0], "Q", BACK],
        {},
        [
            "  A: inconc: the quiet mark before this dialogue may have come too early: ID 01 of A was in use before it",
            "  B: inconc at entry 0 of the dialogue, line 3, F2: it goes to 01, and A had sent nothing from 01 in this dialogue",
        ],
        "A: the quiet mark before this dialogue may have come too early: ID 01 of A was in use before it",
    ),
    Said(
        "an ID that came again, where IDs have settled, and the dialogue begins without a Begin",
        [*SHORT, f"B {end('01')}"],
        {},
        ["  B: inconc at entry 0 of the dialogue, line 3, F2: it goes to 01, and A had sent nothing from 01 in this dialogue"],
        "B: line 3, F2: it goes to 01, and A had sent nothing from 01 in this dialogue; inconclusive: an ID of the dialogue was "
        "one of an earlier one, of which a message may have been under way; this is dialogue 2, and that was dialogue 0",
        "--ids settled --linger 0",
    ),
    Said(
        "no table for a dialogue without a context",
        SHORT,
        {},
        [],
        "no table is for a dialogue without an application context name; give one with --table FILE",
        table=f'{{"tables":[{trace_rows.WIDE}]}}',
    ),
    Said(
        "no table for a context",
        [f"A {begin('01', asks=request('2C0404'))}"],
        {},
        [],
        "no table is for this application context name; give one with --table FILE",
        table=f'{{"tables":[{trace_rows.WIDE}]}}',
    ),
]


def look_at_case(checks, report, path, case):
    """What is said of the one dialogue of a case that doesn't pass. Returns that, and its testcase."""
    agree(checks, report)
    (found,) = [it for it in report.dialogues[path] if it["verdict"] != "pass"]
    (told,) = [it for it in xml.etree.ElementTree.fromstring(report.junit).iter() if it.tag in ("failure", "error")]
    for of, wanted in case.which.items():
        # The first line is the sentence.
        _, *text = found[of]["text"].splitlines()
        checks.same(f"which fault of {of}", [line for line in text if WHICH.match(line)], wanted)
        for line in text:
            checks.holds(f"the text has {line[:100]}", f"\n{line}\n" in report.text)
            checks.holds(f"JUnit has {line[:100]}", f"\n{line}\n" in told.text)
    return found, told


def said(case, folder):
    """The words that are said of a case, and those of its record, which has no lines."""
    checks, text = Checks(f"words: {case.name}"), lines(*case.entries)
    path = put(folder, "x.hex", text.encode())
    report = Report(folder, case.words.split(), [path], table=case.table)
    found, told = look_at_case(checks, report, path, case)
    for name, block in ("the text", report.text), ("JUnit", told.text):
        checks.same(f"the ends in {name}", [line for line in block.splitlines() if BLAME.match(line)], case.blames)
    checks.same("the message", told.get("message"), case.message)
    later = {line[2]: line[-1] for line in case.blames if "may follow from that of" in line}
    checks.same("what may follow", {end: found[end]["may_follow"] for end in "AB" if "may_follow" in found.get(end, {})}, later)
    look_at_messages(checks, folder, found, text)
    record = put(folder, "record", run(["pack"], text.encode()).stdout)
    _, told = look_at_case(checks, Report(folder, case.words.split(), [record], table=case.table), record, case)
    places = {it[1]: it[2] for it in (re.match("  ([AB]): [a-z]+ at (entry [0-9]+)", line) for line in case.blames) if it}
    if places and "line" in case.message:
        wanted = re.sub("([AB]): line [0-9]+", lambda it: f"{it[1]}: {places[it[1]]} of the dialogue", case.message)
        checks.same("the message of the record", told.get("message"), wanted)
    return checks


def jobs():
    """Each case, with what it is about."""
    yield from ((said, case) for case in SAID)
