"""Cases for tests/traces.py of the messages that are told of a dialogue which doesn't pass: what is said of each by hand, and
which of a long dialogue are listed."""

import json

import trace_rows
from trace_page import look_at_page
from traced import Checks, Report, agree, look_at_messages, put
from trace_rows import BACK, INVOKE, RESULT, SHORT, begin, element, end, go_on, invoke, lines, portion, reject, result, uni

ASKS = '{"tables":[{"operations":[{"class":1,"code":45,"name":"ask"},{"class":4,"code":48}]}]}'
# Invokes of a global operation, and a linked one; a Return Result that is not the last; Rejects of nothing that can be read.
GLOBAL = element("A1", "020102", element("06", "2A03"))
LINKED = invoke("03", "30", "01")
NOT_LAST = element("A7", "020101")
REJECT_NULL = element("A4", "0500", "800100")
ABORT = element("67", "490101", "4A0104")
HTML = '</script><!--<script>alert("\'\\")</script>&amp;]]>'

# Each case: lines; the table; and the messages of the dialogues that don't pass, worked out by hand.
SAID = [
    (
        "IDs, a comment, the name of an operation, what show prints, and the octets",
        [
            "# frame 12, .. ",
            "A 621048040B0000016C08A10602010102012D",
            "#frame 13",
            "",
            "B 640D49040B0000016C05A203020105",
        ],
        ASKS,
        [
            [
                {
                    "entry": 0,
                    "end": "A",
                    "kind": "Begin",
                    "otid": "0b000001",
                    "line": 2,
                    "comment": "frame 12, .. ",
                    "components": ["Invoke 1 ask 45"],
                    "show": "0 A Begin otid=0b000001\n  Invoke id=1 op=45\n",
                    "octets": "621048040b0000016c08a10602010102012d",
                },
                {
                    "entry": 1,
                    "end": "B",
                    "kind": "End",
                    "dtid": "0b000001",
                    "line": 5,
                    "components": ["ReturnResultLast 5"],
                    "show": "1 B End dtid=0b000001\n  ReturnResultLast id=5\n",
                    "octets": "640d49040b0000016c05a203020105",
                },
            ]
        ],
    ),
    (
        "each kind of components",
        [
            f"A {begin('01', INVOKE, GLOBAL)}",
            f"B {go_on('07', '01', LINKED, NOT_LAST)}",
            f"A {go_on('01', '07', reject('03', '01'), REJECT_NULL)}",
            f"B {go_on('07', '01', trace_rows.error('01', '05'), result('FF'))}",
        ],
        ASKS,
        [
            [
                {"kind": "Begin", "otid": "01", "components": ["Invoke 1 ask 45", "Invoke 2 2a03"]},
                {"kind": "Continue", "otid": "07", "dtid": "01", "components": ["Invoke 3 48", "ReturnResultNotLast 1"]},
                {"kind": "Continue", "otid": "01", "dtid": "07", "components": ["Reject 3", "Reject"]},
                {"kind": "Continue", "otid": "07", "dtid": "01", "components": ["ReturnError 1", "ReturnResultLast -1"]},
            ]
        ],
    ),
    (
        "a Unidirectional has no ID; an Abort, and the dialogue portion of a Begin",
        [
            f"B {uni(result('05'))}",
            f"A {begin('01', asks=trace_rows.request('2A0404'))}",
            f"B {ABORT}",
            f"B {ABORT}",
        ],
        ASKS,
        [
            [
                {
                    "end": "B",
                    "kind": "Unidirectional",
                    "line": 1,
                    "components": ["ReturnResultLast 5"],
                    "show": "0 B Unidirectional\n  ReturnResultLast id=5\n",
                    "octets": "61076c05a203020105",
                }
            ],
            [
                {"kind": "Begin", "otid": "01", "show": "0 A Begin otid=01 AARQ context=2a0404\n", "components": []},
                {"kind": "Abort", "dtid": "01", "line": 3, "show": "1 B Abort dtid=01 cause=4\n", "components": []},
                {"kind": "Abort", "line": 4, "octets": "67064901014a0104"},
            ],
        ],
    ),
    (
        "no messages: one whose IDs can be read, and one of another tag (docs/FORMAT.md has the first as an example)",
        ["# here", "A 620d4801016c08a10602010130012d", "B 6303480101"],
        ASKS,
        [
            [
                {
                    "entry": 0,
                    "end": "A",
                    "fault": "unexpected tag, at octet 12 of it",
                    "line": 2,
                    "comment": "here",
                    "show": "0 A FAULT 8 12\n",
                    "octets": "620d4801016c08a10602010130012d",
                }
            ],
            [
                {
                    "entry": 0,
                    "end": "B",
                    "fault": "unexpected tag, at octet 0 of it",
                    "line": 3,
                    "show": "0 B FAULT 8 0\n",
                    "octets": "6303480101",
                }
            ],
        ],
    ),
    (
        "a quiet mark",
        [SHORT[0], BACK, "# all is quiet", "Q"],
        ASKS,
        [[{"kind": "Begin"}, {"kind": "Continue", "line": 2}, {"entry": 2, "line": 4, "mark": True}]],
    ),
    (
        "what means something to HTML, in a comment and in the name of an operation",
        [f"# {HTML}", f"A {begin('01', INVOKE, INVOKE)}"],
        json.dumps({"tables": [{"name": HTML, "operations": [{"class": 1, "code": 45, "name": HTML}]}]}),
        [[{"comment": HTML, "components": [f"Invoke 1 {HTML} 45"] * 2}]],
    ),
]


def said(case, folder):
    """What is said of messages, worked out by hand."""
    name, text, table, wanted = case
    checks, text = Checks(f"messages: {name}"), lines(*text)
    path = put(folder, "x.hex", text.encode())
    report = Report(folder, [], [path], table=table)
    agree(checks, report)
    found = [it for it in report.dialogues[path] if it["verdict"] != "pass"]
    found.sort(key=lambda it: it["entries"])
    checks.same("dialogues", len(found), len(wanted))
    for it, messages in zip(found, wanted):
        look_at_messages(checks, folder, it, text)
        checks.same("how many", len(it["messages"]), len(messages))
        for one, of in zip(it["messages"], messages):
            # Of one whose number and octets are given each field is.
            is_whole = "entry" in of and "octets" in of
            checks.same("a message", one if is_whole else {key: one.get(key) for key in of}, of)
    return checks


# ---- which are listed


def long(count, **others):
    """A dialogue of so many entries, in which A goes on but for some."""
    entries = [SHORT[0], BACK, *[f"A {go_on('01', '07')}"] * (count - 2)]
    for at, entry in others.items():
        entries[int(at[1:])] = entry
    return entries


WRONG = f"B {go_on('07', '01', result('05'))}"
TWICE = f"A {go_on('01', '07', INVOKE, INVOKE)}"
ASK, ANSWER = f"A {go_on('01', '07', INVOKE)}", f"B {go_on('07', '01', RESULT)}"
# Of class 4, which has no answer; so its ID may be used again (Q.774 3.2.1.1.3).
TELL = f"A {go_on('01', '07', invoke('01', '30'))}"
BEYOND = f"B {element('65', '480107', '490101', portion(element('A3', '020101', trace_rows.WIDE_CODE)))}"

# The entries; words; and the numbers of those that are listed: the first 16, those that are named, of each thing at most 8, and the
# 64 up to the last one at fault, or of all where none is.
LISTED = [
    ("all of 80", long(80, _79=WRONG), "", [*range(80)]),
    ("one of 81 is left out", long(81, _80=WRONG), "", [*range(16), *range(17, 81)]),
    ("up to the one at fault, and not behind it", long(200, _150=WRONG), "", [*range(16), *range(87, 151)]),
    ("the fault is one of the first", long(200, _3=WRONG), "", [*range(16)]),
    (
        "what is asked and answered, which the evidence of the second answer names",
        long(200, _20=ASK, _21=ANSWER, _150=ANSWER),
        "",
        [*range(16), 20, 21, *range(87, 151)],
    ),
    ("both ends at fault", long(200, _30=TWICE, _150=WRONG), "", [*range(16), 30, *range(87, 151)]),
    (
        "of twelve Invokes of what is answered the first eight",
        long(200, **{f"_{at}": TELL for at in range(20, 32)}, _150=ANSWER),
        "",
        [*range(16), *range(20, 28), *range(87, 151)],
    ),
    ("open, and no entry is named", long(200), "--complete", [*range(16), *range(136, 200)]),
    ("one that is beyond a limit", long(200, _30=BEYOND, _40=BACK), "", [*range(16), 30, *range(136, 200)]),
    ("a quiet mark is the last", [*long(200), "Q"], "", [*range(16), *range(137, 201)]),
]


def listed(case, folder):
    """Which messages of a dialogue are listed, and how many are left out."""
    name, entries, words, wanted = case
    checks, text = Checks(f"listed: {name}"), lines(*entries)
    path = put(folder, "x.hex", text.encode())
    report = Report(folder, words.split(), [path])
    agree(checks, report)
    (found,) = report.dialogues[path]
    look_at_messages(checks, folder, found, text)
    checks.same("which are listed", [it["entry"] for it in found["messages"]], wanted)
    left_out = len(entries) - len(wanted)
    checks.same("left out", found.get("left_out"), left_out or None)
    return checks


# ---- many


def many_fail(_, folder):
    """Of 10,001 dialogues that don't pass, most of them without a table, one is left out of the page; of those that pass none is
    in it. So it is of all traces together."""
    checks = Checks("10,001 dialogues that don't pass")
    asks = trace_rows.request("2A0405")
    without = [f"A {begin(f'{number:04X}')}" for number in range(10_000)]
    passes = [f"A {begin(f'{number:04X}', INVOKE, asks=asks)}" for number in range(10_001, 10_101)]
    path = put(folder, "x.hex", lines(*without[:5000], *passes, *without[5000:]).encode())
    wrong = put(folder, "y.hex", lines(f"A {begin('01', INVOKE, INVOKE, asks=asks)}").encode())
    report = Report(folder, [], [path, wrong], table=f'{{"tables":[{trace_rows.NARROW}]}}')
    look_at_page(checks, report.page, report.shown, report.json.decode())
    checks.same("dialogues", (len(report.dialogues[path]), len(report.dialogues[wrong])), (10_100, 1))
    last = json.loads(report.shown[-1])
    checks.same("left out of the page", (last["left_out"], len(report.shown)), (1, 10_003))
    checks.same("the total", last["total"]["dialogues"], {"pass": 100, "inconc": 0, "fail": 1, "error": 10_000})
    return checks


def jobs():
    """Each case, with what it is about."""
    yield from ((said, case) for case in SAID)
    yield from ((listed, case) for case in LISTED)
    yield many_fail, None
