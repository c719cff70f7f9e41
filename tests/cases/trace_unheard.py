"""Cases for tests/traces.py of what `test` says of dialogues that pass unheard or unanswered, of the entry at which the search for a run
stopped, and of an AARE that has another application context than its AARQ asks for, worked out by hand from docs/TRACES.md and
docs/VERDICTS.md."""

import xml.etree.ElementTree
from dataclasses import dataclass, field

from traced import Checks, Report, agree, put, run
from trace_rows import (
    BACK,
    CROSSED,
    EMPTY,
    INVOKE,
    LONG,
    OPERATIONS,
    PREARRANGED,
    SHORT,
    WRONG_END,
    accepted,
    begin,
    dialogue,
    element,
    end,
    go_on,
    lines,
    request,
)

# A goes on, as if it had not heard B's End. Octets of B that are no message, with an empty component portion.
ON, BAD = CROSSED[-1], f"B {element('65', '480107', '490101', EMPTY)}"
FRAME = "# frame 812"


def unanswered(of, line, entry=0, comment=""):
    """The words on an end that sent nothing: it owes an answer to this Begin."""
    return f"; it sent nothing, and the dialogue waits for an answer of {of} to the Begin in entry {entry}, line {line}{comment}"


@dataclass
class Passing:
    """A trace and the lines of its dialogues that pass unheard or unanswered, without the name of the trace; and for ends the fields that
    JSON has besides the verdict and the counts, by the number of the dialogue and the end."""

    name: str
    entries: list
    lines: list
    fields: dict = field(default_factory=dict)
    words: str = ""
    table: str = OPERATIONS


PASSING = [
    Passing("all was heard and answered", LONG, []),
    Passing(
        "A's last message crosses B's End",
        CROSSED,
        ["dialogue 0, A 01, B 07: pass", "  B: pass, and may not have heard A's Continue at entry 4 of the dialogue, line 5"],
        {(0, "B"): {"last_unheard": {"entry": 4, "line": 5}}},
    ),
    Passing(
        "two messages cross it, the last with a comment above it",
        [*CROSSED, FRAME, ON],
        [
            "dialogue 0, A 01, B 07: pass",
            "  B: pass, and may not have heard A's Continue at entry 5 of the dialogue, line 7 (frame 812), and 1 message before it",
        ],
        {(0, "B"): {"last_unheard": {"entry": 5, "line": 7, "comment": "frame 812"}}},
    ),
    Passing(
        "three cross it",
        [*CROSSED, ON, ON],
        [
            "dialogue 0, A 01, B 07: pass",
            "  B: pass, and may not have heard A's Continue at entry 6 of the dialogue, line 7, and 2 messages before it",
        ],
        {(0, "B"): {"last_unheard": {"entry": 6, "line": 7}}},
    ),
    Passing(
        "all of it was to be heard by A, which heard it; B is not asked",
        CROSSED,
        [],
        words="--heard --of A",
    ),
    Passing("an end that is not asked may not have heard it", CROSSED, [], words="--of A"),
    Passing(
        "B goes on behind A's End, and then sends octets that are no message: no run is shown of A, which discards them",
        [*LONG, BACK, BAD],
        ["dialogue 0, A 01, B 07: pass", "  A: pass: it discards entry 4 of the dialogue, line 5, which is no message"],
        {(0, "A"): {"reading": {"entry": 4, "way": "dropped"}}},
        words="--of A",
    ),
    Passing(
        "a Begin that nobody answers",
        SHORT[:1],
        ["dialogue 0, A 01: pass", f"  B: pass{unanswered('B', 1)}"],
        {(0, "B"): {"unanswered": {"entry": 0, "line": 1}}},
    ),
    Passing(
        "Begins of both ends that nobody answers, one with a comment above it; a dialogue that is answered",
        [*SHORT, "# frame 9", f"B {begin('05')}", f"A {begin('02', INVOKE)}"],
        [
            "dialogue 2, B 05: pass",
            f"  A: pass{unanswered('A', 4, comment=' (frame 9)')}",
            "dialogue 3, A 02: pass",
            f"  B: pass{unanswered('B', 5)}",
        ],
        {(2, "A"): {"unanswered": {"entry": 0, "line": 4, "comment": "frame 9"}}, (3, "B"): {"unanswered": {"entry": 0, "line": 5}}},
    ),
    Passing("a Begin that the other end does not answer, which is not asked", SHORT[:1], [], words="--of A"),
    Passing(
        "a Begin before a quiet mark: B did not hear it, or it would have answered",
        [SHORT[0], "Q"],
        ["dialogue 0, A 01: pass", f"  B: pass, and may not have heard A's Begin at entry 0 of the dialogue, line 1{unanswered('B', 1)}"],
        {(0, "B"): {"last_unheard": {"entry": 0, "line": 1}, "unanswered": {"entry": 0, "line": 1}}},
    ),
    Passing(
        "an End to an ID that was never sent: B, which alone is asked, sent nothing, and no Begin waits",
        [f"A {end('09')}"],
        ["dialogue 0, B 09: pass", "  B: pass; it sent nothing"],
        {(0, "B"): {}},
        words="--of B",
    ),
    Passing("a Unidirectional has no ID, and nobody has to answer it", ["A 610A6C08A106020101020130"], []),
]


def in_json(said):
    """Returns the fields of an end besides its verdict and its counts."""
    return {key: value for key, value in said.items() if key not in ("verdict", "unheard", "sent")}


def without_place(text, fields):
    """Returns the text and the fields of a trace that is a record: it has no lines and no comments."""
    for number in range(12, 0, -1):
        text = text.replace(f", line {number} (frame 812)", "").replace(f", line {number} (frame 9)", "").replace(f", line {number}", "")
    return text, {of: {key: it if key == "reading" else {"entry": it["entry"], "line": 0} for key, it in said.items()} for of, said in fields.items()}


def look_at_passing(checks, report, path, case, has_lines):
    """What is said of the dialogues of a case that pass: in the text, in JSON, and in JUnit's XML."""
    agree(checks, report)
    text = "".join(f"{line if line[:1] == ' ' else f'{path}: {line}'}\n" for line in case.lines)
    text, fields = (text, case.fields) if has_lines else without_place(text, case.fields)
    said = report.text.splitlines(True)
    checks.same("the text", "".join(said[:-2]), text)
    found = {(it["dialogue"], end): it[end] for it in report.dialogues[path] for end in "AB" if end in it}
    checks.same("JSON", {of: in_json(it) for of, it in found.items() if in_json(it)}, {of: it for of, it in fields.items() if it})
    (out,) = xml.etree.ElementTree.fromstring(report.junit).iter("system-out")
    checks.same("JUnit", "".join(out.text.splitlines(True)[1:]), text)


def passing(case, folder):
    """A trace that passes, as lines and, if it is one, as a record."""
    checks, text = Checks(f"passing: {case.name}"), lines(*case.entries)
    path = put(folder, "x.hex", text.encode())
    look_at_passing(checks, Report(folder, case.words.split(), [path], table=case.table), path, case, True)
    packed = run(["pack"], text.encode())
    if packed.returncode == 0:
        record = put(folder, "record", packed.stdout)
        look_at_passing(checks, Report(folder, case.words.split(), [record], table=case.table), record, case, False)
    return checks


def limits(_, folder):
    """Traces with many dialogues that pass unanswered, between others that pass or fail: twenty are named, and the number of the others is
    printed. Another trace has its own twenty."""
    checks, paths = Checks("the limit of what passes unanswered"), []
    for count, words in ((19, []), (20, []), (21, ["and 1 more dialogue passes"]), (53, ["and 33 more dialogues pass"])):
        entries = [f"A {begin(f'{number:02X}')}" for number in range(1, count + 1)]
        entries += [f"A {begin('F0')}", f"B {end('F0')}", f"A {begin('F1')}", WRONG_END.replace("490101", "4901F1")]
        paths.append(put(folder, f"{count}.hex", lines(*entries).encode()))
        report = Report(folder, [], [paths[-1]])
        agree(checks, report)
        named = [line for line in report.text.splitlines() if line.endswith(": pass")]
        checks.same(f"the named ones of {count}", len(named), min(count, 20))
        found = [line for line in report.text.splitlines() if " more dialogue" in line]
        checks.same(f"the others of {count}", found, [f"{paths[-1]}: {word} unheard or unanswered" for word in words])
        checks.same(f"JSON has all of {count}", sum("unanswered" in it["B"] for it in report.dialogues[paths[-1]]), count)
    report = Report(folder, [], paths)
    agree(checks, report)
    checks.same("of each trace", [sum(f"{path}: dialogue " in line and line.endswith(": pass") for line in report.text.splitlines()) for path in paths],
                [19, 20, 20, 20])
    return checks


# ---- an end that does not pass: an unheard message is named with --heard, and so is the entry at which the search stopped

NOT_PASSING = [
    (
        "a message of A was to be heard",
        [*CROSSED[:4], FRAME, ON],
        "--heard",
        "B: inconc: in the run that was found, 1 message of its peer is unheard; another run may have fewer; the last unheard one is A's Continue"
        " at entry 4 of the dialogue, line 6 (frame 812)",
        {"B": ("last_unheard", {"entry": 4, "line": 6, "comment": "frame 812"})},
        OPERATIONS,
    ),
    (
        "A begins again from an ID whose transaction may have ended in silence",
        [SHORT[0], BACK, FRAME, SHORT[0]],
        "",
        "A: inconc: it is not found how it can have sent its part, and no entry of it is blamed; the search stopped at A's Begin at entry 2 of the"
        " dialogue, line 4 (frame 812)",
        {"A": ("stopped_at", {"entry": 2, "line": 4, "comment": "frame 812"})},
        PREARRANGED,
    ),
]


def not_passing(case, folder):
    """The line, the fields and the message of an end that is inconclusive."""
    name, entries, words, line, fields, table = case
    checks, path = Checks(name), put(folder, "x.hex", lines(*entries).encode())
    report = Report(folder, words.split(), [path], table=table)
    agree(checks, report)
    checks.holds(f"the text has {line}: {report.text}", f"\n  {line}\n" in report.text)
    (found,) = report.dialogues[path]
    for of, (key, spot) in fields.items():
        checks.same(f"JSON, {of}", found[of].get(key), spot)
    (told,) = [it for it in xml.etree.ElementTree.fromstring(report.junit).iter() if it.tag in ("failure", "error")]
    checks.same("the message", told.get("message"), line.replace(": inconc: ", ": ").replace(" (frame 812)", ""))
    checks.holds("JUnit", f"\n  {line}\n" in told.text)
    return checks


# ---- notes

ASKS, OTHER = request("2A0304"), accepted("2A0305")
# An AARE that refuses, by the user, and names the application context that it would take (Q.773 4.2.3).
REFUSES = dialogue(
    element("61", element("A1", element("06", "2A0309")), element("A2", "020101"), element("A3", element("A1", "020101")))
)
NOTE = "the AARE at entry {} of the dialogue, line {} has the application context {}; the AARQ at entry {} of the dialogue, line {} asks for 2a0304"
ANSWER = f"B {go_on('07', '01', asks=OTHER)}"
# The name, the entries, the verdict, the notes with their entries and lines, and whether the text has them.
NOTES = [
    ("the same application context", [f"A {begin('01', asks=ASKS)}", f"B {end('01', asks=accepted('2A0304'))}"], "pass", [], False),
    ("another one in a dialogue that passes, which the text does not list", [f"A {begin('01', asks=ASKS)}", f"B {end('01', asks=OTHER)}"], "pass",
     [(1, 2, NOTE.format(1, 2, "2a0305", 0, 1))], False),
    ("in a dialogue that fails", [f"A {begin('01', asks=ASKS)}", ANSWER, f"A {end('07')}", f"A {end('07')}"], "fail",
     [(1, 2, NOTE.format(1, 2, "2a0305", 0, 1))], True),
    ("in a dialogue that passes unheard", [f"A {begin('01', asks=ASKS)}", ANSWER, f"A {go_on('01', '07')}", f"B {end('01')}", ON], "pass",
     [(1, 2, NOTE.format(1, 2, "2a0305", 0, 1))], True),
    ("an AARE that refuses, which an Abort has", [f"A {begin('01', asks=ASKS)}", f"B {element('67', '490101', REFUSES)}", SHORT[1]], "fail",
     [(1, 2, NOTE.format(1, 2, "2a0309", 0, 1))], True),
    ("an AARE without an AARQ", [f"A {begin('01')}", f"B {end('01', asks=OTHER)}"], "fail", [], False),
    ("of two AAREs the one that differs", [f"A {begin('01', asks=ASKS)}", f"B {go_on('07', '01', asks=accepted('2A0304'))}", ANSWER], "fail",
     [(2, 3, NOTE.format(2, 3, "2a0305", 0, 1))], True),
    ("an AARE of the end that began it answers nothing", [f"A {begin('01', asks=ASKS)}", BACK, f"A {end('07', asks=OTHER)}"], "fail", [], False),
]


def notes(case, folder):
    """The notes on a dialogue: in JSON, in the text if that lists the dialogue, and in JUnit's text. They change no verdict."""
    name, entries, verdict, wanted, is_listed = case
    checks, path = Checks(f"notes: {name}"), put(folder, "x.hex", lines(*entries).encode())
    report = Report(folder, [], [path])
    agree(checks, report)
    (found,) = report.dialogues[path]
    checks.same("verdict", found["verdict"], verdict)
    objects = [{"entry": entry, "line": line, "code": "other_context", "text": text} for entry, line, text in wanted]
    checks.same("JSON", found.get("notes", []), objects)
    told = [f"  note: {text}" for _, _, text in wanted] if is_listed else []
    checks.same("the text", [line for line in report.text.splitlines() if line.startswith("  note: ")], told)
    root = xml.etree.ElementTree.fromstring(report.junit)
    texts = [it.text for it in root.iter() if it.tag in ("failure", "error", "system-out")]
    checks.same("JUnit", [line for text in texts for line in text.splitlines() if line.startswith("  note: ")], told)
    return checks


def many_notes(_, folder):
    """Of ten AAREs with another application context, the text has the first eight, and JSON has all."""
    checks = Checks("many notes")
    path = put(folder, "x.hex", lines(f"A {begin('01', asks=ASKS)}", *[ANSWER] * 10).encode())
    report = Report(folder, [], [path])
    agree(checks, report)
    told = [line for line in report.text.splitlines() if line.startswith("  note: ")]
    checks.same("the text", told, [f"  note: {NOTE.format(at, at + 1, '2a0305', 0, 1)}" for at in range(1, 9)] +
                ["  note: 2 more have another application context"])
    checks.same("JSON", [it["entry"] for it in report.dialogues[path][0]["notes"]], [*range(1, 11)])
    return checks


def jobs():
    """Each case, with what it is about."""
    yield from ((passing, case) for case in PASSING)
    yield from ((not_passing, case) for case in NOT_PASSING)
    yield from ((notes, case) for case in NOTES)
    yield limits, None
    yield many_notes, None
