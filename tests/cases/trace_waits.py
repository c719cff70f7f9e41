"""Cases for tests/traces.py of dialogues that are to be complete and are open at the end of their trace or at a quiet mark: what is said
that each waits for, worked out by hand from docs/TRACES.md. It is said once, of both ends, whichever end is asked."""

import re
import xml.etree.ElementTree
from dataclasses import dataclass

from traced import Checks, Report, agree, open_words, put, run
from trace_rows import BACK, INVOKE, LONG, RESULT, SHORT, WRONG_CONTINUE, begin, element, error, go_on, invoke, lines, reject, result

END = ["it waits for an End or an Abort"]
# Answers to invocations 1, 2 and 3, of which the first is not the last one.
NOT_LAST = element("A7", "020101")
ANSWERS = [NOT_LAST, error("02"), reject("03", "02")]


def begun(of, entry):
    """What is said of a Begin without an answer."""
    return f"it waits for an answer of {of} to the Begin in entry {entry}"


def invoked(of, id, entry):
    """What is said of an invocation without one."""
    return f"it waits for an answer of {of} to invocation {id} in entry {entry}, of class 1"


@dataclass
class Waits:
    """A trace with one dialogue, and what it waits for. `kind` is the fault of B, where B has one."""

    name: str
    entries: list
    lines: list
    kind: str = None


WAITS = [
    Waits("the Begin of A", SHORT[:1], [begun("B", 0)]),
    Waits("the Begin of B", [f"B {begin('01')}"], [begun("A", 0)]),
    Waits("an End, behind an answer to the Begin", [SHORT[0], BACK], END),
    Waits("an End, behind an answer to an invocation", LONG[:2], END),
    Waits(
        "an invocation of class 1, and none of another class",
        [f"A {begin('01', INVOKE, invoke('02', '2E'), invoke('03', '2F'), invoke('04', '30'))}", BACK],
        [invoked("B", 1, 0)],
    ),
    Waits("a Begin and its invocations, in their order", [f"A {begin('01', invoke('05', '2D'), invoke('FC', '32'))}"],
          [begun("B", 0), invoked("B", 5, 0), invoked("B", -4, 0)]),
    Waits(
        "invocations of both ends, in the order of their entries",
        [
            SHORT[0],
            f"B {go_on('07', '01', invoke('03', '2D'))}",
            f"A {go_on('01', '07', invoke('05', '2D'), invoke('04', '32'))}",
            f"B {go_on('07', '01', invoke('01', '2D'))}",
        ],
        [invoked("A", 3, 1), invoked("B", 5, 2), invoked("B", 4, 2), invoked("A", 1, 3)],
    ),
    Waits(
        "an invocation of B, and A's of the same ID has its answer",
        [LONG[0], f"B {go_on('07', '01', RESULT, INVOKE)}", f"A {go_on('01', '07')}"],
        [invoked("A", 1, 1)],
    ),
    Waits(
        "an ID that is used anew",
        [*LONG[:2], f"A {go_on('01', '07', INVOKE)}"],
        [invoked("B", 1, 2)],
    ),
    Waits(
        "a Return Result that is the last: a Return Error and a Reject are answers",
        [f"A {begin('01', *(invoke(id, '2D') for id in ('01', '02', '03')))}", f"B {go_on('07', '01', *ANSWERS)}"],
        [invoked("B", 1, 0)],
    ),
    Waits(
        "of ten the first eight",
        [SHORT[0], BACK, f"A {go_on('01', '07', *(invoke(f'{id:02X}', '2D') for id in range(10)))}"],
        [*(invoked("B", id, 2) for id in range(8)), "and for 2 more answers"],
    ),
    Waits("an answer of B, which is at fault", [LONG[0], WRONG_CONTINUE], [invoked("B", 1, 0)], "F5"),
    Waits("at a mark, the Begin of A and its invocation", [LONG[0], "Q"], [begun("B", 0), invoked("B", 1, 0)]),
    Waits("at a mark, an invocation; the mark is held against B", [LONG[0], BACK, "Q"], [invoked("B", 1, 0)], "F15"),
    Waits("at a mark, an End; the mark is held against B", [SHORT[0], BACK, "Q"], END, "F15"),
    Waits("an answer of A to B, which is at fault", [SHORT[0], f"B {go_on('07', '01', result('05'), INVOKE)}"], [invoked("A", 1, 1)], "F5"),
]


def look_at_waits(checks, report, path, case, of):
    """What is said of the one dialogue, of the ends that are asked."""
    agree(checks, report)
    (found,) = report.dialogues[path]
    (told,) = [it for it in xml.etree.ElementTree.fromstring(report.junit).iter() if it.tag in ("failure", "error")]
    is_open = [end for end in of if end == "A" or case.kind is None]
    words = open_words(found)
    checks.same("the ends that are open", [end for end in of if found[end].get("text") == f"{words}\n"], is_open)
    waits = [f"  {line}" for line in case.lines] if is_open else []
    checks.same("JSON", found.get("text", "").splitlines(), waits)
    for name, text in ("the text", report.text), ("JUnit", told.text):
        block = text.splitlines()
        checks.same(f"once in {name}", [line for line in block if re.match("  (it waits|and) for ", line)], waits)
        if is_open:
            at = block.index(f"  {is_open[-1]}: inconc: {words}") + 1
            checks.same(f"behind the ends in {name}", block[at : at + len(waits)], waits)
    if is_open and found["verdict"] == "inconc":
        checks.same("the message", told.get("message"), f"{is_open[0]}: {words}; {case.lines[0]}")


def waits(case, folder):
    """What is said of a case where both ends are asked, and where one is; of the record of it, too."""
    checks, text = Checks(f"waits: {case.name}"), lines(*case.entries)
    path = put(folder, "x.hex", text.encode())
    record = put(folder, "record", run(["pack"], text.encode()).stdout)
    for words, of in ([], "AB"), (["--of", "A"], "A"), (["--of", "B"], "B"):
        for it in path, record:
            look_at_waits(checks, Report(folder, ["--complete", *words], [it]), it, case, of)
    passing = Report(folder, [], [path])
    checks.same("nothing of it without --complete", ("it waits" in passing.text, "text" in passing.dialogues[path][0]), (False, False))
    return checks


def jobs():
    """Each case, with what it is about."""
    yield from ((waits, case) for case in WAITS)
