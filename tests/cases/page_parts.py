"""Cases of tests/page.py: what the page says of components beside what the report has of each, and which fault of its kind one is."""

import made_reports as made
from page_cases import listed

# Of made_reports.answers the components of each message. The others have no operation that is sure: B invoked 7 itself, nobody 9, A 2
# twice and 4 from an ID to which B does not answer; and before the last stands an entry that is no message.
ANSWERS = [
    ["Invoke 1 updateLocation 2", "Invoke 2 sendIMSI 58", "Invoke -3 45"],
    ["ReturnResultNotLast 1 answers updateLocation 2", "ReturnResultLast -3 answers 45", "Invoke 7 cancelLocation 3"],
    ["ReturnResultLast 1 answers updateLocation 2", "ReturnResultLast 7", "ReturnResultLast 9", "Reject 1"],
    ["ReturnError 7 answers cancelLocation 3", "Invoke 2 sendIMSI 58"],
    ["Invoke 4 checkIMEI 43"],
    ["ReturnResultLast 2", "ReturnResultLast 4", "ReturnResultLast 1 answers updateLocation 2"],
    [],
    ["ReturnResultLast 1"],
]
# Messages of two ends: the components of each with their lines in what `show` prints, and the words of the page. The names of problems
# are those of Q.773 4.2.2; none has the number 9. That a result names another operation than the one that was invoked is told.
PARTS = [
    ("A", "Begin", "otid=a1", [
        ("Invoke 1 askHer 60", "Invoke id=1 op=60 parameter=0401", "Invoke 1 askHer 60"),
        ("Invoke 2 2a8648", "Invoke id=2 op=g:2a8648", "Invoke 2 2a8648"),
        ("Invoke 3 askHim 45", "Invoke id=3 linked=-5 op=45", "Invoke 3 askHim 45 linked to -5"),
        ("Invoke 4 askHim 45", "Invoke id=4 op=45", "Invoke 4 askHim 45"),
    ]),
    ("B", "Continue", "otid=b1 dtid=a1", [
        ("ReturnResultLast 1", "ReturnResultLast id=1 op=45 parameter=0401",
         "ReturnResultLast 1 answers askHer 60, but names askHim 45"),
        ("ReturnResultLast 2", "ReturnResultLast id=2 op=g:2a8648", "ReturnResultLast 2 answers 2a8648"),
        ("ReturnResultNotLast 3", "ReturnResultNotLast id=3 op=7", "ReturnResultNotLast 3 answers askHim 45, but names 7"),
        ("ReturnResultLast 77", "ReturnResultLast id=77 op=60", "ReturnResultLast 77 names askHer 60"),
        ("ReturnError 4", "ReturnError id=4 error=13 parameter=0401", "ReturnError 4 answers askHim 45 with error 13"),
        ("ReturnError 9", "ReturnError id=9 error=g:2b01", "ReturnError 9 with error 2b01"),
    ]),
    ("A", "Continue", "otid=a1 dtid=b1", [
        ("Reject 1", "Reject id=1 general=2", "Reject 1 with general problem 2, badlyStructuredComponent"),
        ("Reject 2", "Reject id=2 invoke=0", "Reject 2 with invoke problem 0, duplicateInvokeID"),
        ("Reject 3", "Reject id=3 invoke=7", "Reject 3 with invoke problem 7, unexpectedLinkedOperation"),
        ("Reject 4", "Reject id=4 result=1", "Reject 4 with return result problem 1, returnResultUnexpected"),
        ("Reject", "Reject id=null error=4", "Reject with return error problem 4, mistypedParameter"),
        ("Reject 6", "Reject id=6 error=9", "Reject 6 with return error problem 9"),
    ]),
]
# The sentences of the program on the rows of docs/RULES.md, each after its kind.
SENTENCES = [it.split(": ", 1) for it in made.page.text_of("tests/cases/rule_sentences.txt").splitlines()]
# Sentences that only have the words of their kinds.
OF_KINDS = [["F3", "its end has used the originating ID"], ["F12", "it answers an invocation that was answered already"]]


def operations(checks, shown):
    """An answer has its operation, where that is sure."""
    shown.open(shown.put("answers", made.page_with([made.answers()])))
    found = shown.run("""[...document.querySelectorAll('.step')].map(
        it => [...it.querySelectorAll('.part')].map(it => it.textContent))""")
    checks.same("components", found, ANSWERS)
    left_out = made.answers() | {"messages": [it for it in made.answers()["messages"] if it["entry"] != 4], "left_out": 1}
    shown.open(shown.put("answers", made.page_with([left_out])))
    found = shown.run("[...document.querySelectorAll('[data-entry=\"5\"] .part')].map(it => it.textContent)")
    checks.same("behind what is left out", found, ["ReturnResultLast 2", "ReturnResultLast 4", "ReturnResultLast 1"])


def parts(checks, shown):
    """Links, problems, error codes, and operations that a result names, from what `show` prints."""
    messages = [made.message(at, end, kind, ids, "", [(short, line) for short, line, _ in of])
                for at, (end, kind, ids, of) in enumerate(PARTS)]
    ends = {"B": made.blamed(1, "F6", "  entry 1 of B\n  the result names tellHer 7\n", component=2)}
    shown.open(shown.put("parts", made.page_with([made.dialogue("a.hex", 0, "fail", messages, "a1", "b1", ends)])))
    wanted = [words for _, _, _, of in PARTS for _, _, words in of]
    # What the reason says is the name of 7.
    at = wanted.index("ReturnResultNotLast 3 answers askHim 45, but names 7")
    wanted[at] = "ReturnResultNotLast 3 answers askHim 45, but names tellHer 7 at fault"
    checks.same("components", shown.run("[...document.querySelectorAll('.part')].map(it => it.textContent)"), wanted)


def which_fault(checks, shown):
    """The sentence on a fault is in the row and in the headline of its dialogue, and the search finds it. If it only has
    the words of the kind, these are there once, with the section."""
    objects = []
    for at, (kind, sentence) in enumerate([*SENTENCES, *OF_KINDS]):
        ends = {"A": made.blamed(0, kind, f"  {sentence}\n  entry 0 of A: the words of its kind\n"), "B": made.pass_of(0)}
        messages = [made.message(0, "A", "Begin", f"otid=a{at:03}", "")]
        objects.append(made.dialogue("a.hex", at, "fail", messages, f"a{at:03}", "", ends))
    shown.open(shown.put("told", made.page_with(objects)))
    last = len(SENTENCES)
    for at, (kind, sentence) in enumerate([*SENTENCES, *OF_KINDS]):
        shown.run("location.hash = arguments[0]", f"#{at}")
        shown.settle()
        row, found = shown.text("#dialogues [aria-selected=true] .faults"), shown.texts(".sentence")
        checks.same(f"{at}, {kind}", found, [sentence] if at < last else [])
        checks.holds(f"{at}, its row: {row}", row == f"line 2: {sentence}" if at < last else sentence in row.lower() and "Q.77" in row)
    for kind, words in (("F9", "AARE missing"), ("F9", "f9 only"), ("F1", "five messages"), ("F15", "quiet mark")):
        shown.choose("words", words)
        wanted = [at for at, (it, sentence) in enumerate(SENTENCES) if it == kind and words.split()[-1] in sentence]
        checks.same(f"searched: {words}", [number for _, number in listed(shown)], wanted)
        checks.holds(f"there are some: {words}", wanted)


def as_often(checks, shown):
    """An entry is named with how often it shows a thing."""
    messages = [made.message(at, "A", "Continue", "otid=f0 dtid=f1", "") for at in range(3)]
    lines = "  entry 2 of A\n  A: Invokes: entries 0, 1, 1, 2, 2, 2\n"
    ends = {"A": made.blamed(2, "F10", lines, [("A: Invokes", [0, 1, 1, 2, 2, 2])])}
    shown.open(shown.put("often", made.page_with([made.dialogue("a.hex", 0, "fail", messages, "f0", "f1", ends)])))
    checks.same("entries", shown.texts(".reason .line")[-1], "A: Invokes: 0 1 (twice) 2 (3 times)")
    checks.same("buttons", shown.texts(".reason .leap"), ["0", "1", "2"])


def in_doubt(checks, shown):
    """What is inconclusive is drawn in the colour of that, and not as a fault."""
    colours = """['.step.fault .between', '.step.fault .arrow line', '.lane.fault'].map(it => document.querySelector(it)).map(
        it => it && [getComputedStyle(it).backgroundColor, getComputedStyle(it).stroke, getComputedStyle(it, '::after').borderTopColor])"""
    messages = [made.message(at, "A", "Continue", "otid=f0 dtid=f1", "") for at in range(2)]
    found = []
    for more in ({}, {"doubt": "an operation that the table lacks"}):
        ends = {"A": made.blamed(1, "F10", "  entry 1 of A\n  A: Invokes: entry 0\n", [("A: Invokes", [0])], **more)}
        verdict = "inconc" if more else "fail"
        shown.open(shown.put("doubt", made.page_with([made.dialogue("a.hex", 0, verdict, messages, "f0", "f1", ends)])))
        ground, ink = (shown.run(f"getComputedStyle(document.documentElement).getPropertyValue('--{verdict}{it}')") for it in ("-ground", ""))
        (behind, _, _), (_, arrow, _), (_, _, line) = shown.run(colours)
        found.append([made_colour(it) for it in (ground, ink, ink)] == [behind, arrow, line])
        checks.holds(f"{verdict}: {behind}, {arrow}, {line}", found[-1])


def made_colour(digits):
    """A colour of the style as the browser says one."""
    parts = [int(digits.strip()[at:at + 2], 16) for at in (1, 3, 5)]
    return f"rgb({', '.join(map(str, parts))})"


CASES = [operations, parts, which_fault, as_often, in_doubt]
