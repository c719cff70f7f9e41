"""Cases of tests/page.py: the pages that the program writes, of examples, of a trace whose name and comments are hostile, and of
runs. What is wanted of an example is what its head and docs/ say of it."""

import os

from page_cases import heading, listed, listed_traces
from page_runs import STOPPED, run_rows
from traced import run

TABLE = "examples/operations.json"
ANSWERED, CROSSING, BOTH, MARK = EXAMPLES = [
    f"examples/{name}.hex" for name in ("answered_already", "crossing", "negative_test_failed", "open_at_mark")]
# Behind the folder of the pages; what stands before the script is a folder.
HOSTILE_NAME = "</script><img src=x onerror=alert(1)>'\"`&amp;\t\n\x1b\u2028\u202e.hex"
COMMENTS = [
    "</script><script>document.title = 'taken'</script><img src=x onerror=alert(2)><style>*{display:none}</style>",
    "<!--<script>",
    "\"'`&quot;&#x3c;${1}\\u003c\\\"\\",
    "".join(chr(it) for it in [*range(32), 127, 0x85, 0x2028, 0x2029, 0x202E, 0xFEFF] if it != 10) + " in the middle",
    f"frame 812, {'<x>' * 3333}",
]
# The lines of the second messages, which are at fault: two comments and two messages each.
AT_FAULT = [4 * number + 4 for number in range(len(COMMENTS))]
PASSES = "A: sent 1 message, with 0 messages of its peer taken as unheard."
CHART = ["0 Begin otid 01", "1 Continue otid 02 dtid 01", "2 End dtid 02 comes later", "3 Continue otid 02 dtid 01 comes later",
         "2 End dtid 02 comes to B", "3 Continue otid 02 dtid 01 comes to A", "4 Abort dtid 02 cause=1 A's provider answers 3"]


def visible(text, longest=80):
    """What is seen of a text: the numbers of characters that show nothing, and no more than so many characters of all."""
    whole = "".join(it if it.isprintable() else f"\\u{{{ord(it):x}}}" for it in text)
    return whole if len(whole) <= longest else f"{whole[:longest]}\u2026"


def hostile_trace(folder):
    """Makes the trace whose name and comments are hostile, and returns its name. In the dialogue of each comment, which stands
    above both messages, B answers what A never invoked: F5."""
    name = f"{folder}/{HOSTILE_NAME}"
    os.makedirs(os.path.dirname(name), exist_ok=True)
    with open(name, "w", encoding="utf-8", newline="\n") as file:
        for number, comment in enumerate(COMMENTS):
            file.write(f"# {comment}\nA 62034801{number:02x}\n# {comment}\nB 640a4901{number:02x}6c05a203020101\n")
    return name


def open_written(checks, shown, name, words, status):
    """Opens the page of that name, which the program writes when it is run by these words."""
    ran = run([*words, f"{shown.folder}/{name}.html"])
    checks.same(f"{name}, the run", (ran.returncode, ran.stderr), (status, b""))
    shown.open(f"file://{shown.folder}/{name}.html")


def open_report(checks, shown):
    """Opens the page of the examples and of the hostile trace. Returns the dialogues that do not pass, by their traces and numbers."""
    name = hostile_trace(shown.folder)
    open_written(checks, shown, "written", ["test", "--table", TABLE, *EXAMPLES, name, "--html"], 1)
    return [*((it, 0) for it in (ANSWERED, BOTH, MARK)), *((visible(name), number) for number in range(len(COMMENTS)))]


def at_fault(shown):
    """The entries that the ladder marks."""
    return shown.run("[...document.querySelectorAll('.step.fault')].map(it => it.dataset.entry)")


def a_report(checks, shown):
    """What is listed of a report of the program."""
    every = open_report(checks, shown)
    hostile, last = every[3:], every[-1][0]
    checks.same("traces", shown.texts("#sums tr:nth-child(2) > *"), ["traces", "0", "3", "1", "1", "5"])
    checks.same("dialogues", shown.texts("#sums tr:nth-child(3) > *"), ["dialogues", "0", "7", "1", "1", "9"])
    # Of the examples 2, 5, 5 and 2, as their lines say.
    checks.same("messages", shown.text("#sums p"), f"{14 + 2 * len(COMMENTS)} messages; 0 pass unheard or unanswered")
    checks.same("notes", shown.texts("#notes p"), [])
    for chosen, dialogues, traces in (
        ({}, every, [*EXAMPLES, last]),
        ({"verdict": "inconc"}, [(MARK, 0)], [MARK]),
        ({"verdict": "pass"}, [], [CROSSING]),
        ({"kind": "F12"}, [(ANSWERED, 0)], [ANSWERED]),
        ({"kind": "F5"}, hostile, [last]),
        ({"end": "A"}, [(BOTH, 0)], [BOTH]),
        ({"trace": "4", "words": "onerror"}, hostile, [last]),
        ({"words": "&quot;"}, hostile[2:3], [last]),
        ({"words": "line 20"}, hostile[4:], [last]),
        ({"words": "frame 812"}, hostile[4:], [last]),
    ):
        for name, value in chosen.items():
            shown.choose(name, value)
        checks.same(f"{chosen}, dialogues", listed(shown), dialogues)
        checks.same(f"{chosen}, traces", listed_traces(shown), traces)
        shown.click("#clear")
    options = shown.run("[...document.querySelectorAll('#filters [name=trace] option')].map(it => it.textContent)")
    checks.same("the filter of traces", options, ["any", f"{ANSWERED} (1)", f"{BOTH} (1)", f"{MARK} (1)", f"{last} (5)"])


def its_dialogues(checks, shown):
    """A click on a row shows its dialogue, with the entries at fault."""
    open_report(checks, shown)
    checks.same("at first", (heading(shown), at_fault(shown)), (f"{ANSWERED} dialogue 0 fail", ["1"]))
    checks.same("its answers", shown.texts(".step.fault .part"),
                ["ReturnResultLast 1 answers 45", "ReturnResultLast 1 answers 45 at fault"])
    checks.same("what its head says", shown.texts(".step .place"),
                ["line 2: End B answers one invocation twice. Undecided; B is blamed for entry 1, F12.", "line 3"])
    shown.click("#dialogues .row", 1)
    checks.same("both ends", (heading(shown), at_fault(shown)), (f"{BOTH} dialogue 0 fail", ["3", "4"]))
    checks.same("their marks", [it for it in shown.texts(".mark") if "fault" in it], ["B at fault: F4", "A at fault: F8"])
    shown.click(".message", 2)
    checks.same("what is open", [it.split()[0] for it in shown.texts(".show")], ["2", "3", "4"])
    # The third message of the example.
    checks.same("octets", shown.text(".dump"), "0000 64 03 49 01 02 d.I..")
    shown.click("#dialogues .row", 2)
    checks.same("a quiet mark", (heading(shown), at_fault(shown)), (f"{MARK} dialogue 0 inconc", ["2"]))
    checks.same("in doubt", shown.texts(".mark.doubtful"), ["B in doubt: F15"])


def hostile_texts(checks, shown):
    """Names and comments are texts, as they stand in the trace."""
    name, found = open_report(checks, shown)[-1][0], "['script', 'style', 'img', 'iframe'].map(it => document.querySelectorAll(it).length)"
    for number, (comment, line) in enumerate(zip(COMMENTS, AT_FAULT)):
        shown.click("#dialogues .row", 3 + number)
        checks.same(f"{number}, its heading", shown.run("document.querySelector('#shown h2 .name').textContent"), name)
        checks.same(f"{number}, at fault", (at_fault(shown), shown.texts(".step.fault .mark")), (["1"], ["B at fault: F5", "at fault"]))
        place = shown.run("document.querySelector('.step.fault .place').textContent")
        checks.same(f"{number}, its comment", place, visible(f"line {line}: {comment}", 160))
        whole = shown.run("[...document.querySelectorAll('.step.fault .long .name')].map(it => it.textContent)")
        wanted = visible(comment, len(comment) * 9)
        checks.same(f"{number}, the whole comment", whole, [wanted] if len(wanted) > 80 else [])
        summaries = [f"fail B: at entry 1, line {line}{', frame 812' if 'frame' in comment else ''}, F5. "
                     "It answers or rejects what its peer never sent. (Q.774 3.2)", f"pass {PASSES}"]
        checks.same(f"{number}, summaries", shown.texts(".summary"), summaries)
        checks.same(f"{number}, elements", shown.run(found), [2, 1, 0, 0])
        checks.same(f"{number}, title", shown.run("document.title"), "TCAP dialogues, judged")
        checks.same(f"{number}, width", shown.run("document.documentElement.scrollWidth"), 1280)


def charts(checks, shown):
    """Runs that `explain --chart` draws: one that is lawful, one that stops, and one of an end alone."""
    for name, flags, status, verdict in (("crossing", [], 0, "LAWFUL 5"), ("late_result", [], 2, "UNDECIDED 4 65/50"),
                                         ("negative_test", ["--end", "A"], 0, "LAWFUL 5 unheard 0")):
        record = f"{shown.folder}/record"
        with open(record, "wb") as file:
            file.write(run(["pack", f"examples/{name}.hex"]).stdout)
        open_written(checks, shown, name, ["explain", *flags, record, TABLE, "--chart"], status)
        checks.same(f"{name}, its title", heading(shown), verdict)
        if name == "crossing":
            checks.same("rows", shown.texts(".step .first"), CHART)
        if name == "late_result":
            checks.same("rows of what stops", run_rows(shown), STOPPED)
        checks.same(f"{name}, what is marked", at_fault(shown), ["4"] if name == "late_result" else [])
        checks.same(f"{name}, lifelines", shown.texts(".heads span"), ["A, judged alone" if flags else "A", "B"])
        checks.same(f"{name}, notes", shown.texts("#notes p"), [])


CASES = [a_report, its_dialogues, hostile_texts, charts]
