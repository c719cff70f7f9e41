"""Cases of tests/page.py: traces that are errors by themselves or have dialogues that pass unheard, links to what is not in the page, and
narrow windows."""

import made_reports as made
from browser import Keys
from page_cases import CALLS, focus, heading, in_error, listed, open_planted

NARROW = 400
# Links to what is not in the page: the heading, the note, and the tab that is turned to.
MISSING = [
    ("#trace=calls.hex&dialogue=9", "calls.hex error", "Dialogue 9 of this trace is not in this page: those that pass are only counted."),
    ("#trace=calls.hex&dialogue=24", "calls.hex error", "Dialogue 24 of this trace was not judged: 24 dialogues of it were."),
    ("#trace=broken.hex&dialogue=0", "broken.hex error", "Dialogue 0 of this trace was not judged: 0 dialogues of it were."),
    ("#trace=passing.hex&dialogue=0", "passing.hex pass", "Dialogue 0 of this trace is not in this page: those that pass are only counted."),
]
# The names of traces, and those that the lists have.
SHORTENED = [
    (["/home/x/night/a/calls.hex", "/home/x/night/b/calls.hex"], ["a/calls.hex", "b/calls.hex"]),
    (["night/calls.hex"], ["calls.hex"]),
    (["night/calls.hex", "night/calls.hex"], ["calls.hex", "calls.hex"]),
    (["/a/x.hex", "/b/y.hex"], ["a/x.hex", "b/y.hex"]),
    (["a/b", "a/b/c"], ["b", "b/c"]),
    (["a/b/c", "a/b"], ["b/c", "b"]),
    (["ab/x.hex", "a/x.hex"], ["ab/x.hex", "a/x.hex"]),
    (["a/x.hex", "-"], ["a/x.hex", "-"]),
]
NOWHERE = [("#trace=nothing.hex&dialogue=0", "The trace nothing.hex is not in this page."),
           ("#99", "No dialogue of this page has the number in this link."), ("#t99", "No trace of this page has the number in this link.")]


def traces_in_error(checks, shown):
    """A trace that is an error by itself stands before the dialogues, and what became of its messages is said."""
    open_planted(shown)
    checks.same("the first row", shown.text("#dialogues .row"), "error broken.hex line 7: odd count of digits; column 9")
    shown.click("#dialogues .row")
    checks.same("a click", (heading(shown), shown.text("#shown .reason")), ("broken.hex error", "line 7: odd count of digits; column 9"))
    checks.same("counts", shown.texts("#filters [name=verdict] option")[1], "error (2)")
    for chosen, wanted in (("broken", ["broken.hex"]), ("odd digits", ["broken.hex"]), ("long", [])):
        shown.choose("words", chosen)
        checks.same(f"searched: {chosen}", in_error(shown), wanted)
    shown.click("#clear")
    shown.choose("verdict", "error")
    shown.run("(window.print = () => {})")
    shown.click("#print-listed")
    shown.show_as("print")
    checks.same("printed", shown.texts("#printed h2"), ["broken.hex error", "calls.hex dialogue 3 error"])
    shown.show_as()
    cut = [made.trace("cut.hex", "error", 12, text="line 29: the element is cut; column 103", line=29),
           made.trace("late.hex", "error", 9, text="line 9: no digit; column 1", line=9, **{"pass": 2})]
    shown.open(shown.put("cut", made.page_with([*cut, made.total(cut)])))
    checks.same("of none", shown.texts("#shown .note"), ["None of its 12 messages was judged."])
    shown.click("#dialogues .row", 1)
    checks.same("of some", shown.texts("#shown .note"), ["Dialogues that were open there may not be told."])


def counts_list(checks, shown):
    """A click on a count lists what is counted, where the lists have it."""
    open_planted(shown)
    checks.same("counts to click", shown.texts("#sums button"), ["2", "1", "1", "1", "1", "3", "2", "3 pass unheard or unanswered"])
    shown.click("#sums tr:nth-child(2) button")
    checks.same("traces in error", (shown.texts("#traces .row .name:first-of-type")[:1], focus(shown)), (["calls.hex"], "traces"))
    checks.same("all of them", shown.text("#tab-traces"), "Traces 2 of 5")
    shown.click("#sums tr:nth-child(3) button", 1)
    checks.same("dialogues that fail", (shown.text("#tab-dialogues"), focus(shown)), ("Dialogues 3 of 6", "dialogues"))
    shown.click("#sums p button")
    checks.same("unheard", shown.run("[...document.querySelectorAll('#traces .row .upper .name')].map(it => it.textContent)"),
                ["calls.hex", "passing.hex"])


def unheard(checks, shown):
    """The rows of traces say how many dialogues pass unheard or unanswered, and the word finds them."""
    open_planted(shown)
    shown.click("#tab-traces")
    rows = shown.texts("#traces .row .lower")
    checks.same("rows", [it for it in rows if "unheard" in it],
                ["1 error, 2 fail, 1 inconc, 20 pass, 2 pass unheard or unanswered", "11 pass, 1 pass unheard or unanswered"])
    shown.choose("words", "unheard")
    checks.same("found", shown.texts("[role=tab]"), ["Dialogues 0 of 6", "Traces 2 of 5"])
    words = "No dialogue is listed: the filters leave none. Show the 2 traces that the filters leave"
    checks.same("where they are", shown.text("#shown"), words)
    shown.click("#shown button")
    checks.same("the button leads there", (heading(shown), focus(shown)), ("calls.hex error", "traces"))


def missing(checks, shown):
    """A link to what is not in the page says so."""
    for fragment, wanted, note in MISSING:
        open_planted(shown, fragment)
        checks.same(fragment, (heading(shown), shown.texts("#shown .note")[0]), (wanted, note))
        tab = shown.run("document.querySelector('[role=tab][aria-selected=true]').id")
        checks.same(f"{fragment}, its list and the address", (tab, shown.address()), ("tab-traces", fragment))
    for fragment, note in NOWHERE:
        open_planted(shown, fragment)
        checks.same(fragment, (shown.text("#shown"), shown.address(), listed(shown)[0]), (note, fragment, CALLS[0]))
    # Nothing of the page is named.
    for fragment in ("#nothing", ""):
        open_planted(shown, fragment)
        checks.same(f"{fragment!r}", heading(shown), "calls.hex dialogue 0 fail")


def links_to_traces(checks, shown):
    """The address names a trace that is shown."""
    open_planted(shown)
    shown.click("#tab-traces")
    shown.click("#traces .row", 1)
    checks.same("after a click", shown.address(), "#trace=passing.hex")
    open_planted(shown, "#trace=passing.hex")
    checks.same("its link", (heading(shown), shown.texts("#shown .note")), ("passing.hex pass", []))
    twice = [made.trace("a.hex", "pass", 1, **{"pass": 1}), made.trace("a.hex", "pass", 2, **{"pass": 2})]
    address = shown.put("twice", made.page_with([*twice, made.total(twice)]))
    for fragment, count in (("#trace=a.hex", "1"), ("#t1", "2")):
        shown.open(address + fragment)
        checks.same(f"{fragment}, of two with one name", (shown.text(".facts dd"), shown.address()), (count, fragment))


def in_view(shown, selector):
    """Whether the beginning of an element is in the window."""
    return shown.run("(top => 0 <= top && top < innerHeight - 40)(document.querySelector(arguments[0]).getBoundingClientRect().top)", selector)


def narrow_windows(checks, shown):
    """Where what is shown stands below the list, a click on a row and a link lead to the fault."""
    shown.resize(NARROW, 740)
    open_planted(shown)
    checks.same("the list at first", in_view(shown, "#dialogues"), True)
    shown.click("#dialogues .row", 1)
    checks.same("a click", (in_view(shown, ".step.fault .message"), focus(shown)), (True, "message"))
    shown.press(Keys.ESCAPE, Keys.ESCAPE)
    checks.same("Escape leads back", focus(shown), "dialogues")
    open_planted(shown, "#4")
    checks.same("a link", (in_view(shown, ".step.fault .message"), focus(shown)), (True, "message"))


def layout(checks, shown):
    """A button is as wide as its words, and in print headings keep with what follows them."""
    open_planted(shown, "#trace=calls.hex")
    widths = shown.run("[document.querySelector('article > button'), document.querySelector('article')].map(it => it.offsetWidth)")
    checks.holds(f"width of a button, {widths}", widths[0] < widths[1] / 2)
    open_planted(shown, "#1")
    shown.show_as("print")
    kept = shown.run("['h2', 'h3', '.summary', '.heads'].map(it => getComputedStyle(document.querySelector(`#shown ${it}`)).breakAfter)")
    checks.same("keeps with what follows", kept, ["avoid"] * 4)


def first_shown(checks, shown):
    """The first dialogue that fails is shown when the page is opened, unless the link leads elsewhere. If none fails, the
    first row is shown."""
    open_planted(shown)
    checks.same("behind an error", (heading(shown), len(shown.all("#shown .detail"))), ("calls.hex dialogue 0 fail", 1))
    checks.same("its row", shown.run("document.querySelector('#dialogues [aria-selected=true]').dataset.at"), "1")
    waiting = [made.open_at_end() | {"dialogue": at} for at in range(200)]
    fails = made.long_dialogue()
    shown.open(shown.put("late", made.page_with([*waiting, made.trace("open.hex", "inconc", 200, inconc=200), fails])))
    checks.same("behind many", (heading(shown), in_view(shown, "#dialogues [aria-selected=true]")), ("long.hex dialogue 0 fail", True))
    shown.choose("verdict", "inconc")
    checks.same("without it", heading(shown), "open.hex dialogue 0 inconc")
    shown.open(shown.put("waits", made.page_with(waiting)))
    checks.same("if none fails", heading(shown), "open.hex dialogue 0 inconc")
    open_planted(shown, "#2")
    checks.same("a link", heading(shown), "calls.hex dialogue 2 inconc")


def folders(checks, shown):
    """The lists leave out the folder that all traces are in; their titles and the headings have it."""
    for names, wanted in SHORTENED:
        objects = [it for name in names for it in (made.long_dialogue() | {"trace": name}, made.trace(name, "fail", 100, fail=1))]
        shown.open(shown.put("folders", made.page_with(objects)))
        rows = "[...document.querySelectorAll(arguments[0])].map(it => [it.textContent, it.title])"
        titles = [[word, "" if word == name else name] for word, name in zip(wanted, names)]
        checks.same(f"{names}, dialogues", shown.run(rows, "#dialogues .upper .name"), titles)
        checks.same(f"{names}, traces", shown.run(rows, "#traces .upper .name") or titles, titles)
        options = shown.run(rows, "#filters [name=trace] option:not(:first-child)")
        checks.same(f"{names}, options", options, [[f"{word} (1)", title] for word, title in titles])
        checks.same(f"{names}, the heading", heading(shown), f"{names[0]} dialogue 0 fail")
        shown.choose("words", names[-1].upper())
        checks.same(f"{names}, searched", [name for name, _ in listed(shown)], [wanted[-1]] * names.count(names[-1]))


def end_names(checks, shown):
    """What a trace says of its ends is in the headings and above the lifelines."""
    names, long = {"A": "HLR of <b>the bench</b>\u202e", "B": "x" * 100}, "x" * 80 + "\u2026"
    said = ["A is HLR of <b>the bench</b>\\u{202e}", f"B is {long}"]
    objects = [made.answered_already(), made.trace("calls.hex", "fail", 4, fail=1, names=names),
               made.long_dialogue(), made.trace("long.hex", "fail", 100, fail=1, names={"B": "MSC"}),
               made.undecided(), made.trace("record.bin", "inconc", 2, inconc=1)]
    address = shown.put("names", made.page_with([*objects, made.total(objects)]))
    for fragment, ends, heads in (
        ("#0", said, [f"{said[0].replace(' is', '')} 0b000001", f"B {long} 7f01"]), ("#1", ["B is MSC"], ["A f0", "B MSC f1"]),
        ("#2", [], ["A 0b99", "B"]), ("#t0", said, []), ("#t2", [], []),
    ):
        shown.open(address + fragment)
        checks.same(f"{fragment}, the heading", shown.texts("#shown .heading .end"), ends)
        checks.same(f"{fragment}, the lifelines", shown.texts("#shown .heads span"), heads)
        width = shown.run("(it => it.scrollWidth - it.clientWidth)(document.getElementById('shown'))")
        checks.same(f"{fragment}, the width", width, 0)
    shown.open(address)
    checks.same("a long one", shown.run("document.querySelector('.heading .long .name').textContent"), names["B"])
    checks.same("what opens it", shown.texts(".heading .long summary"), ["The whole name of B"])
    # The names come after the dialogues.
    shown.open(shown.put("behind", made.page_of(made.many(3000, each=3000, names=names))))
    checks.same("of the first of many", shown.texts("#shown .heading .end"), said)


CASES = [first_shown, folders, end_names, traces_in_error, counts_list, unheard, missing, links_to_traces, narrow_windows, layout]
