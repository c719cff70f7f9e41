"""Cases of tests/page.py: what the page of planted faults shows, and what its filters and keys do."""

import re

import made_reports as made
from browser import Keys

# The dialogues of made_reports.planted, by their traces and their numbers there.
CALLS = [("calls.hex", number) for number in range(4)]
LONG, RECORD = ("long.hex", 0), ("record.bin", 0)
ALL = [*CALLS, LONG, RECORD]
TRACES = ["calls.hex", "passing.hex", "long.hex", "record.bin", "broken.hex"]
# What is chosen, and the dialogues and traces that are listed then.
FILTERS = [
    ({}, ALL, TRACES),
    ({"verdict": "fail"}, [CALLS[0], CALLS[1], LONG], ["calls.hex", "long.hex"]),
    ({"verdict": "inconc"}, [CALLS[2], RECORD], ["calls.hex", "record.bin"]),
    ({"verdict": "error"}, [CALLS[3]], ["calls.hex", "broken.hex"]),
    ({"verdict": "pass"}, [], ["passing.hex"]),
    ({"end": "A"}, [CALLS[1], LONG], ["calls.hex", "long.hex"]),
    ({"end": "B"}, CALLS[:3], ["calls.hex"]),
    ({"kind": "F4"}, [CALLS[1]], ["calls.hex"]),
    ({"kind": "F10"}, [LONG], ["long.hex"]),
    ({"kind": "F15"}, [CALLS[2]], ["calls.hex"]),
    ({"kind": "F4", "end": "B"}, [CALLS[1]], ["calls.hex"]),
    ({"kind": "F4", "end": "A"}, [], []),
    ({"table": "=MAP"}, [CALLS[0], LONG], ["calls.hex", "long.hex"]),
    ({"table": "=CAP"}, [CALLS[2]], ["calls.hex"]),
    ({"table": "-"}, [CALLS[1], CALLS[3], RECORD], ["calls.hex", "record.bin"]),
    ({"trace": "0"}, CALLS, ["calls.hex"]),
    ({"trace": "2"}, [LONG], ["long.hex"]),
    ({"verdict": "fail", "table": "=MAP", "end": "A", "kind": "F10", "trace": "2"}, [LONG], ["long.hex"]),
    ({"verdict": "inconc", "table": "=MAP"}, [], []),
    ({"words": "0b"}, [CALLS[0], RECORD], ["calls.hex", "record.bin"]),
    ({"words": "F0"}, [CALLS[0], LONG], ["calls.hex", "long.hex"]),
    ({"words": "updategprs"}, [LONG], ["long.hex"]),
    ({"words": "UPDATE"}, [CALLS[0], LONG], ["calls.hex", "long.hex"]),
    ({"words": "cap"}, [CALLS[2]], ["calls.hex"]),
    ({"words": "Calls aa01"}, [CALLS[2]], ["calls.hex"]),
    ({"words": "broken"}, [], ["broken.hex"]),
    ({"words": "0b000001", "kind": "F12"}, [CALLS[0]], ["calls.hex"]),
    ({"words": "no such name"}, [], []),
    # Lines of the trace: those of entries that are left out, too, and that of the fault of a trace.
    ({"words": "line 5"}, [*CALLS[:2], LONG], ["calls.hex", "long.hex"]),
    ({"words": " LINE  30 "}, [LONG], ["long.hex"]),
    ({"words": "line 7"}, [LONG], ["long.hex", "broken.hex"]),
    ({"words": "line 12"}, [LONG], ["long.hex"]),
    ({"words": "line 102"}, [], []),
    ({"words": "52"}, [LONG], ["long.hex"]),
    # As a line, and as a part of the ID e5.
    ({"words": "5"}, [CALLS[0], CALLS[1], CALLS[3], LONG], ["calls.hex", "long.hex"]),
    # Comments: a number is that of a frame, and no part of a time.
    ({"words": "frame 12"}, [CALLS[0]], ["calls.hex"]),
    ({"words": "frame 1"}, [], []),
    ({"words": "frame 812"}, [CALLS[1]], ["calls.hex"]),
    ({"words": "812"}, [CALLS[1]], ["calls.hex"]),
    ({"words": "2025"}, [], []),
    ({"words": "2025-11 09:14"}, [LONG], ["long.hex"]),
    ({"words": "12.625"}, [CALLS[1]], ["calls.hex"]),
    ({"words": "625"}, [], []),
    ({"words": "frame 23"}, [LONG], ["long.hex"]),
    ({"words": "line 5 frame 812"}, [CALLS[1]], ["calls.hex"]),
    ({"words": "frame 812 line 7"}, [], []),
]
# By how many keys a filter is set, and what is listed then.
BY_KEYS = [("verdict", 1, [CALLS[3]]), ("end", 2, CALLS[:3]), ("kind", 1, [CALLS[1]]), ("table", 1, [CALLS[2]]), ("trace", 2, [LONG])]
# The steps of made_reports.answered_already: from, what is seen of it, and of the line at the side of B.
STEPS = [
    ("A", "0 Begin otid 0b000001 AARQ context=04000001000102 shows F12 of B", "right shows begins"),
    ("B", "1 Continue otid 7f01 dtid 0b000001 AARE context=04000001000102 result=0 user=0", "right passed"),
    ("A", "2 Continue otid 0b000001 dtid 7f01", "right passed"),
    ("B", "3 End dtid 0b000001 B at fault: F12", "right fault ends"),
]
PLACES = ["line 2: frame 12, 2025-11-25T09:13:55.000001Z, entry 0", "line 3", "line 4",
          "line 5: frame 15, 2025-11-25T09:13:55.300001Z, entry 3"]
# What the list says of each fault: of CALLS, and of LONG. The sentence on the fault of B in the second one only has the
# words of its kind, which the page has with their section.
FAULTS = [["B F12"], ["B F4", "A F8"], ["B F15"], ["A F10"]]
OF_ANSWER = "invocation 1 of updateLocation 2 was answered already, by the Return Result in this message"
OF_ID = "its originating ID is d3; A's ID in this transaction is d2"
OF_OPEN = "a transaction of B is open at this quiet mark: that from bb02, as in entry 1"
OF_MARK = f"It is a quiet mark, and a transaction of the end is surely open there. (the bench's word that all was quiet) {OF_OPEN}"
FAULT_WORDS = [
    f"line 5, frame 15: {OF_ANSWER}",
    f"B line 5, Frame 812: Its end has ended this dialogue before. (Q.774 3.3) A line 6: {OF_ID}",
    f"line 4: {OF_OPEN}",
    "line 52, frames 21 to 23: not all invocations of ID 5 are over: 2 of them do not expire",
]
NO_TABLE = "no table is for a dialogue without an application context name; give one with --table FILE"
OF_RESULT = "ReturnResultLast 1 answers updateLocation 2"
DUMP = """0000  64 12 49 04 0b 00 00 01  6c 0a a2 03 02 01 01 a2  d.I.....l.......
0010  03 02 01 01                                       ...."""
SHOW = "3 B End dtid=0b000001\n  ReturnResultLast id=1\n  ReturnResultLast id=1"


def open_planted(shown, fragment=""):
    shown.open(shown.put("planted", made.page_with(made.planted())) + fragment)


def first_rows(shown):
    """Of the rows of the list of dialogues that stand in the page the name and what stands last beside it."""
    return shown.run("""[...document.querySelectorAll('#dialogues .upper')].map(
        it => [it.querySelector('.name').textContent, it.lastChild.textContent])""")


def listed(shown):
    """The dialogues whose rows stand in the page."""
    return [(name, int(last.removeprefix("dialogue "))) for name, last in first_rows(shown) if last != name]


def in_error(shown):
    """The traces whose rows stand there before them: of a trace its name stands last."""
    return [name for name, last in first_rows(shown) if last == name]


def listed_traces(shown):
    """The traces whose rows stand in the page where their list is turned to."""
    shown.click("#tab-traces")
    found = shown.run("[...document.querySelectorAll('#traces .row')].map(it => it.querySelector('.name').textContent)")
    shown.click("#tab-dialogues")
    return found


def focus(shown):
    """What has the focus: its ID, or else its first class, or its element."""
    return shown.run("(it => it.id || it.classList[0] || it.localName)(document.activeElement)")


def heading(shown):
    return shown.text("#shown h2")


def sums(checks, shown):
    open_planted(shown)
    checks.same("heads", shown.texts("#sums th[scope=col]"), ["", "error", "fail", "inconc", "pass", "all"])
    rows = [shown.texts(f"#sums tr:nth-child({number}) > *") for number in (2, 3)]
    # Traces: calls and broken, long, record, passing. Those that pass: 20 and 11.
    checks.same("traces", rows[0], ["traces", "2", "1", "1", "1", "5"])
    checks.same("dialogues", rows[1], ["dialogues", "1", "3", "2", "31", "37"])
    checks.same("others", shown.text("#sums p"), "1,396 messages; 3 pass unheard or unanswered")
    checks.same("the program", shown.text("#version"), f"Judged by tcapjudge {made.VERSION}")
    checks.same("notes", shown.texts("#notes p"), [])


def filters(checks, shown):
    open_planted(shown)
    for chosen, dialogues, traces in FILTERS:
        for name, value in chosen.items():
            shown.choose(name, value)
        checks.same(f"{chosen}, dialogues", listed(shown), dialogues)
        # The trace that is an error by itself stands before the dialogues.
        broken = [it for it in traces if it == "broken.hex"]
        counts = [f"Dialogues {len(dialogues)} of 6{', 1 trace in error' * len(broken)}", f"Traces {len(traces)} of 5"]
        checks.same(f"{chosen}, traces in error", in_error(shown), broken)
        checks.same(f"{chosen}, counts", shown.texts("[role=tab]"), counts)
        checks.same(f"{chosen}, said aloud", shown.text("#listed"), f"{'. '.join(counts)}.")
        checks.same(f"{chosen}, traces", listed_traces(shown), traces)
        if not dialogues and not broken:
            words = "No dialogue is listed: the filters leave none."
            checks.same(f"{chosen}, shown", shown.text("#shown"), words + " Show the trace that the filters leave" * len(traces))
        shown.click("#clear")
    kinds = shown.texts("#filters [name=kind] option")
    checks.same("kinds", [it.split(":")[0] for it in kinds], ["any", "F4 (1)", "F8 (1)", "F10 (1)", "F12 (1)", "F15 (1)"])
    checks.same("words of a kind", kinds[1], "F4 (1): Its end has ended this dialogue before.")
    checks.same("ends", shown.texts("#filters [name=end] option"), ["any", "A (2)", "B (3)"])
    checks.same("tables", shown.texts("#filters [name=table] option"), ["any", "CAP (1)", "MAP (2)", "without a name (3)"])


def events(checks, shown):
    """One of the two events is enough."""
    open_planted(shown)
    for event in ("change", "input"):
        for name, value, wanted in (("kind", "F4", [CALLS[1]]), ("words", "frame 23", [LONG])):
            shown.run("""((it, value, event) => {
                it.value = value;
                it.dispatchEvent(new Event(event, {bubbles: true}));
            })(document.querySelector(arguments[0]), arguments[1], arguments[2])""", f"#filters [name={name}]", value, event)
            checks.same(f"{event} of {name}", listed(shown), wanted)
            shown.click("#clear")


def filters_by_keys(checks, shown):
    open_planted(shown)
    for name, count, wanted in BY_KEYS:
        shown.run("document.querySelector('#filters select').focus()")
        for _ in range(10):
            if shown.run("document.activeElement.name") == name:
                break
            shown.press(Keys.TAB)
        shown.press(*[Keys.ARROW_DOWN] * count)
        checks.same(f"{name}, listed", listed(shown), wanted)
        shown.run("document.getElementById('clear').focus()")
        shown.press(Keys.ENTER)
        checks.same(f"{name}, cleared", listed(shown), ALL)


def typed_search(checks, shown):
    open_planted(shown)
    shown.click("#filters [name=words]")
    shown.press("bb0")
    checks.same("listed", listed(shown), [CALLS[2]])
    shown.press(Keys.ENTER)
    checks.same("Enter leads to the list", (listed(shown), heading(shown), focus(shown)),
                ([CALLS[2]], "calls.hex dialogue 2 inconc", "dialogues"))
    shown.click("#clear")
    shown.click("#filters [name=words]")
    shown.press("calls")
    shown.click("#dialogues .row", 1)
    checks.same("the click behind it is heard", (len(listed(shown)), heading(shown)), (4, "calls.hex dialogue 1 fail"))
    words = [shown.text("#filters .words"), shown.run("document.querySelector('[name=words]').placeholder")]
    checks.same("what is searched", words, ["Search IDs, names, comments, lines, kinds, reasons", "as 7f01, line 12, frame 812, F9 or unheard"])


def a_click(checks, shown):
    open_planted(shown)
    checks.same("at first", heading(shown), "calls.hex dialogue 0 fail")
    shown.click("#dialogues .row", 5)
    checks.same("the sixth", heading(shown), "long.hex dialogue 0 fail")
    checks.same("chosen", shown.texts("#dialogues .row[aria-selected=true] .name"), ["long.hex", "MAP"])
    shown.click("#tab-traces")
    shown.click("#traces .row", 4)
    checks.same("a trace", shown.text("#shown .reason"), "line 7: odd count of digits; column 9")
    shown.click("#traces .row", 2)
    shown.click("#shown button")
    checks.same("its dialogues", (listed(shown), heading(shown)), ([LONG], "long.hex dialogue 0 fail"))


def tips(shown, number):
    """How far the tip of the arrow of a step is from the left and from the right lifeline."""
    return shown.run("""((step) => {
        const tip = step.querySelector('.arrow path').getBoundingClientRect();
        const lines = step.querySelector('.between').getBoundingClientRect();
        return [tip.left - lines.left, lines.right - tip.right];
    })(document.querySelectorAll('.step')[arguments[0]])""", number)


def ladder(checks, shown):
    open_planted(shown, "#0")
    checks.same("lifelines", shown.texts(".heads span"), ["A 0b000001", "B 7f01"])
    checks.same("steps", shown.texts(".step .first"), [said for _, said, _ in STEPS])
    checks.same("places", shown.texts(".step .place"), PLACES)
    ways = {"A": "from A to B", "B": "from B to A"}
    checks.same("said aloud", shown.texts(".step .unseen"), [ways[end] for end, _, _ in STEPS])
    lanes = shown.run("[...document.querySelectorAll('.lane.right')].map(it => it.className)")
    checks.same("the line of B", [" ".join(it.split()[1:]) for it in lanes], [it for _, _, it in STEPS])
    checks.same("no line of A", len(shown.all(".lane.left:not(.fault, .shows, .passed)")), 4)
    for number, (end, _, _) in enumerate(STEPS):
        left, right = tips(shown, number)
        near, far = (right, left) if end == "A" else (left, right)
        checks.holds(f"tip of arrow {number}, {left} {right}", abs(near) < 6 and far > 100)
    checks.same("at fault", shown.run("[...document.querySelectorAll('.step.fault')].map(it => it.dataset.entry)"), ["3"])
    checks.same("its parts", shown.texts(".step.fault .part"), [OF_RESULT, f"{OF_RESULT} at fault"])
    checks.same("the operation", shown.texts(".step:first-child .part"), ["Invoke 1 updateLocation 2"])
    drawn = "['::before', '::after'].map(it => getComputedStyle(arguments[0], it).display !== 'none')"
    found = [shown.run(drawn, it) for it in shown.all(".lane.right")]
    checks.same("what is drawn of the line", found, [[True, True], [True, False], [True, False], [True, True]])


def reasons(checks, shown):
    open_planted(shown, "#0")
    wanted = ["fail B: at entry 3, line 5, frame 15, F12. It answers an invocation that was answered already. "
              f"(Q.774 3.2; Q.771, classes) {OF_ANSWER}", "pass A: sent 2 messages, with 0 messages of its peer taken as unheard."]
    checks.same("summaries", shown.texts(".summary"), wanted)
    lines = shown.texts(".reason .line")
    wanted = [OF_ANSWER, "entry 3 of B, component 1: it answers an invocation that was answered already"]
    checks.same("first lines", lines[:2], wanted)
    evidence = ["A: Invokes of 1 in this transaction: 0", "B: Return Results Last of 1 before it: 3"]
    checks.same("evidence", lines[-2:], evidence)
    shown.click(".reason .leap")
    checks.same("it leads to entry 0", shown.run("document.activeElement.closest('.step').dataset.entry"), "0")
    facts = dict(zip(shown.texts(".facts dt"), shown.texts(".facts dd")))
    checks.same("facts", facts, {"IDs of A": "0b000001", "IDs of B": "7f01", "Table": "MAP", "Context": "04000001000102",
                                 "Entries": "4: lines 2 to 5 of the trace"})
    open_planted(shown, "#2")
    checks.same("a mark", shown.texts(".step .first")[2], "2 Quiet mark B in doubt: F15")
    checks.same("a doubt", shown.text(".doubt"), "Inconclusive: the quiet mark is the bench's word.")
    shown.click(".summary .leap")
    checks.same("it leads to the mark", focus(shown), "between")
    open_planted(shown, "#3")
    checks.same("an error", shown.text(".reasons"), f"Why {NO_TABLE}")
    open_planted(shown, "#5")
    checks.same("no message", shown.texts(".step .first")[1], "1 No message a component portion without content")
    checks.same("no lines", shown.texts(".step .place"), ["", ""])
    undecided = "inconc A: it is not found how it can have sent its part, and no entry of it is blamed"
    checks.same("undecided", (shown.texts(".summary")[0], shown.text(".reasons")), (undecided, ""))


def both_ends(checks, shown):
    open_planted(shown, "#1")
    lines = {"left": ["shows begins", "shows", "passed", "passed", "fault ends"],
             "right": ["", "", "shows begins", "fault ends", ""]}
    for side, wanted in lines.items():
        lanes = shown.run(f"[...document.querySelectorAll('.lane.{side}')].map(it => it.className)")
        checks.same(side, [" ".join(it.split()[2:]) for it in lanes], wanted)
    marks = ["shows F8 of A", "shows F8 of A", "shows F4 of B", "B at fault: F4", "A at fault: F8"]
    checks.same("marks", shown.texts(".mark"), marks)
    lower = "fail B: at entry 3, line 5, Frame 812, F4. Its end has ended this dialogue before. (Q.774 3.3)"
    later = ("fail A: at entry 4, line 6, F8. Its end has no transaction over which it may send it. (Q.774 3.3) "
             f"It comes later and may follow from the first. {OF_ID}")
    checks.same("the lower entry first", shown.texts(".summary"), [lower, later])
    checks.same("so the reasons", shown.texts(".reasons h3"), ["Why, of B", "Why, of A"])
    shown.open(shown.put("both", made.page_with([made.open_at_both_ends()])))
    checks.same("at one entry", shown.texts(".summary"), [f"inconc {end}: at entry 2, line 4, F15. {OF_MARK}" for end in "AB"])


def open_and_hint(checks, shown):
    """What a dialogue waits for stands once, of both ends; and what a trace looks like stands behind its fault."""
    shown.open(shown.put("open", made.page_with([made.open_at_end(), made.trace("open.hex", "inconc", 1, inconc=1)])))
    summaries = [f"inconc {end}: the dialogue is open at the end of its trace" for end in "AB"]
    checks.same("open", shown.texts(".summary"), summaries)
    checks.same("what it waits for", (shown.texts(".reasons h3"), shown.texts(".reasons .line")),
                (["What it waits for"], ["it waits for an answer of B to the Begin in entry 0"]))
    shown.open(shown.put("hint", made.page_with([made.looked_like("a capture")])))
    shown.click("#tab-traces")
    shown.click("#traces .row", 0)
    found = shown.run("document.querySelector('#shown .reason').innerText")
    checks.same("a hint", found, "line 1: no end; column 1\nhint: this looks like a capture")


def list_of_faults(checks, shown):
    """The list says where each fault is, and what its kind means."""
    open_planted(shown)
    rows = shown.run("""[...document.querySelectorAll('#dialogues .row')].map(
        it => [...it.querySelectorAll('b')].map(it => it.innerText))""")
    checks.same("kinds", rows, [[], *FAULTS[:3], [], FAULTS[3], []])
    checks.same("words", shown.texts("#dialogues .faults"), FAULT_WORDS)
    others = [it for it in shown.texts("#dialogues .row") if "calls.hex dialogue 3" in it or "record.bin" in it]
    checks.same("others", others, [f"error calls.hex dialogue 3 {NO_TABLE} A e5 B -", "inconc record.bin "
                                   "dialogue 0 it is not found how it can have sent its part, and no entry of it is blamed A 0b99 B -"])
    titles = shown.run("[...document.querySelectorAll('#dialogues b')].map(it => it.title)")
    checks.same("title", titles[1], "Its end has ended this dialogue before. (Q.774 3.3)")
    cut = shown.run("[...document.querySelectorAll('#dialogues .row > *')].filter(it => it.scrollHeight > it.clientHeight).length")
    checks.same("lines that are cut below", cut, 0)


def kinds(checks, shown):
    """The kinds, with the words of `explain` and the sections of the definitions and of docs/VERDICTS.md."""
    words = re.findall(r'Kind::\w+ =>\s+"(.+)"', made.page.text_of("crates/tcap_evidence/src/words.rt"))[:15]
    sections = re.findall(r"^-- ---- F\d: [^(]+\((.+)\)$", made.page.text_of("crates/tcap_refute/specs/Kind.antt"), re.MULTILINE)
    sections += re.findall(r"^\| F\d+ \| [^|]+ \| ([^|]+) \| [^|]+ \|$", made.page.text_of("docs/VERDICTS.md"), re.MULTILINE)
    checks.same("what there is", (len(words), len(sections)), (15, 15))
    open_planted(shown)
    seen = "document.querySelector('#kinds dl').checkVisibility({contentVisibilityAuto: true, visibilityProperty: true})"
    checks.same("closed at first", shown.run(seen), False)
    shown.click("#kinds summary")
    checks.same("a click opens them", shown.run(seen), True)
    checks.same("all", shown.texts("#kinds dt"), [f"F{number}" for number in range(1, 16)])
    for number, (told, word, section) in enumerate(zip(shown.texts("#kinds dd"), words, sections), 1):
        checks.holds(f"F{number}, its section: {told}", told.endswith(f". ({section})"))
        # Of F15 `explain` speaks otherwise, since it names the mark.
        checks.holds(f"F{number}, its words: {told}", number == 15 or told.lower().startswith(word.lower()))
    shown.press(Keys.ENTER)
    checks.same("Enter closes them", shown.run(seen), False)
    shown.press(Keys.SPACE)
    checks.same("a blank opens them", shown.run(seen), True)


def open_at_once(checks, shown):
    """The messages at fault are open."""
    opened = "[...document.querySelectorAll('.detail')].map(it => it.closest('.step').dataset.entry)"
    for number, wanted in enumerate([["3"], ["3", "4"], [], [], ["50"], []]):
        open_planted(shown, f"#{number}")
        checks.same(f"of dialogue {number}", shown.run(opened), wanted)
        states = shown.run("[...document.querySelectorAll('.message[aria-expanded=true]')].length")
        checks.same(f"of dialogue {number}, said", states, len(wanted))


def octets(checks, shown):
    open_planted(shown, "#0")
    checks.same("what show prints", shown.run("document.querySelector('.show').textContent"), SHOW)
    checks.same("the octets", shown.run("document.querySelector('.dump').textContent"), DUMP)
    shown.click(".message", 3)
    checks.same("closed", len(shown.all(".detail")), 0)
    shown.click(".message", 0)
    shown.click(".message", 3)
    entries = shown.run("[...document.querySelectorAll('.show')].map(it => it.textContent.split(' ')[0])")
    checks.same("two are open", entries, ["0", "3"])


def keys(checks, shown):
    open_planted(shown)
    for _ in range(20):
        if focus(shown) == "dialogues":
            break
        shown.press(Keys.TAB)
    checks.same("Tab leads to the list", focus(shown), "dialogues")
    checks.same("the focus is seen", shown.run("getComputedStyle(document.activeElement).outlineStyle"), "solid")
    rows = [["broken.hex", "error"], *([name, "dialogue", str(number)] for name, number in ALL)]
    for name, wanted in (("ARROW_DOWN", 2), ("END", 6), ("ARROW_UP", 5), ("HOME", 0), ("ARROW_UP", 0), ("PAGE_DOWN", 6)):
        shown.press(getattr(Keys, name))
        active = shown.run("document.getElementById('dialogues').getAttribute('aria-activedescendant')")
        checks.same(f"{name}, its row", shown.run("document.getElementById(arguments[0]).dataset.at", active), str(wanted))
        checks.same(f"{name}, shown", heading(shown).split()[:3], rows[wanted])
    shown.press(Keys.HOME, Keys.ENTER)
    checks.same("Enter leads to a trace in error", focus(shown), "h2")
    shown.press(Keys.ESCAPE, Keys.ARROW_DOWN, Keys.ENTER)
    checks.same("Enter leads to the fault", shown.run("document.activeElement.closest('.step').dataset.entry"), "3")
    checks.same("it is open", len(shown.all(".detail")), 1)
    shown.press(Keys.ENTER)
    checks.same("Enter closes it", len(shown.all(".detail")), 0)
    shown.press(Keys.ENTER)
    checks.same("Enter opens it", len(shown.all(".detail")), 1)
    shown.press(Keys.ESCAPE)
    checks.same("Escape closes it", (len(shown.all(".detail")), focus(shown)), (0, "message"))
    shown.press(Keys.ESCAPE)
    checks.same("Escape leads back", focus(shown), "dialogues")
    shown.press(Keys.ESCAPE)
    checks.same("and to the search", shown.run("document.activeElement.name"), "words")


CASES = [sums, filters, events, filters_by_keys, typed_search, a_click, ladder, reasons, both_ends, open_and_hint, list_of_faults, kinds,
         open_at_once, octets, keys]
