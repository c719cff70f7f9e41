"""Cases of tests/page.py: hostile names, reports that have not all or nothing, many dialogues, windows and media, and where links lead."""

import made_reports as made
from browser import Keys
from page_cases import CALLS, LONG, focus, heading, listed, open_planted

# How often each page of many is opened at the least and at the most: until the least times are as wanted.
TURNS, MOST_TURNS = 3, 12
# How often as long 10,000 dialogues may take as 1,000: until the first are listed, and until all are read.
MOST_TIMES = [3, 10]
# Fragments, and the dialogues that they lead to.
LINKS = [("#trace=long.hex&dialogue=0", LONG), ("#2", CALLS[2]), ("#trace=calls.hex&dialogue=3", CALLS[3]), ("#0", CALLS[0])]
# Each colour of words, and what may stand behind it.
INKS = ["ink", "muted", "fail", "inconc", "error", "pass"]
PAIRS = [(ink, ground) for ink in INKS for ground in ("ground", "panel", "chosen")]
PAIRS += [(ink, ground) for ink in INKS[:4] for ground in ("fail-ground", "inconc-ground")]
# What WCAG 2.1 asks of words (1.4.3).
CONTRAST = 4.5


def hostile(checks, shown):
    address = shown.put("hostile", made.page_with(made.hostile()))
    scripts = None
    for number, name in enumerate(made.HOSTILE):
        shown.open(f"{address}#{number}")
        checks.same(f"{name[:20]!r}, listed", len(listed(shown)), len(made.HOSTILE))
        visible = "".join(it if it.isprintable() else f"\\u{{{ord(it):x}}}" for it in name)
        found = shown.run("document.querySelector('#shown h2 .name').textContent")
        checks.same(f"{name[:20]!r}, its heading", found, visible if len(visible) <= 80 else visible[:80] + "\u2026")
        if len(visible) > 80:
            whole = shown.run("document.querySelector('#shown .long .name').textContent")
            checks.same(f"{name[:20]!r}, the whole name", whole, visible)
        show = shown.run("document.querySelector('#shown .show').textContent")
        checks.holds(f"{name[:20]!r}, in show", visible.replace("\\u{a}", "\n") in show)
        counts = shown.run("['script', 'style', 'img', 'b b', 'iframe'].map(it => document.querySelectorAll(it).length)")
        scripts = scripts or counts
        checks.same(f"{name[:20]!r}, elements", (counts, counts[:3]), (scripts, [2, 1, 0]))
        checks.same(f"{name[:20]!r}, width", shown.run("document.documentElement.scrollWidth"), 1280)
        over = shown.run("(it => it.scrollWidth - it.clientWidth)(document.getElementById('shown'))")
        checks.same(f"{name[:20]!r}, width of what is shown", over, 0)
        shown.open(address + shown.address())
        found = shown.run("document.querySelector('#dialogues [aria-selected=true]').dataset.at")
        checks.same(f"{name[:20]!r}, its link", found, str(number))


def stopped(checks, shown):
    objects = made.planted()
    shown.open(shown.put("stopped", made.page_with(objects[:7])))
    note = ("This report is not whole: the run was stopped before its end. "
            "The sums are of the traces that were judged to their ends.")
    checks.same("without its total", shown.texts("#notes p"), [note])
    checks.same("the program", shown.run("document.getElementById('version').offsetHeight"), 0)
    checks.same("sums of two traces", shown.texts("#sums tr:nth-child(2) > *"), ["traces", "1", "0", "0", "1", "2"])
    checks.same("what is listed", listed(shown)[-1], ("long.hex", 0))
    shown.click("#tab-traces")
    shown.click("#traces .row", 2)
    under_way = "The run was stopped before this trace was judged to its end."
    checks.same("a trace under way", shown.text("#shown .note"), under_way)
    whole = made.page_with(objects)
    shown.open(shown.put("cut", whole[: whole.index('"show":"50 A')]))
    checks.same("cut in a line", shown.texts("#notes p"), [note])
    shown.press(Keys.TAB)
    shown.click("#dialogues .row", 4)
    checks.same("its messages", shown.text(".beside .note"), "The messages of this dialogue can't be read: its line is cut.")
    shown.open(shown.put("cut", whole[: whole.index('"ids":{"A":["f0"]')]))
    checks.same("cut in a head", shown.texts("#notes p"), [note, "1 line of the report can't be read."])


def nothing(checks, shown):
    for objects, counts in (([], "0"), ([made.trace("a.hex", "pass", 2, **{"pass": 1})], "1")):
        shown.open(shown.put("nothing", made.page_with([*objects, made.total(objects)])))
        checks.same("sums", shown.texts("#sums tr:nth-child(3) > *"), ["dialogues", "0", "0", "0", counts, counts])
        checks.same("shown", shown.text("#shown"), "No dialogue is listed. Those that pass are only counted.")
        checks.same("tabs", shown.texts("[role=tab]"), ["Dialogues 0 of 0", f"Traces {counts} of {counts}"])
        shown.run("document.getElementById('dialogues').focus()")
        shown.press(Keys.ARROW_DOWN, Keys.ENTER, Keys.ESCAPE)


def left_out(checks, shown):
    shown.open(shown.put("left", made.page_of(made.many(150, left_out=2345))))
    note = "2,345 of the dialogues that do not pass are not in this page, which has the first 150."
    checks.same("dialogues", shown.texts("#notes p"), [note])
    open_planted(shown, "#4")
    checks.same("entries", shown.text(".beside .note"), "94 of the 100 entries are not listed.")
    checks.same("where", shown.texts(".gap"), ["Entries 3 to 49 are not listed.", "Entries 51 to 97 are not listed."])
    disabled = shown.run("[...document.querySelectorAll('.reason .leap')].map(it => it.disabled)")
    checks.same("one that is not listed", disabled, [False, True])
    short = made.long_dialogue() | {"messages": made.long_dialogue()["messages"][:4], "left_out": 96}
    shown.open(shown.put("short", made.page_with([short, made.trace("long.hex", "fail", 100, fail=1)])))
    checks.same("at the end", shown.texts(".gap")[-1], "Entries 51 to 99 are not listed.")


def times_of(shown, page):
    """After how many milliseconds a page lists its first dialogues, and has been read."""
    shown.open(page)
    return shown.run("[window.openedAt, performance.getEntriesByType('navigation')[0].domContentLoadedEventEnd]")


def is_quick(least):
    return all(many < most * few for few, many, most in zip(*least, MOST_TIMES))


def many(checks, shown):
    """10,000 dialogues are there in less than three times what 1,000 take, and are read to their end in linear time."""
    pages = [shown.put(f"many-{count}", made.page_of(made.many(count))) for count in (1000, 10_000)]
    least = [times_of(shown, page) for page in pages]
    for turn in range(1, MOST_TURNS):
        if turn >= TURNS and is_quick(least):
            break
        least = [[*map(min, times, times_of(shown, page))] for times, page in zip(least, pages)]
    for what, few, all_times in zip(("list their first", "are read"), *least):
        print(f"pages {what} after {few:.0f} ms with 1,000 dialogues, {all_times:.0f} ms with 10,000")
    checks.holds(f"times {least}", is_quick(least))
    checks.same("all are listed", shown.text("#tab-dialogues"), "Dialogues 10,000 of 10,000")
    checks.holds("rows in the page", len(shown.all(".row")) < 100)
    shown.run("document.getElementById('dialogues').focus()")
    shown.press(Keys.END)
    checks.same("the last", heading(shown), "calls-0099.hex dialogue 99 fail")
    checks.same("its IDs", shown.text("#dialogues [aria-selected=true] code"), "A a000270f B 7f01")
    shown.choose("words", "a000270")
    checks.same("searched", len(listed(shown)), 16)
    shown.choose("words", "calls-0042")
    checks.same("searched by name", shown.text("#tab-dialogues"), "Dialogues 100 of 10,000")


def many_traces(checks, shown):
    shown.open(shown.put("traces", made.page_of(made.many(1200, each=1))))
    options = shown.texts("#filters [name=trace] option")
    checks.same("the filter of traces", (len(options), options[-1]), (1002, "200 more in the list of traces"))
    shown.click("#tab-traces")
    shown.run("document.getElementById('traces').focus()")
    shown.press(Keys.END, Keys.ENTER)
    checks.same("one of the others", listed(shown), [("calls-1199.hex", 0)])
    shown.click("#clear")
    checks.same("all again", shown.text("#tab-dialogues"), "Dialogues 1,200 of 1,200")


def long_ladder(checks, shown):
    """A dialogue of 2,000 entries, all listed: the last is at fault, and each second one shows it."""
    messages = [made.message(at, "AB"[at % 2], "Continue", "otid=f0 dtid=f1", "65064801f04901f1") for at in range(2000)]
    ends = {"B": made.blamed(1999, "F10", "  entry 1999 of B\n  B: all: entries\n", [("B: all", list(range(1, 1999, 2)))])}
    shown.open(shown.put("ladder", made.page_with([made.dialogue("a.hex", 0, "fail", messages, "f0", "f1", ends)])))
    checks.same("steps", len(shown.all(".step")), 2000)
    checks.same("what shows it", len(shown.all(".lane.right.shows")), 999)
    checks.same("buttons in the reason", shown.texts(".reason .line")[-1].split()[-3:], ["and", "899", "others"])
    shown.run("document.getElementById('dialogues').focus()")
    shown.press(Keys.ENTER)
    top = shown.run("document.activeElement.getBoundingClientRect().top")
    checks.holds(f"the fault comes into view, {top}", 0 < top < 900)


def many_parts(checks, shown):
    """A message of 40 components, of which the one with the number 30 is at fault; and an end with 100 IDs."""
    parts = [(f"Invoke {at} ping 7", f"Invoke id={at} op=7") for at in range(40)]
    ends = {"A": made.blamed(0, "F10", "  entry 0 of A\n", component=30)}
    ids = [f"{at:08x}" for at in range(100)]
    messages = [made.message(0, "A", "Begin", "otid=00000000", "6206480400000000", parts)]
    dialogue = made.dialogue("a.hex", 0, "fail", messages, " ".join(ids), "", ends)
    shown.open(shown.put("parts", made.page_with([dialogue])))
    wanted = [*(f"Invoke {at} ping 7" for at in range(12)), "Invoke 30 ping 7 at fault", "and 27 others"]
    checks.same("parts", shown.texts(".part"), wanted)
    checks.same("all IDs", shown.run("document.querySelector('.facts .long .name').textContent"), " ".join(ids))
    shown.choose("words", ids[99][-3:])
    checks.same("the last is found", len(listed(shown)), 1)


def narrow(checks, shown):
    shown.resize(360, 740)
    for name, objects in (("planted", made.planted()), ("hostile", made.hostile())):
        address = shown.put(name, made.page_with(objects))
        for number in range(sum("dialogue" in it for it in objects)):
            shown.open(f"{address}#{number}")
            closed = ".message[aria-expanded=false], #kinds:not([open]) summary"
            shown.run("document.querySelectorAll(arguments[0]).forEach(it => it.click())", closed)
            checks.same(f"{name} {number}, width", shown.run("document.documentElement.scrollWidth"), 360)
    open_planted(shown)
    checks.holds("the list can be used", shown.run("document.getElementById('dialogues').clientHeight") > 150)


def contrast(shown, ink, ground):
    """The contrast of two colours of the style, as WCAG 2.1 defines it."""
    lights = []
    for name in (ink, ground):
        colour = shown.run(f"getComputedStyle(document.documentElement).getPropertyValue('--{name}')").strip()
        parts = [int(colour[at:at + 2], 16) / 255 for at in (1, 3, 5)]
        parts = [it / 12.92 if it <= 0.03928 else ((it + 0.055) / 1.055) ** 2.4 for it in parts]
        lights.append(0.2126 * parts[0] + 0.7152 * parts[1] + 0.0722 * parts[2])
    return (max(lights) + 0.05) / (min(lights) + 0.05)


def schemes(checks, shown):
    grounds = {"light": "rgb(255, 255, 255)", "dark": "rgb(20, 23, 26)"}
    for scheme, ground in grounds.items():
        shown.show_as(scheme=scheme)
        open_planted(shown)
        checks.same(f"{scheme}, ground", shown.run("getComputedStyle(document.body).backgroundColor"), ground)
        for ink, behind in PAIRS:
            found = contrast(shown, ink, behind)
            checks.holds(f"{scheme}, {ink} on {behind}: {found:.2f}", found >= CONTRAST)


def printed(checks, shown):
    open_planted(shown, "#0")
    shown.show_as("print", "dark")
    seen = "arguments[0].map(it => document.querySelector(it).offsetHeight > 0)"
    parts = ["header", "#filters", "#lists", "#shown", "#printed"]
    checks.same("the dialogue that is shown", shown.run(seen, parts), [True, False, False, True, False])
    colours = shown.run("['.badge.fail', '.mark.fault', 'h2'].map(it => getComputedStyle(document.querySelector(it)).color)")
    checks.same("black", colours, ["rgb(0, 0, 0)"] * 3)
    shown.show_as()
    shown.choose("verdict", "fail")
    shown.run("(window.print = () => { window.isPrinted = true; })")
    shown.click("#print-listed")
    shown.show_as("print")
    checks.same("asked to print", shown.run("window.isPrinted"), True)
    wanted = ["calls.hex dialogue 0 fail", "calls.hex dialogue 1 fail", "long.hex dialogue 0 fail"]
    checks.same("all that are listed", shown.texts("#printed h2"), wanted)
    checks.same("these alone", shown.run(seen, parts), [True, False, False, False, True])
    shown.run("window.dispatchEvent(new Event('afterprint'))")
    checks.same("then as before", shown.run(seen, parts), [True, False, False, True, False])


def named(checks, shown):
    """What can be worked has a name, and a row says where it stands."""
    open_planted(shown, "#0")
    shown.run("document.querySelector('.message').click()")
    for it in shown.all("button, select, input, [role=listbox], [role=tablist], [role=tabpanel], main section, .dump"):
        if it.get_attribute("id") not in ("printed", "traces", "panel-traces"):
            checks.holds(f"a name of {it.get_attribute('outerHTML')[:80]}", it.accessible_name)
    row = shown.all("#dialogues .row")[3]
    states = map(row.get_attribute, ("aria-selected", "aria-posinset", "aria-setsize"))
    checks.same("a row", [row.aria_role, *states], ["option", "false", "4", "7"])
    checks.same("lists", [it.aria_role for it in shown.all("#dialogues, [role=tab]")], ["tab", "tab", "listbox"])


def keys_of_traces(checks, shown):
    open_planted(shown)
    shown.run("document.getElementById('tab-dialogues').focus()")
    shown.press(Keys.ARROW_RIGHT)
    hidden = shown.run("['dialogues', 'traces'].map(it => document.getElementById(`panel-${it}`).hidden)")
    checks.same("an arrow turns", (focus(shown), hidden), ("tab-traces", [True, False]))
    shown.press(Keys.TAB, Keys.ARROW_DOWN, Keys.ARROW_DOWN, Keys.ENTER)
    checks.same("Enter at one whose dialogues pass", (heading(shown), focus(shown)), ("passing.hex pass", "h2"))
    shown.press(Keys.ESCAPE, Keys.ARROW_DOWN, Keys.ENTER)
    checks.same("Enter lists a trace's dialogues", (listed(shown), focus(shown)), ([LONG], "dialogues"))


def links(checks, shown):
    for fragment, wanted in LINKS:
        open_planted(shown, fragment)
        checks.same(fragment, heading(shown).split()[:3], [wanted[0], "dialogue", str(wanted[1])])
        checks.same(f"{fragment}, the address", shown.address(), f"#trace={wanted[0]}&dialogue={wanted[1]}")
    shown.choose("verdict", "error")
    shown.run("location.hash = '#4'")
    checks.same("another one", shown.address(), "#trace=long.hex&dialogue=0")
    checks.same("which the filters left out", (heading(shown), len(listed(shown))), ("long.hex dialogue 0 fail", 6))


CASES = [hostile, stopped, nothing, left_out, many, many_traces, long_ladder, many_parts, narrow, schemes, printed, named,
         keys_of_traces, links]
