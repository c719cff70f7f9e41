"""Cases of tests/page.py: what the pages of runs show."""

import made_reports as made
from browser import Keys
from page_cases import focus, heading, tips

# Of made_reports.lawful_run the rows: from which entry, what is seen, from where to where its arrow goes, in parts of the way from
# its end, and how it ends. End 2 comes behind Continue 3, which has left by then; End 7 is lost.
LAWFUL = [
    ("0", "0 Begin otid 01", 0, 100, "head"),
    ("1", "1 Continue otid 02 dtid 01", 0, 100, "head"),
    ("2", "2 End dtid 02 comes later", 0, 50, "head"),
    ("3", "3 Continue otid 02 dtid 01 comes later", 0, 50, "head"),
    (None, "2 End dtid 02 comes to B", 50, 100, "head"),
    (None, "3 Continue otid 02 dtid 01 comes to A", 50, 100, "head"),
    ("4", "4 Abort dtid 02 cause=1 A's provider answers 3", 0, 100, "head"),
    ("5", "5 Begin otid 03", 0, 100, "head"),
    ("6", "6 Continue otid 04 dtid 03", 0, 100, "head"),
    ("7", "7 End dtid 04 taken as lost", 0, 50, "cross"),
    ("8", "8 Begin otid 05", 0, 100, "head"),
    ("9", "9 Continue otid 04 dtid 03", 0, 100, "head"),
    ("10", "10 Abort dtid 04 cause=1 A's provider answers 9", 0, 100, "head"),
]
WHY = ("why: in the run that the certificate says, its end may not send it there (SendRefused): nothing there may be rejected so "
       "(RejectNotAllowed)")
STOPPED = [
    ("0", "0 Begin otid 01"), ("1", "1 Continue otid 02 dtid 01"), ("2", "2 Continue otid 02 dtid 01"),
    (None, "A: invocation 1 of otid=01 ends unseen"), ("3", "3 Continue otid 01 dtid 02"),
    (None, "The steps end here. The entries below stand as they are recorded."),
    ("4", f"4 Continue otid 01 dtid 02 UNDECIDED: {WHY.removeprefix('why: ')}"),
]
ALONE = [
    (None, "12 steps above are left out."), (None, "6 Message comes to A"),
    ("7", "7 Begin otid 11 A can't receive it: the ID is used"), ("8", "8 Begin otid 12"),
    ("9", "9 Begin otid 13 taken as lost before A"), (None, "A: the half with otid=12 closes unseen"), ("10", "10 Quiet mark"),
    (None, "1 step below is left out."),
]


def open_run(shown, name, run):
    shown.open(shown.put(name, made.page_with([run])))


def run_rows(shown):
    """The rows of a run: the entry of each, where it is one, and what is seen of it."""
    entries = shown.run("[...document.querySelectorAll('.step')].map(it => it.dataset.entry ?? null)")
    return list(zip(entries, shown.texts(".step .first")))


def run_arrows(shown):
    """The arrows of a run, in parts of the way from its end."""
    return shown.run("""[...document.querySelectorAll('.arrow')].map(it => {
        const line = it.querySelector('line'), tip = it.querySelector('path');
        return [parseInt(line.getAttribute('x1')), parseInt(line.getAttribute('x2')), tip.getAttribute('class')];
    })""")


def lanes(shown, side):
    """What is drawn beside the rows."""
    found = shown.run(f"[...document.querySelectorAll('.lane.{side}')].map(it => it.className)")
    return [" ".join(it.split()[2:]) for it in found]


def a_run(checks, shown):
    open_run(shown, "lawful", made.lawful_run())
    checks.same("its title", (heading(shown), shown.run("document.title")), ("LAWFUL 11", "LAWFUL 11"))
    checks.same("nothing is listed", [it.is_displayed() for it in shown.all("#lists, #filters, #notes p")], [False, False])
    checks.same("lifelines", shown.texts(".heads span"), ["A", "B"])
    checks.same("rows", run_rows(shown), [row[:2] for row in LAWFUL])
    checks.same("arrows", run_arrows(shown), [list(row[2:]) for row in LAWFUL])
    # End 2 comes to B, at the right, two rows later, and Continue 3 to A.
    checks.same("beside B", lanes(shown, "right"), ["", "", "shows begins late", "passed late", "shows ends late", *[""] * 8])
    checks.same("beside A", lanes(shown, "left"), [*[""] * 3, "shows begins late", "passed late", "shows ends late", *[""] * 7])
    checks.same("said aloud", shown.texts(".step .unseen")[2:6], ["from A to B", "from B to A", "comes to B", "comes to A"])
    for number, (near, far) in ((0, (1, 0)), (1, (0, 1))):
        checks.holds(f"tip of arrow {number}", tips(shown, number)[near] < 6 and tips(shown, number)[far] > 100)
    shown.run("document.querySelector('.message').focus()")
    shown.press(Keys.ENTER)
    checks.same("Enter opens it", shown.text(".show"), "0 A Begin otid=01")
    checks.same("without octets", len(shown.all(".dump")), 0)
    shown.press(Keys.ESCAPE)
    checks.same("Escape closes it", (len(shown.all(".detail")), focus(shown)), (0, "message"))
    checks.same("no reason", shown.texts(".reasons"), [])


def a_stopped_run(checks, shown):
    open_run(shown, "stopped", made.stopped_run())
    checks.same("its title", heading(shown), "UNDECIDED 4 65/50")
    checks.same("rows", run_rows(shown), STOPPED)
    checks.same("marked", shown.run("[...document.querySelectorAll('.step.fault')].map(it => it.dataset.entry)"), ["4"])
    checks.same("in doubt", len(shown.all(".mark.doubtful")), 1)
    checks.same("dotted behind the stop", shown.run("[...document.querySelectorAll('.step')].map("
                "it => it.querySelector('.arrow.dotted') !== null)"), [*[False] * 6, True])
    checks.same("why", shown.texts(".reason .line")[0], WHY)
    checks.same("what is said of the ends", shown.texts(".reason .line")[-1], "LAWFUL B 5 unheard 0")


def a_run_of_one(checks, shown):
    open_run(shown, "alone", made.run_of_one())
    checks.same("rows", run_rows(shown), ALONE)
    checks.same("lifelines", shown.texts(".heads span"), ["A, judged alone", "B"])
    facts = dict(zip(shown.texts(".facts dt"), shown.texts(".facts dd")))
    alone = "A alone: nothing is asked of what B sends, nor of what it hears"
    checks.same("facts", facts, {"Entries": "20", "Judged": alone})
    # What comes from above; the Begin that A can't receive, and its own, of which nothing more is asked; and the lost one.
    arrows = [[50, 100, "head"], [0, 100, "cross"], [0, 100, "head"], [0, 50, "cross"]]
    checks.same("arrows", run_arrows(shown), arrows)


def late_run(count):
    """A run in which so many Begins come when all have left, and a text stands for more than a text."""
    entries = [made.told(at, "A", "Begin", f"otid={at:08x}") for at in range(count)]
    steps = [made.deed("sends", "A", at) for at in range(count)] + [made.deed("receives", "B", at) for at in range(count)]
    steps[-1] = made.deed("discards", "B", count - 1, reason=made.HOSTILE[0])
    return made.run("LAWFUL B 1", entries, steps)


def runs(checks, shown):
    shown.open(shown.put("late", made.page_with([late_run(1000)])))
    checks.same("rows", len(shown.all(".step")), 2000)
    lines = [len(shown.all(f".lane.right.{part}")) for part in ("shows", "passed", "begins", "ends")]
    checks.same("one line beside them", lines, [2000, 0, 1, 1])
    words = shown.run("[...document.querySelectorAll('.step:last-child .tag')].map(it => it.textContent)")
    checks.same("the last", words, ["comes to B", f"B can't receive it: {made.HOSTILE[0]}"])
    checks.same("elements", shown.run("['script', 'img'].map(it => document.querySelectorAll(it).length)"), [2, 0])
    for name, run in (("lawful", made.lawful_run()), ("stopped", made.stopped_run()), ("alone", made.run_of_one())):
        shown.resize(360, 740)
        shown.open(shown.put(name, made.page_with([run])))
        shown.run("document.querySelector('.message').click()")
        checks.same(f"{name}, width", shown.run("document.documentElement.scrollWidth"), 360)
        shown.show_as("print", "dark")
        seen = shown.run("['#filters', '#lists', '#shown', '.ladder'].map(it => document.querySelector(it).offsetHeight > 0)")
        checks.same(f"{name}, printed", seen, [False, False, True, True])
        shown.show_as()
        unnamed = [it.get_attribute("outerHTML")[:80] for it in shown.all("#shown button") if not it.accessible_name]
        checks.same(f"{name}, without a name", unnamed, [])
    on_its_way = made.run("LAWFUL 1", [made.told(0, "A", "Begin", "otid=01")], [made.deed("sends", "A", 0)])
    shown.open(shown.put("way", made.page_with([on_its_way])))
    checks.same("on its way", shown.texts(".step .first"), ["0 Begin otid 01 on its way at the end"])
    whole = made.page_with([made.lawful_run()])
    shown.open(shown.put("cut", whole[: whole.index('"steps"')]))
    checks.same("cut", shown.texts("#notes p")[-1], "1 line of the report can't be read.")


CASES = [a_run, a_stopped_run, a_run_of_one, runs]
