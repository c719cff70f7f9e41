"""Cases for tests/traces.py of directives, which are lines that begin with `#:` (docs/FORMAT.md), and of the longest lines."""

import itertools

from traced import Checks, Report, agree, put, run
from trace_rows import SHORT, WRONG_END, lines

# The most octets of a line, its end left out; and how many octets of a trace are read at once.
LINE_LIMIT, PIECE = 131_092, 8_192
TOO_LONG = f"line too long; column {LINE_LIMIT + 1}"
UNKNOWN, SECOND = "unknown directive", "a second directive of an end"
AFTER = "a directive of an end after the first entry or quiet mark"
BROKEN = "the trace was broken off"
BEHIND, ENTRY_BEHIND = f"a directive after {BROKEN}", f"an entry or a quiet mark after {BROKEN}"
DIALOGUE = lines(*SHORT)

# Lines that may stand before the first entry, and change no verdict here.
KNOWN = [
    "#: under way",
    "#:under way",
    "#: \t under way\t ",
    "#: under way\n#: under way",
    "#: A pc=101 ssn=8 gt=4917012",
    "#: B\tthe stack under test, \u00e9 \t",
    "#: B x\n#: under way\n# a comment\n\n#:A  B x",
    "#",
    "# : no directive",
]
# What may stand after `#: broken off`, and what may not.
MISSING = ["", ", 1 message missing", ", 12 messages missing", ", 1 messages missing", f", {'90' * 99} messages missing"]
NO_MISSING = [
    *(".", ",", " 12 messages missing", ",12 messages missing", ", messages missing", ",  messages missing"),
    *(", 12 message missing", ", 12 messages", ", 12  messages missing", ", x messages missing", ", -1 messages missing"),
]
NO_DIRECTIVES = [
    *("#:", "#: ", "#: \t", "#:#", "#::", "#: no", "#: under", "#: Under way", "#: under  way", "#: under way."),
    *("#: A", "#: A ", "#: B\t ", "#: a x", "#: AB x", "#: C x", "#: Q", "#: broken", "#: Broken off"),
    *(f"#: broken off{it}" for it in NO_MISSING),
]
# Lines, the number of the one that has a fault, and the fault.
MISPLACED = [
    ("#: A x\n#: A x", 2, SECOND),
    ("#: B x\n#: A x\n#: under way\n#: B y", 4, SECOND),
    (f"{SHORT[0]}\n#: A x", 2, AFTER),
    ("Q\n#: B x", 2, AFTER),
    (f"#: A x\n{SHORT[0]}\n#: A x", 3, AFTER),
    (f"#: broken off\n{SHORT[0]}", 2, ENTRY_BEHIND),
    ("#: broken off\n\n# a comment\nQ", 4, ENTRY_BEHIND),
    ("#: broken off\n#: broken off", 2, BEHIND),
    ("#: broken off\n#: under way", 2, BEHIND),
    ("#: broken off\n#: A x", 2, BEHIND),
    ("#: broken off\n#: no", 2, BEHIND),
]


def said_of(checks, folder, text):
    """What `test` says of a trace of lines, and of its dialogues."""
    path = put(folder, "x.hex", text.encode())
    report = Report(folder, [], [path])
    agree(checks, report)
    return report.traces[path], report.dialogues[path], report


def has_fault(checks, folder, text, number, why):
    """Looks whether the line of that number has that fault. Returns how many dialogues are judged."""
    found, dialogues, report = said_of(checks, folder, text)
    said = found["verdict"], found.get("line"), found.get("text")
    checks.same(f"{text[:60]!r}", said, ("error", number, f"line {number}: {why}"))
    checks.holds(f"the text of {text[:60]!r}", f": error: line {number}: {why}; " in report.text)
    return len(dialogues)


def known(_, folder):
    """Directives that change no verdict of a dialogue which begins in its trace."""
    checks = Checks("known directives")
    for text, end in itertools.product(KNOWN, ("\n", "\r\n")):
        found, dialogues, _ = said_of(checks, folder, f"{text}\n{DIALOGUE}".replace("\n", end))
        checks.same(f"{text!r}, {end!r}", (found["verdict"], len(dialogues)), ("pass", 1))
    return checks


def unknown(_, folder):
    """Lines that begin with `#:`, and are no directives: what stands before such a line is judged."""
    checks = Checks("unknown directives")
    for text in NO_DIRECTIVES:
        checks.same("dialogues", has_fault(checks, folder, f"{text}\nQ\n{DIALOGUE}", 1, UNKNOWN), 0)
        checks.same("dialogues", has_fault(checks, folder, f"{DIALOGUE}{text}\r\nQ\n{DIALOGUE}", 3, UNKNOWN), 1)
    has_fault(checks, folder, f"{DIALOGUE}#: under way\r", 3, UNKNOWN)
    return checks


def misplaced(_, folder):
    """Directives, entries and quiet marks that are not where they may be."""
    checks = Checks("directives in wrong places")
    for text, number, why in MISPLACED:
        has_fault(checks, folder, f"{text}\n{DIALOGUE}", number, why)
    return checks


def packed(_, folder):
    """For `pack` and `show --lines` directives are comments, whatever they say and wherever they are."""
    checks = Checks("directives that are packed")
    wanted = {word: run(word, DIALOGUE.encode()).stdout for word in (("pack",), ("show", "--lines"))}
    for text in [*KNOWN, *NO_DIRECTIVES, *(f"#: broken off{it}" for it in MISSING), "#: A x\n#: A x"]:
        for word, octets in wanted.items():
            for lined in f"{text}\n{DIALOGUE}", f"{DIALOGUE}{text}":
                ran = run(word, lined.encode())
                checks.same(f"{text!r}, {word}", (ran.returncode, ran.stdout), (0, octets))
    return checks


def broken_off(_, folder):
    """A trace that says of itself that it was broken off is an error, and each of its dialogues is judged."""
    checks, front = Checks("a trace that was broken off"), lines(SHORT[0], WRONG_END, "Q", *SHORT)
    for missing, end in itertools.product(MISSING, ("", "\n", " \t\r\n", "\n# a comment\n\n")):
        found, dialogues, report = said_of(checks, folder, f"{front}#: broken off{missing}{end}")
        said = found["verdict"], [it["verdict"] for it in dialogues], report.status
        checks.same(f"{missing!r}, {end!r}: {found}", said, ("error", ["fail", "pass"], 3))
        checks.holds("its line", f": error: line 6: {BROKEN}{missing}; " in report.text)
    return checks


def no_comments(_, folder):
    """A directive is not the comment of the entry below it."""
    checks = Checks("a directive above an entry")
    for above, comment in ("# one\n#: under way", None), ("#: under way\n# one", "one"), ("#:under way", None):
        _, (found,), _ = said_of(checks, folder, f"{SHORT[0]}\n{above}\n{WRONG_END}\n")
        checks.same(f"{above!r}", (found["verdict"], found["B"].get("comment")), ("fail", comment))
    return checks


def named(_, folder):
    """What directives say of the ends is in the object of the trace, and under each dialogue that does not pass. There U+FFFD stands
    for a control character."""
    checks = Checks("names of ends")
    for said, names in [("", None), ("#: A pc=101\n", {"A": "pc=101"}), ("#: B x\x1b[1m y\n#: A \u00e9\n", {"A": "\u00e9", "B": "x\x1b[1m y"})]:
        found, _, report = said_of(checks, folder, said + lines(SHORT[0], WRONG_END, "Q", *SHORT))
        checks.same(f"{said!r}, JSON", found.get("names"), names)
        wanted = [f"  {end} is {name.replace(chr(0x1B), chr(0xFFFD))}" for end, name in (names or {}).items()]
        checks.same(f"{said!r}, the text", report.text.split("\n")[1 : 1 + len(wanted)], wanted)
        checks.same(f"{said!r}, once", sum(" is " in line for line in wanted), len([line for line in report.text.split("\n") if line[:5] in ("  A i", "  B i")]))
    return checks


def longest_lines(_, folder):
    """A comment of as many octets as a line may have, and of one more, wherever the pieces end in which a trace is read:
    `test` says what `pack` does."""
    checks = Checks("long lines")
    # Before the line are so many octets that its end, CR LF, is in two pieces; and one or two less or more.
    at = -LINE_LIMIT - 1 & PIECE - 1
    for end, before, more in itertools.product(("\n", "\r\n"), range(at - 2, at + 3), (0, 1)):
        text = f"#{'y' * (before - 2)}\n#{'x' * (LINE_LIMIT - 1 + more)}{end}{DIALOGUE}"
        if more:
            has_fault(checks, folder, text, 2, TOO_LONG)
        else:
            checks.same(f"{end!r}, {before}", said_of(checks, folder, text)[0]["verdict"], "pass")
        checks.same(f"pack, {end!r}, {before}", run(["pack"], text.encode()).returncode, 3 * more)
    text = f"{DIALOGUE}#{'x' * (LINE_LIMIT - 1)}"
    checks.same("the last line, without an end", said_of(checks, folder, text)[0]["verdict"], "pass")
    has_fault(checks, folder, f"{text}\r", 3, TOO_LONG)
    checks.same("pack", [run(["pack"], (text + end).encode()).returncode for end in ("", "\r", "\r\n")], [0, 3, 0])
    return checks


def jobs():
    """Each case, with what it is about."""
    for case in known, unknown, misplaced, packed, broken_off, no_comments, named, longest_lines:
        yield case, None
