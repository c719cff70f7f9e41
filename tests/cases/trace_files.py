"""Cases for tests/traces.py of files, lines, comments and words: what `test` says where a trace, a table or what it is
to write has a fault."""

import collections
import itertools
import json
import re
import xml.etree.ElementTree

import trace_directives
import trace_rows
import words
from looks import LOOKS, SHOWN_LOOKS
from table_rows import meant, same_context, unlisted
from traced import Checks, Report, agree, content, put, run
from trace_rows import OPERATIONS, SHORT, WRONG_END, lines

NO_FILE, IS_FOLDER, NO_SPACE = "No such file or directory", "Is a directory", "No space left on device"
# Words that mean something to JSON or XML, and octets that are no text.
ODD = [
    b'say "no" \\ /',
    b"<a> & 'b' ]]> &amp; <![CDATA[",
    bytes(range(1, 10)) + bytes(range(11, 32)) + b"\x7f",
    b"\x00",
    "\u00e9 \u2028 \U0001f600 \ufffe \uffff \x85".encode(),
    b"\xff\xfe \xc0\xaf \xed\xa0\x80 \xf4\x90\x80\x80 \xe2\x82",
    b"a\rb",
    b"x" * 131_000,
    b"</script><!--<script>'\"" + b"y" * 10_000,
]
# What XML or JSON may show as something else.
UNLIKE = re.compile(r"[^ -~]+")


# ---- lines and records


def bad_lines():
    """The lines with a fault of words.py, behind a comment; and those that may be a first line too. A trace may have any
    count of lines, and an entry of it any octets."""
    for text, number, rule, column in words.LINES:
        if not rule.startswith(("too many lines", "no element", "octets behind the element")):
            yield f"# one\n{text}", number + 1, f"{rule}; column {column}"
            if number == 1 and len(text) < 100:
                yield text, number, f"{rule}; column {column}"


def bad_line(case, folder):
    """A line with a fault, and behind it a trace that is read all the same."""
    text, number, rule = case
    checks = Checks(f"lines {text[:40]!r}")
    path, good = put(folder, "x.hex", text.encode()), put(folder, "good.hex", lines(*SHORT).encode())
    report = Report(folder, [], [path, good])
    agree(checks, report)
    found = report.traces[path]
    checks.same("verdict, line", (found["verdict"], found.get("line")), ("error", number))
    checks.holds(f"the rule and the column, {rule}: {found['text']}", rule in found["text"])
    checks.holds("the text says it", f"line {number}: {rule}" in report.text)
    checks.same("the next one", (report.traces[good]["verdict"], report.status), ("pass", 3))
    return checks


def hints(_, folder):
    """Files that are given as traces by mistake: what each looks like is said in the text, in JSON and in JUnit's XML."""
    checks = Checks("hints of traces")
    for name, (octets, look, roles) in LOOKS.items():
        path = put(folder, name, octets)
        report = Report(folder, [], [path])
        agree(checks, report)
        found, is_wrong = report.traces[path], look is not None and "record" not in roles and "lines" not in roles
        hint = f"this looks like {SHOWN_LOOKS.get(name, look)}" if is_wrong else None
        checks.same(f"{name}: JSON", found.get("hint"), hint)
        told = [line for line in report.text.splitlines() if "hint" in line]
        checks.same(f"{name}: the text", told, [f"  hint: {hint}"] * is_wrong)
        errors = [it.text for it in xml.etree.ElementTree.fromstring(report.junit).iter("error")]
        behind = f"  hint: {hint}\n" if is_wrong else ""
        checks.same(f"{name}: JUnit", errors, [f"{found['text']}\n{behind}"] if "text" in found else [])
    return checks


def judged_before(_, folder):
    """What was judged before a line with a fault stands."""
    checks = Checks("a fault in the last line")
    path = put(folder, "x.hex", lines(SHORT[0], WRONG_END, "Q", *SHORT, "Q", "A 620").encode())
    report = Report(folder, [], [path])
    agree(checks, report)
    checks.same("dialogues", [it["verdict"] for it in report.dialogues[path]], ["fail", "pass"])
    found = report.traces[path]
    checks.same("the trace", (found["verdict"], found["line"], report.status), ("error", 7, 3))
    return checks


def bad_records(_, folder):
    """Records that are cut, or whose framing has a fault."""
    checks = Checks("records")
    whole = run(["pack"], lines(*SHORT, "Q", SHORT[0]).encode()).stdout
    good = put(folder, "good.hex", lines(*SHORT).encode())
    for octets in whole[:-1], whole[:-4], b"A", b"\x42\x62\x85", whole + b"C", whole + b"\x00":
        path = put(folder, "record", octets)
        report = Report(folder, [], [path, good])
        agree(checks, report)
        found = report.traces[path]
        verdicts = found["verdict"], report.traces[good]["verdict"], report.status
        checks.same(f"{octets.hex()}: verdicts", verdicts, ("error", "pass", 3))
        checks.holds("a reason, and no line", found["text"] and "line" not in found)
    report = Report(folder, [], [put(folder, "record", whole)])
    checks.same("a whole one", (report.status, report.text.count(" 2 pass")), (0, 2))
    return checks


def many(_, folder):
    """A trace of many dialogues, whose lines are read in many pieces; and the record of them."""
    checks, text = Checks("many dialogues"), []
    for number in range(1000):
        id, wrong = f"{number % 750:04X}", [trace_rows.RESULT] * (number % 250 == 249)
        text += [f"# frame {2 * number}", f"A {trace_rows.begin(id)}", ""]
        text += [f"# frame {2 * number + 1} {'x' * (number % 200)}", f"B {trace_rows.end(id, *wrong)}"]
    octets = "\r\n".join([*text, ""]).encode()
    path, record = put(folder, "x.hex", octets), put(folder, "record", run(["pack"], octets).stdout)
    for flags, at in ([], [249, 499, 749]), (["--ids", "settled"], [249, 499, 749, 999]):
        report = Report(folder, flags, [path, record])
        agree(checks, report)
        for name in path, record:
            found = report.dialogues[name]
            verdicts = collections.Counter(it["verdict"] for it in found)
            checks.same("verdicts", (verdicts["pass"], verdicts["fail"]), (996, len(at)))
            wrong = sorted(it["entries"] for it in found if it["verdict"] != "pass")
            checks.same("where", wrong, [[2 * number, 2 * number + 1] for number in (249, 499, 749, 999)])
            checks.same("an ID came again", sum(it["again"] for it in found), 250)
        failed = [it["B"] for it in report.dialogues[path] if it["verdict"] == "fail"]
        told = {it["line"]: it["comment"].split(" x")[0] for it in failed}
        checks.same("lines and comments", told, {5 * number + 5: f"frame {2 * number + 1}" for number in at})
    return checks


def longest(case, folder):
    """A dialogue of more entries than are judged, with a fault behind the last one that is, or before it."""
    at, wanted = case
    checks = Checks(f"a dialogue of 100,010 entries, with a fault at {at}")
    entries = [SHORT[0], trace_rows.BACK, *[f"A {trace_rows.go_on('01', '07')}"] * 100_008]
    entries[at] = f"A {trace_rows.go_on('02', '07')}"
    path = put(folder, "x.hex", lines(*entries).encode())
    report = Report(folder, [], [path])
    agree(checks, report)
    (found,) = report.dialogues[path]
    said = found["verdict"], found["A"].get("entry"), found["A"].get("kind"), len(found["entries"])
    checks.same("what is said", said, (*wanted, 100_010))
    checks.holds("why", wanted[0] == "fail" or "100,000" in found["A"]["text"])
    told = [it["entry"] for it in found["messages"]], found["left_out"]
    checks.same("the messages", told, ([*range(16), *range(99_936, 100_000)], 99_930))
    return checks


LONGEST = [(100_000, ("inconc", None, None)), (99_999, ("fail", 99_999, "F8"))]


# ---- traces


def several(_, folder):
    """Several traces: each has its own dialogues, and what is said of all is the worst."""
    checks = Checks("several traces")
    texts = [lines(*SHORT), lines(SHORT[0], WRONG_END), lines(SHORT[0], SHORT[0]), lines(*trace_rows.LONG)]
    paths = [put(folder, f"x{number}.hex", text.encode()) for number, text in enumerate(texts)]
    for of, wanted in ([0, 3], 0), ([0, 1, 2, 3], 1), ([0, 2], 2), ([2, 1], 1), ([1, 2], 1), ([3], 0):
        report = Report(folder, [], [paths[one] for one in of])
        agree(checks, report)
        checks.same("status", report.status, wanted)
        checks.same("traces", [*report.traces], [paths[one] for one in of])
    return checks


def standard_input(_, folder):
    """Standard input, as lines and as a record, is a trace as a file is."""
    checks = Checks("standard input")
    octets = lines("# frame 12", SHORT[0], WRONG_END, "Q", *SHORT).encode()
    path = put(folder, "x.hex", octets)
    report, piped = Report(folder, [], [path]), Report(folder, [], ["-"], octets)
    agree(checks, piped)
    checks.same("what is said", piped.text.replace("-:", f"{path}:"), report.text)
    piped = Report(folder, [], [path, "-"], run(["pack"], octets).stdout)
    agree(checks, piped)
    checks.same("a record behind a file", [piped.traces[it]["verdict"] for it in (path, "-")], ["fail", "fail"])
    empty = Report(folder, [], ["-"])
    checks.same("empty", (empty.status, empty.traces["-"]["verdict"]), (3, "error"))
    return checks


def odd(comment, folder):
    """A comment of any octets above the entry at fault, and a trace of that name where it may be one."""
    checks = Checks(f"the comment {comment[:20]!r}")
    name = "".join(c for c in comment.decode(errors="ignore") if c not in "/\0")[:40]
    path = put(folder, f"x{name}.hex", f"{SHORT[0]}\n# ".encode() + comment + f"\n{WRONG_END}\n".encode())
    report = Report(folder, [], [path])
    agree(checks, report)
    (found,) = report.dialogues[path]
    wanted = UNLIKE.sub("?", comment.decode(errors="replace"))
    checks.same("what is said", (found["verdict"], found["lines"], found["B"]["line"]), ("fail", [1, 3], 3))
    checks.same("the comment", UNLIKE.sub("?", found["B"]["comment"]), wanted)
    (failure,) = xml.etree.ElementTree.fromstring(report.junit).iter("failure")
    checks.holds("the comment in XML", wanted[:1000] in UNLIKE.sub("?", failure.text))
    checks.holds("the text is text", report.ran.stdout.decode())
    return checks


# ---- files and words


def unread_traces(_, folder):
    """Traces that can't be read, and behind each one that can."""
    checks = Checks("files of traces")
    good = put(folder, "good.hex", lines(*SHORT).encode())
    for path, why in (f"{folder}/none.hex", NO_FILE), (folder, IS_FOLDER), ("", NO_FILE):
        report = Report(folder, [], [path, good])
        agree(checks, report)
        found = report.traces[path]
        verdicts = found["verdict"], report.traces[good]["verdict"], report.status
        checks.same(f"verdicts, {path!r}", verdicts, ("error", "pass", 3))
        checks.holds(f"the system's reason, {why}: {found['text']}", why.lower() in found["text"].lower())
        checks.holds("the text names it", f"{path}: error: {found['text']}" in report.text)
    return checks


def says(checks, ran, path, why):
    """Standard error has a path and a reason, and the status is that of an error."""
    told = path.encode() in ran.stderr and why.encode() in ran.stderr
    checks.same(f"{path}, {why}: {ran.stderr}", (ran.returncode, told), (3, True))


def tables(_, folder):
    """Tables that are none; several; and the book that the program carries."""
    checks = Checks("tables")
    good, table = put(folder, "good.hex", lines(*SHORT).encode()), put(folder, "good.json", OPERATIONS.encode())
    bad_row = b'{"operations":[{"class":9,"code":1}]}'
    for path, why in [
        (f"{folder}/none.json", NO_FILE),
        (folder, IS_FOLDER),
        (good, "no JSON"),
        (put(folder, "broken.json", b"{"), "no JSON"),
        (put(folder, "empty.json", b""), "no JSON"),
        (put(folder, "row.json", bad_row), "class"),
        (put(folder, "list.json", b"[]"), ""),
        (put(folder, "book.json", b'{"tables":[{}]}'), ""),
        (put(folder, "no_table.json", b'{"tables":[]}'), ""),
    ]:
        for more in [], ["--table", table]:
            ran = run(["test", *more, "--table", path, good])
            says(checks, ran, path, why)
            checks.same("no message is read", ran.stdout.count(b"; 0 messages, 0 dialogues: "), 2)
        refused(checks, folder, ["--table", path], path, why)
    several = ["--table", table, "--table", table]
    refused(checks, folder, several, "", "more than one table is without contexts")
    books = {name: json.dumps({"tables": [json.loads(it)]}) for name, it in trace_rows.TABLES.items()}
    books = {name: put(folder, f"{name}.json", text.encode()) for name, text in books.items()}
    asks = f"A {trace_rows.begin('01', trace_rows.INVOKE, asks=trace_rows.request('2A0404'))}"
    path = put(folder, "asks.hex", lines(asks).encode())
    for names, wanted in (["wide", "narrow"], 0), (["narrow", "wide"], 0), (["narrow"], 3), (["narrow", "bare"], 3):
        ran = run(["test", *(word for name in names for word in ("--table", books[name])), path])
        checks.same(f"the tables {names}", ran.returncode, wanted)
    # That book has tables for contexts alone: one of USSD (3GPP TS 29.002), and none for a dialogue without a context.
    ran = run(["test", "examples/ussd.hex"])
    checks.same(f"no table: {ran.stdout + ran.stderr}", (ran.returncode, ran.stderr), (0, b""))
    ran = run(["test", good])
    checks.same("no table, and no context", (ran.returncode, b"no table is for" in ran.stdout), (3, True))
    return checks


def refused(checks, folder, flags, path, why):
    """A table is refused: each trace that is named is an error by that, and standard error says it once."""
    traces = [put(folder, "good.hex", lines(*SHORT).encode()), f"{folder}/none.hex", put(folder, "bad.hex", b"A 62"), "-"]
    report = Report(folder, flags, traces, lines(*SHORT).encode())
    agree(checks, report)
    (text,) = {found["text"] for found in report.traces.values()}
    verdicts = [(name, found["verdict"], found["messages"]) for name, found in report.traces.items()]
    checks.same(f"{path}: verdicts", (verdicts, report.status), ([(name, "error", 0) for name in traces], 3))
    checks.holds(f"{path}: what is wrong: {text}", text.startswith(path) and why in text)
    checks.same(f"{path}: standard error", report.ran.stderr.decode().splitlines()[0], f"error: {text}")
    checks.same(f"{path}: once", report.ran.stderr.count(b"error: "), 1)
    errors = [(it.get("message"), it.text) for it in xml.etree.ElementTree.fromstring(report.junit).iter("error")]
    checks.same(f"{path}: JUnit", errors, [(text, f"{text}\n")] * len(traces))
    counts = "0 messages, 0 dialogues: 0 pass, 0 inconc, 0 fail, 0 error; 0 pass unheard or unanswered"
    checks.same(f"{path}: the text", report.text.splitlines()[:-1], [f"{name}: error: {text}; {counts}" for name in traces])


def same_contexts(_, folder):
    """Two tables that have the same context, in one file or in two, in either order: standard error names both, and each trace is an error."""
    checks = Checks("tables with one context")
    good = put(folder, "good.hex", lines(*SHORT).encode())
    one = put(folder, "one.json", b'{"tables":[{"contexts":["2A"],"operations":[]},{"name":"N","contexts":["2B","2C"],"operations":[]}]}')
    two = put(folder, "two.json", b'{"tables":[{"contexts":["2D","2c"],"operations":[]}]}')
    both = put(folder, "both.json", b'{"tables":[{"contexts":["2A"],"operations":[]},{"name":"M","contexts":["2A"],"operations":[]}]}')
    longer = put(folder, "longer.json", b'{"tables":[{"contexts":["2A00"],"operations":[]},{"contexts":["2E"],"operations":[]}]}')
    for paths, first, second in [
        ([one, two], f"table 1 (N) of {one}", f"table 0 of {two}"),
        ([two, one], f"table 0 of {two}", f"table 1 (N) of {one}"),
        ([two, longer, one], f"table 0 of {two}", f"table 1 (N) of {one}"),
        ([one, one], f"table 0 of {one}", f"table 0 of {one}"),
        ([both], f"table 0 of {both}", f"table 1 (M) of {both}"),
        ([longer, two, both], f"table 0 of {both}", f"table 1 (M) of {both}"),
        (["examples/tables/book.json"] * 2, "table 0 (MAP) of examples/tables/book.json", "table 0 (MAP) of examples/tables/book.json"),
    ]:
        flags = [word for path in paths for word in ("--table", path)]
        ran = run(["test", *flags, good])
        checks.same(f"{paths}", (ran.returncode, ran.stderr.decode()), (3, same_context(first, second)))
        refused(checks, folder, flags, "", f"{first} and {second}")
    without = put(folder, "without.json", b'{"operations":[]}')
    ran = run(["test", "--table", one, "--table", longer, "--table", without, good])
    checks.same("none has one", (ran.returncode in (0, 1, 2), ran.stderr), (True, b""))
    return checks


def codes(_, folder):
    """A table with codes that may be meant as numbers, or linked codes that no row has: standard error tells it, with the path of the
    table, and nothing else changes."""
    checks = Checks("codes of tables")
    trace = put(folder, "x.hex", lines(*trace_rows.LONG).encode())
    good = put(folder, "good.json", b'{"operations":[{"class":1,"code":46},{"class":1,"code":"2A03"}]}')
    bad = put(folder, "bad.json", b'{"operations":[{"class":1,"code":46},{"class":1,"code":"45"}]}')
    book = put(folder, "book.json", b'{"tables":[{"contexts":["2A"],"operations":[]},{"contexts":["2B"],"operations":[{"class":1,"code":2,"linked":["0102"]}]}]}')
    row = meant(f"{bad}: row 1", '"code":"45"', "octet 45", '"code":45')
    linked = meant(f"{book}: table 1, row 0", '"linked":["0102"]', "octets 0102", '"linked":[102]')
    silent = run(["test", "--table", good, trace])
    checks.same("none of them", (silent.returncode, silent.stderr), (2, b""))
    ran = run(["test", "--table", bad, trace])
    checks.same("one, of a code", (ran.returncode, ran.stderr.decode(), ran.stdout), (2, row, silent.stdout))
    ran = run(["test", "--table", bad, "--table", book, trace])
    told = row + linked + unlisted(f"{book}: table 1, row 0", '"0102"')
    checks.same("of two tables", (ran.returncode, ran.stderr.decode()), (2, told))
    return checks


def unwritten(_, folder):
    """Files that can't be written, or that are read."""
    checks = Checks("files that are written")
    text = lines(*SHORT).encode()
    good, table = put(folder, "good.hex", text), put(folder, "table.json", OPERATIONS.encode())
    for flag in "--json", "--junit", "--html":
        for path, why in (f"{folder}/none/x", NO_FILE), (folder, IS_FOLDER), ("/dev/full", NO_SPACE):
            says(checks, run(["test", "--table", table, flag, path, good]), path, why)
        for path, kept in (good, text), (table, OPERATIONS.encode()):
            status = run(["test", "--table", table, flag, path, good]).returncode
            checks.same(f"{flag} over what is read: status, and it is kept", (status, content(path) == kept), (3, True))
            put(folder, path.rpartition("/")[2], kept)
        checks.same(f"{flag} -", run(["test", "--table", table, flag, "-", good]).returncode, 4)
    for one, other in itertools.permutations(("--json", "--junit", "--html"), 2):
        ran = run(["test", "--table", table, one, f"{folder}/both", other, f"{folder}/both", good])
        checks.same(f"{one} and {other} into one file: status, and no such file", (ran.returncode, content(f"{folder}/both")), (3, b""))
    with open("/dev/full", "wb") as full:
        checks.same("standard output is full", run(["test", "--table", table, good], stdout=full).returncode, 3)
    return checks


def command(_, folder):
    """The words of the command."""
    checks = Checks("words")
    good, table = put(folder, "good.hex", lines(*SHORT).encode()), put(folder, "table.json", OPERATIONS.encode())
    for wrong in [
        [],
        ["--of", "C", good],
        ["--of", good],
        ["--ids", "never", good],
        ["--linger", "x", good],
        ["--linger", "-1", good],
        ["--linger", good],
        ["--json"],
        ["--table"],
        ["--end", "A", good],
        ["--of", "A", "--of", "B", good],
        ["--json", "x", "--json", "y", good],
    ]:
        ran = run(["test", *wrong])
        checks.same(f"{wrong}", (ran.returncode, ran.stdout, ran.stderr != b""), (4, b"", True))
    told, silent = (run(["test", "--table", table, *flags, good]) for flags in (["--progress"], []))
    checks.same("--progress, for less than a second", (told.stdout, told.returncode, told.stderr), (silent.stdout, 0, b""))
    checks.same("one trace that passes", (len(silent.stdout.splitlines()), silent.stderr), (2, b""))
    for linger in "0", "18446744073709551615":
        checks.same(f"--linger {linger}", run(["test", "--table", table, "--linger", linger, good]).returncode, 0)
    ran = run(["test", "--help"])
    checks.same("--help", (ran.returncode, ran.stderr, b"--ids" in ran.stdout), (0, b"", True))
    return checks


def jobs():
    """Each case, with what it is about."""
    yield from ((bad_line, case) for case in bad_lines())
    yield from ((odd, comment) for comment in ODD)
    yield from ((longest, case) for case in LONGEST)
    yield from trace_directives.jobs()
    for case in hints, judged_before, bad_records, many, several, standard_input, unread_traces, tables, same_contexts, codes, unwritten, command:
        yield case, None
