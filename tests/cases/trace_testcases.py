"""Cases for tests/traces.py of the testcases of JUnit XML: a testcase for each trace, its name, its message and the dialogues in its
text."""

import subprocess
import xml.etree.ElementTree

import trace_rows
from tested import PROGRAM
from trace_rows import LACKED, OPERATIONS, SHORT, WRONG_END, end, go_on, lines, result
from traced import Checks, Report, agree, content, put

FAILS, IS_INCONCLUSIVE = [SHORT[0], WRONG_END, "Q"], [LACKED, SHORT[1], "Q"]
NOT_INVOKED = "F5: invoke ID {} is not one that {} had invoked in this transaction"


def testcases(xml_text):
    """Returns the testcases of a report, in their order."""
    return [*xml.etree.ElementTree.fromstring(xml_text).iter("testcase")]


def told(case):
    """Returns the element, the type, the message and the text of a testcase that does not pass."""
    (found,) = [it for it in case if it.tag != "system-out"]
    return found.tag, found.get("type"), found.get("message"), found.text


def sums(_, folder):
    """The sums of all traces: two that pass, one that fails beside what passes, one that is an error by itself beside a dialogue that is
    inconclusive, and one of which no dialogue was judged."""
    checks = Checks("the sums of JUnit's XML")
    texts = [
        lines(*SHORT),
        lines(*SHORT, "Q", *SHORT),
        lines(SHORT[0], WRONG_END, "Q", *SHORT),
        lines(SHORT[0], SHORT[0], "Q", "A 620"),
        "",
    ]
    paths = [put(folder, f"x{number}.hex", text.encode()) for number, text in enumerate(texts)]
    for of, wanted in ([0, 1, 2, 3, 4], (5, 1, 2)), ([0], (1, 0, 0)), ([2], (1, 1, 0)), ([4], (1, 0, 1)):
        report = Report(folder, [], [paths[at] for at in of])
        agree(checks, report)
        for it in [*xml.etree.ElementTree.fromstring(report.junit).iter()][:2]:
            found = tuple(int(it.get(name)) for name in ("tests", "failures", "errors"))
            checks.same(f"the sums of {of}, {it.tag}", found, wanted)
    checks.same("the message of a trace", told(testcases(report.junit)[0])[2], trace_rows.NO_TAG)
    return checks


# The paths of traces in their order, with the class names and the names of their testcases.
NAMES = [
    ("calls.hex", "traces", "calls.hex"),
    ("night.1/by.node/calls.hex", "night_1.by_node", "calls.hex"),
    ("./calls.hex", "_", "calls.hex"),
    ("calls.hex", "traces", "calls.hex (2)"),
    ("-", "traces", "standard input"),
    ("calls.hex", "traces", "calls.hex (3)"),
    ("standard input", "traces", "standard input (2)"),
    ("night_1/by.node/calls.hex", "night_1.by_node", "calls.hex (2)"),
    ("night.1/by.node/calls.hex", "night_1.by_node", "calls.hex (3)"),
    ("new (2)", "traces", "new (2)"),
    ("new", "traces", "new"),
    ("new", "traces", "new (3)"),
    ("<&\">", "traces", "<&\">"),
    ("esc\x1b[31m", "traces", "esc\ufffd[31m"),
    ("esc\x02[31m", "traces", "esc\ufffd[31m (2)"),
    ("csi\x9b\x7f", "traces", "csi\ufffd\ufffd"),
    ("a\tb\nc\rd", "traces", "a\tb\nc\rd"),
    ("night.1/by.node/", "traces", "night.1/by.node/"),
    ("", "traces", ""),
]


def names(_, folder):
    """The names of traces in folders, of one that is given twice, of standard input, and with characters that are special in XML, or are
    none in it."""
    checks = Checks("names of testcases")
    text, table, path = lines(SHORT[0], WRONG_END).encode(), put(folder, "table.json", OPERATIONS.encode()), f"{folder}/report.xml"
    for name in ["night.1/by.node", "night_1/by.node"]:
        subprocess.run(["mkdir", "-p", f"{folder}/{name}"], check=True)
    for name, _, _ in NAMES:
        if name not in ("", "-") and not name.endswith("/"):
            put(folder, name, text)
    words = [PROGRAM, "test", "--table", table, "--junit", path, *(name for name, _, _ in NAMES)]
    ran = subprocess.run(words, cwd=folder, input=text, stdout=subprocess.DEVNULL, check=False)
    checks.same("status", ran.returncode, 3)
    found = [(it.get("classname"), it.get("name")) for it in testcases(content(path))]
    checks.same("names", found, [(where, name) for _, where, name in NAMES])
    checks.same("no name comes twice", len({*found}), len(found))
    is_control = [c for c in content(path).decode() if c not in "\t\n" and (ord(c) < 0x20 or 0x7F <= ord(c) < 0xA0)]
    checks.same("no control character", is_control, [])
    return checks


def blanks(_, folder):
    """A name with a tab, a newline and a carriage return: XML has each by its number, so that its readers return the name."""
    checks = Checks("blanks in the name of a trace")
    report = Report(folder, [], [put(folder, "a\tb\nc\rd.hex", lines(SHORT[0], WRONG_END, "Q", *SHORT).encode())])
    agree(checks, report)
    found = [line for line in report.junit.decode().split("\n") if " name=" in line and "property" not in line]
    where = folder.replace(".", "_").replace("/", ".")
    wanted = [
        '  <testsuite name="tcapjudge" tests="1" failures="1" errors="0">',
        f'    <testcase classname="{where}" name="a&#9;b&#10;c&#13;d.hex">',
    ]
    checks.same("XML", found, wanted)
    return checks


def limits(_, folder):
    """Traces with many dialogues that don't pass: the text has twenty of them, among these the one of the message, and the count of the
    others."""
    checks = Checks("the dialogues of a testcase")
    fail, behind = "B: line {}, " + NOT_INVOKED.format(5, "A"), "and {} more dialogues that do not pass\n"
    for name, entries, verdict, message, blocks, rest in [
        ("19", FAILS * 19, "fail", fail.format(2), [*range(0, 57, 3)], ""),
        ("20", FAILS * 20, "fail", fail.format(2), [*range(0, 60, 3)], ""),
        ("21", FAILS * 21, "fail", fail.format(2), [*range(0, 60, 3)], "and 1 more dialogue that does not pass\n"),
        ("51, with some that pass", (FAILS + [*SHORT, "Q"]) * 51, "fail", fail.format(2), [*range(0, 120, 6)], behind.format(31)),
        ("a fail at the end", IS_INCONCLUSIVE * 25 + FAILS, "fail", fail.format(77), [*range(0, 57, 3), 75], behind.format(6)),
        ("a fault of form", [*FAILS * 25, "A 620"], "error", None, [*range(0, 60, 3)], behind.format(5)),
    ]:
        path = put(folder, "many.hex", lines(*entries).encode())
        report = Report(folder, [], [path])
        agree(checks, report)
        (case,) = testcases(report.junit)
        _, kind, found, text = told(case)
        checks.same(f"{name}: type, message", (kind, found), (verdict, message or report.traces[path]["text"]))
        numbers = [int(line.split()[2].rstrip(",")) for line in text.split("\n") if line.startswith(f"{path}: dialogue ")]
        checks.same(f"{name}: its dialogues", numbers, blocks)
        last = text.splitlines(True)[-1]
        checks.same(f"{name}: the others", last if last.startswith("and ") else "", rest)
    return checks


def both(_, folder):
    """Dialogues in which both ends fail: the message names both, the one with the earlier fault first; but not an end that isn't asked
    for."""
    checks = Checks("both ends fail")
    answers = f"A {end('07', result('03'))}", f"B {go_on('07', '01', result('05'))}"
    for flags, wanted in [
        ([], f"B: line 2, {NOT_INVOKED.format(5, 'A')}; A: line 3, {NOT_INVOKED.format(3, 'B')}"),
        (["--of", "A"], f"A: line 3, {NOT_INVOKED.format(3, 'B')}"),
        (["--of", "B"], f"B: line 2, {NOT_INVOKED.format(5, 'A')}"),
    ]:
        report = Report(folder, flags, [put(folder, "both.hex", lines(SHORT[0], answers[1], answers[0]).encode())])
        agree(checks, report)
        (case,) = testcases(report.junit)
        checks.same(f"the message, {flags}", told(case)[:3], ("failure", "fail", wanted))
    return checks


def jobs():
    """Each case, with what it is about."""
    return [(case, None) for case in (sums, names, blanks, limits, both)]
