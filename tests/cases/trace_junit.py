"""Checks the JUnit XML of `tcapjudge test`, for tests/traced.py: its elements and sums, and a testcase for each trace, with
the message and the text that it must have by the report's JSON and text."""

import itertools
import re
import xml.etree.ElementTree

VERDICTS = ["pass", "inconc", "fail", "error"]
# The length that no message of a testcase exceeds, the most dialogues whose lines its text has, and the most dialogues
# of a trace that pass unheard or unanswered and are named.
LONGEST, MOST_TOLD, MOST_UNHEARD = 600, 20, 20
# The attributes that the elements of JUnit's XML have, and the elements in them. Jenkins' schema allows all of these.
JUNIT = {
    "testsuites": ({"tests", "failures", "errors"}, {"testsuite"}),
    "testsuite": ({"name", "tests", "failures", "errors"}, {"properties", "testcase"}),
    "properties": (set(), {"property"}),
    "property": ({"name", "value"}, set()),
    "testcase": ({"classname", "name"}, {"failure", "error", "system-out"}),
    "failure": ({"type", "message"}, set()),
    "error": ({"type", "message"}, set()),
    "system-out": (set(), set()),
}
# The element of a testcase for each verdict on its trace.
TAGS = {"pass": [], "inconc": ["error"], "fail": ["failure"], "error": ["error"]}
# The text for an end of a dialogue that must be complete, at the end of its trace or at a quiet mark.
OPEN, OPEN_AT_MARK = "the dialogue is open at the end of its trace", "the dialogue is open at the quiet mark after it"


def as_xml(name, kept="\r"):
    """Returns a text as readers of XML return it: with U+FFFD for control characters and what XML has no sign for. An
    attribute can have a carriage return."""
    return re.sub("[\x00-\x08\x0b-\x1f\x7f-\x9f\ufffe\uffff]", lambda c: c[0] if c[0] in kept else "\ufffd", name)


def in_order(it):
    """Returns the ends of a dialogue in the order of their verdicts: if both are blamed, the lower entry comes
    first."""
    ends = [end for end in "AB" if end in it]
    both = all("entry" in it[end] for end in ends)
    return sorted(ends, key=lambda end: (it[end]["entry"] if both else 0, end))


def headline(it):
    """Returns the message for a dialogue that does not pass. If both ends fail, it names both."""
    ends = [end for end in in_order(it) if it[end]["verdict"] == it["verdict"]]
    told = ends if it["verdict"] == "fail" else ends[:1]
    return "; ".join(headline_of(it, end) for end in told) if told else it["text"].strip()


def headline_of(it, end):
    """Returns the part of the message for an end."""
    said, words = it[end], it[end].get("text", "").split("\n")[0]
    # The message leaves out the comment above an entry, whose length is not limited.
    words = re.sub(r"((?:stopped at|last unheard one is) [^(]*?) \(.*\)$", r"\1", words)
    behind = re.match(r"entry (\d+) of the dialogue.* (is no message that .*)", words)
    at = int(behind[1]) if behind else said.get("entry")
    # The mark that ends a dialogue is the last of its entries.
    line = 0 if at is None else [*it["lines"], *it.get("mark", [])[1:]][at]
    place = f"line {line}" if line else f"entry {at} of the dialogue"
    if "entry" in said:
        words = f"{said['kind']}: {words.strip()}" if "kind" in said else words
        words += f"; inconclusive: {said['doubt']}" if "doubt" in said else ""
    elif behind:
        words = f"which {behind[2]}"
    elif words in (OPEN, OPEN_AT_MARK):
        words = f"{words}; {it.get('text', 'nothing').splitlines()[0].strip()}"
    return f"{end}: {words}" if at is None else f"{end}: {place}, {words}"


def told_of(dialogues):
    """Returns the dialogues whose lines a testcase must have. There is always room for the first one with the worst
    verdict."""
    told, least = [], "pass"
    for it in dialogues:
        is_worse = VERDICTS.index(it["verdict"]) > VERDICTS.index(least)
        least = it["verdict"] if is_worse else least
        if it["verdict"] != "pass" and (len(told) < MOST_TOLD or is_worse):
            told = [*told[: MOST_TOLD - 1], it]
    return told


def is_unheard(it):
    """Returns whether a dialogue passes although an end did not hear all messages, or sent nothing."""
    asked = [it[end] for end in "AB" if end in it]
    return it["verdict"] == "pass" and any(it["ids"].values()) and any(of["unheard"] or not of["sent"] for of in asked)


def unnamed(count):
    """Returns the line on the dialogues that pass unheard or unanswered and are not named."""
    others = count - MOST_UNHEARD
    thing = "dialogue passes" if others == 1 else "dialogues pass"
    return f"and {others} more {thing} unheard or unanswered\n" if others > 0 else ""


def blocks_of(text, name):
    """Returns the lines of the text on each dialogue of a trace that it names, by the dialogue's number."""
    blocks = re.split(f"^(?={re.escape(name)}: )", text, flags=re.MULTILINE)
    # What comes before the first line of this trace is of others.
    blocks = [block for block in blocks if block.startswith(f"{name}: ")]
    found = [(re.match(r"dialogue (\d+)", block[len(name) + 2 :]), block) for block in blocks]
    return {int(number[1]): block for number, block in found if number}


def look_at_testcase(checks, report, name, case):
    """Checks the testcase of a trace."""
    trace, dialogues = report.traces[name], [it for it in report.dialogues[name] if it["verdict"] != "pass"]
    found, form = trace["dialogues"], [trace["text"]] if "text" in trace else []
    messages = form or [headline(it) for it in dialogues if it["verdict"] == trace["verdict"]][:1]
    told = [it for it in case if it.tag != "system-out"]
    wanted = [(tag, trace["verdict"], message) for tag, message in zip(TAGS[trace["verdict"]], messages)]
    checks.same("a testcase", [(it.tag, it.get("type"), it.get("message")) for it in told], wanted)
    checks.holds("its message is not long", all(len(message) <= LONGEST for message in messages))
    blocks, ends = blocks_of(report.text, name), told_of(dialogues)
    hints = [f"  hint: {trace['hint']}"] if "hint" in trace else []
    text = "".join(f"{line}\n" for line in [*form, *hints]) + "".join(blocks[it["dialogue"]] for it in ends)
    others = len(dialogues) - len(ends)
    some = "dialogue that does not pass" if others == 1 else "dialogues that do not pass"
    text += f"and {others} more {some}\n" if others else ""
    checks.same("its text", [it.text for it in told], [as_xml(text, "")] * len(wanted))
    count = [f"{number} {thing}{'s' * (number != 1)}" for number, thing in ((trace["messages"], "message"), (sum(found.values()), "dialogue"))]
    of = ", ".join(f"{found[verdict]} {verdict}" for verdict in VERDICTS)
    out = f"{', '.join(count)}: {of}; {trace['unheard']} pass unheard or unanswered\n"
    passing = [it["dialogue"] for it in report.dialogues[name] if is_unheard(it)][:MOST_UNHEARD]
    out += as_xml("".join(blocks[number] for number in passing), "") + unnamed(trace["unheard"])
    checks.same("its counts, and what passes unheard", [it.text for it in case.findall("system-out")], [out])


def names_of(paths):
    """Returns the class names and the names that the testcases of traces must have."""
    found = []
    for path in paths:
        folder, _, file = path.rpartition("/")
        where = folder.replace(".", "_").replace("/", ".") if folder and file else "traces"
        name = file if folder and file else {"-": "standard input"}.get(path, path)
        numbered = itertools.chain([name], (f"{name} ({number})" for number in itertools.count(2)))
        found.append(next(names for names in ((as_xml(where), as_xml(it)) for it in numbered) if names not in found))
    return found


def look_at_junit(checks, report):
    """Checks JUnit's XML: its elements, its sums, and a testcase for each trace."""
    root = xml.etree.ElementTree.fromstring(report.junit)
    for it in root.iter():
        names, inner = JUNIT[it.tag]
        checks.holds(f"the form of {it.tag}", {*it.keys()} == names and {child.tag for child in it} <= inner)
    (suite,) = root
    (properties, *cases), verdicts = suite, [it["verdict"] for it in report.traces.values()]
    checks.same("the version", [it.attrib for it in properties], [{"name": "version", "value": report.of_run["version"]}])
    tags = [tag for verdict in verdicts for tag in TAGS[verdict]]
    sums = len(verdicts), tags.count("failure"), tags.count("error")
    for it in root, suite:
        checks.same(f"the sums of {it.tag}", tuple(int(it.get(name)) for name in ("tests", "failures", "errors")), sums)
    checks.same("names of testcases", [(it.get("classname"), it.get("name")) for it in cases], names_of(report.traces))
    for name, case in zip(report.traces, cases):
        look_at_testcase(checks, report, name, case)
