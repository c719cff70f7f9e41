"""Reads what `tcapjudge test` printed and wrote for traces, for tests/traces.py: its text, its lines of JSON, JUnit's
XML and the page; and checks that they agree."""

import collections
import contextlib
import functools
import itertools
import json
import os
import re
import subprocess
import sys

import rooms  # noqa: F401
from evidence import WORDS
from tested import PROGRAM
from trace_junit import MOST_UNHEARD, OPEN, OPEN_AT_MARK, VERDICTS, blocks_of, in_order, is_unheard, look_at_junit, unnamed
from trace_page import lines_in, look_at_page, sum_of
from trace_rows import CAME_AGAIN, OPERATIONS, REACTION

with contextlib.suppress(ImportError):
    import jsonschema
with contextlib.suppress(ImportError):
    # Debian has it only for its own python.
    sys.path.append("/usr/lib/python3/dist-packages")
    import junitparser

STATUS = {"pass": 0, "fail": 1, "inconc": 2, "error": 3}
# The most entries of a dialogue that are checked by the schema.
MOST_LOOKED_AT = 1000
# How an end that passes took a malformed message of its peer: the words before the message and after it.
TAKEN = {
    "dropped": ("it discards ", ""),
    "closed": ("its transaction ends with ", ""),
    "in part": ("it takes the sound part of ", ""),
    "rejected": ("it takes the sound part of ", ", and rejects the rest"),
    "aborted": ("it answers ", ", with an Abort"),
    "refused": ("it refuses the transaction of ", ", with an Abort"),
}
# The codes of the reasons why an end is inconclusive, with a part of the words for each.
CODES = {
    "under_way": "dialogues may have been under way when it began",
    "early_mark": "the quiet mark before this dialogue may have come too early",
    "at_mark": "it may stand too early",
    "lacking_operation": "the table lacks the operation",
    "maybe_over": "may have ended in silence",
    "unsure_table": "it is not sure that this is the table of the dialogue",
    "came_again": "an ID of the dialogue was one of an earlier one",
    "used_before": "may have used its ID in one of them",
    "unread": "can't be read, and may have been one of this dialogue",
    "undecided": "it is not found how it can have sent its part",
    "after_bad_entry": "is no message that is judged",
    "too_long": "more than 100,000 entries",
    "open": "the dialogue is open at the",
    "unheard": "in the run that was found",
    "several_malformed": "only one malformed message can be judged",
    "unlikely_answer": "Q.774 names another answer, or the end goes on",
    "unclear_reading": "it is open if it kept the rules",
    "as_if_message": "had been a message",
}


# ---- running


def run(words, given=b"", **how):
    how = {"stdout": subprocess.PIPE, "stderr": subprocess.PIPE} | how
    return subprocess.run([PROGRAM, *words], input=given, check=False, **how)


def put(folder, name, octets):
    path = f"{folder}/{name}"
    with open(path, "wb") as file:
        file.write(octets)
    return path


def content(path):
    if not os.path.isfile(path):
        return b""
    with open(path, "rb") as file:
        return file.read()


class Report:
    """The results of a run: its streams and status, the lines of JSON, the dialogues by trace, the object of the run,
    JUnit's XML and the page."""

    def __init__(self, folder, flags, traces, given=b"", table=OPERATIONS):
        table = put(folder, "table.json", table.encode())
        files = {"--table": table, "--json": f"{folder}/report.json", "--junit": f"{folder}/report.xml"}
        files |= {"--html": f"{folder}/report.html"}
        self.ran = run(["test", *itertools.chain(*files.items()), *flags, *traces], given)
        self.status, self.text = self.ran.returncode, self.ran.stdout.decode(errors="replace")
        self.json, self.junit = content(files["--json"]), content(files["--junit"])
        self.page = content(files["--html"]).decode()
        self.shown = lines_in(self.page)
        self.objects = [json.loads(line) for line in self.json.decode().split("\n") if line]
        # The last object is that of the run, if the run ended.
        self.of_run = self.objects.pop() if self.objects and "total" in self.objects[-1] else None
        # A quiet mark is the last entry of the dialogues that it ends; the rows describe only their messages.
        for it in self.objects:
            if it.get("marked"):
                it["mark"] = it["entries"].pop(), it["lines"].pop()
        self.dialogues, self.traces = collections.defaultdict(list), {}
        for it in self.objects:
            if "dialogue" in it:
                self.dialogues[it["trace"]].append(it)
            else:
                self.traces[it["trace"]] = it


class Checks:
    """The number of checks of a case, and what was found instead of what was wanted."""

    def __init__(self, name):
        self.name, self.count, self.wrong = name, 0, []

    def same(self, what, found, wanted):
        self.count += 1
        if found != wanted:
            self.wrong.append(f"{self.name}: {what}: {str(found)[:600]}, not {str(wanted)[:600]}")

    def holds(self, what, so):
        self.same(what, bool(so), True)


# ---- JSON, JUnit's XML and the text agree


def missing():
    """Returns the packages that check what is written, and are not installed."""
    return [name for name in ("jsonschema", "junitparser") if name not in globals()]


def schema():
    """Returns a validator for the lines of JSON, or None if jsonschema is not installed."""
    if "jsonschema" not in globals():
        return None
    with open("docs/report.schema.json", encoding="utf-8") as file:
        found = json.load(file)
    jsonschema.Draft202012Validator.check_schema(found)
    return jsonschema.Draft202012Validator(found)


SCHEMA = schema()


# How an end took a malformed message of its peer: what comes before the entry, and after it.
WAYS = {
    "dropped": ("it discards ", ""),
    "closed": ("its transaction ends with ", ""),
    "in part": ("it takes the sound part of ", ""),
    "rejected": ("it takes the sound part of ", ", and rejects the rest"),
    "aborted": ("it answers ", ", with an Abort"),
    "refused": ("it refuses the transaction of ", ", with an Abort"),
}


def worst(verdicts):
    return max(verdicts, key=VERDICTS.index, default="pass")


def counts(verdicts):
    return dict.fromkeys(VERDICTS, 0) | collections.Counter(verdicts)


def says_counts(text, found):
    """Returns whether a line of text has these counts of verdicts."""
    return ", ".join(f"{found[verdict]} {verdict}" for verdict in VERDICTS) in text


def look_by_schema(checks, report):
    for it in [*report.objects, report.of_run, *map(json.loads, report.shown[-1:])] if SCHEMA else []:
        # If a dialogue has very many entries, only the first ones: the others are alike, and take long.
        it = it | {key: it[key][:MOST_LOOKED_AT] for key in ("entries", "lines") if key in it}
        it.pop("mark", None)
        wrong = next(iter(SCHEMA.iter_errors(it)), None)
        checks.same("the schema", wrong and f"{wrong.message} in {it}", None)


def entries_in(text):
    """Returns the entries and marks of the lines of a trace: the end, the octets, the line and the comment above
    it."""
    found, comment = [], ""
    for number, line in enumerate(text.replace("\r\n", "\n").split("\n"), 1):
        if re.match("[ABQ]", line):
            found.append((line[:1], line[2:].lower(), number, comment))
        is_comment = line.startswith("#") and not line.startswith("#:")
        comment = line.removeprefix("#").removeprefix(" ") if is_comment else ""
    return found


def length_fault(digits):
    """Returns the number and the place of the fault of octets that end within an element of definite length (1), or go on
    after it (10), or None."""
    octets = bytes.fromhex(digits)
    if len(octets) < 2 or octets[1] > 0x7F:
        return (1, len(octets)) if len(octets) < 2 else None
    whole = 2 + octets[1]
    return (1, len(octets)) if len(octets) < whole else (10, whole) if len(octets) > whole else None


LENGTH_FAULTS = {1: "cut element", 10: "octets behind the last element"}


def show(folder, entries):
    """Returns the text of `show` for each of these entries, as one record. It does not read octets that are not one
    element: of these an entry has the number and the place of the fault."""
    faults = [length_fault(digits) if end != "Q" else None for end, digits, *_ in entries]
    parts = [end.encode() + bytes.fromhex(digits if fault is None else "6300") for (end, digits, *_), fault in zip(entries, faults)]
    printed = run(["show", put(folder, "dialogue", b"".join(parts))]).stdout.decode()
    shown, start = re.findall(r"^\d.*\n(?:^ .*\n)*", printed, re.MULTILINE), 0
    for number, (part, fault) in enumerate(zip(parts, faults)):
        found = re.fullmatch(r"(\d+ [AB] FAULT \d+ )(\d+)\n", shown[number])
        if fault is not None:
            shown[number] = f"{number} {entries[number][0]} FAULT {fault[0]} {fault[1]}\n"
        elif found:
            # A report counts from the first octet of the message, and `show` from that of the record.
            shown[number] = f"{found[1]}{int(found[2]) - start - 1}\n"
        start += len(part)
    return shown


def message_of(number, entry, shown, has_lines):
    """Returns the object that the report must have for an entry, without its components and the reason why it is no
    message."""
    end, digits, line, comment = entry
    wanted = {"entry": number, "line": line if has_lines else 0}
    if end == "Q":
        return wanted | {"mark": True}
    found = re.match(r"\d+ [AB] (?!FAULT)(\w+)(?: otid=(\w+))?(?: dtid=(\w+))?", shown)
    names = zip(("kind", "otid", "dtid"), found.groups()) if found else ()
    wanted |= {name: word for name, word in names if word}
    wanted |= {"comment": comment} if comment and has_lines else {}
    return wanted | {"end": end, "show": shown, "octets": digits}


def look_at_messages(checks, folder, it, text, has_lines=True):
    """Checks that the messages of a dialogue are those of its trace, with the text of `show` for each. A dialogue that
    passes has none."""
    if it["verdict"] == "pass":
        checks.holds("no messages", "messages" not in it and "left_out" not in it)
        return
    entries, numbers = entries_in(text), [*it["entries"], *([it["mark"][0]] if it["marked"] else [])]
    entries = [entries[number] for number in numbers]
    shown, found = show(folder, entries), it["messages"]
    checks.same("left out", it.get("left_out", 0), len(entries) - len(found))
    checks.same("in order", [one["entry"] for one in found], sorted({one["entry"] for one in found}))
    for one in found:
        number, parts, fault = one["entry"], one.get("components"), one.get("fault")
        rest = {key: value for key, value in one.items() if key not in ("components", "fault")}
        checks.same("a message", rest, message_of(number, entries[number], shown[number], has_lines))
        checks.same("its components", None if parts is None else len(parts), shown[number].count("\n  ") if "kind" in one else None)
        checks.same("why it is no message", bool(fault), " FAULT " in shown[number])
    for end in "AB":
        if it.get(end, {}).get("kind") == "F1":
            look_at_why(checks, folder, end, it[end], entries[it[end]["entry"]])


def look_at_why(checks, folder, end, said, entry):
    """Checks that the text for octets that are no message is that of `show --why`."""
    octets, fault = entry[0].encode() + bytes.fromhex(entry[1]), length_fault(entry[1])
    if fault is not None:
        why = [f"  why: {LENGTH_FAULTS[fault[0]]}, at octet {fault[1]} of it"]
        checks.same("why it is none", said["text"].split("\n")[1:], [f"  entry {said['entry']} of {end}: {WORDS['F1']}", *why, ""])
        return
    why = [line for line in run(["show", "--why", put(folder, "one", octets)]).stdout.decode().split("\n") if "why: " in line]
    checks.same("why it is none", said["text"].split("\n")[1:], [f"  entry {said['entry']} of {end}: {WORDS['F1']}", *why, ""])


def open_words(it):
    return OPEN_AT_MARK if it["marked"] else OPEN


def look_at_texts(checks, dialogues):
    """Checks that a dialogue has a text of its own if it is an error, or if an end is open; and that the verdict on
    the later of two faults names the other end if it has a kind."""
    for it in dialogues:
        is_open = any(it.get(end, {}).get("text") == f"{open_words(it)}\n" for end in "AB")
        checks.same("a text of the dialogue", "text" in it, is_open or it["verdict"] == "error")
        blamed = [end for end in in_order(it) if "entry" in it.get(end, {})]
        is_later = len({it[end]["entry"] for end in blamed}) > 1 and "kind" in it[blamed[1]]
        found = {end: it[end]["may_follow"] for end in "AB" if "may_follow" in it.get(end, {})}
        checks.same("what may follow", found, {blamed[1]: blamed[0]} if is_later else {})


def look_at_reasons(checks, dialogues):
    """Checks that each end that is inconclusive has a code for that, which fits its words, and that no other end has
    one."""
    for said in [it[end] for it in dialogues for end in "AB" if end in it]:
        code, words = said.get("reason"), said.get("doubt", said.get("text", ""))
        checks.same("a code", code is not None, said["verdict"] == "inconc")
        checks.holds(f"the code {code}: {words}", code is None or CODES[code] in words)


def line_on_reaction(it, end):
    """Returns the line on an end that passes by a reading, or is at fault in its reaction, as a pattern; None for
    another end."""
    said = it[end]

    def place(entry):
        line = it["lines"][entry]
        return re.escape(f"entry {entry} of the dialogue" + (f", line {line}" if line else "")) + r"(?: \(.*\))?"

    if "reading" in said:
        before, after = WAYS[said["reading"]["way"]]
        return f"  {end}: pass: {before}{place(said['reading']['entry'])}, which is no message{after}"
    if "entry" in said and "kind" not in said:
        return f"  {end}: {said['verdict']} at {place(said['entry'])}: {re.escape(said['text'])}"
    return None


def look_at_reactions(checks, report, name, dialogues):
    """Checks the line on the reaction of each end of a dialogue that does not pass."""
    blocks = blocks_of(report.text, name)
    for it in dialogues:
        lines = blocks[it["dialogue"]].splitlines() if it["verdict"] != "pass" else []
        for wanted in filter(None, (line_on_reaction(it, end) for end in "AB" if end in it and lines)):
            checks.same(f"a line as {wanted}: {lines}", sum(bool(re.fullmatch(wanted, line)) for line in lines), 1)


def look_at_trace(checks, trace, dialogues):
    """Checks that the line of a trace has the counts of its dialogues."""
    found = counts(it["verdict"] for it in dialogues)
    checks.same("the dialogues are numbered", [it["dialogue"] for it in dialogues], [min(it["entries"]) for it in dialogues])
    checks.same("counts of a trace", trace["dialogues"], found)
    checks.same("unheard", trace["unheard"], sum(map(is_unheard, dialogues)))
    # An error of the trace itself, and not of one of its dialogues, is reported for the trace.
    of = worst(it["verdict"] for it in dialogues)
    checks.same("verdict of a trace", trace["verdict"], "error" if "text" in trace else of)


def look_by_junitparser(checks, junit):
    parsed = junitparser.JUnitXml.fromstring(junit)
    cases = [case for suite in parsed for case in suite]
    seen = [type(it).__name__ for case in cases for it in case.result]
    sums = tuple(sum(getattr(suite, name) for suite in parsed) for name in ("tests", "failures", "errors"))
    checks.same("junitparser", (len(cases), seen.count("Failure"), seen.count("Error")), sums)
    parsed.update_statistics()
    checks.same("junitparser's own counts", (parsed.tests, parsed.failures, parsed.errors), sums)


def look_at_names(checks, dialogues):
    """Checks that a dialogue that is inconclusive because it has an ID of an earlier dialogue names both dialogues."""
    ids, judged = {it["dialogue"]: {(end, id) for end in "AB" for id in it["ids"][end]} for it in dialogues}, set()
    for it in dialogues:
        for end in "AB":
            doubt = it.get(end, {}).get("doubt", "")
            if CAME_AGAIN in doubt:
                named, own = {*map(int, re.findall(r"dialogue (\d+)", doubt))}, it["dialogue"]
                others = named - {own}
                is_earlier = all(one in judged and ids[one] & ids[own] for one in others)
                checks.holds(f"both are named, {own}: {doubt}", own in named and len(others) == 1 and is_earlier)
        judged.add(it["dialogue"])


def place_of(spot):
    """Returns the words for the line and the comment of an entry."""
    line = f", line {spot['line']}" if spot["line"] else ""
    return line + (f" ({as_printed(spot['comment'])})" if "comment" in spot else "")


def as_printed(text):
    """Returns a text without characters that a terminal may take for a command."""
    return re.sub("[\x00-\x1f\x7f-\x9f]", "\ufffd", text)


def line_of_passing(end, said):
    """Returns the line on an end that passes unheard or unanswered, or by a reading, as a pattern: JSON has no kind of a
    message."""
    if "reading" in said:
        before, after = TAKEN[said["reading"]["way"]]
        entry = re.escape(f"  {end}: pass: {before}entry {said['reading']['entry']} of the dialogue")
        return f"{entry}(, line .*)?{re.escape(f', which is no message{after}')}"
    line = f"  {end}: pass"
    if said["unheard"]:
        last, others = said["last_unheard"], said["unheard"] - 1
        line += f", and may not have heard {'BA'[end == 'B']}'s KIND at entry {last['entry']} of the dialogue{place_of(last)}"
        line += f", and {others} message{'s' * (others > 1)} before it" if others else ""
    if not said["sent"]:
        line += "; it sent nothing"
    if "unanswered" in said:
        begin = said["unanswered"]
        line += f", and the dialogue waits for an answer of {end} to the Begin in entry {begin['entry']}{place_of(begin)}"
    return re.escape(line).replace("KIND", "(Unidirectional|Begin|Continue|End|Abort)")


def look_at_passing(checks, report, name, trace, dialogues):
    """Checks that the text names the dialogues that pass unheard or unanswered, as far as they have room, and the ends
    with the entries that JSON has."""
    blocks, passing = blocks_of(report.text, name), [it for it in dialogues if is_unheard(it)]
    named = [number for number, block in blocks.items() if block.split("\n")[0].endswith(": pass")]
    checks.same("the named ones that pass", named, [it["dialogue"] for it in passing][:MOST_UNHEARD])
    for it in passing[:MOST_UNHEARD]:
        ends = [end for end in "AB" if end in it and ("reading" in it[end] or it[end]["unheard"] or not it[end]["sent"])]
        wanted = [line_of_passing(end, it[end]) for end in ends]
        wanted += [re.escape(f"  note: {note['text']}") for note in it.get("notes", [])[:8]]
        found = blocks[it["dialogue"]].splitlines()[1:]
        is_so = len(found) == len(wanted) and all(map(re.fullmatch, wanted, found))
        checks.same("the lines on what passes", found, found if is_so else wanted)
    found = [line for line in report.text.splitlines() if line.startswith(f"{name}: and ")]
    wanted = [f"{name}: {line}" for line in unnamed(trace["unheard"]).splitlines()]
    checks.same("the others that pass", found, wanted)


def look_at_spots(checks, dialogues):
    """Checks which ends have an entry that their run shows, and that its line is that of the entry. No run is shown of
    an end whose peer sent a malformed message."""
    for it in dialogues:
        lines = [*it["lines"], *it.get("mark", [])[1:]]
        for end in "AB":
            said = it.get(end, {})
            is_passing, reason = said.get("verdict") == "pass", said.get("reason")
            is_named = "reading" not in said and ((is_passing and said["unheard"] > 0) or reason == "unheard")
            checks.same("a last unheard one", "last_unheard" in said, is_named)
            checks.same("a stop", "stopped_at" in said, reason == "undecided")
            checks.holds("what is unanswered", "unanswered" not in said or (is_passing and said["sent"] == 0))
            for spot in [said[key] for key in ("last_unheard", "stopped_at", "unanswered") if key in said]:
                checks.same("a line", spot["line"], lines[spot["entry"]] if spot["entry"] < len(lines) else 0)
                checks.holds("its place in the text", reason is None or said["text"].endswith(f"entry {spot['entry']} of the dialogue{place_of(spot)}\n"))
        for note in it.get("notes", []):
            checks.same("the line of a note", note["line"], lines[note["entry"]])


@functools.cache
def version():
    """Returns what the program prints as its version, without its name."""
    return run(["--version"]).stdout.decode().removeprefix("tcapjudge ").rstrip("\n")


def look_at_run(checks, report):
    """Checks that the object of the run has the sums of the traces, the worst verdict, and the version of the
    program."""
    verdict = worst(it["verdict"] for it in report.traces.values())
    wanted = {"total": sum_of([*report.traces.values()]), "verdict": verdict, "version": version()}
    checks.same("the object of the run", report.of_run, wanted)


def agree(checks, report):
    """Checks that JSON, JUnit's XML and the text agree on the traces, and add up."""
    look_by_schema(checks, report)
    look_at_run(checks, report)
    look_at_page(checks, report.page, report.shown, report.json.decode())
    look_at_junit(checks, report)
    if "junitparser" in globals():
        look_by_junitparser(checks, report.junit)
    for name, trace in report.traces.items():
        look_at_trace(checks, trace, report.dialogues[name])
        look_at_names(checks, report.dialogues[name])
        look_at_texts(checks, report.dialogues[name])
        look_at_reasons(checks, report.dialogues[name])
        look_at_spots(checks, report.dialogues[name])
        look_at_passing(checks, report, name, trace, report.dialogues[name])
        look_at_reactions(checks, report, name, report.dialogues[name])
    verdicts = [it["verdict"] for it in report.traces.values()]
    checks.same("status", report.status, STATUS[worst(verdicts)])
    front, *rest = report.text.splitlines()[-1].split(";")
    is_summed = says_counts(front, counts(verdicts)) and front.startswith(f"{len(verdicts)} ")
    checks.holds("the sum of the traces", is_summed)
    of = [it["verdict"] for it in itertools.chain(*report.dialogues.values())]
    checks.holds("the sum of the dialogues", rest and says_counts(rest[0], counts(of)))


def end_of(it):
    """Returns the verdict on an end as a text: with the count of unheard messages, and the way and the entry of a reading;
    or with the entry, the kind and the reason. A fault in a reaction has REACTION in place of a kind."""
    if it is None:
        return None
    if it["verdict"] == "pass":
        reading = it.get("reading")
        return f"pass {it['unheard']}" + (f" {reading['way']} {reading['entry']}" if reading else "")
    if "entry" in it:
        return f"{it['verdict']} {it['entry']} {it.get('kind', REACTION)} {it.get('doubt', '')}".strip()
    return f"{it['verdict']} {it.get('text', '')}"


def is_end(found, wanted):
    """Returns whether the verdict on an end is the wanted one, as trace_rows.py spells it."""
    if wanted is None or found is None:
        return found == wanted
    blamed = re.match(rf"inconc (\d+ (?:F\d+|{REACTION})) ", wanted)
    if blamed:
        return found.startswith(blamed[0]) and wanted[blamed.end() :] in found
    if wanted.startswith("inconc"):
        return found.startswith("inconc ") and not re.match(r"inconc \d", found) and wanted[7:] in found
    return found == ("pass 0" if wanted == "pass" else wanted)


def look_at_end(checks, name, it, wanted):
    found = end_of(it)
    checks.same(name, wanted if is_end(found, wanted) else found, wanted)
