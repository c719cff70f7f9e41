"""Runs the built program's word `test` over traces. The rows of trace_rows.py, trace_again.py, trace_broken.py and
trace_doubts.py have the verdicts on each trace. trace_files.py has cases of files, lines, comments and words,
trace_outputs.py of written files, trace_messages.py of the messages of dialogues, trace_words.py of the words about a
fault, trace_waits.py of what an open dialogue waits for, trace_unheard.py of dialogues that pass unheard and of notes,
and trace_testcases.py of the testcases of JUnit XML. Then
come traces of random dialogues: for each dialogue, as trace_cut.py cuts it, `test` must give the verdict that `blame`
gives for the record of that dialogue alone; or that of oracle/malformed.py, for an end whose peer sent a malformed
message before it is blamed. And nobody may fail in the traces of lawful_traces.py, whose ends keep the
rules. All JSON is checked against docs/report.schema.json if python's jsonschema is installed, and all JUnit XML with
junitparser if that is installed."""

import collections
import concurrent.futures
import json
import random
import re
import sys
import tempfile

import rooms  # noqa: F401
import lawful_traces
import random_traces
import runs
import trace_again
import trace_broken
import trace_cut
import trace_doubts
import trace_files
import trace_messages
import trace_outputs
import trace_rows
import trace_testcases
import trace_unheard
import trace_waits
import trace_words
from judgement import Judge, entry_of
from oracle import malformed
from trace_cut import Segment
from trace_rows import AS_IF_MESSAGE, BEHIND, REACTION, SEVERAL, UNCLEAR, UNDECIDED, UNLIKELY, lines
from traced import Checks, Report, agree, in_order, is_unheard, look_at_end, look_at_messages, missing, put, run, worst

RANDOM_TRACES, SIDE_BY_SIDE = 30, 4
# How a random trace is cut: the words, and how many entries a dialogue lingers. IDs are used once, or may come again;
# in one of two traces they have settled then.
CUTS = [(["--ids", "once"], 0), (["--linger", "3"], 3), ([], 10_000)]
SETTLED = ["--ids", "settled"]
# The doubts whose dialogues are counted.
COUNTED = {
    "under way": trace_rows.UNDER_WAY,
    "over a mark": trace_doubts.EARLY,
    "used before": trace_doubts.USED_BEFORE,
}


# ---- rows


def places_in(text):
    """Returns the lines of the entries and marks, counted from 1, and the numbers of the marks among these."""
    found = [(number, line) for number, line in enumerate(text.split("\n"), 1) if re.match("[ABQ]", line)]
    marks = [number for number, (_, line) in enumerate(found) if line.startswith("Q")]
    return [number for number, _ in found], marks


def look_at_places(checks, name, it, want, text):
    """Checks the lines of a dialogue, and of each entry at fault, which may be the mark that ends the segment."""
    at, marks = places_in(text)
    checks.same(f"{name}, lines", it["lines"], [at[entry] for entry in want.entries])
    entries = [*want.entries, *[mark for mark in marks if mark > want.entries[-1]][:1]]
    for end in "AB":
        if "kind" in it.get(end, {}):
            spots = dict(enumerate(at[entry] for entry in entries))
            checks.same(f"{name}, line of {end}", it[end]["line"], spots.get(it[end]["entry"]))
            checks.same(f"{name}, comment", it[end].get("comment"), want.more.get("comment"))


def look_at_row(checks, row, report, path, has_lines):
    """Checks the report on the trace of a row."""
    trace, found = report.traces[path], sorted(report.dialogues[path], key=lambda it: it["entries"])
    wanted = sorted(row.dialogues, key=lambda it: it.entries)
    checks.same("entries of the dialogues", [it["entries"] for it in found], [it.entries for it in wanted])
    judged = [it["dialogue"] for it in report.dialogues[path]]
    checks.same("the order in which they are judged", judged[: len(row.first)], [*row.first])
    for it, want in zip(found, wanted):
        name = f"dialogue {want.entries}"
        checks.same(f"{name}, IDs", it["ids"], {"A": want.a_ids.split(), "B": want.b_ids.split()})
        checks.same(f"{name}, number", it["dialogue"], want.entries[0])
        look_at_end(checks, f"{name}, A", it.get("A"), want.a)
        look_at_end(checks, f"{name}, B", it.get("B"), want.b)
        said = [said.split()[0] for said in (want.a, want.b) if said]
        checks.same(f"{name}, verdict", it["verdict"], want.more.get("verdict") or worst(said))
        checks.same(f"{name}, an ID came again", it["again"], want.again)
        if want.open is not None:
            checks.same(f"{name}, is open", it["open"], want.open)
        for key in "context", "table":
            checks.same(f"{name}, {key}", it.get(key), want.more.get(key))
        if has_lines:
            look_at_places(checks, name, it, want, row.lines)
    line, words = row.error or (None, None)
    checks.same("line of the trace's fault", trace.get("line"), line)
    is_said = words in trace.get("text", "") if words else "text" not in trace
    checks.holds(f"the trace's fault, {words}: {trace.get('text')}", is_said)
    if words is None:
        checks.same("messages", trace["messages"], sum(len(it.entries) for it in wanted))


def blocks(text):
    """Returns the text for each dialogue that it names: its lines, by its number."""
    found, now = {}, None
    for line in text.splitlines():
        at = re.match(r".*: dialogue (\d+)", line)
        if not line.startswith("  "):
            now = found.setdefault(int(at[1]), []) if at else None
        if now is not None:
            now.append(line)
    return {number: "\n".join(block) for number, block in found.items()}


def look_at_text(checks, row, report, path):
    """Checks the text: it has a block for each dialogue that does not pass, with the ends that do not, and for each that
    passes unheard or unanswered."""
    found, said = sorted(report.dialogues[path], key=lambda it: it["entries"]), blocks(report.text)
    named = sorted(it["dialogue"] for it in found if it["verdict"] != "pass" or is_unheard(it))
    checks.same("the dialogues in the text", sorted(said), named)
    for it, want in zip(found, sorted(row.dialogues, key=lambda it: it.entries)):
        block = said.get(it["dialogue"], "")
        for word in want.says:
            checks.holds(f"the text has {word!r}: {block}", word in block)
        for end in "AB":
            if "kind" in it.get(end, {}):
                begins = f"  {end}: {it[end]['verdict']} "
                line = next((line for line in block.splitlines() if line.startswith(begins)), "")
                words = it[end]["verdict"], f"entry {it[end]['entry']} ", it[end]["kind"]
                checks.holds(f"the text says {words} of {end}: {line}", all(word in line for word in words))
        look_at_order(checks, it, block)
        look_at_repeat(checks, block, want.comes_again)
    if "--ids settled" in row.words:
        checks.holds("what is said is not asked for", "--ids settled" not in report.text)


def look_at_order(checks, it, block):
    """Checks the order of blamed ends: the lower entry comes first, and the text says that the other comes later if it
    has a kind. The line of each has the sentence that is the first line of the reasons in JSON."""
    blamed = [end for end in in_order(it) if "entry" in it.get(end, {})]
    found = re.findall("^  ([AB]): [a-z]+ at entry .*?(?:, (F[0-9]+))?: (.*)$", block, re.MULTILINE)
    is_later = len({it[end]["entry"] for end in blamed}) > 1 and "kind" in it[blamed[1]]
    clauses = ["", f"; it comes later, and may follow from that of {blamed[0]}" if is_later else ""]
    sentences = [it[end]["text"].split("\n")[0].strip() for end in blamed]
    wanted = [(end, it[end].get("kind", ""), said + clause) for end, said, clause in zip(blamed, sentences, clauses)]
    checks.same("the order of the ends", found, wanted)


def look_at_repeat(checks, block, wanted):
    """Checks the end, the ID and the line that are named if an ID comes again that was to be used once."""
    if wanted is not None:
        end, id, line = wanted
        inconclusive = [it for it in block.splitlines() if re.match("  [AB]: inconc", it)]
        named = [it for it in inconclusive if re.search(rf"\b{end} uses its ID {id} again at line {line}\b", it)]
        checks.same(f"which lines name {wanted}", named, inconclusive)


def look_at(row, folder):
    """Checks a row, as lines and as a record."""
    checks, octets = Checks(row.name), row.lines.encode()
    path = put(folder, "x.hex", octets)
    report = Report(folder, row.words.split(), [path], table=row.table)
    checks.same("standard error", report.ran.stderr, b"")
    agree(checks, report)
    look_at_row(checks, row, report, path, True)
    look_at_text(checks, row, report, path)
    for it in report.dialogues[path]:
        look_at_messages(checks, folder, it, row.lines)
    packed = run(["pack"], octets)
    if packed.returncode == 0 and row.error is None and not row.has_directives:
        record = put(folder, "record", packed.stdout)
        report = Report(folder, row.words.split(), [record], table=row.table)
        agree(checks, report)
        look_at_row(checks, row, report, record, False)
        for it in report.dialogues[record]:
            look_at_messages(checks, folder, it, row.lines, has_lines=False)
    return checks


# ---- random traces


def blamed(folder, record):
    """Returns what `blame` says about each end of a record: `blamed`, the entry and the kind; `lawful` and the count
    of unheard messages; or `not blamed`, and the count of entries that were looked at."""
    said = {}
    for line in run(["blame", put(folder, "one", record), f"{folder}/table.json"]).stdout.decode().splitlines()[1:]:
        words = line.split()
        if words[0] == "BLAMED":
            said[words[1]] = ("blamed", int(words[2]), words[3])
        elif words[0] == "LAWFUL":
            said[words[1]] = ("lawful", int(words[4]))
        else:
            said[words[2]] = ("not blamed", int(words[3]))
    return said


def is_heard(headings, end, id):
    """Returns whether the peer sent something to an ID since its end last began a transaction from it, or at all."""
    heard = False
    for heading in headings:
        if heading.end == end and heading.kind == "Begin" and heading.otid == id:
            heard = False
        heard |= heading.end != end and heading.dtid == id
    return heard


def octets_of(headed):
    return [heading.end.encode() + bytes.fromhex(digits) for heading, digits in headed]


def begins(headings):
    """Returns whether a dialogue starts with a Begin."""
    return headings[0].kind == "Begin"


class Alone:
    """A dialogue of a random trace as a separate record, with the quiet mark after it if the dialogue is not over
    there. `judge` judges by the table of the trace."""

    def __init__(self, folder, table, judge, headed, cut, is_marked, is_settled):
        self.table, self.judge, self.cut, self.is_settled = table, judge, cut, is_settled
        mine = [headed[number] for number in cut.numbers]
        self.headings, octets = [heading for heading, _ in mine], octets_of(mine)
        is_live = bool(cut.ids) and not cut.is_over
        # With a table with prearranged ends it may have ended in silence before the mark.
        self.is_open = is_live and not (is_marked and table.prearranged)
        self.record = b"".join(octets) + b"Q" * (is_marked and is_live)
        read = [entry_of(heading.end, bytes.fromhex(digits)) for heading, digits in mine]
        self.entries = read + [None] * (is_marked and is_live)
        self.said = blamed(folder, self.record)
        # Nothing after an entry that is no message is looked at.
        looked_at = [it[1] for it in self.said.values() if it[0] == "not blamed" and it[1] < len(octets)]
        self.record = b"".join(octets[: looked_at[0]]) if looked_at else self.record
        self.before = blamed(folder, self.record) if looked_at else {}
        self.was_open = self.why_open()

    def why_open(self):
        """Returns why the dialogue may have been under way before its first entry, if it may."""
        if self.cut.late and not self.cut.again and self.headings[0].dtid is not None and self.begins_well():
            return trace_rows.UNDER_WAY
        return trace_doubts.EARLY if self.cut.in_use else None

    def begins_well(self):
        """Returns whether the first entry is a message."""
        return not {("blamed", 0, "F1"), ("not blamed", 0)} & set(self.said.values())

    def doubt(self, end, entry, kind):
        """Returns why it is inconclusive that an end is blamed for an entry, or None."""
        if self.was_open:
            return self.was_open
        if kind == "F15":
            return trace_rows.MARK
        here = self.headings[entry]
        if kind == "F3" and here.kind == "Begin":
            if self.table.prearranged or not is_heard(self.headings[:entry], end, here.otid):
                return trace_rows.GIVEN_UP
        return self.general_doubt(end) or self.unread_before(entry)

    def general_doubt(self, end):
        """Returns why it is inconclusive that an end is blamed, for any entry, or None."""
        if self.was_open:
            return self.was_open
        # A dialogue without a Begin continues an earlier one: no ID came again there, and nothing has settled.
        has_settled = self.is_settled and begins(self.headings) and not self.cut.unsettled
        if self.cut.again and not has_settled:
            return trace_rows.CAME_AGAIN
        if self.cut.late and begins(self.headings) and self.headings[0].end != end and not self.is_settled:
            return trace_doubts.USED_BEFORE
        return None

    def unread_before(self, entry):
        """Returns that an unreadable entry before this one may be one of the dialogue, or None."""
        is_so = self.cut.unread is not None and self.cut.numbers[entry] > self.cut.unread
        return trace_rows.UNREAD if is_so else None

    def passes(self, *words):
        return f"inconc {self.was_open}" if self.was_open else " ".join(map(str, ("pass", *words)))

    def fails_in_reaction(self, end, entry):
        doubt = self.general_doubt(end) or self.unread_before(entry)
        return f"inconc {entry} {REACTION} {doubt}" if doubt else f"fail {entry} {REACTION}"

    def wanted_by(self, end, found):
        """Returns the verdict that an end must have by a rule of malformed.py, without the doubts of other
        dialogues."""
        if found.rule == 2:
            return self.fails_in_reaction(end, found.entry)
        if found.rule == 3:
            number = malformed.first_malformed(self.entries, end)
            return self.passes(found.unheard, found.way, number) if found.way else f"inconc {BEHIND}"
        if found.rule in (1, 4):
            return f"inconc {SEVERAL if found.rule == 1 else UNLIKELY}"
        # If the blame in a reading is inconclusive, so is the result.
        if found.rule == 5 or self.general_doubt(end):
            return f"inconc {UNCLEAR}"
        return self.fails_in_reaction(end, found.entry) if found.rule == 6 else f"inconc {AS_IF_MESSAGE}"

    def wanted(self, end):
        """Returns the verdict that an end must have."""
        found = malformed.verdict_on(self.judge, end, self.entries)
        if found.rule > 0:
            return self.wanted_by(end, found)
        verdict, *found = self.said[end]
        if verdict == "lawful":
            return self.passes(found[0])
        if verdict == "blamed":
            entry, kind = found
            doubt = self.doubt(end, entry, kind)
            return f"inconc {entry} {kind} {doubt}" if doubt else f"fail {entry} {kind}"
        before = self.before.get(end, ("not blamed",))
        if before[0] != "lawful":
            return f"inconc {UNDECIDED}"
        is_behind = any(heading.end == end for heading in self.headings[found[0] :])
        return f"inconc {BEHIND}" if is_behind else self.passes(before[1])


class RandomTrace:
    """A random trace: its segments, which of them end with a quiet mark, the text, and the lines of entries and
    marks."""

    def __init__(self, rng):
        maker = random_traces.Maker(rng)
        self.table, (self.headed, is_marked) = maker.table, maker.trace()
        self.judge = Judge(json.loads(runs.table_text(self.table)))
        self.marked = [True] * (len(self.headed) - 1) + [is_marked]
        self.first, self.at, self.text, self.segments = [], [], [], []
        for headed, marked in zip(self.headed, self.marked):
            self.first.append(len(self.at))
            # The entry of the segment before which a line says that dialogues may have been under way.
            under_way = rng.randrange(len(headed)) if headed and rng.random() < 0.3 else None
            self.segments.append(Segment([heading for heading, _ in headed], under_way))
            for number, (heading, digits) in enumerate(headed):
                self.text += [trace_rows.MAY_BE_UNDER_WAY] * (number == under_way)
                self.text += [f"# entry {len(self.at)}"] * (rng.random() < 0.2)
                self.add(f"{heading.end} {digits}")
            if marked:
                self.add("Q")

    def add(self, line):
        self.text.append(line)
        self.at.append(len(self.text))

    def record(self):
        parts = [b"".join(octets_of(headed)) + b"Q" * marked for headed, marked in zip(self.headed, self.marked)]
        return b"".join(parts)

    def wanted(self, folder, flags, linger):
        """Yields the wanted dialogues: the numbers of their entries, their IDs, how they are cut, whether they are
        open, the verdict on each end, and the record of what each end is judged by."""
        cuts = trace_cut.cut(self.segments, "once" in flags, linger)
        for first, headed, marked, dialogues in zip(self.first, self.headed, self.marked, cuts):
            for cut in dialogues:
                alone = Alone(folder, self.table, self.judge, headed, cut, marked, flags == SETTLED)
                ids = {end: sorted(id.hex() for of, id in cut.ids if of == end) for end in "AB"}
                ends = {end: alone.wanted(end) for end in "AB"}
                yield [first + number for number in cut.numbers], ids, cut, alone.is_open, ends, alone.record


def look_at_in_use(checks, name, end, cut):
    """Checks that an ID that is reported as in use before a mark was in use."""
    named = re.search("ID ([0-9a-f]+) of ([AB]) was in use before it", end.get("doubt", end.get("text", "")))
    if named:
        checks.holds(f"{name}, {named[0]}", (named[2], bytes.fromhex(named[1])) in cut.in_use)


def look_at_shown(checks, name, folder, record, end, said):
    """Checks the entry that is named as the last unheard one, or as that at which the search for a run stopped, by the
    run that `explain` prints for that end. Returns whether one is named."""
    if not {"last_unheard", "stopped_at"} & {*said}:
        return False
    text = run(["explain", "--end", end, put(folder, "one", record), f"{folder}/table.json"]).stdout.decode()
    if "stopped_at" in said:
        checks.same(f"{name}, the stop", text.split()[:2], ["UNDECIDED", str(said["stopped_at"]["entry"])])
        return True
    unheard = re.findall(rf"^  (\d+) is taken as lost before {end}$", text, re.MULTILINE)
    unheard += re.findall(rf"^  {end} could not receive (\d+): ", text, re.MULTILINE)
    found = len(unheard), max(map(int, unheard), default=None)
    checks.same(f"{name}, the last unheard one", found, (said["unheard"], said["last_unheard"]["entry"]))
    return True


def look_at_random(seed, folder):
    """Checks a random trace: its dialogues are those of the cut, and each has the verdict of `blame`. Nobody fails who
    may have kept the rules in the whole trace."""
    checks, seen, made = Checks(f"random trace {seed}"), collections.Counter(), RandomTrace(random.Random(seed))
    path, table = put(folder, "x.hex", lines(*made.text).encode()), runs.table_text(made.table).decode()
    whole = {}
    for flags, linger in CUTS:
        flags = flags or SETTLED * (seed % 2)
        report = Report(folder, flags, [path], table=table)
        agree(checks, report)
        wanted = [*made.wanted(folder, flags, linger)]
        found = sorted(report.dialogues[path], key=lambda it: it["entries"])
        checks.same(f"{flags}, dialogues", [it["entries"] for it in found], [it[0] for it in wanted])
        for it, (entries, ids, cut, is_open, ends, record) in zip(found, wanted):
            name = f"{flags}, {entries}"
            checks.same(f"{name}, IDs", {end: sorted(it["ids"][end]) for end in "AB"}, ids)
            checks.same(f"{name}, again and open", (it["again"], it["open"]), (cut.again, is_open))
            checks.same(f"{name}, lines", it["lines"], [made.at[entry] for entry in entries])
            for end, said in ends.items():
                look_at_end(checks, f"{name}, {end}", it[end], said)
                look_at_in_use(checks, f"{name}, {end}", it[end], cut)
                seen["with an entry that a run shows"] += look_at_shown(checks, f"{name}, {end}", folder, record, end, it[end])
            checks.same(f"{name}, verdict", it["verdict"], worst([said.split()[0] for said in ends.values()]))
            look_at_messages(checks, folder, it, lines(*made.text))
            seen[it["verdict"]] += 1
            seen["again"] += cut.again
            for name, doubt in COUNTED.items():
                seen[name] += any(doubt in said for said in ends.values())
        if flags == SETTLED:
            checks.holds(f"{flags}, what is said is not asked for", "--ids settled" not in report.text)
        whole = whole or blamed(folder, made.record())
        for end, said in whole.items():
            # That an ID has settled is the bench's word.
            if said[0] == "lawful" and flags != SETTLED:
                checks.holds(f"{flags}, {end} keeps the rules", all(it[end]["verdict"] != "fail" for it in found))
    return checks, seen


# ---- all


def looked_at(job):
    look, case = job
    with tempfile.TemporaryDirectory() as folder:
        found = look(case, folder)
    return found if isinstance(found, tuple) else (found, collections.Counter())


def main():
    seed = int(sys.argv[1]) if len(sys.argv) > 1 else 1
    for name in missing():
        print(f"what is written is not looked at by {name}, which is not installed")
    # The longest cases begin first.
    jobs = [*lawful_traces.jobs(seed), *((look_at_random, seed * 1000 + number) for number in range(RANDOM_TRACES))]
    jobs += [*trace_files.jobs(), *trace_outputs.jobs(), *trace_messages.jobs(), *trace_words.jobs(), *trace_waits.jobs()]
    jobs += [*trace_testcases.jobs(), *trace_unheard.jobs()]
    jobs += [(look_at, row) for row in trace_rows.ROWS + trace_again.ROWS + trace_broken.ROWS + trace_doubts.ROWS]
    passed, failed, seen = 0, 0, collections.Counter()
    with concurrent.futures.ThreadPoolExecutor(SIDE_BY_SIDE) as pool:
        for checks, more in pool.map(looked_at, jobs):
            passed, failed, seen = passed + checks.count - len(checks.wrong), failed + len(checks.wrong), seen + more
            for wrong in checks.wrong:
                print(wrong)
    print(f"random dialogues: {', '.join(f'{count} {what}' for what, count in sorted(seen.items()))}")
    print(f"{passed} passed, {failed} failed")
    return int(failed != 0)


if __name__ == "__main__":
    sys.exit(main())
