"""Compares what `tcapjudge test --ids once` says of dialogues with a malformed message with what is known of them, and
with the independent reading of tests/oracle/malformed.py. Of each end it compares the verdict, the entry of a `fail`,
and of a `pass` the way in which the end may have taken the malformed message. The dialogues are those of
cases/malformed_rows.json, which were worked out from the standard, and random ones.

    tests/malformed.py [SEED [COUNT]]

SEED, by default 1, gives the same random dialogues again; COUNT tables, by default 10, have 60 of them each."""

import collections
import json
import os
import random
import subprocess
import sys
import tempfile

import rooms
import random_malformed
import random_traces
import runs
import trace_cut
from decoding import KINDS
from judgement import Judge, entry_of
from oracle import malformed
from tested import PROGRAM

CASES = f"{rooms.HERE}/cases/malformed_rows.json"
TABLES, OF_A_TABLE = 10, 60


# ---- the program


def line_of(entry):
    return "Q" if entry is None else f"{entry[0]} {entry[1].hex()}"


def tested(folder, table, traces):
    """Judges traces by the program, each the entries of random_malformed.py. Returns the dialogues of each."""
    names = [f"{number}.hex" for number in range(len(traces))]
    for name, entries in zip(names, traces):
        with open(f"{folder}/{name}", "w", encoding="utf-8") as file:
            file.writelines(f"{line_of(entry)}\n" for entry in entries)
    with open(f"{folder}/table.json", "w", encoding="utf-8") as file:
        json.dump(table, file)
    report = f"{folder}/verdicts"
    words = [PROGRAM, "test", "--ids", "once", "--table", "table.json", "--json", report, *names]
    if os.path.exists(report):
        os.remove(report)
    subprocess.run(words, cwd=folder, stdin=subprocess.DEVNULL, stdout=subprocess.DEVNULL, check=False)
    found = {name: [] for name in names}
    with open(report, encoding="utf-8") as file:
        for it in map(json.loads, file):
            if "dialogue" in it:
                found[it["trace"]].append(it)
    return [found[name] for name in names]


def said(end):
    """Returns what is compared of an end: the verdict, the entry of a `fail`, and the reading of a `pass`."""
    verdict, reading = end.get("verdict"), end.get("reading", {})
    return verdict, end["entry"] if verdict == "fail" else None, reading.get("way"), reading.get("entry")


# ---- the independent reading


def heading(entry):
    """Returns the kind and the IDs of an entry."""
    if entry.message is not None:
        return trace_cut.Heading(entry.end, entry.message.kind, entry.message.otid, entry.message.dtid)
    found = malformed.heading_of(entry.octets)
    return trace_cut.Heading(entry.end, found.kind, found.otid, found.dtid)


def dialogues_in(entries):
    """Yields the dialogues of a trace that has at most a mark at its end: the numbers of the entries of each, and the
    number of an entry that can't be read and may be one of it, or None. The mark is an entry of each dialogue that has
    an ID and no End or Abort, malformed or not."""
    messages = entries[:-1] if entries[-1] is None else entries
    segment = trace_cut.Segment([*map(heading, messages)], None)
    for cut in next(trace_cut.cut([segment], is_once=True)):
        has_mark = len(messages) < len(entries) and cut.ids and not cut.is_over
        yield [*cut.numbers, *([len(messages)] if has_mark else [])], cut.unread


def wanted_of(judge, entries):
    """Yields of each dialogue of a trace the numbers of its entries, and what is wanted of each end."""
    for numbers, unread in dialogues_in(entries):
        mine = [entries[number] for number in numbers]

        def is_sure(at, numbers=numbers, unread=unread):
            return unread is None or numbers[at] <= unread

        ends = {}
        for end in "AB":
            found = malformed.verdict_on(judge, end, mine, is_sure=is_sure)
            number = malformed.first_malformed(mine, end) if found.way else None
            ends[end] = (found.verdict, found.entry, found.way, number), found.rule
        yield numbers, ends


# ---- checks


class Checks:
    """The counts of what was compared, and of the rules that decided."""

    def __init__(self):
        self.passed, self.failed, self.rules = 0, 0, collections.Counter()

    def same(self, name, found, wanted):
        if found == wanted:
            self.passed += 1
        else:
            self.failed += 1
            print(f"{name}: {found}, not {wanted}")


def messages_in(numbers, entries):
    """Returns the numbers without that of a mark."""
    return [number for number in numbers if entries[number] is not None]


def entries_of(lines):
    return [None if line == "Q" else (line[0], bytes.fromhex(line[2:])) for line in lines]


def read(entries):
    return [entry and entry_of(*entry) for entry in entries]


def look_at_rows(checks, folder):
    """Compares the program, and the independent reading, with the rows."""
    with open(CASES, encoding="utf-8") as file:
        cases = json.load(file)
    for at, table in enumerate(cases["tables"]):
        rows, judge = [row for row in cases["rows"] if row["table"] == at], Judge(table)
        traces = [entries_of(row["lines"]) for row in rows]
        for row, entries, found in zip(rows, traces, tested(folder, table, traces)):
            name = f"{row['about']}, {row['lines']}"
            ends, *others = [ends for _, ends in wanted_of(judge, read(entries))]
            checks.same(f"{name}, dialogues", (len(found), others), (1, []))
            for end in "AB":
                wanted = tuple(row[end].get(key) for key in ("verdict", "entry", "way"))
                checks.same(f"{name}, {end} as it is read", ends[end][0][:3], wanted)
                checks.same(f"{name}, {end}", said(found[0].get(end, {})), (*wanted, ends[end][0][3]))


def random_trace(rng, table):
    """Returns the entries of a random dialogue. At least one of them has the tag of a message, since a trace
    without any is an error."""
    while True:
        entries = random_malformed.dialogue(rng, table)
        if any(entry is not None and entry[1][0] in KINDS for entry in entries):
            return entries


def look_at_random(checks, folder, seed, count):
    """Compares the program with the independent reading in random dialogues."""
    rng = random.Random(seed)
    for number in range(count):
        table = random_traces.any_table(rng)
        traces, table = [random_trace(rng, table) for _ in range(OF_A_TABLE)], json.loads(runs.table_text(table))
        judge = Judge(table)
        for entries, found in zip(traces, tested(folder, table, traces)):
            name = f"seed {seed}, table {number}, {' '.join(map(line_of, entries))}"
            wanted = [*wanted_of(judge, read(entries))]
            found.sort(key=lambda it: it["entries"])
            cut = [messages_in(it["entries"], entries) for it in found]
            checks.same(f"{name}, dialogues", cut, [messages_in(numbers, entries) for numbers, _ in wanted])
            for it, (numbers, ends) in zip(found, wanted):
                for end, (verdict, rule) in ends.items():
                    checks.same(f"{name}, {end} of dialogue {numbers[0]}, rule {rule}", said(it.get(end, {})), verdict)
                    checks.rules[f"rule {rule} {verdict[0]}"] += 1


def main(words):
    seed, count, *_ = [*map(int, words), *[1, TABLES][len(words) :]]
    checks = Checks()
    with tempfile.TemporaryDirectory() as folder:
        look_at_rows(checks, folder)
        look_at_random(checks, folder, seed, count)
    print(f"random dialogues: {', '.join(f'{times} by {rule}' for rule, times in sorted(checks.rules.items()))}")
    print(f"{checks.passed} passed, {checks.failed} failed")
    return int(checks.failed != 0)


if __name__ == "__main__":
    sys.exit(main(sys.argv[1:]))
