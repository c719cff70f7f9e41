"""Runs the built program's word `explain`, and checks its output. For the records of explained.py it must print the
texts there, octet for octet. For these and for further records, those of judged.py, blamed.py and alone.py and those
of faults.json, it checks the following. The first line and the status are those of `judge`, of `judge --end`, or of
`check` with the certificate that `judge` proposes, except that it is LAWFUL if `blame` says so of both ends; then the
text on that end alone follows each of its lines. The lines of `blame` follow a first line that is not LAWFUL. Every
other line begins with two blanks. The text under a refuted or blamed entry names that entry, and no entry that does
not exist. A run names each entry once, where it is sent, in order. A chart is a page with one object, whose title is
the first line and which has the printed content: the steps of a lawful run, else the text after the line. Two charts,
and the listed rows of a long one, are worked out by hand (made_reports.py)."""

import json
import os
import re
import subprocess
import sys
import tempfile

import rooms  # noqa: F401
import alone
import blamed
import explained
import judged
import made_reports
from tested import PROGRAM
from trace_page import TOLD_BY_NUMBER, lines_in

# The most rows of a run in its chart.
MOST = 2_000
SENT = re.compile(r"^  (?:[AB] (?:sends|tells) (\d+) |[AB]'s provider answers \d+ by (\d+)$|(all is quiet)$)")


def run(*words):
    """Returns the program's output with these words, on both streams, and its status."""
    done = subprocess.run([PROGRAM, *words], capture_output=True, check=False)
    return done.stdout.decode(), done.stderr.decode(), done.returncode


class Rows:
    """The counts of rows that passed and failed; those that failed are printed."""

    def __init__(self):
        self.passed, self.failed = 0, 0

    def row(self, name, found, wanted=True):
        if found == wanted:
            self.passed += 1
        else:
            self.failed += 1
            print(f"{name[:300]}: {str(found)[:900]}, not {str(wanted)[:900]}")


class Files:
    """A record, a table and a certificate in files."""

    def __init__(self, folder):
        self.record, self.table, self.cert = (f"{folder}/{name}" for name in ("record", "table", "cert"))
        self.chart = f"{folder}/chart.html"

    def write(self, path, octets):
        with open(path, "wb") as file:
            file.write(octets)

    def fill(self, record, table, cert=None):
        self.write(self.record, record)
        self.write(self.table, table)
        if cert is not None:
            self.write(self.cert, cert)


def records():
    """Yields the name, the octets and the table of each record."""
    for entries, _, *table in judged.ROWS + blamed.ROWS:
        yield entries, judged.octets_of(entries), (table or [judged.TABLE])[0].encode()
    for entries, _, _, *table in alone.JUDGED:
        yield entries, judged.octets_of(entries), (table or [judged.TABLE])[0].encode()
    for name, record, table, _ in blamed.known_faults():
        yield name, record, table


def worked(rows, files):
    """Compares the output for the worked records."""
    for entries, words, cert, status, text, *table in explained.ROWS:
        files.fill(judged.octets_of(entries), (table or [judged.TABLE])[0].encode(), cert and cert.encode())
        found = run("explain", files.record, files.table, *([files.cert] if cert else []), *words)
        rows.row(f"{entries} {words}", found, (text, "", status))


def look_at_run(rows, name, lines, count):
    """Checks that a run names each entry where it is sent, or has a mark alone."""
    sent = [SENT.match(line) for line in lines]
    numbers = [next(filter(None, found.groups())) for found in sent if found]
    wanted = [str(number) for number in range(count)]
    rows.row(f"{name}: its run", len(numbers) == count and all(n in (w, "all is quiet") for n, w in zip(numbers, wanted)))


def look_at_facts(rows, name, lines, count):
    """Checks that each refuted or blamed entry is named under its line, and that named entries exist."""
    named = [int(number) for line in lines for number in re.findall(r"entr(?:y|ies) (\d+)", line)]
    rows.row(f"{name}: entries that are named", all(number < count for number in named))
    for place, line in enumerate(lines):
        fault = re.match(r"(?:REFUTED|BLAMED [AB]) (\d+) F\d+$", line)
        if fault:
            behind = lines[place + 1] if place + 1 < len(lines) else ""
            is_shown = any(line.startswith("REFUTED") for line in lines[:place])
            is_same = is_shown and lines[0].split()[1:] == line.split()[2:]
            is_named = behind.startswith("  ") and f"entry {fault[1]}" in behind
            rows.row(f"{name}: the fact of {line}", is_named or is_same)


def look_at(rows, name, text, count, blame):
    """Checks the lines after the first."""
    lines = text.splitlines()
    plain = [line for line in lines[1:] if not line.startswith("  ")]
    rows.row(f"{name}: lines of blame", plain, blame)
    if lines[0].startswith("LAWFUL"):
        for run_text in filter(None, re.split(r"^LAWFUL .*\n", text, flags=re.M)):
            look_at_run(rows, name, run_text.splitlines(), count)
    else:
        look_at_facts(rows, name, lines, count)


def chart_in(path):
    """Returns the object of a chart, and whether it is the only one in its page, without texts that mean something to
    HTML."""
    with open(path, encoding="utf-8") as file:
        lines = lines_in(file.read())
    return json.loads(lines[0])["run"], len(lines) == 1 and not TOLD_BY_NUMBER.search(lines[0])


def printed_step(it, heads, of):
    """Returns the line that `explain` prints for a step of a chart, or nothing. `heads` are the lines of `show` for
    its entries."""
    step, end, entry = it["step"], it.get("end"), it.get("entry")
    if step in ("sends", "tells"):
        return f"  {end} {step} {entry} {heads[entry].split(' ', 2)[2]}\n"
    if step == "loses":
        behind = "" if of is None else f" before {of}"
        return "" if end == of else f"  {entry} is taken as lost{behind}\n"
    forms = {
        "receives": "  {end} receives {entry}\n", "replies": "  {end}'s provider answers {answers} by {entry}\n",
        "discards": "  {end} could not receive {entry}: {reason}\n", "closes": "  {end}: {half} closes unseen\n",
        "expires": "  {end}: invocation {invoke} of {half} ends unseen\n", "quiet": "  all is quiet\n", "stands": "",
    }
    return forms[step].format(**it)


def look_at_chart(rows, name, path, text, count, end=None, is_of_each=False):
    """Checks that a chart has the printed content, with this many entries, for both ends or for one. If each end has
    its own run, the chart has no steps."""
    run, is_alone = chart_in(path)
    title, _, behind = text.partition("\n")
    place = re.match(r"(?:REFUTED|UNDECIDED|NOT SHOWN) (\d+)", title)
    rows.row(f"{name}: one object", is_alone)
    rows.row(f"{name}: its head", [run.get(key) for key in ("title", "of", "count", "marked", "text")],
             [title, end, count, int(place[1]) if place else None, behind if place else None])
    numbers = [it["entry"] for it in run["entries"]]
    steps = [it["entry"] for it in run["steps"] if it["step"] in ("sends", "tells", "replies", "quiet", "stands")]
    rows.row(f"{name}: its entries", (numbers, steps), (list(range(count)), list(range(count))))
    if is_of_each:
        rows.row(f"{name}: no steps", {it["step"] for it in run["steps"]}, {"stands"})
    elif not place:
        heads = {it["entry"]: it["show"].split("\n")[0] for it in run["entries"] if "show" in it}
        lines = "".join(printed_step(it, heads, end) for it in run["steps"])
        rows.row(f"{name}: its steps", f"  one run that shows it:\n{lines}", behind)


def charts(rows, files):
    """Checks the charts that are worked out by hand, and which rows of a long run are listed."""
    worked_out = (made_reports.CROSSING_AND_LOSS, made_reports.lawful_run()), (made_reports.LATE_RESULT, made_reports.stopped_run())
    for entries, wanted in worked_out:
        files.fill(judged.octets_of(entries), judged.TABLE.encode())
        run("explain", files.record, files.table, "--chart", files.chart)
        rows.row(f"the chart of {entries}", chart_in(files.chart)[0], wanted["run"])
    # Unidirectionals, which have two steps each, and then a message that answers nothing.
    many, last = f"A {judged.LONE} ", f"B {judged.TO_NINE} "
    for name, entries, left_out, told, marked in (
        ("2,000 steps", many * 1000, [0, 0], MOST, None), ("2,002 steps", many * 1001, [0, 2], MOST, None),
        ("1,998 steps and what is refuted", many * 999 + last, [0, 0], 1999, 999),
        ("3,000 steps and what is refuted", many * 1500 + last, [1001, 0], MOST, 1500),
        ("3,000 steps, what is refuted, and 1,500 entries", many * 1500 + last + many * 1500, [2000, 501], MOST, 1500),
    ):
        files.fill(judged.octets_of(entries.strip()), judged.TABLE.encode())
        run("explain", files.record, files.table, "--chart", files.chart)
        found = chart_in(files.chart)[0]
        rows.row(name, (found["left_out"], len(found["steps"]), found.get("marked")), (left_out, told, marked))


def agrees(rows, files):
    """Checks that the other words agree."""
    for name, record, table in records():
        files.fill(record, table)
        paths = files.record, files.table
        shown = run("show", files.record)[0].splitlines()
        count = len([line for line in shown if not line.startswith("  ") and not line.startswith("FAULT")])
        judge, blame = run("judge", *paths), run("blame", *paths)[0]
        found = run("explain", *paths, "--chart", files.chart)
        title, _, lines = blame.partition("\n")
        first = found[0].partition("\n")[0]
        is_lawful, is_shown = title.startswith("LAWFUL"), judge[0].startswith("LAWFUL")
        wanted = f"{title}\n", "", 0 if is_lawful else judge[2]
        rows.row(f"{name}: the verdict", (f"{first}\n", found[1], found[2]), wanted)
        rows.row(f"{name}: that of judge", is_shown or is_lawful or f"{title}\n" == judge[0])
        look_at(rows, name, found[0], count, [] if is_shown else lines.splitlines())
        look_at_chart(rows, name, files.chart, found[0], count, is_of_each=is_lawful and not is_shown)
        each = f"{title}\n"
        for end in "AB":
            verdict = run("judge", "--end", end, *paths)
            alone_text = run("explain", "--end", end, *paths, "--chart", files.chart)
            look_at_chart(rows, f"{name}: {end}", files.chart, alone_text[0], count, end)
            line, _, behind = alone_text[0].partition("\n")
            rows.row(f"{name}: {end}", (f"{line}\n", alone_text[1], alone_text[2]), verdict)
            look_at(rows, f"{name}: {end}", alone_text[0], count, [])
            each += line.replace("LAWFUL", f"LAWFUL {end}") + "\n" + behind
        if is_lawful and not is_shown:
            rows.row(f"{name}: the runs of both", found[0], each)
        if is_shown:
            certificate = run("judge", "--cert", *paths)[0].splitlines()[1]
            files.write(files.cert, certificate.encode())
            rows.row(f"{name}: by the certificate", run("explain", *paths, files.cert), found)


def checks(rows, files):
    """Checks that with a certificate the first line is that of `check`."""
    for entries, cert, _, _, *table in alone.CHECKED:
        files.fill(judged.octets_of(entries), (table or [judged.TABLE])[0].encode(), cert.encode())
        paths = files.record, files.table, files.cert
        for words in [], ["--end", "A"], ["--end", "B"]:
            verdict, found = run("check", *words, *paths), run("explain", *words, *paths)
            first = f"{found[0].partition(chr(10))[0]}\n"
            rows.row(f"{entries} {cert} {words}", (first, found[1], found[2]), verdict)


def faults(rows, files):
    """Checks faulty input, a chart that can't be written, and missing files."""
    files.fill(b"\x41\x62\x03\x48\x01\x01", judged.TABLE.encode(), b"{}")
    files.write(files.chart, b"old")
    why = "  why: {}\n".format
    record = why("the record: `tcapjudge show --why RECORD` says what is wrong")
    table = why("the operation table: `tcapjudge table TABLE` says what is wrong")
    chart = "--chart", files.chart
    hint = "  hint: {}: this looks like {}\n".format
    is_table = hint(files.table, "an operation table, which `tcapjudge table` prints")
    is_record = hint(files.record, "a record, which `tcapjudge show` prints")
    rows.row("a cut record", run("explain", files.table, files.table, *chart), (f"FAULT 20 0\n{record}", is_table, 3))
    rows.row("no table", run("explain", files.record, files.record, *chart), (f"FAULT 30 0\n{table}", is_record, 3))
    cert = why("the certificate: its text is none")
    rows.row("no certificate", run("explain", files.record, files.table, files.cert), (f"FAULT 60 0\n{cert}", "", 3))
    unread = why("a file can't be opened or read: the table, the certificate or the record, the first that is needed")
    for paths in [files.record, "none"], ["none", files.table], [files.record, files.table, "none"]:
        text, told, status = run("explain", *paths, *chart)
        rows.row(f"{paths}", (text, told.startswith("error: none: "), status), (f"FAULT 23 0\n{unread}", True, 3))
    with open(files.chart, "rb") as file:
        rows.row("the chart is as it was", file.read(), b"old")
    over = "error: the chart would be written over a file that is read\n"
    folder = os.path.dirname(files.record)
    os.link(files.record, f"{folder}/hard")
    for name in "table", "./record", "hard", "./cert":
        words = files.record, files.table, files.cert, "--chart", f"{folder}/{name}"
        rows.row(f"over {name}", run("explain", *words), ("", over, 3))
    with open(files.record, "rb") as file:
        rows.row("the record is as it was", file.read(), b"\x41\x62\x03\x48\x01\x01")
    lawful = "LAWFUL 1\n  one run that shows it:\n  A sends 0 Begin otid=01\n  B receives 0\n"
    said = "error: the chart can't be written to {}: {}\n".format
    for path, why in ("/none/chart", "No such file or directory (os error 2)"), (folder, "Is a directory (os error 21)"):
        rows.row("no chart", run("explain", files.record, files.table, "--chart", path), (lawful, said(path, why), 3))


def main():
    rows = Rows()
    with tempfile.TemporaryDirectory() as folder:
        files = Files(folder)
        worked(rows, files)
        charts(rows, files)
        faults(rows, files)
        checks(rows, files)
        agrees(rows, files)
    print(f"{rows.passed} passed, {rows.failed} failed")
    return int(rows.failed != 0)


if __name__ == "__main__":
    os.chdir(os.path.dirname(os.path.dirname(os.path.abspath(__file__))))
    sys.exit(main())
