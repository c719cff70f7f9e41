"""Runs the built program's word `explain` over records with an entry at fault, and checks the lines after REFUTED and
BLAMED, which give the evidence of the fault. Those of facts.json are written out by hand, to be read next to the
output of `show`: at least one of each kind, and each form of words. For the records of faults.json, each as it is,
after a mark, and twice, and for random records, the lines must be those that tests/oracle/evidence.py and
tests/oracle/unblamed.py give, for both ends and for each end alone."""

import json
import os
import random
import re
import subprocess
import sys
import tempfile

import rooms  # noqa: F401
import blamed
import evidence
import fuzz
import judged
import random_dialogues
import runs
import unblamed
from shown import Table, entries_in, printed
from tested import PROGRAM

FACTS = "tests/cases/facts.json"
# The number of random records, the number of those with IDs that may be tangled, and the seed.
RANDOM, TANGLED, SEED = 400, 300, "facts"
# A uses 01 again, so it is blamed for nothing after that.
AGAIN = "A 6203480101 B 6403490101 B 6203480107 B 6203480108 A 6506480101490107"


class Rows:
    """The counts of rows that passed and failed; those that failed are printed."""

    def __init__(self):
        self.passed, self.failed = 0, 0

    def row(self, name, found, wanted):
        if found == wanted:
            self.passed += 1
        else:
            self.failed += 1
            print(f"{name}: {str(found)[:1500]}, not {str(wanted)[:1500]}")


class Files:
    """The files of a record and of a table."""

    def __init__(self, folder):
        self.paths = [os.path.join(folder, name) for name in ("record", "table")]

    def fill(self, record, table):
        for path, octets in zip(self.paths, (record, table)):
            with open(path, "wb") as file:
                file.write(octets)

    def explained(self, *options):
        """Returns the output of `explain` as lines."""
        done = subprocess.run([PROGRAM, "explain", *options, *self.paths], capture_output=True, check=False)
        return done.stdout.decode().splitlines()


def told(lines):
    """Returns the lines after each line with REFUTED or BLAMED, without their blanks."""
    found = {}
    for number, line in enumerate(lines):
        if re.match("REFUTED|BLAMED", line):
            others = [behind for behind, other in enumerate(lines) if behind > number and not other.startswith("  ")]
            found[line] = [behind[2:] for behind in lines[number + 1 : (others or [len(lines)])[0]]]
    return found


def written_out(rows, files):
    with open(blamed.FAULTS, encoding="utf-8") as file:
        tables = json.load(file)["tables"]
    with open(FACTS, encoding="utf-8") as file:
        records = json.load(file)["records"]
    for row in records:
        files.fill(judged.octets_of(row["record"]), json.dumps(tables[row["table"]]).encode())
        found, (_, *end, entry, kind) = told(files.explained()), row["line"].split()
        # A blamed entry that also refutes the record has its lines only after the first line.
        words = found.get(f"REFUTED {entry} {kind}", found.get(row["line"]))
        rows.row(f"{row['record']}, {row['line']}", (row["line"] in found, words), (True, row["words"]))
        if end:
            alone = told(files.explained("--end", *end))
            rows.row(f"{row['record']}, {row['line']} alone", alone, {f"REFUTED {entry} {kind}": row["words"]})


def wanted(entries, table, lines, end):
    """Returns the lines that must follow each line with REFUTED or BLAMED, for one end alone or for both."""
    found = {}
    for line in lines:
        verdict, *_, entry, kind = line.split()
        if verdict == "REFUTED" and end is None:
            found[line] = unblamed.refuted_lines(entries, table, int(entry), kind)
        elif f"REFUTED {entry} {kind}" in lines and end is None:
            # Lines that were printed above are not repeated.
            found[line] = []
        else:
            found[line] = evidence.lines(entries, table, end or line.split()[1], int(entry), kind)
    return found


def compared(rows, files, name, record, table, read):
    """Checks that the lines of a record are those of tests/oracle/evidence.py and tests/oracle/unblamed.py; `read` is
    the table as these read it."""
    files.fill(record, table)
    entries = entries_in(record)
    found = told(files.explained())
    rows.row(name, found, wanted(entries, read, found, None))
    for end in {line.split()[1] for line in found if line.startswith("BLAMED")}:
        found = told(files.explained("--end", end))
        rows.row(f"{name}, {end} alone", found, wanted(entries, read, found, end))


def of_known(rows, files):
    tables = {}
    for name, record, table, _ in blamed.faults():
        if table not in tables:
            tables[table] = Table(printed("table", table))
        compared(rows, files, name, record, table, tables[table])


def random_record(rng):
    """Returns a record of tests/oracle/random_dialogues.py, sometimes with changed entries, or one of tests/fuzz.py;
    and its table."""
    if rng.random() < 0.25:
        case = fuzz.Case(rng)
        return case.record, case.table
    table = random_dialogues.any_table(rng)
    entries = random_dialogues.entries(rng, table)
    if rng.random() < 0.25:
        entries = fuzz.changed_entries(rng, entries)
    return b"".join(entries), runs.table_text(table)


def of_random(rows, files):
    for number in range(RANDOM):
        record, table = random_record(random.Random(f"{SEED}/{number}"))
        compared(rows, files, f"{record.hex()}, {table}", record, table, Table(printed("table", table)))


def any_message(rng):
    """Returns a Begin or a Continue over a few IDs, where A gives two or three IDs to one ID of B; some Continues of B
    answer what was never sent."""
    end, a = rng.choice("AAB"), rng.choice(["01", "02", "03", "04", "05"])
    b = "08" if a in ("03", "05") else "07"
    own, other = (a, b) if end == "A" else (b, a)
    if rng.random() < 0.15:
        return f"{end} 62034801{own}"
    answers = end == "B" and rng.random() < 0.4
    return f"{end} 65{'0D' if answers else '06'}4801{own}4901{other}" + "6C05A203020101" * answers


def of_tangled(rows, files):
    """Checks records with tangled IDs, of an end that is blamed for nothing."""
    table = judged.TABLE.encode()
    read = Table(printed("table", table))
    for number in range(TANGLED):
        rng = random.Random(f"{SEED}/tangled/{number}")
        record = judged.octets_of(" ".join([AGAIN, *(any_message(rng) for _ in range(rng.randrange(3, 9)))]))
        compared(rows, files, f"{record.hex()}, tangled", record, table, read)


def at_a_mark(rows):
    """Checks a record in which a half of A is open at the mark, and A is not blamed, since it used 01 again in entry
    2. `explain` gives no reason for a mark; the worked rows of crates/tcap_faults/specs/WorkedUnblamed.antt have this
    record too."""
    record = judged.octets_of(
        "A 6203480101 B 6403490101 A 6203480101 A 6203480103 B 6506480109490103 A 6506480103490109 Q A 6203480104"
    )
    entries, table = entries_in(record), Table(printed("table", judged.TABLE.encode()))
    found = [unblamed.used_again(entries, table, "A", number) for number in range(len(entries))]
    rows.row("at a mark", found, [None, None, 2, 2, 2, 2, 2, None])


def main():
    rows = Rows()
    with tempfile.TemporaryDirectory() as folder:
        files = Files(folder)
        written_out(rows, files)
        of_known(rows, files)
        of_random(rows, files)
        of_tangled(rows, files)
    at_a_mark(rows)
    print(f"{rows.passed} passed, {rows.failed} failed")
    return int(rows.failed != 0)


if __name__ == "__main__":
    sys.exit(main())
