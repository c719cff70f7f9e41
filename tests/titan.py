"""Tests clib/titan, the example for TTCN-3: has its test case exchange the messages of examples/ over its ports, and
compares the verdict that it sets with the one in the head of the example, or for its own table. If Eclipse Titan, or
the library that `make clib` makes, is missing, it says so and counts nothing."""

import collections
import os
import re
import shutil
import subprocess
import sys
import tempfile

FOLDER, ARCHIVE = "clib/titan", "clib/out/libtcapjudge.a"
TOOLS = "ttcn3_compiler", "make", "g++"
OPERATIONS = "examples/operations.json"

Row = collections.namedtuple("Row", "name judged verdict reason table", defaults=[OPERATIONS])

ROWS = [
    Row("answered", "A", "pass", "entries: 2, unheard: 0"),
    Row("answered", "B", "pass", "entries: 2, unheard: 0"),
    Row("crossing", "A", "pass", "entries: 5, unheard: 0"),
    Row("ussd", "B", "pass", "entries: 4, unheard: 0", "examples/tables/ussd.json"),
    Row("negative_test", "A", "pass", "entries: 5, unheard: 0"),
    Row("negative_test", "B", "fail", "entry 3, F4"),
    Row("negative_test_failed", "A", "fail", "entry 4, F8"),
    Row("no_message", "A", "fail", "entry 0, F1"),
    Row("wrong_dialogue", "B", "fail", "entry 1, F9"),
    Row("wrong_half", "A", "fail", "entry 2, F8"),
    Row("late_result", "A", "inconc", "neither lawful nor blamed"),
    Row("one_in_three", "A", "inconc", "neither lawful nor blamed"),
    # The second row of this table has the class 5: the fault 33 at row 1.
    Row("no_class", "A", "error", "nothing was judged: fault 33, place 1", "examples/no_class.table.json"),
    Row("answered", "A", "error", "none/such.json can't be read", "none/such.json"),
]

CONFIGURATION = """[MODULE_PARAMETERS]
Example.tsp_table := "{table}"
Example.tsp_judged := {judged}
Example.tsp_lines := {{ {lines} }}
[LOGGING]
LogFile := "/dev/null"
ConsoleMask := VERDICTOP | STATISTICS | ERROR
[EXECUTE]
Example.control
"""
SUMMARY = re.compile(r"1 test case was executed\. Overall verdict: (\w+)")


def lines_of(name):
    """Returns the lines of an example, as a value of TTCN-3."""
    with open(f"examples/{name}.hex", encoding="utf-8") as file:
        lines = [line.split() for line in file if line[:1] in ("A", "B")]
    return ", ".join(f"{{ {end}, '{digits}'O }}" for end, digits in lines)


def said_of(folder, row):
    """Returns the output of a run of the test case."""
    path = f"{folder}/row.cfg"
    with open(path, "w", encoding="utf-8") as file:
        file.write(CONFIGURATION.format(table=row.table, judged=row.judged, lines=lines_of(row.name)))
    run = subprocess.run([f"{folder}/example", path], stdin=subprocess.DEVNULL, capture_output=True, timeout=60, check=False)
    return (run.stdout + run.stderr).decode()


def holds(folder, row):
    """Returns whether the test case sets the verdict of a row, for the row's reason."""
    said = said_of(folder, row)
    verdict = SUMMARY.search(said)
    is_so = verdict is not None and verdict[1] == row.verdict and row.reason in said
    if not is_so:
        print(f"{row}: {said}")
    return is_so


def lacking():
    """Returns what is missing."""
    return [tool for tool in TOOLS if not shutil.which(tool)] + [ARCHIVE] * (not os.path.exists(ARCHIVE))


def main():
    if missing := lacking():
        print(f"skipped: the example for TTCN-3 was not tried, for want of {', '.join(missing)}\n0 passed, 0 failed")
        return 0
    with tempfile.TemporaryDirectory() as folder:
        made = subprocess.run(["make", "-C", FOLDER, f"OUT={folder}"], capture_output=True, check=False)
        if made.returncode:
            sys.stderr.buffer.write(made.stdout + made.stderr)
            sys.exit("the example for TTCN-3 was not built")
        held = [holds(folder, row) for row in ROWS]
    print(f"{sum(held)} passed, {len(held) - sum(held)} failed")
    return int(not all(held))


if __name__ == "__main__":
    sys.exit(main())
