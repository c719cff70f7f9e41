"""Judges the traces of examples/ by `tcapjudge test`, for `make demo`: by the table of these examples and by the
tables of MAP and CAP. The program is compiled but not proved (dev/unproved.py)."""

import glob
import os
import re
import subprocess
import sys

import unproved

TABLES = ["examples/operations.json", "examples/tables/book.json"]
# The traces that show a fault, and those that a bench cannot decide. All others pass.
FAIL = (
    "after_end answered_already answers_nothing bad_link components invoke_id_busy misplaced_dialogue negative_test "
    "negative_test_failed no_message quiet reject_not_allowed unknown_transaction wrong_dialogue wrong_half wrong_operation wrong_reply"
).split()
INCONC = "dialogue late_result one_in_three open_at_mark reused_id two_begins".split()
# The line of a trace, as opposed to the line of a dialogue.
OF_TRACE = re.compile(r"^examples/(\w+)\.hex: (pass|inconc|fail|error)\b", re.MULTILINE)


def main():
    unproved.machine.end_in_order()
    print("This compiles the program, if its sources changed, and judges 32 traces. It proves nothing: `make program` does.", flush=True)
    unproved.program()
    words = [word for table in TABLES for word in ("--table", table)]
    run = subprocess.run(
        [unproved.PROGRAM, "test", *words, *sorted(glob.glob("examples/*.hex"))], stdout=subprocess.PIPE, text=True, check=False
    )
    lines, last = run.stdout.rstrip("\n").rpartition("\n")[::2]
    print(lines)
    print(f"Meant to fail: {', '.join(FAIL)}.\nMeant to be inconclusive: {', '.join(INCONC)}.\n{last}")
    found = OF_TRACE.findall(run.stdout)
    wrong = [name for name, verdict in found if verdict != ("fail" if name in FAIL else "inconc" if name in INCONC else "pass")]
    if wrong or run.returncode != 1:
        sys.exit(f"it ended with {run.returncode}, and the verdict is wrong on: {', '.join(wrong) or 'none'}")


if __name__ == "__main__":
    try:
        main()
    except BrokenPipeError:
        # The reader has closed the pipe, as `head` does.
        os.dup2(os.open(os.devnull, os.O_WRONLY), sys.stdout.fileno())
