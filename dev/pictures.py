"""Takes the pictures of docs/: report.png, of the page that `tcapjudge test --html` writes, and chart.png, of the page
that `explain --chart` writes. Run it by hand if page/ changes. It needs what tests/browser.py shows pages with; the
program is that of tests/tested.py.

The report is over two dialogues of examples/ side by side, one of them with a planted fault, and over some unchanged
examples. The chart is the run that docs/EXPLAIN.md shows."""

import os
import shutil
import subprocess
import sys
import tempfile

sys.path.insert(0, "tests")

import browser  # noqa: E402
from tested import PROGRAM  # noqa: E402

CALLS, OTHERS = ["ussd", "announcement"], ["password", "dialogue", "no_message", "wrong_dialogue", "open_at_mark"]
# The End of examples/ussd.hex from its component portion on: the result of the first Invoke once, and twice with the
# fault.
RESULT = "a21a020101301502013b301004010f040bc2303bec1e974137970c06"
ONCE, TWICE = f"642449042f3b00016c1c{RESULT}", f"644049042f3b00016c38{RESULT}{RESULT}"


def entries_of(name):
    """Returns the lines of an example that are messages."""
    with open(f"examples/{name}.hex", encoding="utf-8") as file:
        return [line.strip() for line in file if line[:2] in ("A ", "B ")]


def calls():
    """Returns two dialogues side by side, one of them with the fault. Above each message is a frame and a time, as the
    tool for captures writes them."""
    turns = zip(*map(entries_of, CALLS), strict=True)
    lines = [line.replace(ONCE, TWICE) for turn in turns for line in turn]
    assert sum(TWICE in line for line in lines) == 1
    return "".join(f"# frame {12 + at}, 2025-11-25T09:13:55.{at:02}0001Z, entry {at}\n{line}\n" for at, line in enumerate(lines))


def written(folder, status, *words):
    """Runs the program, which must write a page in the folder and end with that status. Returns the address of the
    page."""
    ran = subprocess.run([PROGRAM, *words, "page.html"], cwd=folder, stdout=subprocess.DEVNULL, check=False)
    assert ran.returncode == status
    return f"file://{folder}/page.html"


def report(folder):
    """Writes the page of a report."""
    with open(f"{folder}/calls.hex", "w", encoding="utf-8") as file:
        file.write(calls())
    for name in OTHERS:
        shutil.copy(f"examples/{name}.hex", folder)
    return written(folder, 3, "test", "calls.hex", *(f"{name}.hex" for name in OTHERS), "--html")


def chart(folder):
    """Writes the page of a run."""
    with open(f"{folder}/record", "wb") as file:
        subprocess.run([PROGRAM, "pack", "examples/crossing.hex"], stdout=file, check=True)
    return written(folder, 0, "explain", "record", os.path.abspath("examples/operations.json"), "--chart")


def main():
    with tempfile.TemporaryDirectory() as folder, browser.browser_of(folder) as shown:
        for name, page, size in ("report", report, (1280, 720)), ("chart", chart, (800, 430)):
            shown.resize(*size)
            shown.open(page(folder))
            shown.driver.save_screenshot(f"docs/{name}.png")


if __name__ == "__main__":
    main()
