"""Compares the frame of a page with the files that it is made from (dev/page.py). Then it calls functions of the page's
scripts in Node.js (node.py), with the cases of page_functions.py. At last it checks pages of made reports and runs
(made_reports.py), and pages that the program writes, in a browser (browser.py), with the cases of page_cases.py,
page_parts.py, page_traces.py, page_limits.py, page_runs.py and page_written.py. If there is no Node.js, no browser
starts, or there is no loopback interface to drive it, it says so and leaves these cases out."""

import contextlib
import signal
import sys
import tempfile

sys.path.insert(0, "dev")

import rooms  # noqa: F401
import browser
import loopback
import node
import page
import page_cases
import page_functions
import page_limits
import page_parts
import page_runs
import page_traces
import page_written
from made_reports import hostile, looked_like, open_at_end, planted
from traced import SCHEMA, Checks, run

# The most times that a case is checked.
TURNS = 3


def frame_checks():
    """Returns the checks of dev/page.py."""
    checks = Checks("frame")
    for what, holds in page.checks():
        checks.holds(what, holds)
    return checks


def made_checks():
    """Checks that the made objects follow docs/report.schema.json, if a validator is installed, and that the program
    shows the octets of planted messages as they say."""
    checks = Checks("made reports")
    for it in [*planted(), *hostile(), open_at_end(), looked_like("a capture")]:
        if SCHEMA is not None:
            checks.same("by the schema", [error.message for error in SCHEMA.iter_errors(it)], [])
    messages = [message for it in planted() if "dialogue" in it for message in it["messages"]]
    for it in [message for message in messages if "kind" in message]:
        shown = run(["show", "--lines"], f"{it['end']} {it['octets']}\n".encode()).stdout.decode()
        checks.same(f"octets of {it['show']!r}", shown.split(" ", 1)[1], it["show"].split(" ", 1)[1])
    return checks


def function_checks():
    """Runs the cases of page_functions.py, if Node.js is installed."""
    if node.missing():
        print(f"skipped: functions of the page's scripts, for want of {', '.join(node.missing())}")
        return []
    every = []
    for case in page_functions.CASES:
        every.append(Checks(case.__name__))
        with tempfile.TemporaryDirectory() as folder:
            case(every[-1], folder)
    return every


def looked_at_once(shown, case):
    """Runs a case once. Its pages must print nothing on the console and request nothing but themselves."""
    checks = Checks(case.__name__)
    shown.resize(1280, 900)
    shown.show_as()
    try:
        case(checks, shown)
    except Exception as error:
        # The page does not have what the case looks for.
        checks.holds(f"it ends, and not by {error!r}"[:600], False)
    checks.same("said to the console", shown.log(), [])
    asked = [it for it in shown.requests() if not it.startswith((f"file://{shown.folder}/", "data:,", "about:"))]
    checks.same("asked for", asked, [])
    return checks


def looked_at(shown, case):
    """Runs a case. If something is wrong, it is run again and a line says so, since a busy machine may draw late."""
    for _ in range(TURNS - 1):
        checks = looked_at_once(shown, case)
        if not checks.wrong:
            return checks
        print(f"looked at again, since {checks.wrong[0]}")
    return looked_at_once(shown, case)


def main():
    # If the gate stops this, it ends its browser.
    signal.signal(signal.SIGTERM, lambda *_: sys.exit(1))
    missing = browser.missing() or ([] if loopback.is_had() else ["a loopback interface"])
    found = [frame_checks(), made_checks(), *function_checks()]
    if missing:
        print(f"skipped: pages in a browser, for want of {', '.join(missing)}")
    else:
        with tempfile.TemporaryDirectory() as folder, contextlib.ExitStack() as stack:
            try:
                shown = stack.enter_context(browser.browser_of(folder))
            except browser.NoBrowser as error:
                print(f"skipped: pages in a browser, which does not start: {error}")
            else:
                parts = [page_cases, page_parts, page_traces, page_limits, page_runs, page_written]
                found += [looked_at(shown, case) for part in parts for case in part.CASES]
    for wrong in [wrong for checks in found for wrong in checks.wrong]:
        print(wrong)
    failed = sum(len(checks.wrong) for checks in found)
    print(f"{sum(checks.count for checks in found) - failed} passed, {failed} failed")
    return int(failed != 0)


if __name__ == "__main__":
    sys.exit(main())
