"""Runs `make quick`: all tests in tests/ that need the program and no proof, at the same time, with the unproved
program (dev/unproved.py). It prints the counts and the seconds of each, then what these tests do not show, and the
line `N passed, M failed`. The exit status is 0 if none failed.

Each test works in folders of its own, so the tests do not disturb each other. tests/octets.py also needs only the
program, but runs it a hundred thousand times, so it is left out."""

import contextlib
import os
import signal
import subprocess
import sys
import tempfile
import time

import gate
import unproved

# Random cases for this many seconds, with this seed.
FUZZ = ["60", "1"]
NOT_SHOWN = """Left to `make test`: proofs, wrong bodies, the tests within the crates, the stored runs, the second compiler,
the library for C, its example for TTCN-3, and feeding while an entry is lent. What ran is not the
proved program: it is optimised less, and nothing was proved of it or is checked as it runs. These tests say nothing about
speed."""


def begin(stack, path, words, env):
    """Starts a test, which runs until it ends or the stack is closed. Returns the process and the file with its
    output."""
    printed = stack.enter_context(tempfile.TemporaryFile())
    how = {"stdin": subprocess.DEVNULL, "stdout": printed, "stderr": printed, "env": env}
    # An interrupted test removes what it made.
    return stack.enter_context(unproved.started([sys.executable, path, *words], signal.SIGINT, **how)), printed


def counts_of(status, printed):
    """Returns how many checks of a test passed and failed, and its other lines. The test ended with that status."""
    printed.seek(0)
    lines = [*printed]
    counts = [line for line in lines if gate.COUNTS.fullmatch(line)]
    # A test that ends without its counts has failed.
    passed, failed = map(int, gate.COUNTS.fullmatch(counts[-1]).groups()) if counts else (0, 1)
    return passed, max(failed, int(status != 0)), [line for line in lines if line not in counts]


def run_all(env):
    """Runs the tests, and prints the counts of each. Returns how many passed and failed."""
    start, both = time.monotonic(), [0, 0]
    with contextlib.ExitStack() as stack:
        running = {what: begin(stack, f"tests/{name}.py", [], env) for name, what in (gate.TESTS | gate.PACKED).items()}
        running["random cases"] = begin(stack, "tests/fuzz.py", FUZZ, env)
        if gate.has_compiler():
            running["runs with allocations that fail in turn"] = begin(stack, "bench/memory.py", ["program"], env)
        while running:
            time.sleep(0.1)
            for what in [what for what, (run, _) in running.items() if run.poll() is not None]:
                run, printed = running.pop(what)
                passed, failed, others = counts_of(run.returncode, printed)
                both[0], both[1] = both[0] + passed, both[1] + failed
                print(f"{time.monotonic() - start:6.0f} s  {what}: {passed} passed, {failed} failed", flush=True)
                if failed or not passed or any(line.startswith(b"skipped") for line in others):
                    sys.stdout.buffer.writelines(others)
                    sys.stdout.flush()
    return both


def main():
    unproved.machine.end_in_order()
    start = time.monotonic()
    unproved.program()
    # Called through its link, since help names the program as it was called.
    program = os.path.abspath(unproved.LINK)
    print(f"{time.monotonic() - start:6.0f} s  the program is compiled, unproved: {unproved.PROGRAM}", flush=True)
    passed, failed = run_all(os.environ | {"TCAPJUDGE": program})
    print(NOT_SHOWN)
    print(f"{passed} passed, {failed} failed", flush=True)
    return int(failed != 0)


if __name__ == "__main__":
    sys.exit(main())
