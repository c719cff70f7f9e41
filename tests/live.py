"""Runs the pipes of docs/LIVE.md: over a file that grows, with a feeder that is stopped, with signals for the program,
and over a ring of captures; and has systemd look at the unit in examples/."""

import contextlib
import os
import re
import select
import shutil
import signal
import subprocess
import sys
import tempfile
import time

import rooms  # noqa: F401
import capture_recipes
from tested import PROGRAM

PAGE, UNIT = "docs/LIVE.md", "examples/tcapjudge-live.service"
TABLE = ["--table", "examples/operations.json"]
# The most seconds that a pipe may take.
LIMIT = 60
# A dialogue that B fails: it answers an invocation twice. Then two that both pass.
FAILS = "A 620D4801016C08A10602010102012D\nB 640F4901016C0AA203020101A203020101\n"
PASSES = "A 620D4801026C08A10602010102012D\nB 640A4901026C05A203020101\n"
PASSES += "A 620D4801036C08A10602010102012D\nB 640A4901036C05A203020101\n"
# A ends the transaction while a Continue of B is on its way.
CROSSES = "A 6203480105\nB 6506480107490105\nA 6403490107\nB 6506480107490105\n"
FAILED, SUM = b"dialogue 0, A 01: fail\n", b"1 trace: "


def judge(*words):
    """Returns the words that run the program over standard input, with INT and TERM ignored as the page says."""
    return ["sh", "-c", 'trap "" INT TERM; exec "$0" "$@"', os.path.abspath(PROGRAM), "test", "-", *TABLE, *words]


def read_until(pipe, wanted):
    """Returns what comes out of a pipe, up to the octets that are wanted, its end, or the limit."""
    came, due = b"", time.monotonic() + LIMIT
    while wanted not in came and select.select([pipe], [], [], max(0, due - time.monotonic()))[0]:
        octets = os.read(pipe.fileno(), 65536)
        if not octets:
            break
        came += octets
    return came


@contextlib.contextmanager
def started(words, **how):
    """Starts a process, and ends it if it is still there at the end."""
    with subprocess.Popen(words, **how) as run:
        try:
            yield run
        finally:
            if run.poll() is None:
                run.kill()


def is_judged_early(folder):
    """Returns whether a dialogue in a file that grows is printed when as many entries have come as `--linger` says, and
    all others and the sums when `tail` ends."""
    path = f"{folder}/lines"
    with open(path, "w", encoding="ascii") as file:
        file.write(FAILS)
    with started(["tail", "-n", "+1", "-F", path], stdout=subprocess.PIPE, stderr=subprocess.DEVNULL) as tail:
        with started(judge("--linger", "1"), stdin=tail.stdout, stdout=subprocess.PIPE) as run:
            with open(path, "a", encoding="ascii") as file:
                file.write(PASSES)
            early = read_until(run.stdout, FAILED)
            is_running = run.poll() is None
            tail.terminate()
            rest = read_until(run.stdout, b" unanswered\n1 trace")
            status = run.wait(LIMIT)
    return FAILED in early and SUM not in early and is_running and SUM in rest and status == 1


def are_signals_ignored():
    """Returns whether the program goes on after INT and TERM, and ends with its sums at the end of its input."""
    with started(judge(), stdin=subprocess.PIPE, stdout=subprocess.PIPE) as run:
        run.stdin.write(FAILS.encode())
        run.stdin.flush()
        # Not before the shell has become the program.
        while os.readlink(f"/proc/{run.pid}/exe") != os.path.realpath(PROGRAM):
            time.sleep(0.01)
        for number in (signal.SIGINT, signal.SIGTERM):
            run.send_signal(number)
        printed, _ = run.communicate(PASSES.encode(), LIMIT)
        return FAILED in printed and SUM in printed and run.returncode == 1


def lingers():
    """Yields whether a message that crosses an End is of its dialogue with `--linger 1`, and in doubt with 0."""
    for linger, verdict in ("1", "pass"), ("0", "inconc"):
        given = CROSSES + PASSES
        run = subprocess.run(judge("--linger", linger), input=given.encode(), stdout=subprocess.PIPE, check=False)
        yield run.stdout.splitlines()[-1].startswith(b"1 trace: 1 pass" if verdict == "pass" else b"1 trace: 0 pass, 1 inconc")


def feeder():
    """Returns the feeder that the page shows."""
    with open(PAGE, encoding="utf-8") as file:
        return re.search(r"^feeder\(\) \{\n.*?^\}\n", file.read(), re.DOTALL | re.MULTILINE)[0]


def fed(octets, is_stopped):
    """Returns what the feeder of the page passes on of these octets, if it is stopped by TERM or comes to their end."""
    with started(["bash", "-c", f"{feeder()}feeder"], stdin=subprocess.PIPE, stdout=subprocess.PIPE) as run:
        run.stdin.write(octets)
        run.stdin.flush()
        passed = read_until(run.stdout, octets[: octets.rindex(b"\n") + 1])
        if is_stopped:
            run.terminate()
        return passed + run.communicate(timeout=LIMIT)[0]


def feeds():
    """Yields whether the feeder passes whole lines only, and says that it was stopped; and what is judged of that."""
    cut = FAILS.encode() + b"A 6203"
    yield fed(cut, False) == FAILS.encode()
    stopped = fed(cut, True)
    yield stopped == FAILS.encode() + b"#: broken off\n"
    run = subprocess.run(judge(), input=stopped, stdout=subprocess.PIPE, check=False)
    yield run.returncode == 3 and FAILED in run.stdout and b"the trace was broken off" in run.stdout


def is_unit_sound():
    """Yields whether systemd finds no fault in the unit, if its command is installed."""
    if not shutil.which("systemd-analyze"):
        print("skipped: the unit of systemd, for want of systemd-analyze")
        return
    run = subprocess.run(["systemd-analyze", "verify", "--man=no", UNIT], capture_output=True, check=False)
    if run.returncode or run.stderr:
        print(run.stderr.decode(errors="replace"))
    yield run.returncode == 0 and not run.stderr


def rings():
    """Yields whether the ring of the page judges each capture, and all its files at once, if tshark is installed."""
    if shutil.which("tshark"):
        yield from capture_recipes.of_a_ring(PROGRAM)
    else:
        print("skipped: the ring of captures, for want of tshark")
    yield from capture_recipes.of_many_files(PROGRAM)


def looks():
    """Yields what is looked at, with whether it holds."""
    with tempfile.TemporaryDirectory() as folder:
        yield "a dialogue in a file that grows is judged early", is_judged_early(folder)
    yield "INT and TERM are ignored", are_signals_ignored()
    yield from (("a message that crosses an End", held) for held in lingers())
    yield from (("the feeder", held) for held in feeds())
    yield from (("the ring of captures", held) for held in rings())
    yield from (("the unit of systemd", held) for held in is_unit_sound())


def main():
    held = []
    for what, holds in looks():
        held.append(holds)
        if not holds:
            print(f"not so: {what}", file=sys.stderr)
    print(f"{sum(held)} passed, {len(held) - sum(held)} failed")
    return int(not all(held))


if __name__ == "__main__":
    sys.exit(main())
