"""The gate, which `make test` runs. It runs `rt ci`, with as many tasks at once as RT_JOBS says or as this machine has
room for. Then it runs the tests of TESTS on the program that `rt ci` built; tests/borrows.py; dev/clib.py over the
libraries that `rt ci` built; tests/titan.py over the library that this made; the tests of PACKED on packages of that
program and library; and bench/memory.py, which lets each allocation of a run of the program fail in turn. Meanwhile it
tries wrong bodies (dev/edits.py), as soon as their crates are proved. It passes on what all these print. Then it prints
the seconds and the processor time of the proof of each crate and of its tests, and ends with the line `N passed, M
failed`, which counts everything. The exit status is 0 if none failed. It keeps that line in out/gate-result with git's
hash of the tree, for the manifest of a package (dev/dist.py).

`rt ci` does not report when a part begins and ends. So twice a second the gate looks in /proc for the runs of `rattle`
that `rt ci` started, which a word in their environment marks. A part lasts from the first to the last time that it is
seen: a run names its crate, and the word --test marks the proof of tests. The processor time of a part is what its
runs had used when they were last seen, so it lacks up to half a second of each. The processor time of `rt ci` is
exact: the system counts it for processes that have ended."""

import atexit
import collections
import contextlib
import glob
import os
import re
import resource
import shutil
import signal
import subprocess
import sys
import threading
import time

import edits
import tree

# The tools for users are in tools/.
sys.path.append("tools")

import machine  # noqa: E402

PROGRAM = "crates/tcapjudge/out/tcapjudge"
# The tests in tests/ that run the program, with what each counts.
TESTS = {
    "program": "runs of the program",
    "words": "faults in words",
    "explain": "verdicts in words",
    "fault_kinds": "faults that are read anew",
    "facts": "faults at entries in words",
    "planted": "dialogues with a planted fault",
    "malformed": "dialogues with a malformed message",
    "pages": "examples and commands of pages",
    "rules": "examples of rules",
    "theorem": "parts of the page of theorems",
    "captures": "tests of captures",
    "real_parts": "tests over a real stack",
    "traces": "traces",
    "archive": "looks at archives",
    "compared": "looks at compared reports",
    "live": "looks at pipes of a bench that runs",
    "ci": "runs of examples for CI systems",
    "books": "tables, pages and the book that agree",
    "page": "looks at pages of reports",
}
# Those that pack the program, and the library for C if it was built.
PACKED = {"dist": "looks at packages"}
# The memory that the largest check takes, in GB.
LARGEST = 5
MARK = "GATE_RUN"
COUNTS = re.compile(rb"(\d+) passed, (\d+) failed\n?")
# What `rt ci` prints for a crate that it has proved, now or earlier.
PROVED = re.compile(rb"(?:rt: )?(\w+) (?:proved|is kept: .*)\n?")
# The number of lines of a failed part that are printed again at the end, and the number of octets at which they are
# cut.
LAST, WIDTH = 20, 400
# What `rt ci` prints about a failure has one of these words.
FAILS = re.compile(rb"fail|not proved|no proof|killed|not run|differ|printed", re.IGNORECASE)
TICKS = os.sysconf("SC_CLK_TCK")


class Part:
    """A part of `rt ci`: the seconds after the start at which it is first and last seen, and the processor seconds
    that each of its processes had when it was last seen."""

    def __init__(self, now):
        self.first, self.last, self.used = now, now, {}


def run_at(process):
    """Returns the crate and the kind of the part that a process under /proc runs for; then the process, by its number
    and the time of its start, and its processor seconds so far. Returns None if it is no run of `rattle` of this
    gate."""
    with open(f"{process}/cmdline", "rb") as file:
        words = file.read().decode(errors="replace").split("\0")
    if not words[0].endswith("/rattle") or "--crate-name" not in words:
        return None
    with open(f"{process}/environ", "rb") as file:
        if f"{MARK}={os.getpid()}".encode() not in file.read().split(b"\0"):
            return None
    with open(f"{process}/stat", "rb") as file:
        # After the name, which is in parentheses, the fields are numbered from 3 on.
        fields = file.read().rpartition(b") ")[2].split()
    kind = "tests' proof" if "--test" in words else "proof"
    part = words[words.index("--crate-name") + 1], kind
    return part, (process, fields[19]), (int(fields[11]) + int(fields[12])) / TICKS


def watch(start, parts, is_over):
    """Notes what is seen of each part, until all is over."""
    while not is_over.wait(0.5):
        now = time.monotonic() - start
        for process in glob.glob("/proc/[0-9]*"):
            try:
                seen = run_at(process)
            except OSError:
                # It has ended.
                continue
            if seen:
                name, run, seconds = seen
                part = parts.setdefault(name, Part(now))
                part.last, part.used[run] = now, seconds


class Counts:
    """How many checks of a part passed and failed, and the last lines about failures."""

    def __init__(self, passed=0, failed=0, told=()):
        self.passed, self.failed, self.told = passed, failed, told

    def all(self):
        return self.passed + self.failed


def counts_of(run, speaks=lambda line: True, look=lambda line: None):
    """Passes on the output of a running command except its line of counts, and gives each line to `look`. Returns the
    counts, with the last of the other lines that `speaks` accepts."""
    # A command that ends without its counts has failed.
    passed, failed, told = 0, 1, collections.deque(maxlen=LAST)
    try:
        for line in run.stdout:
            counts = COUNTS.fullmatch(line)
            if counts:
                passed, failed = int(counts[1]), int(counts[2])
            else:
                sys.stdout.buffer.write(line)
                sys.stdout.buffer.flush()
                look(line)
                if speaks(line):
                    told.append(line[:WIDTH].rstrip() + b"\n")
    except BaseException:
        # At Ctrl-C a test ends on its own, and removes what it made.
        with contextlib.suppress(subprocess.TimeoutExpired):
            run.wait(3)
        run.terminate()
        raise
    return Counts(passed, max(failed, int(run.wait() != 0)), told)


def started(*words):
    """Starts a command, with all its output in one pipe."""
    return subprocess.Popen(words, stdout=subprocess.PIPE, stderr=subprocess.STDOUT)


def counts_of_script(path, *words):
    """Runs a program in Python. Returns its counts, as `counts_of` does."""
    return counts_of(started(sys.executable, path, *words))


def run_test(name, what):
    """Runs one of the tests in tests/, and prints how many of what it counts are wrong. Returns its counts."""
    counts = counts_of_script(f"tests/{name}.py")
    print(f"{counts.all()} {what}, {counts.failed} wrong")
    return counts


def used_by_ended():
    """Returns the processor seconds of all processes that this one, or one that it waited for, started and waited
    for."""
    used = resource.getrusage(resource.RUSAGE_CHILDREN)
    return used.ru_utime + used.ru_stime


class Edits:
    """The run of dev/edits.py for the gate. Towards its end `rt ci` leaves processors idle, so this run begins as soon
    as the crates whose edits it tries are proved, with less right to a processor. If memory is short, or earlier
    checks left libraries that `rt ci` puts back at its end, it begins after `rt ci`."""

    def __init__(self):
        self.run, self.left = None, set(edits.of_gate())

    def look(self, line):
        """Looks at a line that `rt ci` prints, and begins if all crates are proved."""
        proved = PROVED.fullmatch(line)
        if self.run or not proved:
            return
        self.left.discard(proved[1].decode())
        wanted = os.environ["RT_JOBS"]
        most = int(wanted) if wanted.isdigit() else 1
        lanes = min(max(min(most, 2), most // 2), int(machine.free_memory() // LARGEST))
        if not self.left and lanes and os.path.isdir(".git") and not glob.glob(".git/rt-aside/*/rlib"):
            words = ["nice", "env", "-u", MARK, f"RT_JOBS={lanes}"]
            self.run = started(*words, sys.executable, "dev/edits.py", "--beside-ci")

    def begun(self):
        """Returns the run, and begins it if it has not begun."""
        self.run = self.run or started(sys.executable, "dev/edits.py", "--gate")
        return self.run

    def end(self):
        """Stops the run if it is still going on."""
        if self.run and self.run.poll() is None:
            self.run.terminate()


def watched(command, look):
    """Runs a command as `counts_of` does. Returns its counts, its parts, its seconds and its processor seconds."""
    parts, is_over, start, before = {}, threading.Event(), time.monotonic(), used_by_ended()
    watching = threading.Thread(target=watch, args=(start, parts, is_over), daemon=True)
    watching.start()
    counts = counts_of(started(*command), FAILS.search, look)
    seconds = time.monotonic() - start
    is_over.set()
    watching.join()
    return counts, parts, seconds, used_by_ended() - before


def show_parts(parts, seconds, used):
    """Prints how long each part took, the longest first, and the processor time of each part and each kind."""
    print(f"rt ci took {seconds:.0f} seconds, and {used:.0f} seconds of processor time. Its parts, side by side:")
    kinds = collections.Counter()
    for (crate, kind), part in sorted(parts.items(), key=lambda it: it[1].first - it[1].last):
        own = sum(part.used.values())
        kinds[kind] += own
        span = f"from {part.first:.0f} to {part.last:.0f}"
        print(f"{part.last - part.first:6.0f} s {own:6.0f} s of processor time  {crate:13} {kind:16} {span}")
    for kind, own in kinds.most_common():
        print(f"{own:15.0f} s of processor time  {kind} of all crates")


def show_failures(named):
    """Prints the last lines of failed parts again, so that a log that is cut at the front has them."""
    for name, counts in named:
        if counts.failed:
            print(f"{name}: {counts.failed} failed", flush=True)
            sys.stdout.buffer.writelines(counts.told)
            sys.stdout.buffer.flush()


def jobs():
    """Returns how many tasks of `rt ci` run at once: one for each processor, if there is memory for the largest check
    on each."""
    return max(1, min(machine.cores(), int(machine.free_memory() // LARGEST)))


def has_compiler():
    """Returns whether this machine has a C compiler."""
    return bool(shutil.which("cc") or shutil.which("gcc"))


def refused_memory():
    """Tries runs of the program with each allocation failing in turn. Returns the counts."""
    if not has_compiler():
        print("allocations that fail in turn: not tried, for want of a C compiler")
        return Counts()
    counts = counts_of_script("bench/memory.py", "program")
    print(f"{counts.all()} runs with allocations that fail in turn, {counts.failed} wrong")
    return counts


def run_all():
    """Runs all parts. Returns how many passed and failed."""
    os.environ[MARK] = str(os.getpid())
    # If make stops the gate, the gate stops what it runs.
    signal.signal(signal.SIGTERM, lambda *_: sys.exit(1))
    os.environ["RT_JOBS"] = os.environ.get("RT_JOBS") or str(jobs())
    print(f"RT_JOBS={os.environ['RT_JOBS']}: so many checks go side by side under rt ci", flush=True)
    machine.say_if_short(LARGEST, "the largest check")
    # The tests must run the program of this `rt ci`, and none if it stops early.
    os.environ.pop("TCAPJUDGE", None)
    if os.path.exists(PROGRAM):
        os.remove(PROGRAM)
    wrong = Edits()
    atexit.register(wrong.end)
    ci, parts, seconds, used = watched(["rt", "ci"], wrong.look)
    # That run prints little, so it never waits for a reader.
    tried = wrong.begun()
    others = [run_test(name, what) for name, what in TESTS.items()]
    lent = counts_of_script("tests/borrows.py")
    print(f"feeding while an entry is lent: {'refused' if lent.passed else 'NOT refused'}")
    clib = counts_of_script("dev/clib.py", "--over-ci")
    print(f"{clib.all()} comparisons of the library for C with the program, {clib.failed} that differ")
    titan = counts_of_script("tests/titan.py") if clib.all() else Counts()
    print(f"{titan.all()} verdicts of a test case in TTCN-3, {titan.failed} wrong")
    packed = [run_test(name, what) for name, what in PACKED.items()]
    others += [lent, clib, titan, *packed, refused_memory(), counts_of(tried)]
    print(f"{others[-1].all()} wrong bodies, {others[-1].failed} not refused")
    show_parts(parts, seconds, used)
    names = ["rt ci", *TESTS, "borrows", "the library for C", "TTCN-3", *PACKED, "allocations that fail", "wrong bodies"]
    show_failures(zip(names, [ci, *others]))
    return [sum(getattr(it, what) for it in [ci, *others]) for what in ("passed", "failed")]


def main():
    judged = tree.tree()
    tree.forget_result()
    passed, failed = run_all()
    line = f"{passed} passed, {failed} failed"
    tree.keep_result(judged, line)
    print(line, flush=True)
    return int(failed != 0)


if __name__ == "__main__":
    sys.exit(main())
