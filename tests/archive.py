"""Runs tools/judge_archive.py over an archive of 200 traces, on loopback, with two workers. Its output and its file
must be, octet by octet, those of one run of `tcapjudge test` over all traces, and so must the exit status. This must
also hold if a worker dies, if the run is stopped and continued, if a run of the program gives no verdict and is tried
again, if a trace changes in between, and if a table has a hint. If distributed is not installed, or none of its
workers can run a program, it says so and counts nothing."""

import concurrent.futures
import contextlib
import fcntl
import json
import os
import random
import re
import shutil
import signal
import socket
import subprocess
import sys
import tempfile
import time

import rooms  # noqa: F401
import capture_rows
import loopback
import made_captures
import random_traces
import runs
from tested import PROGRAM
from trace_rows import SHORT, WRONG_END, lines
from traced import Checks, content, put

TOOL, PYTHON = os.path.abspath("tools/judge_archive.py"), "/usr/bin/python3"
LINES_TOOL = os.path.abspath("tools/lines_of_capture.py")
TRACES, ENOUGH, PATIENCE = 200, 60, 100
# A scheduler and two workers, until the standard input ends.
CLUSTER = """
import distributed, sys
if __name__ == "__main__":
    how = {"n_workers": 2, "threads_per_worker": 1, "dashboard_address": None, "host": "127.0.0.1"}
    with distributed.LocalCluster(**how) as cluster:
        print(cluster.scheduler_address, flush=True)
        sys.stdin.read()
"""
# Has a worker run a program, and ends with its status.
PROBE = """
import distributed, subprocess, sys
if __name__ == "__main__":
    how = {"n_workers": 1, "threads_per_worker": 1, "dashboard_address": None, "host": "127.0.0.1"}
    with distributed.LocalCluster(**how) as cluster, distributed.Client(cluster) as client:
        sys.exit(client.submit(subprocess.call, ["setpriv", "--pdeathsig", "KILL", sys.argv[1]]).result(60))
"""
# The program, which notes each trace. If a trace is asked for, the program, at its first run on that trace, kills its
# worker or itself, or waits, or ends differently than the program does (ENDS).
NOTING = """#!/bin/sh
for name; do case $name in /dev/fd/*) json=$name;; esac; done
name=${{name##*/}}
echo "$name" >> {folder}/noted
cut_json() {{ head -n -1 "$json" > {folder}/cut-$$; cat {folder}/cut-$$ > "$json"; }}
if [ -e "{folder}/once/$name" ] && read -r how < "{folder}/once/$name" && rm "{folder}/once/$name"; then
    case $how in
        worker) kill -9 $PPID; sleep 9;;
        itself) kill -9 $$;;
        wait) exec sleep 60;;
        killed-between) {program} "$@"; cut_json; kill -9 $$;;
        killed-at-its-end) {program} "$@"; kill -9 $$;;
        cut) {program} "$@"; status=$?; cut_json; exit $status;;
        cut-text) {program} "$@" | head -n -1; exit 1;;
        other-status) {program} "$@"; exit 0;;
        no-status) {program} "$@"; exit 9;;
        error) echo "error: table.json: it is gone" >&2;;
    esac
fi
exec {program} "$@"
"""
# How a run without a verdict ends, and what is printed for the trace.
MISSING = "no verdict, status {}, and a part of what the judge writes is missing"
ENDS = {
    "itself": "the judge was killed by signal 9",
    "killed-between": "the judge was killed by signal 9",
    "killed-at-its-end": "the judge was killed by signal 9",
    "cut": MISSING.format(1),
    "cut-text": MISSING.format(1),
    "other-status": MISSING.format(0),
    "no-status": "no verdict, status 9",
    "error": "no verdict, status 1: error: table.json: it is gone",
}
# A row whose code causes a hint on standard error.
HINTED = {"class": 1, "code": "45"}
ODD = ["a b.hex", "it's \"so\" $(x).hex", "\u00e9\u2028.hex", "two\nlines.hex", "-x.rec", "DIGITS.HEX"]


# ---- an archive


class Archive:
    """A folder with traces below `archive`, a table, and a program that notes what it judges."""

    def __init__(self, folder):
        self.folder, maker = folder, random_traces.Maker(random.Random(1))
        table = json.loads(runs.table_text(maker.table))
        table["operations"].append(HINTED)
        put(folder, "table.json", json.dumps(table).encode())
        for room in "archive/one/two", "once":
            os.makedirs(f"{folder}/{room}")
        for number in range(TRACES - 1 - len(ODD)):
            room = ("archive", "archive/one", "archive/one/two")[number % 3]
            put(folder, f"{room}/{number}.hex", self.trace(maker, number))
        for name in ODD:
            put(folder, f"archive/{name}", lines(*SHORT).encode())
        put(folder, "archive/readme.txt", b"no trace")
        self.program = put(folder, "noting", NOTING.format(folder=folder, program=PROGRAM).encode())
        os.chmod(self.program, 0o755)
        found = [f"{room}/{name}" for room, _, names in os.walk(f"{folder}/archive") for name in names]
        # The order is that of the code points of the paths.
        self.names = sorted(os.path.relpath(name, folder) for name in found if not name.endswith(".txt"))

    @staticmethod
    def trace(maker, number):
        """Returns a trace of a random dialogue, sometimes with a fault. Some have no entry, a line with a fault, or a
        comment that is no text."""
        text = lines(*(f"{heading.end} {digits}" for heading, digits in maker.dialogue("own"))).encode()
        return {3: b"", 7: text + b"A 62", 11: b"# \xff\n" + text}.get(number % 20, text)

    def ask(self, name, how):
        """Makes the program do that at its first run on that trace."""
        put(self.folder, f"once/{os.path.basename(name)}", f"{how}\n".encode())

    def noted(self):
        return content(f"{self.folder}/noted").decode().split("\n")

    def words(self, *more):
        return ["--program", self.program, "--json", "out.json", "--table", "table.json", "--complete", *more]

    def run(self, *words, meanwhile=lambda running: None, **how):
        """Runs the tool in a new session. Returns its status, its standard output and its standard error."""
        streams = {"stdout": subprocess.PIPE, "stderr": subprocess.PIPE, "stdin": subprocess.DEVNULL}
        how = {"cwd": self.folder, **streams, **how}
        running = subprocess.Popen([sys.executable, TOOL, *words], start_new_session=True, **how)
        try:
            meanwhile(running)
            out, error = running.communicate(timeout=PATIENCE)
        finally:
            if running.poll() is None:
                os.killpg(running.pid, signal.SIGKILL)
        return running.returncode, out, error.decode()

    def look(self, checks, what, found, names):
        """Checks that the tool printed and wrote what one run of the program over these traces prints and writes."""
        words = [PROGRAM, "test", "--json", "wanted.json", "--table", "table.json", "--complete", "--"]
        wanted = subprocess.run([*words, *names], cwd=self.folder, capture_output=True, check=False)
        checks.same(f"{what}: status, {found[2]}", found[0], wanted.returncode)
        checks.holds(f"{what}: the text", found[1] == wanted.stdout and len(found[1]) > 1000)
        written, one = content(f"{self.folder}/out.json"), content(f"{self.folder}/wanted.json")
        checks.holds(f"{what}: the lines of JSON", written == one and len(written) > 1000)
        # If a worker is lost, distributed may print more.
        checks.holds(f"{what}: no error: {found[2]}", TOOL not in found[2] and not re.search("^error: ", found[2], re.MULTILINE))
        checks.same(f"{what}: the hint at the table, once: {found[2]}", found[2].count(wanted.stderr.decode()), 1)
        checks.holds(f"{what}: there is a hint", b"hint: table.json: row " in wanted.stderr)

    def results(self):
        """Returns the paths of the kept results, by the names of their traces."""
        folder, found = f"{self.folder}/out.json.results", {}
        for name in os.listdir(folder) if os.path.isdir(folder) else []:
            if "." not in name and name != "lines":
                found[json.loads(content(f"{folder}/{name}").split(b"\n")[0])["name"]] = f"{folder}/{name}"
        return found


def wait_until(holds):
    """Waits until something holds. Returns whether it does."""
    end = time.monotonic() + PATIENCE
    while not holds() and time.monotonic() < end:
        time.sleep(0.02)
    return holds()


@contextlib.contextmanager
def archive_of_traces():
    with tempfile.TemporaryDirectory() as folder:
        yield Archive(folder)


@contextlib.contextmanager
def cluster():
    """Yields the address of a scheduler with two workers, which are in another folder."""
    with tempfile.TemporaryDirectory() as folder:
        path = put(folder, "cluster.py", CLUSTER.encode())
        how = {"stdin": subprocess.PIPE, "stdout": subprocess.PIPE, "stderr": subprocess.DEVNULL, "cwd": folder}
        with subprocess.Popen([PYTHON, path], **how) as running:
            yield running.stdout.readline().decode().strip()
            running.stdin.close()
            running.wait()


# ---- checks


def a_worker_dies(archive):
    """On this machine: a worker is killed while it judges. A trace is missing, one is named twice, and there is a
    capture. Then the missing trace is there."""
    checks, victim, twice = Checks("a worker dies"), archive.names[TRACES // 2], archive.names[5]
    archive.ask(victim, "worker")
    wires = [capture_rows.Wire(), capture_rows.Wire(ends=((301, 8), (302, 6)), tag=9)]
    frames = [frame for wire in wires for frame in wire.all(capture_rows.DIALOGUE)]
    put(archive.folder, "calls.pcap", made_captures.pcap(frames))
    pairs = f"out.json.results/lines{archive.folder}/calls.pcap"
    pairs = [f"{pairs}/pair-{number}.hex" for number in (1, 2) if shutil.which("tshark")]
    put(archive.folder, "list", "\n".join(["archive", *(["calls.pcap"] if pairs else []), twice]).encode())
    words = archive.words("--workers", "2", "--a", "ssn=6", "--list", "list", "none.hex")
    found, names = archive.run(*words), ["none.hex", *archive.names, *pairs, twice]
    archive.look(checks, "with all", found, names)
    checks.same("the trace of that worker is judged again", archive.noted().count(os.path.basename(victim)), 2)
    checks.same("one that is named twice is judged once", archive.noted().count(os.path.basename(twice)), 1)
    checks.holds(f"what is left out is said: {found[2]}", "left out: 1\n" in found[2])
    tool = [sys.executable, LINES_TOOL, "calls.pcap", "lines", "--a", "ssn=6"]
    subprocess.run(tool, cwd=archive.folder, capture_output=True, check=False)
    for pair in pairs:
        alone = content(f"{archive.folder}/lines/{os.path.basename(pair)}")
        checks.holds("the lines of the capture", alone and content(f"{archive.folder}/{pair}") == alone)
    put(archive.folder, "none.hex", lines(*SHORT).encode())
    os.remove(f"{archive.folder}/noted")
    archive.look(checks, "with the one that was missing", archive.run(*words, "--resume"), names)
    checks.same("what is judged then", archive.noted(), ["null", "none.hex", ""])
    return checks


def living(session):
    """Returns the processes of a session, except ended ones that nobody has waited for."""
    listed = subprocess.run(["ps", "-o", "stat=,args=", "-s", str(session)], capture_output=True, check=False).stdout
    return [line for line in listed.decode().splitlines() if not line.startswith("Z")]


def all_ends(archive):
    """Ctrl-C at a terminal, while the program runs: the results so far are kept, and no process is left."""
    checks, sessions = Checks("Ctrl-C"), []
    archive.ask(archive.names[0], "wait")

    def stop(running):
        checks.holds("two are judged, the first one is not", wait_until(lambda: len(archive.results()) == 2))
        os.killpg(running.pid, signal.SIGINT)
        sessions.append(running.pid)

    words = archive.words("--workers", "2", "--progress", *archive.names[:3])
    status, out, error = archive.run(*words, meanwhile=stop)
    checks.same("status, and text", (status, out), (130, b""))
    is_said = "--resume goes on" in error and " of 3, " in error and TOOL not in error
    checks.holds(f"what is said: {error}", is_said)
    checks.holds("no process is left", wait_until(lambda: not living(sessions[0])))
    checks.same("what is kept", sorted(archive.results()), archive.names[1:3])
    return checks


def stopped(checks, archive, words):
    """Stops a run in the middle. Returns the names of the traces that have results."""

    def stop(running):
        checks.holds("some are judged", wait_until(lambda: len(archive.results()) >= ENOUGH))
        running.send_signal(signal.SIGINT)

    status, out, _ = archive.run(*words, meanwhile=stop)
    kept = [*archive.results()]
    checks.holds(f"it stops in the middle: {len(kept)}", ENOUGH <= len(kept) < TRACES)
    said = status, out, os.path.exists(f"{archive.folder}/out.json")
    checks.same("status, text, and whether there are lines of JSON", said, (130, b"", False))
    return kept


def goes_on(archive, address):
    """On a cluster: a run is stopped. Then a result is cut, a trace changes, and a run of the program gives no
    verdict."""
    checks, words = Checks("a run that is stopped"), archive.words("--scheduler", address, "archive")
    kept = stopped(checks, archive, words)
    status, out, error = archive.run(*words)
    checks.holds(f"without --resume: {error}", (status, out) == (4, b"") and "--resume goes on" in error)
    anew = [name for name in archive.names if name not in kept] + kept[:2]
    with open(archive.results()[kept[0]], "r+b") as file:
        file.truncate(os.path.getsize(file.name) - 1)
    put(archive.folder, kept[1], lines(SHORT[0], WRONG_END).encode())
    archive.ask(anew[0], "itself")
    os.remove(f"{archive.folder}/noted")
    status, out, error = archive.run(*words, "--resume")
    said = status, out, f"error: {anew[0]}: {ENDS['itself']}" in error, os.path.exists(f"{archive.folder}/out.json")
    checks.same(f"no verdict of one: {error}", said, (3, b"", True, False))
    # A name may contain a newline, and so be two lines in the notes.
    wanted = {part for name in anew for part in os.path.basename(name).split("\n")}
    checks.same("what is judged", {*archive.noted()} - {"null", ""}, wanted)
    os.remove(f"{archive.folder}/noted")
    archive.look(checks, "in the end", archive.run(*words, "--resume"), archive.names)
    checks.same("what is judged in the end", archive.noted(), ["null", os.path.basename(anew[0]), ""])
    os.remove(f"{archive.folder}/out.json")
    with open("/dev/full", "wb") as full:
        status, _, error = archive.run(*words, "--resume", stdout=full)
    said = status, "can't be written" in error, os.path.exists(f"{archive.folder}/out.json")
    checks.same(f"standard output is full: {error}", said, (3, True, False))
    return checks


def no_verdicts(archive, address):
    """Runs of the program that give no verdict, each on its own trace: the tool names the trace, keeps no result for
    it, and judges it again."""
    checks = Checks("no verdict")
    names = [*(f"ends/{how}.hex" for how in ENDS), "ends/whole.hex"]
    os.mkdir(f"{archive.folder}/ends")
    for name in names:
        put(archive.folder, name, lines(SHORT[0], WRONG_END).encode())
    for how in ENDS:
        archive.ask(f"ends/{how}.hex", how)
    words = archive.words("--scheduler", address, *names)
    status, out, error = archive.run(*words)
    said = status, out, os.path.exists(f"{archive.folder}/out.json")
    checks.same(f"status, text, and whether there are lines of JSON: {error}", said, (3, b"", False))
    for how, why in ENDS.items():
        checks.holds(f"what is said of {how}: {error}", f"error: ends/{how}.hex: {why}" in error)
    checks.holds(f"how many: {error}", f"for want of {len(ENDS)} results" in error and "Traceback" not in error)
    checks.same("what is kept", [*archive.results()], names[-1:])
    os.remove(f"{archive.folder}/noted")
    archive.look(checks, "judged again", archive.run(*words, "--resume"), names)
    checks.same("what is judged then", {*archive.noted()}, {"null", "", *map(os.path.basename, names[:-1])})
    of_an_older_tool(checks, archive, words, names)
    return checks


def of_an_older_tool(checks, archive, words, names):
    """A result without an exit status, as an older tool kept it, is judged again."""
    path = archive.results()[names[0]]
    head, rest = content(path).split(b"\n", 1)
    head = {key: value for key, value in json.loads(head).items() if key != "status"}
    put(os.path.dirname(path), os.path.basename(path), json.dumps(head).encode() + b"\n" + rest)
    os.remove(f"{archive.folder}/noted")
    archive.look(checks, "an older result", archive.run(*words, "--resume"), names)
    checks.same("what is judged of older results", archive.noted(), ["null", os.path.basename(names[0]), ""])


def faulty_capture(archive, address):
    """A capture with a fault is reported, and the lines that were made from it are judged. A missing capture is
    reported too."""
    checks, folder = Checks("captures with faults"), archive.folder
    whole = made_captures.pcap(capture_rows.Wire().all(capture_rows.DIALOGUE))
    put(folder, "cut.pcap", whole[:-1])
    put(folder, "calls.PCAP", whole)
    words = ["--json", "faulty.json", "--program", PROGRAM, "--table", "table.json", "--scheduler", address]
    status, out, error = archive.run(*words, "none.pcapng", "cut.pcap", "calls.PCAP")
    checks.same(f"status, {out}, {error}", status, 3)
    for name in "cut.pcap", "none.pcapng":
        checks.holds(f"the fault of {name}: {error}", f"{name}: FAULT capture" in error)
    last = out.rstrip(b"\n").rpartition(b"\n")[2]
    checks.holds(f"the other is judged, and what stands before the fault: {last}", last.startswith(b"2 traces: "))
    return checks


def fault_rows(archive):
    """Yields words, with the status and the words of the error."""
    with socket.socket() as closed:
        closed.bind(("127.0.0.1", 0))
        address = f"tcp://127.0.0.1:{closed.getsockname()[1]}"
    good, no_text = archive.names[0], os.fsencode("no\udcff.hex")
    os.mkdir(f"{archive.folder}/empty")
    os.mkdir(f"{archive.folder}/used.json.results")
    put(archive.folder, "used.json.results/question.json", b"{}")
    put(archive.folder, "used.json.results/0", b"")
    test = ["--json", "x.json", "--program", PROGRAM]
    yield [*test], 4, "no trace is named"
    yield ["--program", PROGRAM, good], 4, "--json"
    yield [*test, "-"], 4, "-"
    yield [*test, "--junit", "x.xml", "--html", "x.html", good], 4, "--junit --html"
    yield [*test, "--workers", "0", good], 4, "--workers"
    yield [*test, "--workers", "2", "--scheduler", address, good], 4, "--scheduler"
    yield [*test, "--of", "C", good], 4, "'C'"
    yield [*test, "--of", "A", "--of", "B", good], 4, "--of"
    yield [*test, "--linger", "x", good], 4, "--linger"
    yield [*test, "--a", "name=1", good], 4, "name=1"
    yield [*test, no_text], 4, "is not text"
    yield [*test, "--table", "none.json", good], 3, "none.json: No such file"
    yield [*test, "--table", good, good], 3, f"{good}: the text is no JSON"
    yield [*test, "--table", "table.json", "--table", "table.json", good], 3, "more than one table is without contexts"
    yield [*test, "--list", "none", good], 3, "none: No such file"
    yield [*test, "empty"], 3, "empty: no file below it"
    yield [*test, "--scheduler", "here", good], 3, "no scheduler with a worker at here"
    yield [*test, "--scheduler", address, good], 3, f"no scheduler with a worker at {address}"
    yield ["--json", "x.json", "--program", "./none", good], 3, "no program ./none"
    yield ["--json", "none/x.json", *test[2:], good], 3, "none/x.json.results: No such file"
    yield ["--json", "empty", *test[2:], good], 3, "empty"
    yield ["--json", good, *test[2:], good], 3, f"{good}: "
    yield ["--json", "used.json", *test[2:], good], 4, "--resume goes on"
    yield ["--json", "used.json", *test[2:], "--resume", good], 4, "other options"


def faults(archive):
    """Wrong words, and missing files."""
    checks = Checks("faults")
    for words, wanted, what in fault_rows(archive):
        status, out, error = archive.run(*words)
        checks.same(f"{words}: {error}", (status, out, what in error), (wanted, b"", True))
        checks.holds(f"{words}: {error}", "Traceback" not in error)
    good, folder = archive.names[0], archive.folder
    checks.holds("what is read is kept", content(f"{folder}/{good}") and not os.path.exists(f"{folder}/x.json"))
    words = ["--json", "used.json", "--program", PROGRAM, "--resume", good]
    held = os.open(f"{folder}/used.json.results", os.O_RDONLY)
    fcntl.flock(held, fcntl.LOCK_EX)
    status, _, error = archive.run(*words)
    os.close(held)
    checks.same(f"another run: {error}", (status, "another run writes" in error), (4, True))
    # Python runs this first, and it hides distributed.
    put(folder, "sitecustomize.py", b"import sys\nsys.modules['distributed'] = None\n")
    status, _, error = archive.run(*words, env=os.environ | {"PYTHONPATH": folder})
    checks.same(f"no distributed: {error}", (status, "missing: distributed" in error), (3, True))
    return checks


# ---- all


def on_this_machine():
    with archive_of_traces() as archive:
        yield a_worker_dies(archive)
    with archive_of_traces() as archive:
        yield all_ends(archive)


def on_a_cluster():
    with cluster() as address, archive_of_traces() as archive:
        yield goes_on(archive, address)
        if shutil.which("tshark"):
            yield faulty_capture(archive, address)
        with archive_of_traces() as other:
            yield no_verdicts(other, address)
    with archive_of_traces() as archive:
        yield faults(archive)


def missing():
    """Returns why no worker can run a program here, or None if one can."""
    if subprocess.run([PYTHON, "-c", "import distributed"], capture_output=True, check=False).returncode:
        return "distributed is not installed (python3-distributed)"
    if not loopback.is_had():
        return "there is no loopback interface"
    with tempfile.TemporaryDirectory() as folder:
        path, ends = put(folder, "probe.py", PROBE.encode()), put(folder, "ends", b"#!/bin/sh\nexit 7\n")
        os.chmod(ends, 0o755)
        run = subprocess.run(["timeout", str(PATIENCE), PYTHON, path, ends], capture_output=True, cwd=folder, check=False)
    said = run.stderr.decode(errors="replace").strip().rpartition("\n")[2]
    return None if run.returncode == 7 else f"no worker of distributed runs a program, status {run.returncode}: {said[:200]}"


def found_once_by(part):
    """Returns the checks of a part, and that it ends normally."""
    found, checks = [], Checks(part.__name__)
    try:
        found += part()
    except Exception as error:
        checks.holds(f"it ends, and not by {error!r}"[:600], False)
    return [*found, checks]


def found_by(part):
    """Returns the checks of a part. If one fails, the part is tried again and a line says so, since on a busy machine
    a worker may come too late."""
    found = found_once_by(part)
    wrong = [line for checks in found for line in checks.wrong]
    if not wrong:
        return found
    print(f"tried again, since {wrong[0]}")
    return found_once_by(part)


def main():
    why = missing()
    if why:
        print(f"skipped: archives, since {why}")
        print("0 passed, 0 failed")
        return 0
    if not shutil.which("tshark"):
        print("skipped: captures in archives, since tshark is not installed")
    with concurrent.futures.ThreadPoolExecutor() as lanes:
        parts = [lanes.submit(found_by, part) for part in (on_this_machine, on_a_cluster)]
        found = [checks for part in parts for checks in part.result()]
    wrong = [line for checks in found for line in checks.wrong]
    print("".join(f"{line}\n" for line in wrong), end="")
    print(f"{sum(checks.count for checks in found) - len(wrong)} passed, {len(wrong)} failed")
    return int(bool(wrong))


if __name__ == "__main__":
    sys.exit(main())
