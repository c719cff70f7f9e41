"""Cases for tests/traces.py of what `test` writes: when it is written, that nothing is destroyed that is read or written, and what
is said where it can't be written."""

import contextlib
import itertools
import json
import os
import re
import signal
import subprocess
import time
import xml.etree.ElementTree

import trace_rows
from tested import PROGRAM
from trace_files import IS_FOLDER, NO_FILE, NO_SPACE, says
from trace_page import lines_in
from traced import Checks, Report, agree, content, put, run
from trace_rows import OPERATIONS, SHORT, WRONG_END, lines

FLAGS = ["--json", "--junit", "--html"]
# So long a line of JSON is waited for, in seconds.
PATIENCE = 30
OVER = "error: {} is given for two outputs, or is an output and a file to read"
OVER_OTHER = OVER + "; it is also {}\n"
UNPRINTED = "error: standard output can't be written: "
PIPES = {"stdout": subprocess.PIPE, "stderr": subprocess.PIPE}
# What a file of JUnit XML has until the run ends.
NOT_ENDED = b"""<?xml version="1.0" encoding="UTF-8"?>
<testsuites tests="1" failures="0" errors="1">
  <testsuite name="tcapjudge" tests="1" failures="0" errors="1">
    <testcase classname="tcapjudge" name="run">
      <error type="error" message="this run did not end"></error>
    </testcase>
  </testsuite>
</testsuites>
"""


def given(folder):
    """A trace whose dialogue passes, and a table for it."""
    return put(folder, "good.hex", lines(*SHORT).encode()), put(folder, "table.json", OPERATIONS.encode())


# ---- when it is written


def waited(path, count):
    """How many lines a file has, when it has as many as are wanted, or has been waited for."""
    end = time.monotonic() + PATIENCE
    while content(path).count(b"\n") < count and time.monotonic() < end:
        time.sleep(0.02)
    return content(path).count(b"\n")


def slow(_, folder):
    """A line of JSON is written while the trace still comes: that of a dialogue, and that of a trace before."""
    checks, (good, table), path = Checks("a slow pipe"), given(folder), f"{folder}/slow.json"
    words = ["test", "--table", table, "--json", path, good, "-"]
    with subprocess.Popen([PROGRAM, *words], stdin=subprocess.PIPE, stdout=subprocess.DEVNULL) as ran:
        checks.same("the lines of the trace before", (waited(path, 2), ran.poll()), (2, None))
        for count in 3, 4:
            ran.stdin.write(lines(*SHORT, "Q").encode())
            ran.stdin.flush()
            checks.same("with those of dialogues", (waited(path, count), ran.poll()), (count, None))
        ran.stdin.close()
        checks.same("status, and all lines", (ran.wait(), content(path).count(b"\n")), (0, 6))
    return checks


def wrong_dialogues(folder):
    """A trace of 3000 dialogues that fail."""
    wrong = [[f"A {trace_rows.begin(id)}", f"B {trace_rows.end(id, trace_rows.RESULT)}"] for id in (f"{it:04X}" for it in range(3000))]
    return put(folder, "x.hex", lines(*itertools.chain(*wrong)).encode())


def progress(_, folder):
    """How far the run is is said once a second, also while dialogues are judged: here it lasts since what is said is read slowly."""
    checks, (_, table) = Checks("--progress"), given(folder)
    words = ["test", "--table", table, "--ids", "once", "--progress", wrong_dialogues(folder)]
    begin = time.monotonic()
    with subprocess.Popen([PROGRAM, *words], bufsize=0, **PIPES) as ran:
        for _ in range(12):
            # The first one waits until all is read, and a dialogue is judged.
            os.read(ran.stdout.fileno(), 1 << 16)
            time.sleep(0.5)
        told, status = len(ran.stdout.read()), ran.wait()
        lasted, said = time.monotonic() - begin, ran.stderr.read().decode().splitlines()
    sums, speeds = ([it for it in said if it.startswith("  ") == is_speed] for is_speed in (False, True))
    judged = [int(found[1]) for found in (re.search("; 6000 messages, ([0-9]+) dialogues: ", it) for it in sums) if found]
    checks.holds(f"it was blocked: {told} more octets", told > 1 << 16)
    checks.holds(f"{len(sums)} sums in {lasted} seconds", len(sums) <= lasted)
    wanted = [f"  0 messages a second, {3000 - count} dialogues not judged yet; 100 % of the trace is read" for count in judged[-len(speeds) + 1:]]
    checks.same("speeds, each after a sum", (len(speeds), speeds[1:]), (len(sums), wanted))
    checks.holds(f"while it judges: {judged}", len(judged) >= 4 and judged == sorted(set(judged)))
    checks.same("status", status, 1)
    return checks


def seconds_left(_, folder):
    """The seconds to the end of a trace are rounded up, so they are at least 1: here a trace is read slowly since what is said is."""
    checks, (_, table) = Checks("--progress, to the end"), given(folder)
    words = ["test", "--table", table, "--linger", "0", "--progress", wrong_dialogues(folder)]
    with subprocess.Popen([PROGRAM, *words], bufsize=0, **PIPES) as ran:
        while os.read(ran.stdout.fileno(), 1 << 16):
            time.sleep(0.1)
        said = ran.stderr.read().decode()
    left = [int(it) for it in re.findall("; [0-9]+ % of the trace is read, ([0-9]+) s to its end\n", said)]
    checks.holds(f"seconds to the end: {said}", left and min(left) > 0)
    return checks


# ---- nothing is destroyed


def is_refused(checks, name, ran, *paths):
    """It ends as an error, prints nothing, and says in one line which paths are one."""
    told = ran.stderr.decode() in [OVER_OTHER.format(*pair) for pair in itertools.permutations(paths)]
    checks.same(f"{name}: status, output, {ran.stderr}", (ran.returncode, ran.stdout, told), (3, b"", True))


def one_file(_, folder):
    """Two paths of one file that is not there yet, or is: by a dot, a linked folder, a link that leads nowhere yet, a hard link."""
    checks, (good, table) = Checks("two paths of one file"), given(folder)
    os.symlink(folder, f"{folder}/linked")
    os.symlink("new", f"{folder}/dangling")
    os.link(put(folder, "old", b"old"), f"{folder}/hard")
    for paths in ("new", "./new"), ("new", "linked/new"), ("new", "dangling"), ("old", "hard"):
        paths = [f"{folder}/{path}" for path in paths]
        for one, other in itertools.permutations(FLAGS, 2):
            with contextlib.suppress(FileNotFoundError):
                os.remove(f"{folder}/new")
            is_refused(checks, f"{one} {other}", run(["test", "--table", table, one, paths[0], other, paths[1], good]), *paths)
            ran = run(["test", "--table", table, one, paths[0], other, paths[0], good])
            checks.same(f"{one} {other}, one path", (ran.returncode, ran.stderr.decode()), (3, OVER.format(paths[0]) + "\n"))
    checks.same("what was there stays", content(f"{folder}/old"), b"old")
    return checks


def hard_links(_, folder):
    """Hard links of what is read, of standard input and of standard output are not written."""
    checks, (good, table) = Checks("hard links"), given(folder)
    os.link(good, f"{folder}/trace")
    os.link(table, f"{folder}/book")
    os.symlink("trace", f"{folder}/soft")
    for flag in FLAGS:
        words = ["test", "--table", table, flag]
        for link, path in ("trace", good), ("soft", good), ("book", table):
            is_refused(checks, link, run([*words, f"{folder}/{link}", good]), f"{folder}/{link}", path)
        with open(good, "rb") as file:
            ran = subprocess.run([PROGRAM, *words, f"{folder}/trace", "-"], stdin=file, capture_output=True, check=False)
        is_refused(checks, "standard input", ran, f"{folder}/trace", "/dev/stdin")
        with open(f"{folder}/said", "wb") as file:
            ran = subprocess.run([PROGRAM, *words, f"{folder}/said", good], stdout=file, stderr=subprocess.PIPE, check=False)
        wanted = OVER_OTHER.format(f"{folder}/said", "/dev/stdout")
        checks.same("standard output", (ran.returncode, ran.stderr.decode()), (3, wanted))
    checks.same("what is read stays", (content(good), content(table)), (lines(*SHORT).encode(), OPERATIONS.encode()))
    return checks


def anew(_, folder):
    """Of what was in a file nothing stays, also if no trace is read, since a table is missing or another file can't be written."""
    checks, (good, table) = Checks("files of a run before"), given(folder)
    first, names = Report(folder, [], [good]), ["report.json", "report.xml", "report.html"]
    for name in names:
        put(folder, name, b"old" * 1_000_000)
    second = Report(folder, [], [good])
    agree(checks, second)
    checks.same("what is said anew", (second.json, second.junit, second.page), (first.json, first.junit, first.page))
    for flag in FLAGS:
        path = put(folder, "old", b"old")
        says(checks, run(["test", "--table", f"{folder}/none.json", flag, path, good]), "none.json", NO_FILE)
        checks.holds(f"{flag}, no table", NO_FILE.encode() in content(path) and not content(path).startswith(b"old"))
        if flag == "--junit":
            checks.holds("JUnit says of what it is", NOT_ENDED not in content(path))
        for other in FLAGS:
            path = put(folder, "old", b"old")
            if other != flag:
                says(checks, run(["test", "--table", table, flag, path, other, f"{folder}/none/x", good]), "none/x", NO_FILE)
                checks.same(f"{flag}, no {other}", content(path), NOT_ENDED if flag == "--junit" else b"")
    return checks


def untouched(_, folder):
    """With a wrong command line the status is 4, and files of an earlier run stay: without a trace, with a word that is not UTF-8, with
    standard input twice, with a wrong value, and with an option twice."""
    checks, (good, table) = Checks("files of a run before, and a wrong command line"), given(folder)
    for flag in FLAGS:
        path = put(folder, "old", b"old")
        for wrong in [], [b"\xff"], ["-", "-"], ["--of", "C", good], [flag, path, good]:
            ran = run(["test", "--table", table, flag, path, *wrong])
            checks.same(f"{flag}, {wrong}", (ran.returncode, ran.stdout, content(path)), (4, b"", b"old"))
    return checks


# ---- a run that does not end


def killed(_, folder):
    """What a run leaves that is killed while it waits for its trace: JSON has no line of the run, JUnit XML one error, and the page no
    sum. Until then none of them looks whole."""
    checks, (_, table) = Checks("a run that is killed"), given(folder)
    paths = [f"{folder}/left.{form}" for form in ("json", "xml", "html")]
    words = [PROGRAM, "test", "--table", table, *itertools.chain(*zip(FLAGS, paths)), "-"]
    for number in signal.SIGTERM, signal.SIGKILL:
        with subprocess.Popen(words, stdin=subprocess.PIPE, stdout=subprocess.PIPE) as ran:
            ran.stdin.write(lines(*SHORT, "Q").encode())
            ran.stdin.flush()
            checks.same("the line of the dialogue", waited(paths[0], 1), 1)
            ran.send_signal(number)
            ran.stdin.close()
            checks.same("status, text", (ran.wait(), ran.stdout.read()), (-number, b""))
        json_text, junit, page = map(content, paths)
        checks.same("JSON", ["dialogue" in json.loads(line) for line in json_text.splitlines()], [True])
        checks.same("JUnit", junit, NOT_ENDED)
        checks.same("the page", (page[:15], lines_in(page.decode()), b"</html>" in page), (b"<!doctype html>", [], False))
    return checks


def over_the_first(_, folder):
    """The report as JUnit XML is written over the text with which its file began; a pipe has only the report, and the file keeps its other
    names and its rights."""
    checks, (_, table) = Checks("JUnit XML over the first text"), given(folder)
    trace, path = put(folder, "x", lines(*SHORT).encode()), put(folder, "old", b"old" * 1000)
    os.link(path, f"{folder}/hard")
    os.chmod(path, 0o640)
    words = [PROGRAM, "test", "--table", table, "--junit"]
    status = subprocess.run([*words, path, "x"], cwd=folder, stdout=subprocess.DEVNULL, check=False).returncode
    junit = content(f"{folder}/hard")
    ((_, case),) = xml.etree.ElementTree.fromstring(junit)
    checks.same("status, the testcase, rights", (status, case.get("name"), os.stat(path).st_mode & 0o777), (0, "x", 0o640))
    ran = subprocess.run([*words, "/dev/stderr", "x"], cwd=folder, stdout=subprocess.DEVNULL, stderr=subprocess.PIPE, check=False)
    checks.same("a pipe", (ran.returncode, ran.stderr), (0, junit))
    put(folder, "x", lines(SHORT[0], WRONG_END).encode())
    report = Report(folder, [], [trace])
    agree(checks, report)
    checks.holds("a longer one", len(report.junit) > len(NOT_ENDED))
    return checks


def first_text(_, _folder):
    """The text with which a file of JUnit XML begins has one testcase, an error."""
    checks, root = Checks("the first text of JUnit XML"), xml.etree.ElementTree.fromstring(NOT_ENDED)
    ((suite,), (case,), (error,)) = [*root], [*root.iter("testcase")], [*root.iter("error")]
    counts = [tuple(it.get(name) for name in ("tests", "failures", "errors")) for it in (root, suite)]
    checks.same("counts", counts, [("1", "0", "1")] * 2)
    checks.same("the testcase", (case.get("name"), error.get("message")), ("run", "this run did not end"))
    return checks


# ---- what can't be written, or read


@contextlib.contextmanager
def closed_pipe():
    """The end of a pipe to which is written, where the other one is closed."""
    reading, writing = os.pipe()
    os.close(reading)
    with open(writing, "wb") as pipe:
        yield pipe


def unprinted(_, folder):
    """Standard output that can't be written, and standard input that is a directory."""
    checks, (good, table) = Checks("standard streams"), given(folder)
    with open("/dev/full", "wb") as full:
        ran = run(["test", "--table", table, good], stdout=full)
    said = ran.stderr.decode()
    told = said.startswith(f"{UNPRINTED}{NO_SPACE}") and said.count("\n") == 1
    checks.same(f"standard output is full: {said}", (ran.returncode, told), (3, True))
    with closed_pipe() as pipe:
        ran = run(["test", "--table", table, good], stdout=pipe)
        checks.same("standard output is closed early", (ran.returncode, ran.stderr), (3, b""))
        path = f"/dev/fd/{pipe.fileno()}"
        for flag in FLAGS:
            ran = run(["test", "--table", table, flag, path, good], pass_fds=[pipe.fileno()])
            told = f"error: {path}: Broken pipe" in ran.stderr.decode()
            checks.same(f"{flag} is closed early: {ran.stderr}", (ran.returncode, told), (3, True))
    opened = os.open(folder, os.O_RDONLY)
    ran = subprocess.run([PROGRAM, "test", "--table", table, "-"], stdin=opened, capture_output=True, check=False)
    os.close(opened)
    told = IS_FOLDER[3:] in ran.stdout.decode()
    checks.same(f"standard input is a directory: {ran.stdout}", (ran.returncode, told), (3, True))
    return checks


def closed(_, folder):
    """Where no standard stream is open, the files that are written are not taken for one."""
    checks, (good, table) = Checks("closed streams"), given(folder)
    paths = [f"{folder}/{name}" for name in ("said.json", "said.xml", "said.html")]
    words = [PROGRAM, "test", "--table", table, *itertools.chain(*zip(FLAGS, paths)), good]
    ran = subprocess.run(["sh", "-c", 'exec "$@" <&- >&- 2>&-', "sh", *words], check=False)
    json_text, junit, page = (content(path) for path in paths)
    # The line of the dialogue is written before that of its trace, which can't be printed.
    checks.same("status, JUnit", (ran.returncode, junit), (3, NOT_ENDED))
    checks.same("JSON", [json.loads(line)["verdict"] for line in json_text.splitlines()], ["pass"])
    checks.holds("the page", page.startswith(b"<!doctype html>") and b"2 messages" not in page)
    return checks


def jobs():
    """Each case, with what it is about."""
    for case in progress, seconds_left, slow, one_file, hard_links, anew, untouched, killed, over_the_first, first_text, unprinted, closed:
        yield case, None
