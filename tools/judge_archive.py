#!/usr/bin/env python3
"""Judges an archive of traces and captures with many workers at once. docs/ARCHIVES.md describes it.

    tools/judge_archive.py --json FILE [--resume] [--list LIST].. [--workers N | --scheduler ADDRESS] [--program PATH]
        [--progress] [options of `tcapjudge test`] [options of tools/lines_of_capture.py] [TRACE..]

The workers are those of Dask's distributed. The output, the file and the exit status are those of one
`tcapjudge test --json` over all the traces. The status is also 3 if something else went wrong, and 4 for wrong
words."""

import contextlib
import functools
import importlib.util
import itertools
import logging
import os
import re
import shutil
import signal
import subprocess
import sys
import tempfile
import time

import archive_results
import archive_words
import lines_of_capture
import machine
from archive_results import stamp_of
from archive_words import FAULTY, WRONG_WORDS, Fault, is_capture, say

DEBIAN = "/usr/bin/python3"
# The number of traces that are given out at once.
AHEAD = 1000
# The seconds to wait for a named scheduler and its first worker; and for a worker of this machine, or for another one
# after all are lost.
PATIENCE, LONGEST = 15, 60
WIDTH = 40


# ---- commands


def refused(status, why):
    """Ends with the status of the command that refused its options, and prints its output."""
    sys.stderr.buffer.write(why)
    sys.exit(status)


def program_of(words):
    """Returns the program and its words, after the program has accepted its options and its tables."""
    program = shutil.which(words.program)
    if not program:
        raise Fault(f"no program {words.program}: --program says where it is")
    command = [os.path.abspath(program), "test", *words.test]
    # A trace without a message, so that the program reports what is wrong with its options and its tables.
    status, _, why, _ = found = judged(command, os.getcwd(), os.devnull)
    if status == WRONG_WORDS or archive_results.has_error(why):
        refused(status, why)
    if fault := archive_results.fault_of(*found):
        raise Fault(f"{words.program}: {fault}")
    # Each run gives the hints about the tables: they are passed on once.
    say(why.decode(errors="replace"), "")
    return command


def tool_of(words):
    """Returns the tool that makes lines of captures, and its words, after the tool has accepted its options."""
    command = [os.path.abspath(lines_of_capture.__file__), *words.lines]
    asked = subprocess.run([sys.executable, *command, "--help"], capture_output=True, check=False)
    if asked.returncode:
        refused(asked.returncode, asked.stderr)
    return command


# ---- what the workers do: each function needs nothing else of this file, and is sent to them


def judged(command, folder, name):
    """Runs the program on a trace. Returns its exit status, its standard output and error, and its lines of JSON. The
    program ends when the worker ends, or before."""
    with tempfile.TemporaryFile() as lines:
        # The program opens the file by that path, though the file has no name.
        words = ["setpriv", "--pdeathsig", "KILL", *command, "--json", f"/dev/fd/{lines.fileno()}", "--", name]
        how = {"cwd": folder, "stdin": subprocess.DEVNULL, "capture_output": True, "pass_fds": [lines.fileno()]}
        run = subprocess.run(words, check=False, **how)
        lines.seek(0)
        return run.returncode, run.stdout, run.stderr, lines.read()


def lines_made(command, folder, name):
    """Makes lines of a capture. Returns the exit status, the output, and the files with their names."""
    with tempfile.TemporaryDirectory() as room:
        words = [sys.executable, *command, "--", name, f"{room}/lines"]
        run = subprocess.run(words, cwd=folder, stdin=subprocess.DEVNULL, capture_output=True, check=False)
        files = []
        names = os.listdir(f"{room}/lines") if os.path.isdir(f"{room}/lines") else []
        # pair-2.hex comes before pair-10.hex.
        for file in sorted(names, key=lambda file: (len(file), file)):
            with open(f"{room}/lines/{file}", "rb") as opened:
                files.append((file, opened.read()))
        return run.returncode, run.stderr, files


# ---- kept results


def keep_verdict(results, name, stamp, found):
    """Keeps the program's results for a trace, if it gave a verdict. Otherwise returns what is wrong."""
    if fault := archive_results.fault_of(*found):
        return fault
    status, text, _, lines = found
    # The last line is the sum of this trace alone.
    results.keep(name, stamp, [text.removesuffix(archive_results.last_line(text)), lines], status=status)
    return None


def keep_lines(results, name, stamp, found):
    """Keeps the lines that were made from a capture. Returns what is wrong if none could be made."""
    status, said, files = found
    text = said.decode(errors="replace").strip()
    # That tool prints NOTE and FAULT about a capture, and error for what it could not write.
    if status not in (0, lines_of_capture.FAULTY) or re.search("^error: ", text, re.MULTILINE):
        return f"no lines, status {status}: {text}"
    results.keep_lines(name, stamp, files, said, status)
    return None


# ---- the run


class Watch:
    """Looks once a second after the workers, which `client` knows; `replace` replaces lost ones. Prints progress on
    standard error if that is asked for, or if standard error is a terminal."""

    def __init__(self, client, replace, is_told):
        self.client, self.replace, self.is_told = client, replace, is_told or sys.stderr.isatty()
        self.end = "\r" if sys.stderr.isatty() else "\n"
        self.next = self.seen = time.monotonic()

    def of(self, what, before, all):
        """Returns a function that looks when this many more tasks are done than before."""
        return lambda count: self.look(what, before + count, all)

    def look(self, what, count, all):
        """Looks if a second has passed, or all is done."""
        now = time.monotonic()
        if now < self.next and count < all:
            return
        self.next, workers = now + 1, len(self.client.scheduler_info()["workers"])
        self.replace()
        if self.is_told:
            done = count / max(1, all)
            bar = f"[{'#' * int(WIDTH * done):.<{WIDTH}}] {what} {count} of {all}, {done:4.0%}, {workers} workers"
            say(bar, self.end if count < all else "\n")
        self.seen = now if workers else self.seen
        if now - self.seen > LONGEST:
            raise Fault(f"no worker is there for {LONGEST} seconds")


def run_all(client, task, names, keep, look):
    """Gives the workers a task for each name, and keeps the results. Returns what is wrong, by name."""
    import distributed

    wrong, under_way, waiting, count = {}, {}, iter(names), 0
    running = distributed.as_completed(with_results=True, raise_errors=False)

    def give_out(count):
        for name in itertools.islice(waiting, count):
            future = client.submit(task, name, pure=False)
            under_way[future.key] = name, stamp_of(name)
            running.add(future)

    give_out(AHEAD)
    while under_way:
        ended = running.next_batch(block=False)
        for future, found in ended:
            name, stamp = under_way.pop(future.key)
            # The future's status does not decide: a result is lost again if the worker that had it has died since.
            if isinstance(found, BaseException):
                raise Fault("the scheduler is gone")
            # An error comes as its type, the error itself and its place; a task has an exit status there.
            is_error = isinstance(found[0], type)
            why = f"no worker could do it: {found[1]}" if is_error else keep(name, stamp, found)
            if why:
                wrong[name] = why
            count += 1
        give_out(len(ended))
        look(count)
        if not ended:
            time.sleep(0.02)
    return wrong


def quiet(*parts):
    """Silences these parts of distributed."""
    for part in parts:
        logging.getLogger(f"distributed.{part}").setLevel(logging.CRITICAL)


@contextlib.contextmanager
def workers_of(words):
    """Yields a client of the named cluster, or of workers on this machine, which end with it; and a function that
    replaces lost workers."""
    import distributed

    # Tasks that are lost with a worker are done again; its nanny reports that the worker ended.
    quiet("client", "scheduler")
    with contextlib.ExitStack() as stack:
        address, replace = words.scheduler, lambda: None
        try:
            if not address:
                room = stack.enter_context(tempfile.TemporaryDirectory())
                # Ctrl-C at a terminal is for this process alone, which ends the workers.
                handler = signal.signal(signal.SIGINT, signal.SIG_IGN)
                how = {"threads_per_worker": 1, "memory_limit": None, "local_directory": room, "host": "127.0.0.1"}
                # There is an HTTP server even without a dashboard.
                how |= {"dashboard_address": None, "scheduler_kwargs": {"dashboard_address": "127.0.0.1:0"}}
                address = stack.enter_context(distributed.LocalCluster(n_workers=words.workers, **how))
                signal.signal(signal.SIGINT, handler)
                replace = functools.partial(address.scale, words.workers)
            patience = PATIENCE if words.scheduler else LONGEST
            client = stack.enter_context(distributed.Client(address, timeout=patience))
            client.wait_for_workers(1, timeout=patience)
        except (OSError, ValueError, RuntimeError, distributed.TimeoutError) as error:
            raise Fault(f"no scheduler with a worker at {address or 'this machine'}: {error}") from None
        stack.callback(quiet, "nanny")
        yield client, replace
        if not words.scheduler:
            # A worker that is ended while it starts would print long messages.
            with contextlib.suppress(distributed.TimeoutError):
                client.wait_for_workers(words.workers, timeout=PATIENCE)


def traces_of(names, results):
    """Yields the traces in order. A capture stands for the files of lines that were made from it."""
    for name in names:
        if not is_capture(name):
            yield name
        elif head := results.head(name):
            yield from head["files"]


def judge(words, names, tool, program, results):
    """Judges everything that is not yet judged. Returns what is wrong, by name."""
    with workers_of(words) as (client, replace):
        watch = Watch(client, replace, words.progress)

        def do(what, task, command, names, keep):
            todo = [name for name in names if not results.holds(name)]
            task, done = functools.partial(task, command, os.getcwd()), len(names) - len(todo)
            return run_all(client, task, todo, functools.partial(keep, results), watch.of(what, done, len(names)))

        captures = [name for name in dict.fromkeys(names) if is_capture(name)]
        wrong = do("captures", lines_made, tool, captures, keep_lines) if captures else {}
        traces = [*dict.fromkeys(traces_of(names, results))]
        return wrong | do("traces", judged, program, traces, keep_verdict)


def said_of_captures(names, results):
    """Passes on the output about each capture. Returns whether one has a fault."""
    has_fault = False
    for name in filter(is_capture, names):
        has_fault |= results.head(name)["status"] != 0
        for line in results.parts(name)[0].decode(errors="replace").splitlines():
            say(f"{name}: {line}")
    return has_fault


def put_out(names, results, path):
    """Prints the verdicts on all traces, in order, and writes the lines of JSON. Returns the exit status."""
    total, version = archive_results.Sum(), ""
    try:
        with open(f"{path}.part", "wb") as file, open(1, "wb", closefd=False) as out:
            for name in traces_of(names, results):
                text, lines = results.parts(name)
                total.add(archive_results.trace_of(lines))
                # All are of one program.
                version = archive_results.run_of(lines)["version"]
                out.write(text)
                file.write(archive_results.without_run(lines))
            out.write(total.line().encode())
            file.write(total.object(version).encode())
        os.replace(f"{path}.part", path)
    except OSError as error:
        raise Fault(f"standard output or {path} can't be written: {error.strerror}") from None
    return total.status()


# ---- all


def run_with_distributed():
    """Continues with Debian's python3 if it has distributed and this one has not."""
    if importlib.util.find_spec("distributed"):
        return
    asked = [DEBIAN, "-c", "import importlib.util, sys; sys.exit(not importlib.util.find_spec('distributed'))"]
    if sys.executable != DEBIAN and shutil.which(DEBIAN) and subprocess.run(asked, check=False).returncode == 0:
        os.execv(DEBIAN, [DEBIAN, os.path.abspath(__file__), *sys.argv[1:]])
    raise Fault("missing: distributed, of Dask (Debian's package python3-distributed)")


def results_of(words, names, program):
    """Returns the kept results of earlier runs with these words."""
    if os.path.exists(words.json):
        read = filter(os.path.exists, [*names, *archive_words.tables_of(words)])
        if not os.path.isfile(words.json) or any(os.path.samefile(words.json, path) for path in read):
            raise Fault(f"{words.json}: lines of JSON go to a file, and to none that is read")
    checksums = {path: archive_results.checksum(path) for path in [program, *archive_words.tables_of(words)]}
    question = {"test": words.test, "lines": words.lines, "checksums": checksums}
    try:
        return archive_results.Results(f"{words.json}.results", question, words.resume)
    except archive_results.Unfit as why:
        raise Fault(str(why), WRONG_WORDS) from None
    except OSError as error:
        raise Fault(f"{error.filename}: {error.strerror}") from None


def main(arguments):
    words = archive_words.words_of(arguments)
    try:
        run_with_distributed()
        names = archive_words.names_of(words, f"{words.json}.results")
        tool, program = tool_of(words), program_of(words)
        results = results_of(words, names, program[0])
        machine.end_in_order()
        try:
            wrong = judge(words, names, tool, program, results)
        except SystemExit:
            say(f"stopped: what is judged is kept in {results.folder}, and --resume goes on")
            raise
        for name, why in wrong.items():
            say(f"error: {name}: {why}")
        if wrong:
            raise Fault(f"nothing is put out, for want of {len(wrong)} results; --resume tries them again")
        has_fault = said_of_captures(names, results)
        return max(put_out(names, results, words.json), FAULTY if has_fault else 0)
    except Fault as fault:
        say(f"error: {fault}")
        return fault.status


if __name__ == "__main__":
    sys.exit(main(sys.argv[1:]))
