"""Decides what tools/judge_archive.py accepts as a verdict on a trace, and keeps the results of a run: a folder with a
file for each judged trace and for each capture that was turned into lines. Each file is written whole or not at all,
so a run can go on after it was stopped.

Such a file has a line of JSON with the name of its trace or capture, its stamp and the length of each part in octets.
The parts follow: for a trace the text and the lines of JSON that `tcapjudge test` gives, for a capture the output of
tools/lines_of_capture.py."""

import collections
import contextlib
import fcntl
import hashlib
import json
import os
import re
import shutil

VERDICTS = ["pass", "inconc", "fail", "error"]
STATUS = {"pass": 0, "inconc": 2, "fail": 1, "error": 3}
# The fields that the line of a trace has and the line of a dialogue has not.
SUMS = {"verdict", "messages", "dialogues", "unheard"}
# The fields of the line of a run.
OF_RUN = {"total", "verdict", "version"}


def stamp_of(path):
    """Returns the size of a file and the time when it was last written, which show whether it has changed. Returns
    None if there is no such file."""
    with contextlib.suppress(OSError):
        found = os.stat(path)
        return [found.st_size, found.st_mtime_ns]
    return None


def content_of(path):
    """Returns the content of a file, or nothing if the file can't be read."""
    with contextlib.suppress(OSError), open(path, "rb") as file:
        return file.read()
    return b""


def checksum(path):
    return hashlib.sha256(content_of(path)).hexdigest()


def write(path, octets):
    """Writes a file, whole or not at all."""
    with open(f"{path}.part", "wb") as file:
        file.write(octets)
    os.replace(f"{path}.part", path)


# ---- the program's results for a trace


def last_line(octets):
    return octets[octets[:-1].rfind(b"\n") + 1 :]


def object_with(fields, lines):
    """Returns the object in the last of these lines of JSON, or None if that line is not there as a whole, or lacks one
    of these fields."""
    with contextlib.suppress(ValueError):
        found = json.loads(last_line(lines)) if lines.endswith(b"\n") else None
        return found if isinstance(found, dict) and fields <= found.keys() else None
    return None


def run_of(lines):
    """Returns the object of the run, which is the last of its lines of JSON, or None if the run did not end."""
    return object_with(OF_RUN, lines)


def without_run(lines):
    """Returns the lines of JSON without the last one, which is that of the run."""
    return lines.removesuffix(last_line(lines))


def trace_of(lines):
    """Returns the object of the trace, which comes before that of the run, or None if it is not there."""
    return object_with(SUMS, without_run(lines))


def has_error(said):
    """Returns whether standard error has an error: in a table, or for a file that can't be written. A hint is no
    error."""
    return re.search(rb"^error: ", said, re.MULTILINE) is not None


def fault_of(status, text, said, lines):
    """Returns why the program gave no verdict on a trace, or None if it gave one: it ended on its own with the status
    of that verdict, and its output for one trace is complete."""
    if status < 0:
        return f"the judge was killed by signal {-status}"
    trace, has_ended, why = trace_of(lines), run_of(lines) is not None, said.decode(errors="replace").strip()
    if status not in STATUS.values() or has_error(said):
        return f"no verdict, status {status}: {why}"
    is_whole = trace and has_ended and re.match(rb"1 trace: .*\n$", last_line(text))
    if not is_whole or STATUS.get(trace["verdict"]) != status:
        return f"no verdict, status {status}, and a part of what the judge writes is missing: {why}".removesuffix(": ")
    return None


# ---- kept results


class Unfit(Exception):
    """The folder can't be used, for this reason."""


class Results:
    """The folder of the results of one question: its options, and checksums of the tables and the program."""

    def __init__(self, folder, question, resumes):
        self.folder, asked = folder, f"{folder}/question.json"
        with contextlib.suppress(FileExistsError):
            os.mkdir(folder)
        self.held = os.open(folder, os.O_RDONLY)
        try:
            fcntl.flock(self.held, fcntl.LOCK_EX | fcntl.LOCK_NB)
        except BlockingIOError:
            raise Unfit(f"another run writes to {folder}") from None
        if os.listdir(folder) in ([], ["question.json"]):
            write(asked, json.dumps(question).encode())
        elif not resumes:
            raise Unfit(f"{folder} has results of an earlier run: --resume goes on there; remove it to begin anew")
        elif content_of(asked) != json.dumps(question).encode():
            raise Unfit(f"the results in {folder} are of other options, tables or another program: remove it")

    def path_of(self, name):
        return f"{self.folder}/{hashlib.sha256(name.encode()).hexdigest()[:40]}"

    def keep(self, name, stamp, parts, **more):
        """Keeps a result."""
        head = {"name": name, "stamp": stamp, "parts": [len(part) for part in parts], **more}
        write(self.path_of(name), b"".join([json.dumps(head).encode(), b"\n", *parts]))

    def head(self, name):
        """Returns the first line of a result, or None if there is no whole result."""
        with contextlib.suppress(OSError, ValueError), open(self.path_of(name), "rb") as file:
            first = file.readline()
            head = json.loads(first)
            if os.fstat(file.fileno()).st_size == len(first) + sum(head["parts"]):
                return head
        return None

    def holds(self, name):
        """Returns whether there is a result for the file as it is now. A result without an exit status is from an
        older version of this tool."""
        head = self.head(name)
        if head is None or "status" not in head:
            return False
        return head["stamp"] == stamp_of(name) and all(map(os.path.exists, head.get("files", [])))

    def parts(self, name):
        """Returns the parts of a result."""
        with open(self.path_of(name), "rb") as file:
            lengths = json.loads(file.readline())["parts"]
            return [file.read(length) for length in lengths]

    def keep_lines(self, name, stamp, files, said, status):
        """Keeps the files of lines that were made from a capture, the output about the capture, and the exit
        status."""
        folder = f"{self.folder}/lines{os.path.abspath(name)}"
        shutil.rmtree(folder, ignore_errors=True)
        os.makedirs(folder)
        for file, octets in files:
            write(f"{folder}/{file}", octets)
        self.keep(name, stamp, [said], files=[f"{folder}/{file}" for file, _ in files], status=status)


class Sum:
    """The counts over traces: how many have each verdict, and the sums of their own counts."""

    def __init__(self):
        self.traces, self.dialogues, self.messages, self.unheard = collections.Counter(), collections.Counter(), 0, 0

    def add(self, trace):
        """Adds the object of a trace."""
        self.traces[trace["verdict"]] += 1
        self.dialogues.update(trace["dialogues"])
        self.messages += trace["messages"]
        self.unheard += trace["unheard"]

    def line(self):
        """Returns the line that `tcapjudge test` prints for all of them."""

        def all_of(counts, thing):
            each = ", ".join(f"{counts[verdict]} {verdict}" for verdict in VERDICTS)
            return f"{counted(sum(counts.values()), thing)}: {each}"

        front = f"{all_of(self.traces, 'trace')}; {counted(self.messages, 'message')}"
        return f"{front}, {all_of(self.dialogues, 'dialogue')}; {self.unheard} pass unheard or unanswered\n"

    def object(self, version):
        """Returns the line of JSON that `tcapjudge test` of this version writes for the run over all of them."""

        def all_of(counts):
            return {verdict: counts[verdict] for verdict in VERDICTS}

        total = {"traces": all_of(self.traces), "messages": self.messages, "dialogues": all_of(self.dialogues)}
        found = {"total": total | {"unheard": self.unheard}, "verdict": self.worst(), "version": version}
        return json.dumps(found, separators=(",", ":")) + "\n"

    def worst(self):
        """Returns the worst verdict."""
        return max(self.traces, key=VERDICTS.index, default="pass")

    def status(self):
        """Returns the exit status of the worst verdict."""
        return STATUS[self.worst()]


def counted(count, thing):
    return f"{count} {thing}{'' if count == 1 else 's'}"
