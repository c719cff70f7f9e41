"""Runs the commands that docs/QUICKSTART.md, docs/CAPTURES.md and docs/LIVE.md show for captures, over captures of two pairs of ends. What
they print was worked out by hand."""

import json
import os
import re
import shutil
import subprocess
import tempfile

import made_captures as made
from capture_rows import Wire

# B goes on without the AARE that has to answer, as in docs/QUICKSTART.md.
NO_AARE = ["A 62234801016B1E281C060700118605010101A011600F80020780A109060704000001001302", "B 6506480102490101"]
PASSES = "examples/ussd.hex"
NOTHING_ELSE = "0 pass unheard or unanswered"
# So many files with such names are more than one `xargs` gives to a command.
MANY, LONG = 2500, "x" * 60


def two_pairs():
    """Returns a capture of two pairs of ends: the dialogue of PASSES, and NO_AARE."""
    with open(PASSES, encoding="utf-8") as file:
        passes = [line for line in file.read().splitlines() if line[:1] in ("A", "B")]
    other = Wire(ends=((303, 8), (404, 6)), tag=0x2000, hosts=(3, 4))
    return made.pcapng([*Wire().all(passes), *other.all(NO_AARE)])


def block_of(page, beginning):
    """Returns the block of a page that begins with these words."""
    with open(page, encoding="utf-8") as file:
        blocks = re.findall(r"^```\n(.*?)^```$", file.read(), re.DOTALL | re.MULTILINE)
    (found,) = [block for block in blocks if block.startswith(beginning)]
    return found


class Room:
    """A folder with the tools, the program as `tcapjudge`, and these captures."""

    def __init__(self, folder, program, **captures):
        self.folder = folder
        os.mkdir(f"{folder}/bin")
        os.symlink(os.path.abspath(program), f"{folder}/bin/tcapjudge")
        os.symlink(os.path.abspath("tools"), f"{folder}/tools")
        for path, octets in captures.items():
            self.put(f"{path}.pcapng", octets)

    def put(self, path, octets):
        """Writes a file, and makes its folder if there is none."""
        os.makedirs(os.path.dirname(f"{self.folder}/{path}"), exist_ok=True)
        with open(f"{self.folder}/{path}", "wb") as file:
            file.write(octets)

    def run(self, commands):
        """Runs commands in the folder. Returns the status, and the lines that the program prints at the ends of traces."""
        how = {"cwd": self.folder, "env": os.environ | {"PATH": f"{self.folder}/bin:{os.environ['PATH']}"}}
        how |= {"stdin": subprocess.DEVNULL, "stdout": subprocess.PIPE, "stderr": subprocess.DEVNULL}
        ran = subprocess.run(["bash", "-c", commands], check=False, **how)
        return ran.returncode, re.findall(r"^\S+: (?:pass|inconc|fail|error);.*|^[0-9]+ traces?:.*", ran.stdout.decode(), re.MULTILINE)

    def total_of(self, path):
        """Returns how many traces have each verdict by the line of the run in a file of JSON, or None if there is no file."""
        if not os.path.exists(f"{self.folder}/{path}"):
            return None
        with open(f"{self.folder}/{path}", encoding="utf-8") as file:
            return json.loads(file.read().splitlines()[-1])["total"]["traces"]


def trace_line(name, messages, verdict):
    """Returns the line of a trace of one dialogue."""
    counts = ", ".join(f"{int(verdict == one)} {one}" for one in ("pass", "inconc", "fail", "error"))
    return f"{name}: {verdict}; {messages} messages, 1 dialogue: {counts}; {NOTHING_ELSE}"


def of_one_capture(program):
    """Yields whether the commands for one capture judge each pair. B fails, or is in doubt if dialogues may have been under way."""
    for page, beginning, lines, verdict, status, counts in [
        ("docs/QUICKSTART.md", "python3 tools/lines_of_capture.py trace.pcap", "lines/trace", "fail", 1, "1 pass, 0 inconc, 1 fail, 0 error"),
        ("docs/CAPTURES.md", "python3 tools/lines_of_capture.py trace.pcap", "lines", "inconc", 2, "1 pass, 1 inconc, 0 fail, 0 error"),
    ]:
        with tempfile.TemporaryDirectory() as folder:
            room = Room(folder, program)
            room.put("trace.pcap", two_pairs())
            wanted = [trace_line(f"{lines}/pair-1.hex", 4, "pass"), trace_line(f"{lines}/pair-2.hex", 2, verdict)]
            wanted += [f"2 traces: {counts}; 6 messages, 2 dialogues: {counts}; {NOTHING_ELSE}"]
            yield is_same(page, room.run(block_of(page, beginning)), (status, wanted))


def of_many_captures(program):
    """Yields whether the commands for several captures give all files to one `test`, if GNU parallel is installed."""
    if not shutil.which("parallel"):
        print("skipped: several captures, for want of GNU parallel")
        return
    with tempfile.TemporaryDirectory() as folder:
        room = Room(folder, program)
        for name in "one", "two":
            room.put(f"captures/{name}.pcap", two_pairs())
        pairs = [("pair-1", 4, "pass"), ("pair-2", 2, "inconc")]
        wanted = [trace_line(f"lines/{name}/{pair}.hex", *of) for name in ("one", "two") for pair, *of in pairs]
        counts = "2 pass, 2 inconc, 0 fail, 0 error"
        wanted += [f"4 traces: {counts}; 12 messages, 4 dialogues: {counts}; {NOTHING_ELSE}"]
        block = block_of("docs/CAPTURES.md", "parallel python3")
        yield is_same("several captures", room.run(block), (2, wanted))


def of_a_ring(program):
    """Yields whether the commands for a ring judge each capture by one `test`, and nothing if a capture has no message."""
    block = block_of("docs/LIVE.md", "dumpcap")
    pipe = block.replace(block.splitlines()[0], "printf '%s\\n' ring_1.pcapng ring_2.pcapng ring_3.pcapng |")
    with tempfile.TemporaryDirectory() as folder:
        room = Room(folder, program, ring_1=two_pairs(), ring_2=made.pcapng([]), ring_3=two_pairs())
        counts = "1 pass, 1 inconc, 0 fail, 0 error"
        wanted = []
        for name in "ring_1", "ring_3":
            wanted += [trace_line(f"lines/{name}/pair-1.hex", 4, "pass"), trace_line(f"lines/{name}/pair-2.hex", 2, "inconc")]
            wanted += [f"2 traces: {counts}; 6 messages, 2 dialogues: {counts}; {NOTHING_ELSE}"]
        yield is_same("a ring", room.run(pipe), (2, wanted))
        found = [room.total_of(f"lines/ring_{number}/verdicts.ndjson") for number in (1, 2, 3)]
        both = {"pass": 1, "inconc": 1, "fail": 0, "error": 0}
        yield is_same("the JSON of a ring", found, [both, None, both])


def of_many_files(program):
    """Yields whether the last commands for a ring give very many files to one `test`."""
    commands = "".join(line for line in block_of("docs/LIVE.md", "dumpcap").splitlines(True) if line.startswith(("    set ", "    test ")))
    with open(PASSES, "rb") as file:
        octets = file.read()
    with tempfile.TemporaryDirectory() as folder:
        room = Room(folder, program)
        for number in range(MANY):
            room.put(f"many/{LONG}{number}.hex", octets)
        status, said = room.run(f"lines=many\n{commands}")
        sums = [line for line in said if " traces: " in line]
        counts = "2500 pass, 0 inconc, 0 fail, 0 error"
        wanted = 0, [f"2500 traces: {counts}; 10000 messages, 2500 dialogues: {counts}; {NOTHING_ELSE}"]
        yield is_same("many files", (status, sums), wanted)
        found = room.total_of("many/verdicts.ndjson")
        yield is_same("the JSON of many files", found, {"pass": 2500, "inconc": 0, "fail": 0, "error": 0})


def is_same(what, found, wanted):
    """Returns whether what was found is what is wanted. Otherwise prints both."""
    if found != wanted:
        print(f"{what}: {found}, not {wanted}")
    return found == wanted
