"""The call `tcapjudge_test` of the library for programs in C, for tests/clib.py: of the traces of examples/, of trace_rows.py, of
lines with a fault and of random ones, as lines of digits and as records, it writes octet by octet what `tcapjudge test --json` writes
of a file of the name `trace`, without the line of the run. It keeps to the room that it is given, refuses each number that is unknown, and says what is wrong
with a book in the words of the program. Some traces were judged by hand."""

import ctypes
import glob
import json
import os
import random
import re
import subprocess
import tempfile

import trace_again
import trace_broken
import trace_doubts
import trace_files
import trace_rows
import traces
from runs import table_text
from tested import PROGRAM

RANDOM_TRACES = 10
OF = {"both": 0, "A": ord("A"), "B": ord("B")}
GUARD = 0xEE
TABLE = '{"operations":[]}'
# Texts that are no book, one for each fault; and books of which it is not told which of their tables is for which dialogue.
NO_BOOKS = [
    "{",
    '{"tables":[%s],"more":1}' % TABLE,
    '{"tables":[]}',
    '{"tables":1}',
    '{"tables":[%s]}' % ",".join([TABLE] * 101),
    '{"tables":[{}]}',
    '{"operations":[{"class":1,"code":1},{"class":9,"code":2}]}',
    '{"tables":[{"name":1,"operations":[]}]}',
    '{"tables":[{"contexts":["1"],"operations":[]}]}',
    '{"tables":[{"operations":[{"class":1,"code":1,"name":1}]}]}',
    '{"tables":[%s,%s]}' % (TABLE, TABLE),
    '{"tables":[{"name":"M","contexts":["2A"],"operations":[]},{"contexts":["2B","2a"],"operations":[]}]}',
]
# Traces that were judged by hand: the trace, its book, the status, and the lines, or None if they are not looked at. A record and the
# same lines; no message; a dialogue for which the carried book has no table; a book that is none, and one of which it is not told which
# table is for which dialogue.
OF_45 = b'{"operations":[{"class":1,"code":45}]}'
RECORD, LINES = bytes.fromhex("416203480101426403490101"), b"A 6203480101\nB 6403490101\n"
NONE = '"dialogues":{"pass":0,"inconc":0,"fail":0,"error":0},"unheard":0'
BY_HAND = [
    (
        RECORD,
        OF_45,
        0,
        '{"trace":"trace","dialogue":0,"verdict":"pass","entries":[0,1],"lines":[0,0],"ids":{"A":["01"],"B":[]},'
        '"open":false,"again":false,"marked":false,"A":{"verdict":"pass","unheard":0,"sent":1},'
        '"B":{"verdict":"pass","unheard":0,"sent":1}}\n{"trace":"trace","verdict":"pass","messages":2,'
        '"dialogues":{"pass":1,"inconc":0,"fail":0,"error":0},"unheard":0}\n',
    ),
    (b"", OF_45, 3, None),
    (LINES, b"", 3, None),
    (
        LINES,
        b"{",
        3,
        f'{{"trace":"trace","verdict":"error","messages":0,{NONE},"text":"the book: the text is no JSON, or not UTF-8"}}\n',
    ),
    (LINES, b'{"tables":[{"operations":[]},{"operations":[]}]}', 3, None),
]


def octets_in(path):
    with open(path, "rb") as file:
        return file.read()


def flags_in(words):
    """What the words of a call of `tcapjudge test` ask, as the example of Python asks it."""
    asked, left = {}, words.replace("=", " ").split()
    while left:
        name = left.pop(0).removeprefix("--")
        asked[name] = True if name == "complete" else left.pop(0)
    if "linger" in asked:
        asked["linger"] = int(asked["linger"])
    return asked | ({"of": OF[asked["of"]]} if "of" in asked else {})


def without_run(lines):
    """Lines of JSON without the last one, which is that of the run."""
    return b"".join(lines.splitlines(True)[:-1])


class Word:
    """The word `test` of the program, over a file `trace` in a folder."""

    def __init__(self, folder):
        self.folder, self.program = folder, os.path.abspath(PROGRAM)

    def run(self, words):
        return subprocess.run([self.program, *words], cwd=self.folder, capture_output=True, check=False)

    def put(self, name, octets):
        with open(f"{self.folder}/{name}", "wb") as file:
            file.write(octets)

    def said(self, trace, book, words):
        """What it writes as JSON without the line of the run, its status, and what it says on standard error."""
        self.put("trace", trace)
        self.put("book", book)
        self.put("lines", b"")
        of_book = ["--table", "book"] if book else []
        ran = self.run(["test", "--json", "lines", *of_book, *words.split(), "trace"])
        return without_run(octets_in(f"{self.folder}/lines")), ran.returncode, ran.stderr.decode()

    def packed(self, trace):
        """The record of lines of digits; nothing where one has a fault."""
        self.put("trace", trace)
        ran = self.run(["pack", "trace"])
        return ran.stdout if ran.returncode == 0 else b""


# ---- the same lines


def cases():
    """Of each trace a name, its octets, its book and the words of the call."""
    operations = octets_in("examples/operations.json")
    for path in sorted(glob.glob("examples/*.hex")):
        for words in "", "--of A", "--of B --complete", "--ids once":
            yield f"{path} {words}", octets_in(path), operations, words
        yield f"{path} by the carried book", octets_in(path), b"", ""
    for row in trace_rows.ROWS + trace_again.ROWS + trace_broken.ROWS + trace_doubts.ROWS:
        # The library has no `--heard`.
        if "--heard" in row.words:
            continue
        yield row.name, row.lines.encode(), row.table.encode(), row.words
    for number, (text, _, rule) in enumerate(trace_files.bad_lines()):
        yield f"bad line {number}, {rule}", text.encode(), operations, ""
    for seed in range(RANDOM_TRACES):
        made = traces.RandomTrace(random.Random(seed))
        text, table = trace_rows.lines(*made.text).encode(), table_text(made.table)
        for words in "--ids once", "--linger 3", "--ids settled --of B", "--complete":
            yield f"random trace {seed} {words}", text, table, words
    for name, octets in (("no octets", b""), ("a comment", b"# none\n"), ("a mark", b"Q"), ("none of either", b"\xff" * 9)):
        yield name, octets, operations, ""


def compare(count, library, word, name, trace, book, words):
    """Compares the lines of a trace, and of its record, with those of the program."""
    for octets in trace, word.packed(trace):
        lines, status, _ = word.said(octets, book, words)
        count.same(f"test {name}", library.test(octets, book, **flags_in(words)), (lines, status))


# ---- books


def compare_books(count, library, word):
    """What is wrong with a book is said in the one line of the trace, in the words that the program has for it, without the file."""
    os.mkdir(f"{word.folder}/folder")
    word.run(["test", "--json", "unread", "folder"])
    unread = json.loads(without_run(octets_in(f"{word.folder}/unread")))
    trace = trace_rows.lines(*trace_rows.SHORT).encode()
    for book in map(str.encode, NO_BOOKS):
        _, status, error = word.said(trace, book, "")
        why = "the book: " + re.sub(r"^error: (book: )?", "", error.removesuffix("\n")).replace(" of book", "")
        wanted = unread | {"trace": "trace", "text": why}
        lines, found = library.test(trace, book)
        count.same(f"test by {book[:60]}", (list(json.loads(lines).items()), found), (list(wanted.items()), status))


# ---- the room


def in_room(library, trace, book, room, asked):
    """What is written into a room, what stands around it then, the count of octets and the status."""
    held, size = (ctypes.c_uint8 * (room + 16))(*[GUARD] * (room + 16)), ctypes.c_size_t(77)
    given = [part for octets in (trace, book) for part in (octets, ctypes.c_size_t(len(octets)))]
    place = ctypes.byref(held, 8)
    status = library.of.tcapjudge_test(*given, ctypes.byref(asked), place, ctypes.c_size_t(room), ctypes.byref(size))
    octets = bytes(held)
    return octets[8:-8], octets[:8] + octets[-8:], size.value, status


def rooms(count, library, asked):
    """Rooms of all sizes up to that of the lines, and beyond: what is behind them stays."""
    trace, book = trace_rows.lines(*trace_rows.SHORT).encode(), trace_rows.OPERATIONS.encode()
    lines, status = library.test(trace, book)
    around = bytes([GUARD] * 16)
    for room in [*range(len(lines) + 3), 10 * len(lines)]:
        wanted = lines[:room] + bytes([GUARD] * (room - len(lines))), around, len(lines), status
        count.same(f"a room of {room}", in_room(library, trace, book, room, asked()), wanted)


def by_hand(count, library, asked):
    """The traces that were judged by hand, in rooms for all lines, for ten octets and for none."""
    for trace, book, status, lines in BY_HAND:
        for room in 1000, 10, 0:
            written, around, size, found = in_room(library, trace, book, room, asked())
            octets = lines.encode() if lines else written[:size]
            wanted = (octets + bytes([GUARD] * room))[:room], bytes([GUARD] * 16), len(octets) if lines else size, status
            count.same(f"test {trace} by {book}, by hand", (written, around, size, found), wanted)
            count.same(f"the lines of {trace} by {book}", size > 0, True)
    numbered = asked()
    numbered.of, numbered.ids, numbered.complete = OF["B"], 2, 1
    count.same("known numbers together", in_room(library, LINES, OF_45, 1, numbered)[3] != 4, True)


def wrong_calls(count, library, asked):
    """A number that is unknown: nothing is written, and no octet is counted."""
    trace, book = trace_rows.lines(*trace_rows.SHORT).encode(), trace_rows.OPERATIONS.encode()
    known = {"of": OF.values(), "ids": range(3), "complete": range(2)}
    for field, numbers in known.items():
        for number in range(256):
            numbered = asked()
            setattr(numbered, field, number)
            written, _, size, status = in_room(library, trace, book, 9, numbered)
            is_known = number in numbers
            found = status == 4, size == 0, written == bytes([GUARD] * 9)
            count.same(f"{field} {number}", found, (not is_known,) * 3)


def look_at(count, library, asked):
    """All of these. `asked` makes the usual question."""
    with tempfile.TemporaryDirectory() as folder:
        word = Word(folder)
        for case in cases():
            compare(count, library, word, *case)
        compare_books(count, library, word)
    rooms(count, library, asked)
    by_hand(count, library, asked)
    wrong_calls(count, library, asked)
