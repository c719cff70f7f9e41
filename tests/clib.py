"""Tests the library for programs in C, which dev/clib.py built. For the records of judged.py, blamed.py, alone.py and
examples/, and for octets that are no record, the library must answer what the program prints, for both ends and for
one alone, with and without a certificate. For traces it must answer what the program writes as JSON (clib_traces.py).
So must its two examples, in C and in Python, which also report a file that can't be read. Some answers are also
compared with answers that were worked out by hand. If an allocation fails, the
library must report it and free all its memory. Ends with `N passed, M failed`."""

import ctypes
import glob
import os
import subprocess
import sys
import tempfile

import rooms  # noqa: F401
import alone
import blamed
import clib_traces
import judged
import program
from tested import PROGRAM

sys.path.insert(0, "clib")
import example  # noqa: E402

EXAMPLE, ARCHIVE = "clib/out/example", "clib/out/libtcapjudge.a"
NAMES = "LAWFUL", "REFUTED", "UNDECIDED", "FAULT", "NOT SHOWN", "BLAMED", "NOT BLAMED", None
NO_CERT = b'{"close":[],"expire":[],"fates":[],"version":1}'
ENDS = "", "A", "B"
# Answers that were worked out by hand: the word, its texts, the octet of an end, the status, and the fields of each answer. After the
# dialogue there is one whose End goes to a transaction that does not exist.
TO_NINE = bytes.fromhex("41620d4801016c08a10602010102012d426403490109")
BY_HAND = [
    ("judge", [program.DIALOGUE, program.TABLE], 0, 0, [(2, 0, 0, 0, 0)]),
    ("judge", [program.DIALOGUE, program.TABLE], ord("C"), 4, [(0, 0, 7, 0, 0)]),
    ("check", [program.DIALOGUE, program.TABLE, program.FILES["LATE"]], ord("A"), 0, [(2, 0, 0, 0, 0)]),
    ("check", [program.DIALOGUE, program.TABLE, program.FILES["LATE"]], ord("B"), 2, [(1, 0, 4, 65, 40)]),
    ("blame", [TO_NINE, program.TABLE], None, 1, [(1, 0, 1, 2, 0), (2, 0, 0, 0, 0), (1, 0, 5, 2, 0)]),
]


class Answers(ctypes.Structure):
    """`struct tcapjudge_answers` of tcapjudge.h."""

    _fields_ = [(name, example.Answer) for name in ("both", "a", "b")]


def line_of(answer, end, is_alone):
    """Returns the line of an answer, with the letter of an end if it has one. It is empty if there is no verdict."""
    name, entry, of_end = NAMES[answer.verdict], answer.entry, f"{end} " if end else ""
    reason = f"{answer.reason}/{answer.inner}" if answer.inner else f"{answer.reason}"
    rest = {
        "LAWFUL": f"{entry} unheard {answer.unheard}" if is_alone else f"{entry}",
        "NOT BLAMED": f"{entry}",
        "REFUTED": f"{entry} F{answer.reason}",
        "BLAMED": f"{entry} F{answer.reason}",
        "UNDECIDED": f"{entry} {reason}",
        "NOT SHOWN": f"{entry} {reason}",
        "FAULT": f"{answer.reason} {entry}",
    }
    return f"{name} {of_end}{rest[name]}\n" if name else ""


class Library:
    """The library, through ctypes."""

    def __init__(self):
        self.of = example.loaded()

    def call(self, word, kind, texts, end=None):
        """Returns the answer of a call for these texts, and its status. Fails if the octets around the answer, or a
        text, change."""
        size = ctypes.sizeof(kind)
        room = ctypes.create_string_buffer(b"\xee" * (size + 16), size + 16)
        held = [ctypes.create_string_buffer(text, max(len(text), 1)) for text in texts]
        given = [part for text, octets in zip(texts, held) for part in (octets, ctypes.c_size_t(len(text)))]
        given += [] if end is None else [ctypes.c_uint8(end)]
        status = getattr(self.of, f"tcapjudge_{word}")(*given, ctypes.byref(room, 8))
        assert room.raw[:8] + room.raw[-8:] == b"\xee" * 16
        assert all(octets.raw[: len(text)] == text for text, octets in zip(texts, held))
        return kind.from_buffer_copy(room.raw[8:-8]), status

    def test(self, trace, book, **asked):
        """Returns the lines of `test`, and its status."""
        return example.test(self.of, trace, book, **asked)

    def said(self, word, texts, end=""):
        """Returns the line of `judge` or `check`, for both ends or for one, and its status."""
        answer, status = self.call(word, example.Answer, texts, ord(end) if end else 0)
        return line_of(answer, "", bool(end)).encode(), status

    def blamed(self, texts):
        """Returns the lines of `blame`, and its status. Blamed ends come first, the lower entry before the other."""
        answers, status = self.call("blame", Answers, texts)
        ends = [("A", answers.a), ("B", answers.b)]
        ends.sort(key=lambda it: it[1].entry if NAMES[it[1].verdict] == "BLAMED" else 1 << 64)
        lines = line_of(answers.both, "", False) + "".join(line_of(answer, end, True) for end, answer in ends)
        return lines.encode(), status


class Count:
    """The numbers of comparisons that held and that did not."""

    def __init__(self):
        self.passed = self.failed = 0

    def same(self, name, found, wanted):
        self.passed += found == wanted
        self.failed += found != wanted
        if found != wanted:
            print(f"{name}: {found}, not {wanted}")


def written(folder, texts):
    """Writes these octets to files, and returns the paths."""
    paths = [f"{folder}/{name}" for name in ("record", "table", "cert")[: len(texts)]]
    for path, text in zip(paths, texts):
        with open(path, "wb") as file:
            file.write(text)
    return paths


def printed(words, **how):
    """Returns the output of a program, and its status."""
    run = subprocess.run(words, capture_output=True, check=False, **how)
    return run.stdout, run.returncode


def flags_of(end):
    return ["--end", end] if end else []


def packed(path):
    """Returns the record that is packed from a file of lines."""
    return printed([PROGRAM, "pack", path])[0]


def octets_in(path):
    with open(path, "rb") as file:
        return file.read()


def examples():
    """Yields the name of each example, its record and its table, and its certificate if it has one."""
    for path in sorted(glob.glob("examples/*.hex")):
        own = path.removesuffix(".hex")
        yield own, packed(path), octets_in("examples/operations.json"), None
        if os.path.exists(f"{own}.cert.json"):
            yield own, packed(path), octets_in(f"{own}.table.json"), octets_in(f"{own}.cert.json")


def rows():
    """Yields the same for each row, and for hostile octets."""
    for number, (record, table, *_) in enumerate([*judged.rows(), *blamed.rows()]):
        yield f"row {number}", record, table, None
    for number, (_, record, table, cert, *_) in enumerate(alone.rows()):
        yield f"row {number} of alone.py", record, table, cert
    for name, record, table, _ in blamed.faults():
        yield name, record, table, None
    lawful, table = program.DIALOGUE, program.TABLE
    for name, record, text, cert in (
        ("no octets", b"", table, None),
        ("no table", lawful, b"", None),
        ("no certificate", lawful, table, b""),
        ("nothing at all", b"", b"", b""),
        ("a certificate that is none", lawful, table, b"{"),
        ("a record that is cut", bytes.fromhex("41620348"), table, None),
        ("a record that is none", b"\xff" * 9, table, None),
        ("a table that is no text", lawful, b"\xff\0", None),
    ):
        yield name, record, text, cert


def compare(count, library, folder, name, record, table, cert):
    """Compares all calls for a record with what the program prints."""
    for end in ENDS:
        paths, flags = written(folder, [record, table]), flags_of(end)
        wanted = printed([PROGRAM, "judge", *flags, *paths])
        count.same(f"judge {end} {name}", library.said("judge", [record, table], end), wanted)
        proposed = printed([PROGRAM, "judge", *flags, *paths, "--cert"])[0].split(b"\n")[1]
        text = cert if cert is not None else proposed or NO_CERT
        wanted = printed([PROGRAM, "check", *flags, *written(folder, [record, table, text])])
        count.same(f"check {end} {name}", library.said("check", [record, table, text], end), wanted)
    count.same(f"blame {name}", library.blamed([record, table]), printed([PROGRAM, "blame", *paths]))


def run_examples(count, folder, python):
    """Compares what the two examples print for each record of examples/ and for each trace. The one in Python runs in
    another folder."""
    for name, record, table, cert in examples():
        if cert is not None:
            continue
        paths = written(folder, [record, table])
        for end in ENDS:
            wanted, words = printed([PROGRAM, "judge", *flags_of(end), *paths]), [*paths, *filter(None, [end])]
            count.same(f"{EXAMPLE} {end} {name}", printed([EXAMPLE, *words]), wanted)
            count.same(f"example.py {end} {name}", printed([*python, *words], cwd=folder), wanted)
    word = clib_traces.Word(folder)
    for path in sorted(glob.glob("examples/*.hex")):
        for book in [], ["examples/operations.json"]:
            wanted = word.said(octets_in(path), b"".join(map(octets_in, book)), "")[:2]
            words = ["--test", *map(os.path.abspath, [path, *book])]
            count.same(f"{EXAMPLE} {words}", printed([EXAMPLE, *words]), wanted)
            count.same(f"example.py {words}", printed([*python, *words], cwd=folder), wanted)


def long_files(folder):
    """Writes a record, a trace and a table of over a mebioctet each. Returns their paths. Cut at that length, none of
    them would be whole."""
    def element(tag, content):
        return bytes([tag, 0x82, *divmod(len(content), 256)]) + content

    # Begins with Invokes of 45, each from its own ID, with long parameters.
    parts = element(0x6C, element(0xA1, bytes.fromhex("02010102012d") + element(0x04, bytes(60_000))))
    record = b"".join(b"A" + element(0x62, bytes([0x48, 1, number]) + parts) for number in range(20))
    trace = (b"# " + b"long " * 20_000 + b"\n") * 12 + octets_in("examples/answered_already.hex")
    paths = [f"{folder}/{name}" for name in ("long_record", "long_trace", "long_table")]
    for path, text in zip(paths, (record, trace, b" " * (1 << 20) + octets_in("examples/operations.json"))):
        with open(path, "wb") as file:
            file.write(text)
        assert len(text) > 1 << 20
    return paths


def files_of_examples(count, folder, python):
    """The two examples must read long files whole, and report unreadable files and wrong words."""
    record, trace, table = long_files(folder)
    none, word = f"{folder}/none", clib_traces.Word(folder)
    for words in [EXAMPLE], python:
        found = printed([*words, record, table])
        count.same(f"{words}, a long record", found, printed([PROGRAM, "judge", record, table]))
        wanted = word.said(octets_in(trace), octets_in(table), "")[:2]
        count.same(f"{words}, a long trace", printed([*words, "--test", trace, table]), wanted)
        for given in [none, table], [record, none], [folder, table], ["--test", none], ["--test", trace, none]:
            ran = subprocess.run([*words, *given], capture_output=True, check=False)
            path = next(it for it in given if it in (none, folder))
            is_named = ran.stderr.decode().startswith(f"{path}: ")
            count.same(f"{words}, {given}: {ran.stderr}", (ran.returncode, ran.stdout, is_named), (3, b"", True))
        for given in [], [record], ["--test"], [record, table, "C"]:
            count.same(f"{words}, {given}", printed([*words, *given]), (b"", 4))


def by_hand(count, library):
    """Compares the answers that were worked out by hand."""
    for word, texts, end, status, wanted in BY_HAND:
        said, found = library.call(word, Answers if word == "blame" else example.Answer, texts, end)
        parts = [said.both, said.a, said.b] if word == "blame" else [said]
        fields = [tuple(getattr(part, name) for name, _ in part._fields_) for part in parts]
        count.same(f"{word}, end {end}, by hand", (found, fields), (status, wanted))


def wrong_calls(count, library):
    """An octet that is no end: the call gives no verdict, but writes the whole answer."""
    for word, texts in ("judge", [b"", b""]), ("check", [b"", b"", b""]):
        for end in range(256):
            if end not in (0, ord("A"), ord("B")):
                answer, status = library.call(word, example.Answer, texts, end)
                found = status, NAMES[answer.verdict], answer.entry, answer.unheard, answer.reason, answer.inner
                count.same(f"{word}, end {end}", found, (4, None, 0, 0, 0, 0))


def fails_each(count, folder):
    """Lets each allocation fail in turn, with tests/clib_memory.c."""
    wraps = [f"-Wl,--wrap={name}" for name in ("malloc", "realloc", "free")]
    words = ["cc", "-O2", "-I", "clib", "tests/clib_memory.c", ARCHIVE, *wraps, "-o", f"{folder}/memory"]
    subprocess.run(words, check=True)
    passed, failed = (int(word) for word in printed([f"{folder}/memory"])[0].split()[::2])
    count.passed += passed
    count.failed += failed
    if failed:
        print(f"{failed} calls whose allocations fail")


def main():
    count, library = Count(), Library()
    with tempfile.TemporaryDirectory() as folder:
        for row in [*examples(), *rows()]:
            compare(count, library, folder, *row)
        python = [sys.executable, os.path.abspath("clib/example.py")]
        run_examples(count, folder, python)
        files_of_examples(count, folder, python)
        fails_each(count, folder)
    by_hand(count, library)
    wrong_calls(count, library)
    clib_traces.look_at(count, library, lambda: example.Asked(linger=10000))
    print(f"{count.passed} passed, {count.failed} failed")
    return int(count.failed != 0)


if __name__ == "__main__":
    sys.exit(main())
