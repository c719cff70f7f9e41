"""example.py RECORD TABLE [A|B]: judges the record of a file by the operation table of a file, of both ends or of that end
alone. It prints what `tcapjudge judge` prints, and ends as it does.

example.py --test TRACE [BOOK]: judges each dialogue of the trace of a file, by the book of a file or by the one that the library
carries. It prints the lines that `tcapjudge test` writes as JSON, without that of the run, and ends as it does.

Where a file can't be read it says so on standard error, judges nothing and ends with the status 3; 4 where the words are wrong.
The library is that which `make clib` built beside this file."""

import ctypes
import os
import sys

LIBRARY = os.path.join(os.path.dirname(os.path.abspath(__file__)), "out", "libtcapjudge.so")
IDS = {"again": 0, "settled": 1, "once": 2}
ERROR, WRONG_CALL = 3, 4


class Answer(ctypes.Structure):
    """`struct tcapjudge_answer` of tcapjudge.h."""

    _fields_ = [
        ("entry", ctypes.c_uint64),
        ("unheard", ctypes.c_uint64),
        ("verdict", ctypes.c_uint8),
        ("reason", ctypes.c_uint8),
        ("inner", ctypes.c_uint8),
    ]


class Asked(ctypes.Structure):
    """`struct tcapjudge_asked` of tcapjudge.h."""

    _fields_ = [
        ("linger", ctypes.c_uint64),
        ("of", ctypes.c_uint8),
        ("ids", ctypes.c_uint8),
        ("complete", ctypes.c_uint8),
    ]


def loaded():
    """The library."""
    library = ctypes.CDLL(LIBRARY)
    for word in "judge", "check", "blame", "test":
        getattr(library, f"tcapjudge_{word}").restype = ctypes.c_uint8
    return library


def sized(*texts):
    """Each of these octets, and their count."""
    return [part for text in texts for part in (text, ctypes.c_size_t(len(text)))]


def judge(library, record, table, end=0):
    """What is said of a record by a table, and the exit status. `end` is 0, or the octet of an end."""
    said = Answer()
    return said, library.tcapjudge_judge(*sized(record, table), ctypes.c_uint8(end), ctypes.byref(said))


def test(library, trace, book=b"", of=0, ids="again", complete=False, linger=10000):
    """The lines that are said of a trace by a book, as octets, and the exit status. Without a book it is the one that the library
    carries. `of` is 0, or the octet of the end whose verdicts are asked; the others are the flags of `tcapjudge test`."""
    asked, room, size = Asked(linger, of, IDS[ids], complete), 1 << 16, ctypes.c_size_t()
    while True:
        lines = ctypes.create_string_buffer(room)
        status = library.tcapjudge_test(*sized(trace, book), ctypes.byref(asked), *sized(lines), ctypes.byref(size))
        if size.value <= room:
            return lines.raw[: size.value], status
        room = size.value


def line_of(said, end):
    """The line that `tcapjudge judge` prints of this."""
    reason = f"{said.reason}/{said.inner}" if said.inner else said.reason
    unheard = f" unheard {said.unheard}" if end else ""
    lines = [f"LAWFUL {said.entry}{unheard}", f"REFUTED {said.entry} F{said.reason}", f"UNDECIDED {said.entry} {reason}"]
    return (lines + [f"FAULT {said.reason} {said.entry}"])[said.verdict]


def octets_in(path):
    with open(path, "rb") as file:
        return file.read()


def run(library, words):
    """Does what the words ask for. Returns the exit status."""
    if len(words) < 2:
        return WRONG_CALL
    if words[0] == "--test":
        lines, status = test(library, *map(octets_in, words[1:3]))
        sys.stdout.buffer.write(lines)
        return status
    end = ord(words[2][:1] or "\0") if words[2:] else 0
    said, status = judge(library, *map(octets_in, words[:2]), end)
    if status != WRONG_CALL:
        print(line_of(said, end))
    return status


def main():
    library = loaded()
    try:
        status = run(library, sys.argv[1:])
    except OSError as error:
        print(f"{error.filename}: {error.strerror}", file=sys.stderr)
        status = ERROR
    if status == WRONG_CALL:
        print("example.py RECORD TABLE [A|B]\nexample.py --test TRACE [BOOK]", file=sys.stderr)
    return status


if __name__ == "__main__":
    sys.exit(main())
