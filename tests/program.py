"""Runs the built program and checks what no contract covers: which stream it prints to, and its exit status."""

import contextlib
import os
import subprocess
import sys
import tempfile

import rooms  # noqa: F401
import alone
import blamed
import judged
from tested import PROGRAM

BEGIN = bytes.fromhex("416203480101")
LINE = b"0 A Begin otid=01\n"
LINES = b"# A Begin.\nA 6203480101\n"
# A Begin with an Invoke, and the End with its result, each delivered at once.
DIALOGUE = bytes.fromhex("41620d4801016c08a10602010102012d42640a4901016c05a203020101")
TABLE = b'{"operations":[{"class":1,"code":45}]}'
CERT = b'{"close":[],"expire":[],"fates":[1,2],"version":1}'
# The greatest length of the text of a table or a certificate.
LIMIT = 67_108_864
# Words in rows that stand for files, with the content of each file.
FILES = {
    "RECORD": BEGIN,
    "LINES": LINES,
    "DIALOGUE": DIALOGUE,
    "TABLE": TABLE,
    "CERT": CERT,
    # The Begin is delivered after the End.
    "LATE": CERT.replace(b"[1,2]", b"[2,2]"),
    "BROKEN": b"{",
    "CUT": DIALOGUE[:-1],
    "FULL_TABLE": TABLE.ljust(LIMIT),
    "FULL_CERT": CERT.ljust(LIMIT),
    "LONG_TABLE": TABLE.ljust(LIMIT + 1),
    "LONG_CERT": CERT.ljust(LIMIT + 1),
    # Keys of a million octets, in the object and in a row, and a code with a text as long.
    "LONG_KEY": TABLE[:-1] + b',"' + b"k" * 1_000_000 + b'":0}',
    "LONG_ROW_KEY": b'{"operations":[{"class":1,"code":45,"' + b"k" * 1_000_000 + b'":0}]}',
    "LONG_CODE": TABLE[:-2] + b',{"class":1,"code":"' + b"2a" * 500_000 + b'"}]}',
    "LONG_KEY_CERT": CERT[:-1] + b',"' + b"k" * 1_000_000 + b'":0}',
    "LONG_FATE_CERT": CERT.replace(b"[1,2]", b'[1,{"' + b"k" * 1_000_000 + b'":2}]'),
    # Texts that are no UTF-8: an octet that begins nothing, a character that is cut, one that is spelled too long, and
    # half of a pair.
    "NO_UTF8": TABLE[:-1] + b',"\xff":0}',
    "CUT_UTF8": b'{"operations":[]}\xc3',
    "LONG_UTF8": TABLE[:-1] + b',"\xc0\xaf":0}',
    "HALF_UTF8": TABLE[:-1] + b',"\xed\xa0\x80":0}',
    "NO_UTF8_CERT": CERT[:-1] + b',"\xff":0}',
    # Nested lists, closed or not.
    "LISTS": b"[" * 200 + b"]" * 200,
    "OPEN_LISTS": b"[" * 1_000_000,
}


def version():
    """Returns the required output of `--version`: the kit that proved the program, which must be the present one, or
    that it is not proved. If the present kit is another one, name it in VERSION of
    crates/tcap_command_line/src/command_line.rt."""
    if os.path.basename(os.path.realpath(PROGRAM)) == "tcapjudge-unproved":
        return b"tcapjudge 0.1.0 (not proved)\n"
    kit = subprocess.run(["rt", "version"], stdout=subprocess.PIPE, check=True).stdout.strip()
    return b"tcapjudge 0.1.0 (proved, %s)\n" % kit


def given_twice(first, second):
    """Returns the required fault of a command line with two `-`."""
    words = f"- is given for {first}, and again for {second}"
    return f"error: {words}; the standard input can be read once\n".encode()


LOOKS_LIKE_A_TABLE = b"  hint: this looks like an operation table, which `tcapjudge table` prints\n"
NO_TABLE = b"error: the standard input: the text is no JSON, or not UTF-8\n"
NONE = "/no/such/file"
NO_FILE = b"error: /no/such/file: No such file or directory (os error 2)\n"
SOME = object()

# The words, the standard input, and then the required standard output, standard error and exit status.
ROWS = [
    (["show"], BEGIN, LINE, b"", 0),
    (["show"], b"", b"", b"", 0),
    (["show"], BEGIN + b"\x43", LINE + b"FAULT 20 6\n", b"", 3),
    (["show"], bytes.fromhex("4162054801016c00"), b"0 A FAULT 11 6\n", b"", 3),
    # `-` is the standard input.
    (["show", "-"], BEGIN, LINE, b"", 0),
    (["show", "--why", "-"], BEGIN, LINE, b"", 0),
    (["show", "--lines", "-"], LINES, LINE, b"", 0),
    (["pack", "-"], LINES, BEGIN, b"", 0),
    (["check", "-", "TABLE", "CERT"], DIALOGUE, b"LAWFUL 2\n", b"", 0),
    (["check", "DIALOGUE", "-", "CERT"], TABLE, b"LAWFUL 2\n", b"", 0),
    (["check", "DIALOGUE", "TABLE", "-"], CERT, b"LAWFUL 2\n", b"", 0),
    (["check", "--end", "A", "-", "TABLE", "CERT"], DIALOGUE, b"LAWFUL 2 unheard 0\n", b"", 0),
    (["judge", "-", "TABLE"], DIALOGUE, b"LAWFUL 2\n", b"", 0),
    (["judge", "DIALOGUE", "-"], TABLE, b"LAWFUL 2\n", b"", 0),
    (["judge", "-", "TABLE"], DIALOGUE[:-1], b"FAULT 21 28\n", b"", 3),
    (["blame", "-", "TABLE"], DIALOGUE, b"LAWFUL 2\nLAWFUL A 2 unheard 0\nLAWFUL B 2 unheard 0\n", b"", 0),
    (["blame", "DIALOGUE", "-"], TABLE, b"LAWFUL 2\nLAWFUL A 2 unheard 0\nLAWFUL B 2 unheard 0\n", b"", 0),
    (["explain", "-", "TABLE", "CERT"], DIALOGUE, SOME, b"", 0),
    (["explain", "DIALOGUE", "-", "CERT"], TABLE, SOME, b"", 0),
    (["explain", "DIALOGUE", "TABLE", "-"], CERT, SOME, b"", 0),
    (["table", "-"], TABLE, b"op=45 class=1\n", b"", 0),
    (["test", "--table", "-", "LINES"], TABLE, SOME, b"", 0),
    # A hint on the standard input has no path.
    (["judge", "-", "TABLE"], TABLE, b"FAULT 20 0\n", LOOKS_LIKE_A_TABLE, 3),
    (["table", "-"], BEGIN, SOME, b"  hint: this looks like a record, which `tcapjudge show` prints\n", 3),
    (["test", "--table", "-", "LINES"], b"{", SOME, NO_TABLE, 3),
    # It can be read once.
    (["judge", "-", "-"], DIALOGUE, b"", given_twice("RECORD", "TABLE"), 4),
    (["blame", "-", "-"], DIALOGUE, b"", given_twice("RECORD", "TABLE"), 4),
    (["check", "-", "-", "CERT"], DIALOGUE, b"", given_twice("RECORD", "TABLE"), 4),
    (["check", "-", "TABLE", "-"], DIALOGUE, b"", given_twice("RECORD", "CERT"), 4),
    (["check", "DIALOGUE", "-", "-"], TABLE, b"", given_twice("TABLE", "CERT"), 4),
    (["check", "-", "-", "-"], TABLE, b"", given_twice("RECORD", "TABLE"), 4),
    (["explain", "-", "-"], DIALOGUE, b"", given_twice("RECORD", "TABLE"), 4),
    (["explain", "-", "TABLE", "-"], DIALOGUE, b"", given_twice("RECORD", "CERT"), 4),
    (["test", "-", "LINES", "-"], LINES, b"", given_twice("TRACE", "TRACE"), 4),
    (["test", "--table", "-", "-"], TABLE, b"", given_twice("--table", "TRACE"), 4),
    (["test", "-", "--table", "-"], TABLE, b"", given_twice("--table", "TRACE"), 4),
    (["test", "--table", "-", "--table", "-", "LINES"], TABLE, b"", given_twice("--table", "--table"), 4),
    # It is no output.
    (["explain", "DIALOGUE", "TABLE", "--chart", "-"], b"", b"", b"error: --chart takes the path of a file\n", 4),
    ([], b"", b"", SOME, 4),
    (["shew"], b"", b"", SOME, 4),
    (["show", "RECORD"], b"", LINE, b"", 0),
    (["show", NONE], BEGIN, b"FAULT 23 0\n", SOME, 3),
    (["show", "x", "y"], b"", b"", SOME, 4),
    (["pack"], LINES, BEGIN, b"", 0),
    (["pack"], LINES + b"b 6203480101\n", BEGIN, b"FAULT 24 3\n  why: no end; column 1\n", 3),
    (["pack", "LINES"], b"", BEGIN, b"", 0),
    (["pack", NONE], LINES, b"", NO_FILE + b"FAULT 23 0\n", 3),
    (["pack", "/"], LINES, b"", b"error: /: it is a directory\nFAULT 23 0\n", 3),
    (["pack", "-o", NONE, "LINES"], b"", b"", NO_FILE, 3),
    (["pack", "-o", "-", "LINES"], b"", b"", b"error: -o takes the path of a file\n", 4),
    (["pack", "x", "y"], b"", b"", SOME, 4),
    (["check", "DIALOGUE", "TABLE", "CERT"], b"", b"LAWFUL 2\n", b"", 0),
    (["check", "DIALOGUE", "TABLE", "LATE"], b"", b"NOT SHOWN 1 65/40\n", b"", 2),
    (["check", "RECORD", "TABLE", "CERT"], b"", b"NOT SHOWN 1 61\n", b"", 2),
    # A fault in one of the three: the table comes first, then the certificate, then the record.
    (["check", "DIALOGUE", "BROKEN", "CERT"], b"", b"FAULT 30 0\n", b"", 3),
    (["check", "DIALOGUE", "TABLE", "BROKEN"], b"", b"FAULT 60 0\n", b"", 3),
    (["check", "CUT", "TABLE", "CERT"], b"", b"FAULT 21 28\n", b"", 3),
    (["check", "CUT", "TABLE", "LATE"], b"", b"FAULT 21 28\n", b"", 3),
    (["check", "CUT", "BROKEN", "BROKEN"], b"", b"FAULT 30 0\n", b"", 3),
    (["check", "CUT", "TABLE", "BROKEN"], b"", b"FAULT 60 0\n", b"", 3),
    # Files that can't be opened or read.
    (["check", NONE, "TABLE", "CERT"], b"", b"FAULT 23 0\n", SOME, 3),
    (["check", "DIALOGUE", NONE, "CERT"], b"", b"FAULT 23 0\n", SOME, 3),
    (["check", "DIALOGUE", "TABLE", NONE], b"", b"FAULT 23 0\n", SOME, 3),
    (["check", NONE, "BROKEN", NONE], b"", b"FAULT 30 0\n", SOME, 3),
    (["check", NONE, "TABLE", "BROKEN"], b"", b"FAULT 60 0\n", SOME, 3),
    (["check", "DIALOGUE", "/", "CERT"], b"", b"FAULT 23 0\n", SOME, 3),
    # Texts of the greatest length, longer ones, and one without end.
    (["check", "DIALOGUE", "FULL_TABLE", "FULL_CERT"], b"", b"LAWFUL 2\n", b"", 0),
    (["check", "DIALOGUE", "LONG_TABLE", "CERT"], b"", b"FAULT 30 0\n", b"", 3),
    (["check", "DIALOGUE", "TABLE", "LONG_CERT"], b"", b"FAULT 60 0\n", b"", 3),
    (["check", "DIALOGUE", "/dev/zero", "CERT"], b"", b"FAULT 30 0\n", b"", 3),
    # Keys of a million octets, texts that are no UTF-8, and nested lists.
    (["check", "DIALOGUE", "LONG_KEY", "CERT"], b"", b"FAULT 31 0\n", b"", 3),
    (["check", "DIALOGUE", "LONG_ROW_KEY", "CERT"], b"", b"FAULT 31 0\n", b"", 3),
    (["check", "DIALOGUE", "LONG_CODE", "CERT"], b"", b"LAWFUL 2\n", b"", 0),
    (["check", "DIALOGUE", "TABLE", "LONG_KEY_CERT"], b"", b"FAULT 60 0\n", b"", 3),
    (["check", "DIALOGUE", "TABLE", "LONG_FATE_CERT"], b"", b"FAULT 60 0\n", b"", 3),
    (["check", "DIALOGUE", "NO_UTF8", "CERT"], b"", b"FAULT 30 0\n", b"", 3),
    (["check", "DIALOGUE", "CUT_UTF8", "CERT"], b"", b"FAULT 30 0\n", b"", 3),
    (["check", "DIALOGUE", "LONG_UTF8", "CERT"], b"", b"FAULT 30 0\n", b"", 3),
    (["judge", "DIALOGUE", "HALF_UTF8"], b"", b"FAULT 30 0\n", b"", 3),
    (["blame", "DIALOGUE", "NO_UTF8"], b"", b"FAULT 30 0\n", b"", 3),
    (["check", "DIALOGUE", "TABLE", "NO_UTF8_CERT"], b"", b"FAULT 60 0\n", b"", 3),
    (["check", "DIALOGUE", "LISTS", "CERT"], b"", b"FAULT 30 0\n", b"", 3),
    (["judge", "DIALOGUE", "OPEN_LISTS"], b"", b"FAULT 30 0\n", b"", 3),
    (["check", "DIALOGUE", "TABLE", "LISTS"], b"", b"FAULT 60 0\n", b"", 3),
    (["check", "DIALOGUE", "TABLE", "OPEN_LISTS"], b"", b"FAULT 60 0\n", b"", 3),
    # Without a certificate: a fault in one of the two files, and the proposed certificate if it is asked for.
    (["judge", "DIALOGUE", "TABLE"], b"", b"LAWFUL 2\n", b"", 0),
    (["judge", "DIALOGUE", "TABLE", "--cert"], b"", b"LAWFUL 2\n" + CERT + b"\n", b"", 0),
    (["judge", "--cert", "DIALOGUE", "TABLE"], b"", b"LAWFUL 2\n" + CERT + b"\n", b"", 0),
    (["judge", "DIALOGUE", "BROKEN"], b"", b"FAULT 30 0\n", b"", 3),
    (["judge", "CUT", "TABLE"], b"", b"FAULT 21 28\n", b"", 3),
    (["judge", "CUT", "BROKEN"], b"", b"FAULT 30 0\n", b"", 3),
    (["judge", NONE, "TABLE"], b"", b"FAULT 23 0\n", SOME, 3),
    (["judge", "DIALOGUE", NONE], b"", b"FAULT 23 0\n", SOME, 3),
    (["judge", NONE, "BROKEN"], b"", b"FAULT 30 0\n", SOME, 3),
    (["judge", "DIALOGUE"], b"", b"", SOME, 4),
    (["judge", "DIALOGUE", "TABLE", "x"], b"", b"", SOME, 4),
    (["judge", "--help"], b"", SOME, b"", 0),
    # Without a certificate, with a verdict on each end.
    (["blame", "DIALOGUE", "TABLE"], b"", b"LAWFUL 2\nLAWFUL A 2 unheard 0\nLAWFUL B 2 unheard 0\n", b"", 0),
    (["blame", "DIALOGUE", "BROKEN"], b"", b"FAULT 30 0\n", b"", 3),
    (["blame", "CUT", "TABLE"], b"", b"FAULT 21 28\n", b"", 3),
    (["blame", "CUT", "BROKEN"], b"", b"FAULT 30 0\n", b"", 3),
    (["blame", NONE, "TABLE"], b"", b"FAULT 23 0\n", SOME, 3),
    (["blame", "DIALOGUE", NONE], b"", b"FAULT 23 0\n", SOME, 3),
    (["blame", NONE, "BROKEN"], b"", b"FAULT 30 0\n", SOME, 3),
    (["blame", "TABLE", "DIALOGUE"], b"", b"FAULT 30 0\n", SOME, 3),
    (["blame"], b"", b"", SOME, 4),
    (["blame", "DIALOGUE"], b"", b"", SOME, 4),
    (["blame", "DIALOGUE", "TABLE", "x"], b"", b"", SOME, 4),
    (["blame", "DIALOGUE", "TABLE", "--cert"], b"", b"", SOME, 4),
    (["blame", "--help"], b"", SOME, b"", 0),
    # One end alone.
    (["check", "--end", "A", "DIALOGUE", "TABLE", "CERT"], b"", b"LAWFUL 2 unheard 0\n", b"", 0),
    (["check", "DIALOGUE", "TABLE", "LATE", "--end", "A"], b"", b"LAWFUL 2 unheard 0\n", b"", 0),
    (["check", "--end=B", "DIALOGUE", "TABLE", "LATE"], b"", b"NOT SHOWN 1 65/40\n", b"", 2),
    (["check", "--end", "A", "CUT", "TABLE", "BROKEN"], b"", b"FAULT 60 0\n", b"", 3),
    (["check", "--end", "A", "CUT", "BROKEN", "BROKEN"], b"", b"FAULT 30 0\n", b"", 3),
    (["check", "--end", "A", "CUT", "TABLE", "CERT"], b"", b"FAULT 21 28\n", b"", 3),
    (["check", "--end", "A", NONE, "TABLE", "CERT"], b"", b"FAULT 23 0\n", SOME, 3),
    (["judge", "--end", "B", "DIALOGUE", "TABLE", "--cert"], b"", b"LAWFUL 2 unheard 0\n" + CERT + b"\n", b"", 0),
    (["judge", "--end", "A", "CUT", "TABLE"], b"", b"FAULT 21 28\n", b"", 3),
    (["judge", "--end", "A", "DIALOGUE", "BROKEN"], b"", b"FAULT 30 0\n", b"", 3),
    (["judge", "--end", "A", "DIALOGUE", NONE], b"", b"FAULT 23 0\n", SOME, 3),
    (["judge", "--end", "C", "DIALOGUE", "TABLE"], b"", b"", SOME, 4),
    (["judge", "--end", "a", "DIALOGUE", "TABLE"], b"", b"", SOME, 4),
    (["judge", "--end", "DIALOGUE", "TABLE"], b"", b"", SOME, 4),
    (["judge", "DIALOGUE", "TABLE", "--end"], b"", b"", SOME, 4),
    (["judge", "--end", "A", "--end", "B", "DIALOGUE", "TABLE"], b"", b"", SOME, 4),
    (["blame", "--end", "A", "DIALOGUE", "TABLE"], b"", b"", SOME, 4),
    (["check", "DIALOGUE", "TABLE"], b"", b"", SOME, 4),
    (["check", "DIALOGUE", "TABLE", "CERT", "x"], b"", b"", SOME, 4),
    (["--version"], b"", version(), b"", 0),
    ([b"\xff"], b"", b"", b"error: a word of the command is not text: word 1\n", 4),
    (["test", "--json", "x", b"y\xff", "-", b"\xff"], b"", b"", b"error: a word of the command is not text: word 4\n", 4),
    (["show", "x" * 131_071, b"\xff"], b"", b"", b"error: a word of the command is not text: word 3\n", 4),
    (["show", b"x" * 131_070 + b"\xff"], b"", b"", b"error: a word of the command is not text: word 2\n", 4),
    (["--help"], b"", SOME, b"", 0),
    (["help"], b"", SOME, b"", 0),
    (["show", "--help"], b"", SOME, b"", 0),
    (["pack", "--help"], b"", SOME, b"", 0),
    (["check", "--help"], b"", SOME, b"", 0),
]

# Runs with a standard output that takes nothing: a full device, and a pipe that nobody reads.
FULL = [
    (["pack"], LINES, 3),
    (["show"], BEGIN, 3),
    (["show"], BEGIN * 2000, 3),
    (["check", "DIALOGUE", "TABLE", "CERT"], b"", 3),
    (["check", "DIALOGUE", "TABLE", "LATE"], b"", 3),
    (["judge", "DIALOGUE", "TABLE", "--cert"], b"", 3),
    (["blame", "DIALOGUE", "TABLE"], b"", 3),
    (["explain", "DIALOGUE", "TABLE"], b"", 3),
    (["table", "TABLE"], b"", 3),
    (["check", "--end", "A", "DIALOGUE", "TABLE", "CERT"], b"", 3),
    (["judge", "--end", "A", "DIALOGUE", "TABLE", "--cert"], b"", 3),
    (["--help"], b"", 3),
    (["--version"], b"", 3),
    (["shew"], b"", 4),
]

# An example, the table of examples/tables to judge it by, the output, and the exit status.
TABLES = [
    ("ussd", "ussd", b"LAWFUL 4\n", 0),
    ("ussd", "map", b"LAWFUL 4\n", 0),
    ("password", "map", b"LAWFUL 8\n", 0),
    ("password", "ussd", b"REFUTED 0 F6\n", 1),
    ("announcement", "cap", b"LAWFUL 4\n", 0),
]


@contextlib.contextmanager
def closed_pipe():
    """Yields the writing end of a pipe whose reading end is closed."""
    reading, writing = os.pipe()
    os.close(reading)
    with open(writing, "wb") as pipe:
        yield pipe


def are_whole(folder, names):
    """Returns whether these files still have their content."""
    for name in names:
        with open(f"{folder}/{name}", "rb") as file:
            if file.read() != FILES[name]:
                return False
    return True


DEVICES = [("that is full", lambda: open("/dev/full", "wb")), ("that is closed", closed_pipe)]


def is_wanted(found, wanted):
    return found != b"" if wanted is SOME else found == wanted


def run_with(folder, words, given, **how):
    """Runs the program with these words; names in FILES become files of that folder."""
    words = [f"{folder}/{word}" if word in FILES else word for word in words]
    return subprocess.run([PROGRAM, *words], input=given, check=False, **how)


def wrong_in(folder):
    """Returns how many runs are wrong, and prints each of them."""
    wrong = 0
    for words, given, out, error, status in ROWS:
        run = run_with(folder, words, given, capture_output=True)
        if not (is_wanted(run.stdout, out) and is_wanted(run.stderr, error) and run.returncode == status):
            wrong += 1
            print(f"{words}: {run.returncode} {run.stdout} {run.stderr}")
    # If no standard stream is open, files get their numbers: output must not go into one of these.
    for words, _, status in FULL:
        words = [f"{folder}/{word}" if word in FILES else word for word in words]
        run = subprocess.run(["sh", "-c", 'exec "$@" <&- >&- 2>&-', "sh", PROGRAM, *words], check=False)
        if run.returncode != status or not are_whole(folder, ["DIALOGUE", "TABLE", "CERT", "LATE"]):
            wrong += 1
            print(f"{words}, no stream is open: {run.returncode}")
    for name, device in DEVICES:
        for words, given, status in FULL:
            with device() as full:
                run = run_with(folder, words, given, stdout=full, stderr=subprocess.PIPE)
            # After the failure nothing may be printed, except what is wrong with the words.
            if run.returncode != status or (status != 4 and run.stderr):
                wrong += 1
                print(f"{words}, standard output {name}: {run.returncode} {run.stderr}")
        # Packed octets go out even if standard error takes nothing, and wrong words are still wrong.
        with device() as full:
            run = run_with(folder, ["pack"], LINES + b"x\n", stdout=subprocess.PIPE, stderr=full)
            words = run_with(folder, ["shew"], b"", stdout=subprocess.PIPE, stderr=full)
        if run.stdout != BEGIN or run.returncode != 3 or words.stdout or words.returncode != 4:
            wrong += 1
            print(f"standard error {name}: {run.returncode} {run.stdout}, {words.returncode} {words.stdout}")
    return wrong


def written(folder, record, table):
    """Writes a record and its operation table to files, and returns the paths."""
    paths = [f"{folder}/judged", f"{folder}/judged.table"]
    for path, octets in zip(paths, (record, table)):
        with open(path, "wb") as file:
            file.write(octets)
    return paths


def said(words):
    """Returns the program's output on both streams with these words, and its exit status."""
    run = subprocess.run([PROGRAM, *words], input=b"", capture_output=True, check=False)
    return run.stdout, run.stderr, run.returncode


def misjudged_in(folder):
    """Returns how many rows of judged.py and blamed.py are wrong, and prints each of them."""
    wrong = 0
    for rows, word, flags in (judged, "judge", ["--cert"]), (blamed, "blame", []):
        for number, (record, table, printed, status) in enumerate(rows.rows()):
            found = said([word, *written(folder, record, table), *flags])
            if found != (printed, b"", status):
                wrong += 1
                print(f"row {number} of {rows.__name__}.py: {found}")
    return wrong


def misblamed_in(folder):
    """Returns how many records of faults.json are wrong, and prints each of them."""
    wrong = 0
    for name, record, table, faults in blamed.faults():
        paths = written(folder, record, table)
        line = said(["judge", *paths])[0].decode().removesuffix("\n")
        ends = {end: said(["judge", "--end", end, *paths])[0].decode().removesuffix("\n") for end in faults}
        count = blamed.count_of(said(["show", paths[0]])[0])
        lines = blamed.lines_of(faults, ends, count)
        lines = [blamed.first_line(line, lines, count), *lines]
        wanted = "".join(f"{line}\n" for line in lines).encode(), b"", blamed.status_of(lines)
        found = said(["blame", *paths])
        if found != wanted:
            wrong += 1
            print(f"{name}: {found}, not {wanted}")
    return wrong


def missaid_in(folder):
    """Returns how many rows of alone.py are wrong, and prints each of them."""
    wrong = 0
    for number, (words, record, table, cert, printed, status) in enumerate(alone.rows()):
        paths = written(folder, record, table)
        if cert is not None:
            paths.append(f"{folder}/judged.cert")
            with open(paths[2], "wb") as file:
                file.write(cert)
        found = said([*words, *paths])
        if found != (printed, b"", status):
            wrong += 1
            print(f"row {number} of alone.py, {words}: {found}, not {printed}")
    for name, record, table, ends in alone.known():
        for end, line in ends.items():
            found = said(["judge", "--end", end, *written(folder, record, table)])
            if found != (f"{line}\n".encode(), b"", alone.STATUSES[line.split()[0]]):
                wrong += 1
                print(f"{name}, {end}: {found}, not {line}")
    return wrong


def unlawful_in(folder):
    """Returns how many rows of TABLES are wrong, and prints each of them."""
    wrong = 0
    for name, table, printed, status in TABLES:
        with open(f"{folder}/tabled", "wb") as file:
            subprocess.run([PROGRAM, "pack", f"examples/{name}.hex"], stdout=file, check=False)
        words = ["judge", f"{folder}/tabled", f"examples/tables/{table}.json"]
        run = subprocess.run([PROGRAM, *words], input=b"", capture_output=True, check=False)
        if run.stdout != printed or run.returncode != status:
            wrong += 1
            print(f"{name} by {table}: {run.returncode} {run.stdout} {run.stderr}")
    return wrong


def content(path):
    """Returns the octets of the file with this path, or None if there is none."""
    if not os.path.exists(path):
        return None
    with open(path, "rb") as file:
        return file.read()


def packed_in(folder):
    """Returns how many runs of `pack -o` there are and how many are wrong, and prints each of these. A file is written only if no line has a
    fault; otherwise it stays as it is."""
    fine, bad, none = f"{folder}/LINES", f"{folder}/bad", f"{folder}/NONE"
    out, link, dangling = f"{folder}/record", f"{folder}/linked", f"{folder}/dangling"
    old = b"a record from before"
    with open(bad, "wb") as file:
        file.write(LINES + b"x\n")
    os.symlink("record", link)
    os.symlink("NONE", dangling)
    cases = [
        ("a new file", [fine], out, None, (0, BEGIN)),
        ("a file that is longer", [fine], out, BEGIN * 9, (0, BEGIN)),
        ("of the standard input", [], out, None, (0, BEGIN)),
        ("by a link", [fine], link, old, (0, BEGIN)),
        ("a fault", [bad], out, None, (3, None)),
        ("a fault, and a file from before", [bad], out, old, (3, old)),
        ("a fault, by a link", [bad], link, old, (3, old)),
        ("no lines", [none], out, old, (3, old)),
        ("no lines, and a link to them", [none], dangling, None, (3, None)),
        ("no lines, by another path of the file", [f"{folder}/./NONE"], none, None, (3, None)),
        ("a folder that is missing", [fine], f"{folder}/NONE/record", None, (3, None)),
        ("a folder", [fine], folder, None, (3, None)),
        ("over the lines", [out], out, LINES, (3, LINES)),
        ("over the lines, by a link", [out], link, LINES, (3, LINES)),
        ("-", [fine], "-", None, (4, None)),
    ]
    told = {
        "over the lines": f"error: {out} is both the record to write and a file to read\n",
        "over the lines, by a link": f"error: {link} is both the record to write and a file to read\n",
    }
    wrong = 0
    for name, words, path, before, wanted in cases:
        for flag in ["-o", path], ["--output", path], [f"-o{path}"], [f"--output={path}"]:
            with contextlib.suppress(FileNotFoundError):
                os.remove(out)
            if before is not None:
                with open(out, "wb") as file:
                    file.write(before)
            run = subprocess.run([PROGRAM, "pack", *flag, *words], input=LINES, capture_output=True, check=False)
            is_said = (run.stderr != b"") == (wanted[0] != 0) and told.get(name, run.stderr.decode()) == run.stderr.decode()
            found = None if path == folder else content(path)
            if (run.returncode, found) != wanted or run.stdout or not is_said:
                wrong += 1
                print(f"pack -o, {name}: {run.returncode} {found} {run.stdout} {run.stderr}")
    # A device that is full is no file to remove; a standard stream is no file to write over.
    run = subprocess.run([PROGRAM, "pack", "-o", "/dev/full", fine], capture_output=True, check=False)
    if run.returncode != 3 or not run.stderr or not os.path.exists("/dev/full"):
        wrong += 1
        print(f"pack -o /dev/full: {run.returncode} {run.stderr}")
    for stream, name in ("stdout", "standard output"), ("stderr", "standard error"):
        with open(out, "wb") as file:
            file.write(old)
            file.flush()
            streams = {"stdout": subprocess.PIPE, "stderr": subprocess.PIPE, stream: file}
            run = subprocess.run([PROGRAM, "pack", "-o", out, fine], check=False, **streams)
        # If standard error is the file, it has the fault after what it had.
        found = content(out) + (run.stderr or b"")
        if (run.returncode, found) != (3, old + f"error: {out} is both the record to write and {name}\n".encode()):
            wrong += 1
            print(f"pack -o over {stream}: {run.returncode} {found}")
    return 4 * len(cases) + 3, wrong


def main():
    with tempfile.TemporaryDirectory() as folder:
        for name, octets in FILES.items():
            with open(f"{folder}/{name}", "wb") as file:
                file.write(octets)
        wrong = wrong_in(folder) + misjudged_in(folder) + misblamed_in(folder) + missaid_in(folder) + unlawful_in(folder)
        packs, wrong_packs = packed_in(folder)
        wrong += wrong_packs
    ends = len(list(alone.rows())) + 2 * len(list(alone.known()))
    judgements = len(judged.ROWS) + len(blamed.ROWS) + len(list(blamed.faults())) + ends + len(TABLES)
    print(f"{len(ROWS) + len(FULL) + len(DEVICES) * (len(FULL) + 1) + judgements + packs - wrong} passed, {wrong} failed")
    return int(wrong != 0)


if __name__ == "__main__":
    sys.exit(main())
