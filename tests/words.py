"""Runs the built program over planted faults, and checks its words about each: `show --why`, the rule and the column
of `pack`, `show --lines`, `table`, the hints for files given by mistake, and help. The wanted texts were worked out by
hand from the standard. Then it changes messages at random: `show --why` must print the lines of `show`, and mark the
octet at the place of each fault."""

import concurrent.futures
import itertools
import json
import os
import random
import re
import subprocess
import sys
import tempfile

import rooms  # noqa: F401
from looks import GIVEN, LOOKS, SHOWN_LOOKS, SWAPPED
from table_rows import BOOKS, TABLES
from tested import PROGRAM

# The number of octets that are shown on each side of a place.
SIDE = 8

INVOKE = "Begin / components / Invoke"
DIALOGUE = "Begin / dialogue portion / EXTERNAL"
PDU = f"{DIALOGUE} / single ASN.1 type"
# The abstract syntax of dialogues, an application context name, and 32 elements of indefinite length.
SYNTAX = "06 07 00 11 86 05 01 01 01"
CONTEXT = "A1 09 06 07 04 00 00 01 00 13 02"
OPEN = "30 80 " * 32

# The number of a reason, its name, the octets of a message with brackets around the one at the fault's place, the path,
# and the message's kind and IDs as far as they can be read.
BAD = [
    (2, "bad length octet", "62 03 48 [85] 01", "Begin / originating transaction ID", "Begin"),
    (2, "bad length octet", "62 07 48 01 01 6C 02 A1 [FF]", INVOKE, "Begin otid=01"),
    (
        2,
        "bad length octet",
        "64 0A 49 01 07 6C 05 A2 03 02 [86] 00",
        "End / components / ReturnResultLast / invoke ID",
        "End dtid=07",
    ),
    (3, "content too long", "62 07 [48] 83 01 00 00 01 02", "Begin / originating transaction ID", "Begin"),
    (3, "content too long", "62 0A 48 01 01 [6C] 83 01 00 00 A1 00", "Begin / components", "Begin otid=01"),
    (3, "content too long", "64 0C 49 01 07 6C 07 [A1] 84 00 01 00 00 00", "End / components / Invoke", "End dtid=07"),
    (4, "tag too long", "62 08 [5F] 81 81 81 81 01 01 00", "Begin / originating transaction ID", "Begin"),
    (
        4,
        "tag too long",
        "62 14 48 01 01 6C 0F A1 0D 02 01 01 02 01 2D [1F] 81 81 81 81 01 00",
        f"{INVOKE} / parameter",
        "Begin otid=01",
    ),
    (
        4,
        "tag too long",
        "64 14 49 01 07 6C 0F A3 0D 02 01 01 02 01 06 [1F] 85 85 85 85 05 00",
        "End / components / ReturnError / parameter",
        "End dtid=07",
    ),
    (5, "element past its end", "62 03 [48] 04 01", "Begin / originating transaction ID", "Begin"),
    (5, "element past its end", "62 0A 48 01 01 6C 05 A1 03 [02] 02 01", f"{INVOKE} / invoke ID", "Begin otid=01"),
    (5, "element past its end", "62 07 48 01 01 6C 02 [A1] 05", INVOKE, "Begin otid=01"),
    (5, "element past its end", "62 0A 48 01 01 6C 05 [A1] 80 02 01 01", INVOKE, "Begin otid=01"),
    (6, "bad INTEGER", "62 09 48 01 01 6C 04 A1 02 [02] 00", f"{INVOKE} / invoke ID", "Begin otid=01"),
    (
        6,
        "bad INTEGER",
        "62 0E 48 01 01 6C 09 A1 07 02 01 01 [02] 02 00 2D",
        f"{INVOKE} / operation code",
        "Begin otid=01",
    ),
    (
        6,
        "bad INTEGER",
        "64 0C 49 01 07 6C 07 A4 05 02 01 01 [80] 00",
        "End / components / Reject / general problem",
        "End dtid=07",
    ),
    (
        7,
        "bad OBJECT IDENTIFIER",
        "62 0C 48 01 01 6C 07 A1 05 02 01 01 [06] 00",
        f"{INVOKE} / operation code",
        "Begin otid=01",
    ),
    (
        7,
        "bad OBJECT IDENTIFIER",
        "62 0D 48 01 01 6C 08 A1 06 02 01 01 [06] 01 81",
        f"{INVOKE} / operation code",
        "Begin otid=01",
    ),
    (
        7,
        "bad OBJECT IDENTIFIER",
        "64 0F 49 01 07 6C 0A A3 08 02 01 01 [06] 03 2A 80 01",
        "End / components / ReturnError / error code",
        "End dtid=07",
    ),
    (8, "unexpected tag", "[63] 03 48 01 01", "message", None),
    (8, "unexpected tag", "62 03 [49] 01 01", "Begin / originating transaction ID", "Begin"),
    (
        8,
        "unexpected tag",
        "62 0D 48 01 01 6C 08 A1 06 02 01 01 [30] 01 2D",
        f"{INVOKE} / operation code",
        "Begin otid=01",
    ),
    (8, "unexpected tag", "62 07 48 01 01 6C 02 [A5] 00", "Begin / components / component", "Begin otid=01"),
    (9, "missing element", "62 00 []", "Begin / originating transaction ID", "Begin"),
    (9, "missing element", "62 80 [00] 00", "Begin / originating transaction ID", "Begin"),
    (9, "missing element", "65 03 48 01 01 []", "Continue / destination transaction ID", "Continue otid=01"),
    (
        9,
        "missing element",
        "62 12 48 01 01 6C 0D A1 03 02 01 01 [A1] 06 02 01 02 02 01 2D",
        f"{INVOKE} / operation code",
        "Begin otid=01",
    ),
    (
        9,
        "missing element",
        f"64 24 49 01 07 6B 1F 28 1D {SYNTAX} A0 12 61 10 {CONTEXT} A2 03 02 01 00 []",
        "End / dialogue portion / EXTERNAL / single ASN.1 type / AARE / diagnostic",
        "End dtid=07",
    ),
    (10, "octets behind the last element", "62 05 48 01 01 [04] 00", "Begin", "Begin otid=01"),
    (
        10,
        "octets behind the last element",
        "64 0F 49 01 07 6C 0A A4 08 02 01 01 80 01 00 [02] 00",
        "End / components / Reject",
        "End dtid=07",
    ),
    (
        10,
        "octets behind the last element",
        "62 11 48 01 01 6C 0C A1 0A 02 01 01 02 01 2D 04 00 [04] 00",
        INVOKE,
        "Begin otid=01",
    ),
    (10, "octets behind the last element", "67 08 49 01 07 4A 01 04 [6B] 00", "Abort", "Abort dtid=07"),
    (11, "empty component portion", "62 05 48 01 01 [6C] 00", "Begin / components", "Begin otid=01"),
    (11, "empty component portion", "61 02 [6C] 00", "Unidirectional / components", "Unidirectional"),
    (
        11,
        "empty component portion",
        "65 08 48 01 01 49 01 07 [6C] 00",
        "Continue / components",
        "Continue otid=01 dtid=07",
    ),
    (
        12,
        "bad protocol version",
        f"62 23 48 01 01 6B 1E 28 1C {SYNTAX} A0 11 60 0F [80] 02 07 00 {CONTEXT}",
        f"{PDU} / AARQ or AUDT / protocol version",
        "Begin otid=01",
    ),
    (
        12,
        "bad protocol version",
        f"62 21 48 01 01 6B 1C 28 1A {SYNTAX} A0 0F 60 0D [80] 00 {CONTEXT}",
        f"{PDU} / AARQ or AUDT / protocol version",
        "Begin otid=01",
    ),
    (
        12,
        "bad protocol version",
        f"62 23 48 01 01 6B 1E 28 1C {SYNTAX} A0 11 60 0F [80] 02 08 80 {CONTEXT}",
        f"{PDU} / AARQ or AUDT / protocol version",
        "Begin otid=01",
    ),
    (
        13,
        "bad dialogue syntax",
        f"62 1F 48 01 01 6B 1A 28 18 [06] 07 00 11 86 05 01 03 01 A0 0D 60 0B {CONTEXT}",
        f"{DIALOGUE} / abstract syntax",
        "Begin otid=01",
    ),
    (
        13,
        "bad dialogue syntax",
        f"62 1F 48 01 01 6B 1A 28 18 {SYNTAX} [A1] 0D 60 0B {CONTEXT}",
        PDU,
        "Begin otid=01",
    ),
    (
        13,
        "bad dialogue syntax",
        f"62 1F 48 01 01 6B 1A 28 18 {SYNTAX} A0 0D [62] 0B {CONTEXT}",
        f"{PDU} / PDU",
        "Begin otid=01",
    ),
    (
        14,
        "bad size",
        "62 0E 48 01 01 6C 09 A1 07 [02] 02 01 00 02 01 2D",
        f"{INVOKE} / invoke ID",
        "Begin otid=01",
    ),
    (14, "bad size", "67 06 49 01 07 [4A] 01 FF", "Abort / P-Abort cause", "Abort dtid=07"),
    (
        14,
        "bad size",
        "64 0D 49 01 07 6C 08 A4 06 [05] 01 00 80 01 00",
        "End / components / Reject / NULL",
        "End dtid=07",
    ),
    (15, "bad transaction ID", "62 02 [48] 00", "Begin / originating transaction ID", "Begin"),
    (15, "bad transaction ID", "62 07 [48] 05 01 02 03 04 05", "Begin / originating transaction ID", "Begin"),
    (15, "bad transaction ID", "65 05 48 01 01 [49] 00", "Continue / destination transaction ID", "Continue otid=01"),
    (15, "bad transaction ID", "65 05 [48] 00 49 01 07", "Continue / originating transaction ID", "Continue dtid=07"),
    (15, "bad transaction ID", "67 02 [49] 00", "Abort / destination transaction ID", "Abort"),
    (
        16,
        "indefinite length of a primitive element",
        "62 04 48 [80] 00 00",
        "Begin / originating transaction ID",
        "Begin",
    ),
    (
        16,
        "indefinite length of a primitive element",
        "62 0B 48 01 01 6C 06 A1 04 02 [80] 00 00",
        f"{INVOKE} / invoke ID",
        "Begin otid=01",
    ),
    (
        16,
        "indefinite length of a primitive element",
        "62 11 48 01 01 6C 0C A1 0A 02 01 01 02 01 2D 04 [80] 00 00",
        f"{INVOKE} / parameter",
        "Begin otid=01",
    ),
    (
        17,
        "code too wide",
        "62 11 48 01 01 6C 0C A1 0A 02 01 01 [02] 05 01 00 00 00 00",
        f"{INVOKE} / operation code",
        "Begin otid=01",
    ),
    (
        17,
        "code too wide",
        "64 11 49 01 07 6C 0C A3 0A 02 01 01 [02] 05 01 00 00 00 00",
        "End / components / ReturnError / error code",
        "End dtid=07",
    ),
    (
        17,
        "code too wide",
        "64 13 49 01 07 6C 0E A2 0C 02 01 01 30 07 [02] 05 01 00 00 00 00",
        "End / components / ReturnResultLast / result / operation code",
        "End dtid=07",
    ),
    (
        18,
        "elements open too deep",
        f"62 4F 48 01 01 6C 4A A1 48 02 01 01 02 01 2D {OPEN} [30] 80",
        f"{INVOKE} / parameter" + " / element" * 32,
        "Begin otid=01",
    ),
    (
        18,
        "elements open too deep",
        f"64 51 49 01 07 6C 4C A2 4A 02 01 01 30 45 02 01 2D {OPEN} [30] 80",
        "End / components / ReturnResultLast / result / parameter" + " / element" * 32,
        "End dtid=07",
    ),
    (
        18,
        "elements open too deep",
        f"62 4B 48 01 01 6C 80 A1 80 02 01 01 02 01 2D {OPEN[12:]} [30] 80",
        f"{INVOKE} / parameter" + " / element" * 30,
        # The Begin itself can be read.
        "Begin otid=01",
    ),
]

# Records with a fault of the record: the number, the name, and the octets with brackets around the one at the place.
FRAMED = [
    (20, "no end and no quiet mark", "41 62 03 48 01 01 [43] 62 03"),
    (20, "no end and no quiet mark", "51 41 62 05 48 01 01 6C 00 51 51 42 62 03 48 01 02 [00]"),
    (20, "no end and no quiet mark", "[62] 03 48 01 01"),
    (21, "cut record", "41 62 03 48 01 []"),
    (21, "cut record", "42 []"),
    (21, "cut record", "51 41 62 80 48 01 01 00 []"),
    (2, "bad length octet", "41 62 [85]"),
    (2, "bad length octet", "51 41 62 80 48 [FF] 01 01 01 01 01 01 01 01 01 01"),
    (2, "bad length octet", "42 7F 81 01 [90]"),
    (3, "content too long", "41 [62] 83 01 00 00"),
    (3, "content too long", "51 51 42 [64] 84 00 01 00 00 49"),
    (3, "content too long", "41 62 80 [48] 83 FF FF 00"),
    (4, "tag too long", "41 [7F] 81 81 81 81 01"),
    (4, "tag too long", "51 41 62 80 [1F] 81 81 81 81 81"),
    (4, "tag too long", "42 [DF] FF FF FF FF FF"),
    (16, "indefinite length of a primitive element", "41 48 [80]"),
    (16, "indefinite length of a primitive element", "41 62 80 48 [80] 00 00"),
    (16, "indefinite length of a primitive element", "42 04 [80] 01"),
    (18, "elements open too deep", f"41 {OPEN} [30] 80"),
    (18, "elements open too deep", f"51 42 {OPEN} [30] 80"),
    (18, "elements open too deep", f"41 62 80 48 01 01 {OPEN[6:]} [30] 80"),
    (22, "too many entries", "51 " * 100_000 + "[51]"),
]

GOOD = "A 6203480101\n"
SHOWN = "0 A Begin otid=01\n"
# Lines of digits with a bad last line: the lines, its number, what is wrong, and the column, counted from 1.
LINES = [
    ("C 6203480101", 1, "no end", 1),
    (f"{GOOD}a 6203480101", 2, "no end", 1),
    ("# A line.\n\n 6203480101", 3, "no end", 1),
    ("A6203480101", 1, "no space behind the end", 2),
    (f"{GOOD}B", 2, "no space behind the end", 2),
    ("A\t6203480101", 1, "no space behind the end", 2),
    ("Q ", 1, "octets behind the quiet mark", 2),
    (f"{GOOD}QQ", 2, "octets behind the quiet mark", 2),
    ("A ", 1, "no digit", 3),
    ("A  6203480101", 1, "no digit", 3),
    ("A 6203480101 ", 1, "no digit", 13),
    (f"{GOOD}B 62034x0101", 2, "no digit", 8),
    ("B 62-03", 1, "no digit", 5),
    ("A 620348010", 1, "odd count of digits", 11),
    (f"{GOOD}Q\nB 6", 3, "odd count of digits", 3),
    ("B 62034801011", 1, "odd count of digits", 13),
    ("A 62034801", 1, "the element is cut", 11),
    (f"{GOOD}B 62", 2, "the element is cut", 5),
    ("A 6280480101", 1, "the element is cut", 13),
    ("A 620348010100", 1, "octets behind the element", 13),
    (f"{GOOD}B 62006200", 2, "octets behind the element", 7),
    ("A 628048010100006C", 1, "octets behind the element", 17),
    ("A 6285", 1, "no element: bad length octet", 5),
    (f"{GOOD}A 4880", 2, "no element: indefinite length of a primitive element", 5),
    ("A 7F818181810100", 1, "no element: tag too long", 3),
    ("B 62830100000102", 1, "no element: content too long", 3),
    ("A " + "0" * 131_091, 1, "line too long", 131_093),
    (f"{GOOD}#" + "x" * 131_092, 2, "line too long", 131_093),
    ("\n" * 1_000_000 + "A 6203480101", 1_000_001, "too many lines", 1),
]

LINES_HINT = "  hint: this looks like lines of hexadecimal digits, which `tcapjudge show --lines` reads\n"
ANSI_HINT = "  hint: this looks like TCAP of ANSI (T1.114), and a record holds that of ITU-T (Q.773)\n"
SCCP_HINT = "  hint: this looks like SCCP, and an entry of a record holds the TCAP message in it\n"
M3UA_HINT = "  hint: this looks like M3UA, and an entry of a record holds the TCAP message in it\n"
RECORD_HINT = "  hint: this looks like a record, which `tcapjudge show` prints\n"
# Files given as a record, and the hint that is wanted.
WRONG = [
    (GOOD.encode(), LINES_HINT),
    (b"# A record.\n\nB 6203480101\n", LINES_HINT),
    (b"Q\nA 6203480101\n", LINES_HINT),
    (b"# Nothing else.\n", LINES_HINT),
    # Query with permission, and a response, of T1.114, with and without the octet of an end.
    (bytes.fromhex("41e206c70401020304"), ANSI_HINT),
    (bytes.fromhex("42e406c70401020304"), ANSI_HINT),
    (bytes.fromhex("e206c70401020304"), ANSI_HINT),
    (bytes.fromhex("41f606c70401020304"), ANSI_HINT),
    # UDT and XUDT of Q.713, and UDTS.
    (bytes.fromhex("4109000305070242060242080a6203480101"), SCCP_HINT),
    (bytes.fromhex("09810305070242060242080a6203480101"), SCCP_HINT),
    (bytes.fromhex("4111000f04060800024206024208056203480101"), SCCP_HINT),
    (bytes.fromhex("420a010305070242060242080a6203480101"), SCCP_HINT),
    # DATA of RFC 4666.
    (bytes.fromhex("4101000101000000180210001000000001000000020303000200"), M3UA_HINT),
    (bytes.fromhex("01000101000000180210001000000001000000020303000200"), M3UA_HINT),
    (bytes.fromhex("5142010001010000001802100010"), M3UA_HINT),
    # None of these.
    (bytes.fromhex("416203490101"), ""),
    (bytes.fromhex("6203480101"), ""),
    (bytes.fromhex("43"), ""),
    (bytes.fromhex("41620348"), ""),
]

# A record with more entries than `judge` takes: quiet marks, and a Begin with an Invoke, and the End with its result.
LONG = b"Q" * 100_000 + bytes.fromhex("41620d4801016c08a10602010102012d42640a4901016c05a203020101")
LONG_HINT = "this record has over 100,000 entries; `tcapjudge test` judges the dialogues of a trace of any length\n"
SEE_SHOW = "  why: the record: `tcapjudge show --why RECORD` says what is wrong\n"
# Words with that record in the place of `-`, and what is printed after the line of its fault.
JUDGES_LONG = [
    ("judge - table", ""),
    ("judge --end A - table", ""),
    ("blame - table", ""),
    ("check - table cert", ""),
    ("check --end B - table cert", ""),
    ("explain - table", SEE_SHOW),
    ("explain - table cert", SEE_SHOW),
]
# The last line of `test` of that record.
LONG_PASSES = (
    "1 trace: 1 pass, 0 inconc, 0 fail, 0 error; 2 messages, 1 dialogue: 1 pass, 0 inconc, 0 fail, 0 error; 0 pass unheard or unanswered"
)

STATUSES = """Exit statuses:
  0  nothing is wrong: LAWFUL, or all was printed or packed
  1  REFUTED; for `blame`, only BLAMED
  2  NOT SHOWN, UNDECIDED, or REFUTED and `blame` blames no end
  3  a fault was printed, or the output could not be written
  4  the command line is wrong
For `test`: 0 if all pass, 1 if a dialogue fails, 2 if one is inconclusive, 3 if there is an error
"""
# Words, and the end of their help.
HELP = [
    (["help"], STATUSES),
    (["--help"], STATUSES),
    (["show", "--help"], "Example: tcapjudge show --why record\n"),
    (["pack", "--help"], "Example: tcapjudge pack -o record dialogue.hex\n"),
    (["check", "--help"], "Example: tcapjudge check record table.json cert.json\n"),
    (["judge", "--help"], "Example: tcapjudge judge record table.json --cert\n"),
    (["explain", "--help"], "Example: tcapjudge explain record table.json --chart run.html\n"),
    (["help", "explain"], "Example: tcapjudge explain record table.json --chart run.html\n"),
    (["blame", "--help"], "Example: tcapjudge blame record table.json\n"),
    (["table", "--help"], "Example: tcapjudge table table.json\n"),
    (["help", "table"], "Example: tcapjudge table table.json\n"),
]

# The subcommands in the order in which the help of the program lists them.
SUBCOMMANDS = ["show", "pack", "check", "judge", "explain", "blame", "table", "test", "help"]

# Words that print help or the version, and a part of that text.
PRINTED = [
    (["explain", "--help"], "Says in words why a record is lawful, refuted or undecided\n"),
    (["explain", "--help"], "Usage: tcapjudge explain [OPTIONS] <RECORD> <TABLE> [CERT]\n"),
    (["explain", "--help"], "Writes a chart of the run to this file, as a page of HTML"),
    (["explain", "--help"], "--end <END>"),
    (["explain", "--help"], "--chart <FILE>"),
    (["--help"], "Usage: tcapjudge"),
    (["-h"], "Usage: tcapjudge"),
    (["help"], "Usage: tcapjudge"),
    (["show", "--help"], "Usage: tcapjudge"),
    (["show", "x", "-h"], "Usage: tcapjudge"),
    (["pack", "--help"], "Usage: tcapjudge"),
    (["check", "--help"], "Usage: tcapjudge check [OPTIONS] <RECORD> <TABLE> <CERT>"),
    (["check", "--help"], "--end <END>"),
    (["judge", "--help"], "Judges this end alone, whatever its peer sends"),
    (["judge", "--help"], "Judges a record; `blame` and `test` say which end is at fault\n"),
    (["--help"], "Judges a record; `blame` and `test` say which end is at fault\n"),
    (["help", "explain"], "--chart <FILE>"),
    (["explain", "-h"], "--end <END>"),
    (["--version"], "tcapjudge 0.1.0"),
    (["-V"], "tcapjudge 0.1.0"),
    (["help", "show"], "Usage: tcapjudge"),
    (["help", "pack"], "Usage: tcapjudge"),
    (["help", "pack"], "Example: tcapjudge pack -o record dialogue.hex"),
    (["check", "-h"], "Example: tcapjudge check record table.json cert.json"),
    (["judge", "-h"], "Example: tcapjudge judge record table.json --cert"),
    (["explain", "-h"], "Example: tcapjudge explain record table.json --chart run.html"),
    (["blame", "-h"], "Example: tcapjudge blame record table.json"),
    (["table", "-h"], "Usage: tcapjudge table [TABLE]"),
    (["test", "--help"], "Usage: tcapjudge test [OPTIONS] <TRACE>..."),
    (["help", "test"], "Judges each dialogue of traces"),
    (["test", "-h"], "Example: tcapjudge test --table map.json traces/*.hex"),
    (["test", "--help"], "[possible values: again, settled, once]"),
    (["test", "--help"], "Writes a page with the dialogues that do not pass to this file"),
    *[([word, "--help"], "The file of the record; - is the standard input") for word in ("check", "judge", "explain", "blame")],
    *[([word, "--help"], "The file of the operation table; - is the standard input") for word in ("check", "judge", "explain", "blame")],
    *[([word, "--help"], "; by default, or if it is -, the standard input") for word in ("show", "pack")],
    (["check", "--help"], "The file of the certificate; - is the standard input"),
    (["explain", "--help"], "The file of a certificate to replay, or - for the standard input"),
    (["table", "--help"], "The file of a table or a book of them; - is the standard input"),
    (["test", "--help"], "The file of a table, or of a book of them; - is the standard input"),
    (["test", "--help"], "The file of a trace; - is the standard input"),
]

# Wrong words, and a part of the error.
REFUSED = [
    (["table", "x", "y"], "unexpected argument 'y'"),
    (["show", "--why", "--why"], "cannot be used multiple times"),
    (["pack", "--why"], "unexpected argument '--why'"),
    (["show", "x", "--lines", "y"], "unexpected argument 'y'"),
    (["explain"], "<RECORD> <TABLE>"),
    (["explain", "x"], "<TABLE>"),
    (["explain", "x", "--chart", "y"], "<TABLE>"),
    (["explain", "x", "y", "z", "w"], "unexpected argument 'w'"),
    (["explain", "x", "y", "--chart"], "a value is required for '--chart <FILE>'"),
    (["explain", "x", "y", "--chart", "v", "--chart", "w"], "cannot be used multiple times"),
    (["explain", "--end", "C", "x", "y"], "invalid value 'C' for '--end <END>'"),
    (["explain", "x", "y", "--cert"], "unexpected argument '--cert'"),
    (["judge", "x", "y", "--chart", "v"], "unexpected argument '--chart'"),
    (["check", "--end", "C", "x", "y", "z"], "invalid value 'C' for '--end <END>'"),
    (["check", "--end", "a", "x", "y", "z"], "[possible values: A, B]"),
    (["check", "x", "y", "z", "--end"], "a value is required for '--end <END>'"),
    (["check", "--end", "A", "--end", "B", "x", "y", "z"], "cannot be used multiple times"),
    (["check", "--end", "A", "x", "y"], "<CERT>"),
    (["judge", "--end", "AB", "x", "y"], "invalid value 'AB' for '--end <END>'"),
    (["blame", "--end", "A", "x", "y"], "unexpected argument '--end'"),
    (["judge", "x"], "<TABLE>"),
    (["judge", "x", "y", "z"], "unexpected argument 'z'"),
    (["explain", "--chart", "x", "y"], "<TABLE>"),
    (["explain", "--end", "a", "x", "y"], "invalid value 'a' for '--end <END>'"),
    (["explain", "--chart", "v", "--chart", "w", "x", "y"], "cannot be used multiple times"),
    (["blame", "x"], "<TABLE>"),
    (["blame", "x", "y", "--cert"], "unexpected argument '--cert'"),
    (["test"], "<TRACE>"),
    (["test", "--table", "t"], "<TRACE>"),
    (["test", "--of", "C", "x"], "invalid value 'C' for '--of <END>'"),
    (["test", "--of", "a", "x"], "[possible values: A, B]"),
    (["test", "--ids", "never", "x"], "[possible values: again, settled, once]"),
    (["test", "--linger", "many", "x"], "invalid value 'many' for '--linger <N>'"),
    (["test", "--linger", "18446744073709551616", "x"], "invalid value '18446744073709551616' for '--linger <N>'"),
    (["test", "--linger", "1.5", "x"], "invalid value '1.5' for '--linger <N>'"),
    (["test", "x", "--table"], "a value is required for '--table <FILE>'"),
    (["test", "x", "--json"], "a value is required for '--json <FILE>'"),
    (["test", "x", "--html"], "a value is required for '--html <FILE>'"),
    (["test", "--ids", "once", "--ids", "once", "x"], "cannot be used multiple times"),
    (["test", "--linger", "1", "--linger", "1", "x"], "cannot be used multiple times"),
    (["test", "--json", "f", "--json", "g", "x"], "cannot be used multiple times"),
    (["test", "--html", "f", "--html", "g", "x"], "cannot be used multiple times"),
    (["judge", "x", "y", "--html", "h"], "unexpected argument '--html'"),
    (["test", "--complete", "--complete", "x"], "cannot be used multiple times"),
    (["test", "--heard", "--heard", "x"], "cannot be used multiple times"),
    (["test", "--end", "A", "x"], "unexpected argument '--end'"),
    (["judge", "--of", "A", "x", "y"], "unexpected argument '--of'"),
    ([], "requires a subcommand"),
    (["shew"], "unrecognized subcommand 'shew'"),
    (["show", "x", "y"], "unexpected argument 'y'"),
    (["pack", "x", "y"], "unexpected argument 'y'"),
    (["check"], "<RECORD> <TABLE> <CERT>"),
    (["check", "x", "y"], "<CERT>"),
    (["check", "x", "y", "z", "w"], "unexpected argument 'w'"),
    (["show", "--version"], "unexpected argument '--version'"),
    (["show", "-x"], "unexpected argument '-x'"),
    (["x"], "unrecognized subcommand 'x'"),
]


def marked(digits):
    """Returns the octets of such digits, and the place of the brackets."""
    words = digits.split()
    place = next(number for number, word in enumerate(words) if word.startswith("["))
    return bytes.fromhex("".join(words).replace("[", "").replace("]", "")), place


def around(octets, place):
    """Returns the octets around a place, as they are printed."""
    before = "".join(f"{octet:02x} " for octet in octets[max(0, place - SIDE) : place])
    behind = "".join(f" {octet:02x}" for octet in octets[place + 1 : place + 1 + SIDE])
    return f"{before}[{octets[place:place + 1].hex()}]{behind}"


def run(words, given=b""):
    """Returns the program's output with these words, and its status."""
    done = subprocess.run([PROGRAM, *words], input=given, capture_output=True, check=False)
    return done.stdout.decode(), done.stderr.decode(), done.returncode


class Rows:
    """The counts of rows that passed and failed; those that failed are printed."""

    def __init__(self):
        self.passed, self.failed = 0, 0

    def row(self, name, found, wanted):
        if found == wanted:
            self.passed += 1
        else:
            self.failed += 1
            print(f"{name}: {str(found)[:600]}, not {str(wanted)[:600]}")


def bad_entries(rows):
    """Checks each planted fault of a message: in an entry of A, and in a second entry, of B."""
    for reason, name, digits, path, kind in BAD:
        octets, place = marked(digits)
        parts = [name, f"place {place} of the message", path, f"octets {around(octets, place)}"]
        why = f"  why: {'; '.join(parts + [kind] * (kind is not None))}\n"
        first = run(["show", "--why"], b"A" + octets)
        rows.row(digits, first, (f"0 A FAULT {reason} {place + 1}\n{why}", "", 3))
        second = run(["show", "--why"], bytes.fromhex("416203480101") + b"B" + octets)
        rows.row(f"{digits}, second", second, (f"{SHOWN}1 B FAULT {reason} {place + 7}\n{why}", "", 3))


def bad_records(rows):
    """Checks each planted fault of a record. The entries before it are shown."""
    for reason, name, digits in FRAMED:
        octets, place = marked(digits)
        shown = run(["show"], octets)[0]
        line = f"FAULT {reason} {place}\n"
        why = f"  why: {name}; place {place} of the record; octets {around(octets, place)}\n"
        found = run(["show", "--why"], octets)
        # The second line of one of these is of an entry that is no message.
        lines = [part for part in found[0].splitlines(True) if not part.startswith("  why: empty")]
        rows.row(digits[:60], ("".join(lines), found[1:]), (shown + why, ("", 3)))
        rows.row(f"{digits[:60]}, its line", shown.splitlines(True)[-1], line)


def bad_lines(rows):
    """Checks each bad line, with `pack` and with `show --lines`, with and without a newline after it. The runs are
    parallel, since the unproved program takes long for a million lines."""
    asked = []
    for lines, number, rule, column in LINES:
        good = lines.startswith(GOOD)
        said = f"FAULT 24 {number}\n  why: {rule}; column {column}\n"
        packed = bytes.fromhex("416203480101" if good else "").decode("latin-1")
        shown = SHOWN if good else ""
        if "Q\nB 6" in lines:
            packed, shown = packed + "Q", shown + "1 Q\n"
        for end in "", "\n", "\nA 6203480101\n":
            given = (lines + end).encode()
            asked.append((["pack"], given, (packed, said, 3)))
            asked.append((["show", "--lines"], given, (shown + said, "", 3)))
    with concurrent.futures.ThreadPoolExecutor(os.cpu_count()) as lanes:
        found = lanes.map(lambda row: run(row[0], row[1]), asked)
        for (command, given, wanted), printed in zip(asked, found):
            rows.row(f"{command} {given[:40]!r}", printed, wanted)


def good_lines(rows, folder):
    """Checks that lines are shown alike after `pack` and in one step."""
    for name in sorted(os.listdir("examples")):
        if name.endswith(".hex"):
            path = f"{folder}/record"
            with open(path, "wb") as file:
                subprocess.run([PROGRAM, "pack", f"examples/{name}"], stdout=file, check=False)
            for flags in [], ["--why"]:
                rows.row(name, run(["show", "--lines", *flags, f"examples/{name}"]), run(["show", *flags, path]))
    rows.row("carriage return", run(["show", "--lines"], b"A 6203480101\r\nQ\r\n"), (f"{SHOWN}1 Q\n", "", 0))
    bad = b"A 62054801016C00\nA 6203480101\n"
    rows.row("lines", run(["show", "--lines"], bad), ("0 A FAULT 11 6\n1 A Begin otid=01\n", "", 3))
    why = "  why: empty component portion; place 5 of the message; Begin / components; octets 62 05 48 01 01 [6c] 00; "
    rows.row(
        "lines, why",
        run(["show", "--lines", "--why"], bad),
        (f"0 A FAULT 11 6\n{why}Begin otid=01\n1 A Begin otid=01\n", "", 3),
    )


def table_lines(number, table):
    """Returns the lines of a table of the carried set, which has names and only local codes."""
    lines = [f'table {number} name="{table["name"]}"'] + [f"context={context}" for context in table["contexts"]]
    for row in sorted(table["operations"], key=lambda row: row["code"]):
        linked = " linked=" + ",".join(map(str, row["linked"])) if "linked" in row else ""
        lines.append(f'op={row["code"]} class={row["class"]}{linked} name="{row["name"]}"')
    return "\n".join(lines + ["prearranged=true"] * table["prearranged"]) + "\n"


def tables(rows, folder):
    for number, (text, wanted, status) in enumerate(TABLES):
        path = f"{folder}/table"
        with open(path, "w", encoding="utf-8") as file:
            file.write(text)
        rows.row(f"table {number}", run(["table", path]), (wanted, "", status))
    for number, (text, *wanted) in enumerate(BOOKS):
        path = f"{folder}/book"
        with open(path, "w", encoding="utf-8") as file:
            file.write(text)
        rows.row(f"book {number}", run(["table", path]), tuple(wanted))
    with open("examples/tables/book.json", encoding="utf-8") as file:
        carried = "".join(map(table_lines, itertools.count(), json.load(file)["tables"]))
    rows.row("the carried book", run(["table"]), (carried, "", 0))
    why = "FAULT 23 0\n  why: the reader failed\n"
    text, told, status = run(["table", f"{folder}/none"])
    rows.row("no table", (text, told.startswith(f"error: {folder}/none: "), status), (why, True, 3))


def wrong_input(rows):
    for octets, hint in WRONG:
        shown = run(["show"], octets)
        rows.row(f"hint of {octets[:20]}", shown[1:], (hint, 3))
        why = run(["show", "--why"], octets)
        rows.row(f"hint of {octets[:20]}, why", (why[0].endswith(f"\n{hint}"), "hint" in why[0], why[1:]), (True, hint != "", ("", 3)))
    # Without a fault there is no hint.
    rows.row("no fault", run(["show"], b"Q"), ("0 Q\n", "", 0))


def told_as(path, look):
    return f"  hint: {path}: this looks like {look}\n"


def mistaken(rows, folder):
    """Gives each file of LOOKS to each word. If the file is of the wrong sort, a hint says so, and the status is 3."""
    for name, (octets, _, _) in LOOKS.items():
        with open(f"{folder}/{name}", "wb") as file:
            file.write(octets)
    paths = {name: f"{folder}/{name}" for name in LOOKS}
    for asked, role in GIVEN:
        for name, (_, look, roles) in LOOKS.items():
            look = SHOWN_LOOKS.get(name, look) if role == "shown" else look
            taken = {**paths, "-": paths[name]}
            command, *others = asked.split()
            out, error, status = run([command, *(taken.get(word, word) for word in others)])
            told = "".join(line for line in error.splitlines(True) if "hint" in line)
            if role in roles.split() or look is None:
                rows.row(f"{asked}, {name}", (told, "hint" in out), ("", False))
            else:
                rows.row(f"{asked}, {name}", (told, "hint" in out, status), (told_as(paths[name], look), False, 3))
    for asked, names in SWAPPED:
        command, *others = asked.split()
        error, status = run([command, *(paths.get(word, word) for word in others)])[1:]
        rows.row(asked, (error, status), ("".join(told_as(paths[name], LOOKS[name][1]) for name in names), 3))
    # The standard input has no path, and the hint of `show --why` has none.
    packed = run(["pack"], LOOKS["record"][0])
    rows.row("a record as lines", packed, ("", f"FAULT 24 1\n  why: no space behind the end; column 2\n{RECORD_HINT}", 3))
    why = run(["show", "--why", paths["lines"]])
    rows.row("lines as a record", (why[0].endswith(f"\n{LINES_HINT}"), why[1:]), (True, ("", 3)))
    # A directory is only reported as such; so is a file that can't be opened.
    for path in folder, f"{folder}/none":
        told = run(["judge", path, paths["record"]])[1]
        rows.row(f"judge {path}", (told.count("\n"), told_as(paths["record"], LOOKS["record"][1]) in told), (2, True))


def too_many(rows, folder):
    """Gives a record with too many entries to each command that judges one. A hint names `test`, which judges its dialogue."""
    paths = {name: f"{folder}/{name}" for name in ("-", "table", "cert")}
    for name, octets in ("-", LONG), ("table", LOOKS["table"][0]), ("cert", LOOKS["cert"][0]):
        with open(paths[name], "wb") as file:
            file.write(octets)
    for asked, behind in JUDGES_LONG:
        for at, name in (paths["-"], f"{paths['-']}: "), ("-", ""):
            taken = {**paths, "-": at}
            found = run([taken.get(word, word) for word in asked.split()], LONG)
            rows.row(f"{asked}, {at}", found, (f"FAULT 22 100000\n{behind}", f"  hint: {name}{LONG_HINT}", 3))
    out, error, status = run(["test", "--table", paths["table"], paths["-"]])
    rows.row("test of that record", (out.splitlines()[-1:], error, status), ([LONG_PASSES], "", 0))


def words(rows):
    for asked, end in HELP:
        out, error, status = run(asked)
        rows.row(asked, (out.endswith(end), error, status), (True, "", 0))
    for asked, part in PRINTED:
        out, error, status = run(asked)
        rows.row(asked, (part if part in out else out, error, status), (part, "", 0))
    listed = re.findall(r"^  ([a-z]+) ", run(["--help"])[0].split("Options:")[0], re.M)
    rows.row("subcommands", listed, SUBCOMMANDS)
    for asked, said in REFUSED:
        out, error, status = run(asked)
        rows.row(asked, (out, said if said in error else error, status), ("", said, 4))
    for given in ["show", "--why", "--lines"], ["show", "--lines", "--why"]:
        rows.row(given, run(given, GOOD.encode()), (SHOWN, "", 0))


def vectors():
    with open("crates/tcap_vectors/src/vectors.rt", encoding="utf-8") as file:
        return [bytes.fromhex(digits) for digits in re.findall(r"^\w+;([0-9a-f]+);", file.read(), re.M)]


def changed(octets, chance):
    """Returns a message with some octets changed, removed or doubled."""
    octets = bytearray(octets)
    for _ in range(chance.randint(1, 3)):
        at = chance.randrange(len(octets))
        kind = chance.random()
        if kind < 0.7:
            octets[at] = chance.choice([chance.randrange(256), octets[at] ^ 1 << chance.randrange(8), 0x80])
        elif kind < 0.85 and len(octets) > 2:
            del octets[at]
        else:
            octets.insert(at, octets[at])
    return bytes(octets)


def mutated(rows, chance, count):
    messages = vectors()
    for _ in range(count):
        record = b"".join(
            bytes([chance.choice(b"AB")]) + changed(chance.choice(messages), chance) for _ in range(chance.randint(1, 3))
        )
        shown, why = run(["show"], record), run(["show", "--why"], record)
        lines = why[0].splitlines(True)
        kept = [line for line in lines if not line.startswith(("  why:", "  hint:"))]
        rows.row(f"the lines of {record.hex()}", ("".join(kept), why[2]), (shown[0], shown[2]))
        for line, behind in zip(lines, lines[1:] + [""]):
            fault = re.search(r"FAULT (\d+) (\d+)$", line)
            if fault and fault[1] != "99":
                place = int(fault[2])
                found = re.search(r"octets ([0-9a-f ]*)\[(..)?\]([0-9a-f ]*)", behind)
                octet = record[place : place + 1].hex()
                front = record[: place].hex(" ")
                is_there = found and (found[2] or "") == octet and front.endswith(found[1].strip()) if found else False
                # After a whole bad entry comes the next one, of which nothing is shown.
                is_end = found and found[2] is None and place <= len(record) and front.endswith(found[1].strip())
                rows.row(f"the mark in {record.hex()}, {line}{behind}", bool(is_there or is_end), True)


def main():
    seed = int(sys.argv[1]) if len(sys.argv) > 1 else 1
    rows = Rows()
    bad_entries(rows)
    bad_records(rows)
    bad_lines(rows)
    wrong_input(rows)
    words(rows)
    with tempfile.TemporaryDirectory() as folder:
        good_lines(rows, folder)
        tables(rows, folder)
        mistaken(rows, folder)
        too_many(rows, folder)
    mutated(rows, random.Random(seed), 400)
    print(f"{rows.passed} passed, {rows.failed} failed")
    return int(rows.failed != 0)


if __name__ == "__main__":
    sys.exit(main())
