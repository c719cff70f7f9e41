"""Lets each allocation of a proved program fail in turn, by a library that is preloaded (bench/fail_alloc.c, which
needs a C compiler): in the words of `tcapjudge` over worked records, in a feeder that is fed one octet at a time, and
in the worked lists of calls of one end.

Each run must give its output and its status without a failure, or report that memory ran out, with status 3. Then
`check`, `judge`, `blame` and `explain` print only `FAULT 99 0`. `show` prints it after the lines of the first entries,
and `pack` prints it on standard error after the octets of the first lines. A run that finds no memory while it reads
its words prints only this line, on standard output. A feed or a call that is repeated after memory ran out must
continue as if nothing had happened. With an argument, only the program is tried: the one in TCAPJUDGE, else the proved
one."""

import os
import shutil
import subprocess
import sys
import tempfile
from collections import Counter

# The program to try: the one in TCAPJUDGE, else the proved one.
PROGRAM = os.environ.get("TCAPJUDGE") or "crates/tcapjudge/out/tcapjudge"
BENCH = "crates/tcap_bench/out/tcap_bench"
CALLS = "crates/tcap_rule_vectors"
NO_MEMORY = b"FAULT 99 0\n"

# Records as lines of hexadecimal digits, and tables and certificates for them.
BEGIN, CONTINUE, END = "A 6203480101\n", "B 6506480102490101\n", "A 6403490102\n"
INVOKE = "A 620D4801016C08A10602010102012D\n"
# A dialogue that is requested and confirmed.
CONFIRMED = (
    "A 622D4801016B1E281C060700118605010101A011600F80020780A1090607040000010013026C08A10602010102012D\n"
    "B 65394801024901016B2A2828060700118605010101A01D611B80020780A109060704000001001302A203020100A305A103020100"
    "6C05A203020101\n" + END
)
# A Continue that crosses an End, and the provider's answer to it.
CROSSED = BEGIN + CONTINUE + END + CONTINUE + "A 67064901024A0101\n"
# A result that is rejected, since its invocation had expired.
REJECTED = INVOKE + "B 650D4801024901016C05A203020101\nA 640D4901026C08A406020101820100\n"
# An ID that is invoked twice: F10.
TWICE = "A 62154801016C10A10602010102012DA10602010102012D\n"
# Components of each kind.
COMPONENTS = "examples/components.hex"
TABLE = (
    b'{"operations":[{"class":1,"code":45},{"class":2,"code":46},{"class":3,"code":47},{"class":4,"code":48},'
    b'{"class":1,"code":50,"linked":[48]},{"class":1,"code":"2a0304","linked":["2a0305"]}]}'
)
EXPIRED = b'{"close":[],"expire":[{"at":2,"component":0,"end":"A","entry":0}],"fates":[1,2,3],"version":1}'
PROMPT = b'{"close":[],"expire":[],"fates":[1,2,3],"version":1}'
FOUND = b'{"close":[],"expire":[],"fates":[1,2,4,{"by":4},5],"version":1}'
SHOWN = [
    "0 A Begin otid=01 AARQ context=04000001001302\n  Invoke id=1 op=45\n",
    "1 B Continue otid=02 dtid=01 AARE context=04000001001302 result=0 user=0\n  ReturnResultLast id=1\n",
    "2 A End dtid=02\n",
]
SHOWN_COMPONENTS = [
    "0 A Begin otid=01\n  Invoke id=5 linked=1 op=g:2a864801\n  ReturnResultNotLast id=2 op=45\n"
    "  ReturnError id=1 error=34\n  Reject id=1 invoke=7\n",
    "1 B Begin otid=02\n  ReturnResultLast id=1\n  Reject id=null general=0\n  Reject id=2 result=1\n"
    "  Reject id=3 error=2\n",
]


# An entry that is no message between two messages, and the output for it.
BAD = BEGIN + "B 620D4801016C08A10602010130012D\n" + "A 6203480102\n"
SHOWN_BAD = [
    "0 A Begin otid=01\n",
    "1 B FAULT 8 19\n  why: unexpected tag; place 12 of the message; Begin / components / Invoke / operation code; "
    "octets 01 6c 08 a1 06 02 01 01 [30] 01 2d; Begin otid=01\n",
    "2 A Begin otid=02\n",
]
# The hint of `table` for a linked code that no row has.
UNLISTED = b'  hint: row 5: "linked":["2a0305"] is the code of no row\n'
TABLED = (
    "op=45 class=1\nop=46 class=2\nop=47 class=3\nop=48 class=4\nop=50 class=1 linked=48\n"
    "op=g:2a0304 class=1 linked=g:2a0305\n"
)


def octets_of(lines):
    """Returns the record of lines."""
    words = [line.split() for line in lines.splitlines() if not line.startswith("#")]
    return b"".join(end.encode() + bytes.fromhex(digits) for end, digits in words)


def said(out, status, error=b""):
    """Returns what a run gives: both streams, and its status."""
    return (out.encode() if isinstance(out, str) else out), error, status


def cut(parts):
    """Returns what `show` may give if memory runs out after some of these parts."""
    return [said("".join(parts[:count]).encode() + NO_MEMORY, 3) for count in range(len(parts) + 1)]


def cut_pack(record):
    """Returns what `pack` may give then for a record: it need not have written everything before the failure."""
    return [said(record[:count], 3, NO_MEMORY) for count in range(len(record) + 1)]


# The output of `explain`.
WHY_REJECTED = """\
LAWFUL 3
  one run that shows it:
  A sends 0 Begin otid=01
  B receives 0
  B sends 1 Continue otid=02 dtid=01
  A: invocation 1 of otid=01 ends unseen
  A receives 1
  A sends 2 End dtid=02
  B receives 2
"""
WHY_NOT_SHOWN = """\
NOT SHOWN 2 65/50
  why: in the run that the certificate says, its end may not send it there (SendRefused): nothing there may be rejected so (RejectNotAllowed)
  2 A End dtid=02
    Reject id=1 result=0
  A: the half with otid=01 peer 02: active, no dialogue
  component 0 is what it refuses:
    Reject id=1 result=0
      before this message, under 1: own invocation op=45, wait for reject; invocations received and not answered 0; results received 1, errors 0
  another certificate may show more: this says nothing of an end
LAWFUL A 3 unheard 0
LAWFUL B 3 unheard 0
"""
WHY_REFUTED = """\
REFUTED 1 F2
  entry 1 of B: its peer sent nothing from the destination ID that it could answer
    End dtid=09
  A: Begins from its destination ID: none
  A: Continues from its destination ID: none
  it may be, too, that a message of the peer is missing from the record
BLAMED B 1 F2
LAWFUL A 2 unheard 0
"""
WHY_OF_B = """\
LAWFUL 4 unheard 0
  one run that shows it:
  A tells 0 Begin otid=01
  B receives 0
  B sends 1 Continue otid=02 dtid=01
  A tells 2 End dtid=02
  B sends 3 Continue otid=02 dtid=01
  B receives 2
"""

# The number of runs that were tried, each with every allocation failing in turn.
tried = 0

# A word, its files, the standard output that it must give, and the status.
CHECKED = [
    ("check", (REJECTED, TABLE, EXPIRED), "LAWFUL 3\n", 0),
    ("check", (CROSSED, TABLE, FOUND), "LAWFUL 5\n", 0),
    ("check", (REJECTED, TABLE, PROMPT), "NOT SHOWN 2 65/50\n", 2),
    ("judge", (CONFIRMED, TABLE), "LAWFUL 3\n", 0),
    ("judge --cert", (CROSSED, TABLE), f"LAWFUL 5\n{FOUND.decode()}\n", 0),
    ("judge --cert", (REJECTED, TABLE), f"LAWFUL 3\n{EXPIRED.decode()}\n", 0),
    ("judge", (BEGIN + "B 6403490109\n", TABLE), "REFUTED 1 F2\n", 1),
    ("judge", (TWICE, TABLE), "UNDECIDED 0 65/45\n", 2),
    ("judge", (TWICE, b'{"operations":[]'), "FAULT 30 0\n", 3),
    ("blame", (CONFIRMED, TABLE), "LAWFUL 3\nLAWFUL A 3 unheard 0\nLAWFUL B 3 unheard 0\n", 0),
    ("blame", (CROSSED, TABLE), "LAWFUL 5\nLAWFUL A 5 unheard 0\nLAWFUL B 5 unheard 0\n", 0),
    ("blame", (TWICE, TABLE), "UNDECIDED 0 65/45\nBLAMED A 0 F10\nLAWFUL B 1 unheard 0\n", 1),
    ("explain", (REJECTED, TABLE), WHY_REJECTED, 0),
    ("explain", (REJECTED, TABLE, PROMPT), WHY_NOT_SHOWN, 2),
    ("explain", (BEGIN + "B 6403490109\n", TABLE), WHY_REFUTED, 1),
    ("explain --end B", (BEGIN + CONTINUE + END + CONTINUE, TABLE), WHY_OF_B, 0),
]


def answers(library, command, given):
    """Returns what the command gives over that input if no allocation fails, and if each fails in turn."""

    def run(failing):
        environment = {**os.environ, "LD_PRELOAD": library, "FAIL_ALLOC": str(failing)}
        ended = subprocess.run(command, env=environment, input=given, capture_output=True, check=False)
        # The library's line is the last one of standard error.
        lines = ended.stderr.splitlines(keepends=True)
        return (ended.stdout, b"".join(lines[:-1]), ended.returncode), int(lines[-1])

    whole, count = run(0)
    return whole, [run(number)[0] for number in range(1, count + 1)]


def look(name, library, command, given, wanted, others):
    """Exits if the command gives another answer than `wanted` without a failure, or another than `wanted` or one of
    `others` with a failure. Returns the number of allocations and the counts of the answers."""
    whole, failed = answers(library, command, given)
    if whole != wanted:
        sys.exit(f"{name}: {whole}")
    for number, answer in enumerate(failed, 1):
        if answer != wanted and answer not in others:
            sys.exit(f"{name}, allocation {number}: {answer}")
    if not any(answer in others for answer in failed):
        sys.exit(f"{name}: no allocation of {len(failed)} makes a difference")
    return len(failed), Counter(failed)


def tell(name, count, given, wanted):
    """Prints how many of the allocations of a run end in the fault, and counts the run."""
    global tried
    tried += 1
    without = given[wanted]
    print(f"{name}: of {count} allocations {count - without} end in FAULT 99 0, and it does without {without}")


def look_at_runs(library, folder):
    """Tries the words of the program."""
    with open(COMPONENTS, encoding="utf-8") as file:
        components = file.read()
    for lines, shown in (CONFIRMED, SHOWN), (components, SHOWN_COMPONENTS):
        wanted, record = said("".join(shown), 0), octets_of(lines)
        tell("show", *look("show", library, [PROGRAM, "show"], record, wanted, cut(shown)), wanted)
        # If the words find no memory, the line is on standard output.
        wanted, others = said(record, 0), [*cut_pack(record), said(NO_MEMORY, 3)]
        tell("pack", *look("pack", library, [PROGRAM, "pack"], lines.encode(), wanted, others), wanted)
    wanted = said("".join(SHOWN_BAD), 3)
    for words, given in (["show", "--why"], octets_of(BAD)), (["show", "--lines", "--why"], BAD.encode()):
        name = " ".join(words)
        tell(name, *look(name, library, [PROGRAM, *words], given, wanted, cut(SHOWN_BAD)), wanted)
    # The text after the line of a fault of `pack` may be missing.
    record, line = octets_of(BEGIN), b"FAULT 24 2\n"
    wanted = said(record, 3, line + b"  why: the element is cut; column 5\n")
    others = [*cut_pack(record), said(NO_MEMORY, 3), said(record, 3, line)]
    tell("pack, cut", *look("pack", library, [PROGRAM, "pack"], (BEGIN + "A 62\n").encode(), wanted, others), wanted)
    with open(f"{folder}/tabled", "wb") as file:
        file.write(TABLE)
    wanted = said(TABLED, 0, UNLISTED)
    command = [PROGRAM, "table", f"{folder}/tabled"]
    tell("table", *look("table", library, command, b"", wanted, [said(NO_MEMORY, 3)]), wanted)
    for number, (words, files, out, status) in enumerate(CHECKED):
        word, *flags = words.split()
        paths = []
        for name, text in zip(("record", "table", "cert"), (octets_of(files[0]), *files[1:])):
            paths.append(f"{folder}/{name}{number}")
            with open(paths[-1], "wb") as file:
                file.write(text)
        wanted = said(out, status)
        found = look(words, library, [PROGRAM, word, *flags, *paths], b"", wanted, [said(NO_MEMORY, 3)])
        tell(f"{words}, {out.splitlines()[0]}", *found, wanted)


def look_at_calls(library):
    """Tries feeding, and calls of an end."""
    fed, again, neither = said("3 0 true\n", 0), said("3 1 true\n", 0), said("", 1)
    count, given = look("feeding", library, [BENCH, "feed"], octets_of(CONFIRMED), fed, [again, neither])
    print(
        f"feeding: of {count} allocations {given[again]} fail in a feed, and the same octet fed again goes on;"
        f" {given[neither]} are the program's, and it does without {given[fed]}"
    )
    # The heading of the calls, and its rows.
    with open(f"{CALLS}/stdin", encoding="utf-8") as file:
        calls = "[calls]" + file.read().partition("\n[calls]")[2].partition("\n[")[0]
    rows = sum(line[:1] not in ("", "#", "[") for line in calls.splitlines())
    made, again = (said(f"{rows} rows, {failed} calls without memory\n", 0) for failed in (0, 1))
    unread = [
        said(f"line {number} of [calls] can't be read\n".encode() + made[0], 0)
        for number in range(2, calls.count("\n") + 2)
    ]
    command = [f"{CALLS}/out/tcap_rule_vectors"]
    count, given = look("calls of an end", library, command, calls.encode(), made, [again, neither, *unread])
    print(
        f"calls of an end: of {count} allocations {given[again]} fail in a call, and the same call made again goes on;"
        f" {count - given[again] - given[made]} are of rows, messages and tables, and it does without {given[made]}"
    )


def main():
    compiler = shutil.which("cc") or shutil.which("gcc")
    if compiler is None:
        sys.exit("missing: a C compiler")
    with tempfile.TemporaryDirectory() as folder:
        library = f"{folder}/fail_alloc.so"
        subprocess.run([compiler, "-O2", "-shared", "-fPIC", "-o", library, "bench/fail_alloc.c", "-ldl"], check=True)
        look_at_runs(library, folder)
        if len(sys.argv) == 1:
            look_at_calls(library)
    print(f"{tried} passed, 0 failed")


if __name__ == "__main__":
    main()
