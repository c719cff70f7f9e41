"""Runs the messages of crates/tcap_vectors, cut after each count of octets, and the two longest of them, with each
octet set to each value, through `show`, `check`, `judge` and `blame` of the built program, with as many processes as
there are processors (`make octets`). For each word a cut record is the fault 21. For a changed one the words must
agree: on a fault of the record; on the first entry that is no message, which refutes the record unless its reason is a
limit of the profile; and otherwise each word must print one of its lines."""

import multiprocessing
import os
import re
import sys
import tempfile

import rooms  # noqa: F401
import fuzz
from judged import TABLE

# The reasons that are limits of the profile.
LIMITS = (2, 3, 4, 12, 13, 16, 17, 18)
# The number of values that a process checks in one go.
PART = 16


def vectors():
    with open("crates/tcap_vectors/src/vectors.rt", encoding="utf-8") as file:
        return {name: bytes.fromhex(digits) for name, digits in re.findall(r"^(\w+);([0-9a-f]+);", file.read(), re.M)}


def with_octet(octets, at, value):
    return octets[:at] + bytes([value]) + octets[at + 1 :]


def said_of(program, record, count):
    """Returns the output of each word for a record; `check` has the certificate that delivers each of `count` messages
    at once."""
    paths = [program.file("record", record), program.file("table", TABLE.encode())]
    cert = program.file("cert", fuzz.text_of(fuzz.prompt(count)))
    show, judge = program.say("show", paths[0]), program.say("judge", *paths)
    check, blame = program.say("check", *paths, cert), program.say("blame", *paths)
    fuzz.must(blame.startswith(fuzz.first_of(judge, blame)), f"blame says {blame!r}, judge {judge!r}")
    fuzz.must(check.split()[0] != "LAWFUL" or judge.split()[0] in ("LAWFUL", "UNDECIDED"), f"{check!r} and {judge!r}")
    return show, check, judge, blame


def look_at_cut(program, record, count):
    """Checks the first `count` octets of the record."""
    show, check, judge, blame = said_of(program, record[:count], 0)
    if count == 0:
        wanted = "", "LAWFUL 0\n", "LAWFUL 0\n", "LAWFUL 0\nLAWFUL A 0 unheard 0\nLAWFUL B 0 unheard 0\n"
    else:
        wanted = (f"FAULT 21 {count}\n",) * 4
    found = show, check, judge, blame
    fuzz.must(found == wanted, f"{record[:count].hex()}: {found}")


def look_at_changed(program, record, count):
    """Checks a record of `count` entries, whose last one may no longer be a message."""
    show, check, judge, blame = said_of(program, record, count)
    last = (show.splitlines() or [""])[-1]
    if last.startswith("FAULT"):
        # A fault within an element of definite length makes a bad entry; any other is a fault of the record.
        found = check, judge, blame
        fuzz.must(found == (last + "\n",) * 3, f"{record.hex()}: {last!r}, {found}")
        return
    bad = re.search(r"^(\d+) ([AB]) FAULT (\d+) \d+$", show, re.M)
    if bad and int(bad[1]) == count - 1:
        entry, end, reason = int(bad[1]), bad[2], int(bad[3])
        is_limit = reason in LIMITS
        wanted = f"UNDECIDED {entry} 68/{reason}\n" if is_limit else f"REFUTED {entry} F1\n"
        fuzz.must(judge == wanted, f"{record.hex()}: {bad[0]!r}, {judge!r}")
        fuzz.must(check == f"NOT SHOWN {entry} 68/{reason}\n", f"{record.hex()}: {bad[0]!r}, {check!r}")
        fuzz.must(is_limit or f"BLAMED {end} {entry} F1\n" in blame, f"{record.hex()}: {bad[0]!r}, {blame!r}")


def look(part):
    """Returns how many of these were checked, what is wrong, and the counts of the answers."""
    wrong = []
    with tempfile.TemporaryDirectory(dir="/dev/shm" if os.path.isdir("/dev/shm") else None) as folder:
        program = fuzz.Program(folder)
        for way, record, count in part:
            try:
                (look_at_cut if way == "cut" else look_at_changed)(program, record, count)
            except fuzz.Wrong as error:
                wrong.append(str(error))
    return len(part), wrong, program.said


def rows():
    """Yields the records, each with the way to check it."""
    known = vectors()
    for octets in known.values():
        for count in range(len(octets) + 1):
            yield "cut", b"A" + octets, count
    begin, going_on = b"A" + known["begin_with_request"], b"B" + known["continue_with_response"]
    for before, changed in (b"", begin), (begin, going_on):
        for at in range(len(changed)):
            for value in range(256):
                yield "changed", before + with_octet(changed, at, value), 2 if before else 1


def main():
    given = list(rows())
    parts = [given[at : at + PART] for at in range(0, len(given), PART)]
    count, failed, said = 0, 0, fuzz.Counter()
    with multiprocessing.Pool() as pool:
        for looked_at, wrong, part_said in pool.imap_unordered(look, parts):
            count, failed = count + looked_at, failed + len(wrong)
            said += part_said
            for line in wrong:
                print(line)
    verdicts = fuzz.Counter()
    for name, times in said.items():
        word, _, rest = name.partition(" ")
        if word in ("check", "judge"):
            verdicts[f"{word} {rest.split(' ')[0]}"] += times
    print(", ".join(f"{name} {times}" for name, times in sorted(verdicts.items())))
    print(f"{count - failed} passed, {failed} failed")
    return int(failed != 0 or count == 0)


if __name__ == "__main__":
    sys.exit(main())
