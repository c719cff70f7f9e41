"""Captures of what is no message of TCAP, though SCCP brought it whole, as in capture_rows.py: tests/captures.py runs
them. Of each it is said what `test` prints of the files: one expression for each, of its first dialogue that does not
pass, or of the trace."""

import made_captures as made
from capture_carried import TITLES, Sua
from capture_rows import BEGIN, DIALOGUE, END, GOES_ON, LONG, OPEN, RESULT, SECOND, Row, Wire, frames_of, over
from capture_rows import segments, swapped

# Octets that end too early, but after the ID; octets after a message; and octets that end within the ID.
CUT, MORE, NO_ID = SECOND[:-2], SECOND + "00", GOES_ON[:8]
PASSES = ": pass; "


def fails(end, entry, line):
    return rf"  {end}: fail at entry {entry} of the dialogue, line {line} \(frames? .*\), F1: "


def octets():
    """What A sends in place of a message, between the messages of a dialogue."""
    def between(line):
        return over(Wire().all([BEGIN, line, RESULT]))

    odd = {
        "a cut message": CUT,
        "one octet": "A 62",
        "octets behind the message": MORE,
        "an element after the message": SECOND + "3003020100",
        "no ending": "A 62804801026c80",
        "another element": "A 3003020100",
        "a tag of two octets": "A 7f2203480102",
        "no element at all": "A ffffffff",
        "only zeros": "A 00000000",
        "a Begin of another tag": "A 63" + SECOND[4:],
        "an ID of five octets": "A 620748050000000002",
        "no ID": "A 6c08a10602010102012d",
    }
    for name, line in odd.items():
        yield Row(name, between(line), [], [[BEGIN, line, RESULT]], judged=[fails("A", 0, 7)])
    line, judged = "A 62850000000003480102", ["  A: inconc: entry 0 of the dialogue, line 7 "]
    yield Row("five length octets, beyond a limit", between(line), [], [[BEGIN, line, RESULT]], judged=judged)
    ansi = "A e20bc70400000001e8030a0100"
    wanted = ["NOTE messages with a tag of ANSI TCAP, which `test` takes for no messages (F1): 1"]
    yield Row("ANSI", between(ansi), [], [[BEGIN, ansi, RESULT]], 0, wanted, judged=[fails("A", 0, 7)])
    last = over(Wire().all([BEGIN, RESULT, CUT]))
    yield Row("a cut message, the last one", last, [], [[BEGIN, RESULT, CUT]], judged=[fails("A", 0, 9)])
    both = over(Wire().all([BEGIN, CUT]) + Wire().all([BEGIN, RESULT])[1:])[:-1]
    wanted = ["FAULT capture, frame 3"]
    yield Row("a cut message in a cut capture", both, [], [[BEGIN, CUT]], 3, wanted, [""], [fails("A", 0, 7)])
    wanted = ["NOTE left out: messages without octets: 1"]
    yield Row("no octets", between("A "), [], [DIALOGUE], 0, wanted, judged=[PASSES])
    kept = over(Wire().all([BEGIN, CUT, RESULT]), cuts={2: 100})
    wanted = ["FAULT cut, frame 2 of capture: 100 octets"]
    yield Row("a cut message in a cut frame", kept, [], [[BEGIN]], 3, wanted, [""])


def layers():
    odd = [BEGIN, CUT, RESULT]
    for name, frames, link in [
        ("MTP3", [Wire().mtp3(line) for line in odd], made.MTP3),
        ("SUA", Sua().all(odd), made.ETHERNET),
        ("exported", [Wire().alone(line) for line in odd], made.EXPORTED),
    ]:
        yield Row(f"a cut message over {name}", over(frames, link), [], [odd], judged=[fails("A", 0, 7)])
    wire, long = Wire(), LONG[:-2]
    frames = [wire.frames(long, wire.chunk(long, wire.m3ua(long, part)))[0] for part in segments(wire, long, 3)]
    rest = [*wire.all([BEGIN, RESULT])]
    yield Row("a cut message in segments", over(frames + rest), [], [[long, BEGIN, RESULT]], judged=[fails("A", 0, 5)])
    near, far = Wire(((101, 8), (901, 6)), TITLES, tag=70), Wire(((901, 8), (202, 6)), TITLES, tag=80, hosts=(2, 3))
    turns = [(wire, line) for line in (OPEN, CUT, GOES_ON) for wire in ((near, far) if line[0] == "A" else (far, near))]
    wanted = ["NOTE messages captured on both sides of a transfer point, the first in frames 1 and 2: only the first"]
    kept, judged = [OPEN, CUT, GOES_ON], [fails("A", 0, 7)]
    yield Row("a cut message on both sides", frames_of(*turns), ["--one-side"], [kept], 0, wanted, judged=judged)


def dialogues():
    """A message whose IDs can be read is of its dialogue, though it is none; otherwise it is of its two addresses."""
    more = GOES_ON + "00"
    wanted = [fails("B", 1, 7)]
    lines = [OPEN, more, END]
    yield Row("a Continue with octets behind", over(Wire().all(lines)), [], [lines], judged=wanted)
    asked, answering = Wire(titles=("4917012", "491710001")), Wire(titles=("4917012", "491702"), tag=9)
    frames = frames_of((asked, BEGIN), (answering, RESULT + "00"))
    yield Row("another title answers, with octets behind", frames, [], [[BEGIN, RESULT + "00"]], judged=wanted)
    cut = RESULT[:-2]
    frames = frames_of((asked, BEGIN), (answering, cut))
    yield Row("another title answers, and is cut", frames, [], [[BEGIN, cut]], judged=wanted)
    begun, wire = "B 62034801", Wire()
    frames = over(wire.all([begun, BEGIN, RESULT]))
    yield Row("a cut Begin names no end A", frames, [], [[begun, BEGIN, RESULT]], judged=[fails("B", 0, 5)])
    yield Row("a cut Begin alone", over(Wire().all([begun])), [], [[swapped(begun)]], judged=[fails("A", 0, 5)])


def of_unread_ids():
    """An ID that a message which can't be read may have sent: two registers behind one transfer point, of which both
    may have sent it."""
    one, other = (Wire(((101, 8), (901, 6)), ("4917012", gt), tag=10 * int(gt)) for gt in ("491702", "491703"))
    asked, answered = "A 6203480102", "B 6506480107490102"
    turns = [(one, OPEN), (other, asked), (other, answered), (one, END)]
    yield Row("an ID of another register", frames_of(*turns), [], [[OPEN, asked, answered, END]])
    turns.insert(1, (one, NO_ID))
    wanted = ["FAULT answer, frame 5 of capture", "gt=491702, to the ID 07", "--join"]
    parts = [[OPEN, NO_ID], [asked, answered]]
    broken, judged = [", 1 message missing", ""], [fails("B", 0, 7), ": error: line 9: the trace was broken off"]
    name = "an ID of another register, or one that can't be read"
    yield Row(name, frames_of(*turns), [], parts, 3, wanted, broken, judged)
    note, judged = ["NOTE pair 1: messages to IDs that their receiver did not send"], [fails("B", 0, 8), PASSES]
    apart = [[*parts[0], END], parts[1]]
    yield Row("an ID that can't be read, apart", frames_of(*turns), ["--apart"], apart, 0, note, judged=judged)
    alone = [turn for turn in turns if turn[0] is one]
    yield Row("an ID that can't be read, alone", frames_of(*alone), [], apart[:1], 0, note, judged=judged[:1])


def rows():
    for part in octets, layers, dialogues, of_unread_ids:
        yield from part()
