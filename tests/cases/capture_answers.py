"""Captures of which one has to find out what is one end, and to whom an answer belongs, as in capture_rows.py:
tests/captures.py runs them."""

import made_captures as made
from capture_rows import BEGIN, DIALOGUE, END, GOES_ON, OPEN, OTHER_RESULT, RESULT, SECOND, Row, Wire, frames_of, over, swapped

# ---- ends


def ends():
    one, two = Wire(), Wire(((101, 8), (202, 7)), tag=9)
    mixed = one.frames(BEGIN) + two.frames(BEGIN) + two.frames(RESULT) + one.frames(RESULT)
    yield Row("two pairs by SSN", over(mixed), [], [DIALOGUE, DIALOGUE])
    yield Row("two pairs, one by point code", over(mixed), ["--by", "pc"], [[BEGIN, BEGIN, RESULT, RESULT]])
    same = over(Wire(((101, 8), (202, 8))).all(DIALOGUE))
    yield Row("one SSN for both", same, [], [DIALOGUE])
    wanted = ["FAULT ends, frame 1 of capture: both ends are ssn=8"]
    yield Row("one SSN for both, by SSN", same, ["--by", "ssn"], [], 3, wanted)
    yield Row("no title", same, ["--by", "gt"], [], 3, ["FAULT ends, frame 1 of capture: nothing of gt"])
    titles = Wire(((101, 6), (101, 6)), ("4917012", "491702"))
    yield Row("by title", over(titles.all(DIALOGUE)), ["--by", "gt"], [DIALOGUE])
    other = [swapped(line) for line in DIALOGUE]
    for wanted in ("ssn=6", "pc=202", "pc=202,ssn=6"):
        yield Row(f"A is {wanted}", over(Wire().all(DIALOGUE)), ["--a", wanted], [other])
    yield Row("A is a title", over(titles.all(DIALOGUE)), ["--a", "gt=491702"], [other])
    wanted = ["NOTE pair 1: no end of it is the one that --a asks for"]
    yield Row("A is no end", over(Wire().all(DIALOGUE)), ["--a", "ssn=9"], [DIALOGUE], 0, wanted)
    yield Row("A is both ends", same, ["--a", "ssn=8"], [], 3, ["FAULT a, frame 1 of capture: both ends"])
    wires = [Wire(((pc, one), (pc + 1, two)), tag=pc) for pc, one, two in ((101, 8, 6), (303, 9, 5), (505, 6, 6))]
    three = over([frame for line in DIALOGUE for wire in wires for frame in wire.frames(line)])
    wanted = ["FAULT a, frame 3 of capture: both ends", "(pair 3", "NOTE pair 2: no end of it"]
    yield Row("A is an end of one of three pairs", three, ["--a", "ssn=6"], [other, DIALOGUE], 3, wanted)
    yield Row("B begins", over(Wire().all(other)), [], [DIALOGUE])


def answers():
    asked = Wire(titles=("4917012", "491710001"))
    answering = Wire(titles=("4917012", "491702"), tag=9)
    frames = asked.frames(BEGIN) + answering.frames(RESULT)
    yield Row("another title answers", over(frames), [], [DIALOGUE])
    parts = [[BEGIN], ["A" + RESULT[1:]]]
    yield Row("it is another end", over(frames), ["--apart"], parts, 0, ["NOTE pair 2: messages to IDs"])
    yield Row("titles are not looked at", over(frames), ["--by", "pc,ssn"], [DIALOGUE])
    third = Wire(titles=("4917012", "491710002"), tag=20)
    more = frames + third.frames(SECOND) + answering.frames(OTHER_RESULT)
    yield Row("it answers for two", over(more), [], [[BEGIN, RESULT, SECOND, OTHER_RESULT]])
    goes_on = "A 6506480101490107", "B 6403490101"
    more = frames_of((asked, OPEN), (answering, GOES_ON), (answering, goes_on[0]), (third, goes_on[1]))
    yield Row("it answers from three", more, [], [[OPEN, GOES_ON, *goes_on]])
    visitor = Wire(((101, 8), (202, 7)), tag=9)
    yield Row("another subsystem answers", frames_of((Wire(), BEGIN), (visitor, RESULT)), [], [DIALOGUE])
    back = Wire(titles=("4917013", "491710001"), tag=30)
    yield Row("the asker's other title", over(asked.frames(BEGIN) + back.frames(RESULT)), [], [DIALOGUE])
    both = Wire(titles=("4917013", "491702"), tag=30)
    yield Row("other titles of both", over(asked.frames(BEGIN) + both.frames(RESULT)), [], [DIALOGUE])
    one, other = Wire(titles=("4917012", "491710001")), Wire(titles=("4917013", "491710001"), tag=20)
    third = Wire(titles=("4917014", "491710001"), tag=30)
    more = frames_of((one, BEGIN), (other, BEGIN), (third, RESULT), (one, RESULT), (other, RESULT))
    wanted = ["FAULT answer, frame 3 of capture", "pc=101 ssn=8 gt=4917012 to", "pc=101 ssn=8 gt=4917013 to", "--apart"]
    yield Row("one ID of two titles", more, [], [[BEGIN], [BEGIN]], 3, [*wanted, "(pair 1", "(pair 2", "(pair 3"])
    parts = [DIALOGUE, DIALOGUE, ["A" + RESULT[1:]]]
    yield Row("three ends", more, ["--apart"], parts, 0, ["NOTE pair 3: messages to IDs"])
    stranger = Wire(((303, 8), (404, 6)), tag=40)
    more = frames_of((asked, BEGIN), (stranger, RESULT), (asked, RESULT))
    yield Row("an ID of others", more, [], [DIALOGUE, ["A" + RESULT[1:]]], 0, ["NOTE pair 2: messages to IDs"])


def routes():
    """What goes by two transfer points, 901 and 902."""
    titles = "4917012", "491702"
    first, second = (Wire(((101, 8), (pc, 6)), titles, tag=10 * pc, hosts=(1, pc - 900)) for pc in (902, 903))
    lines = [OPEN, GOES_ON, END]
    both = frames_of((first, OPEN), (second, GOES_ON), (first, END))
    yield Row("two transfer points", both, [], [lines])
    yield Row("two transfer points, apart", both, ["--apart"], [[OPEN, END], ["A" + GOES_ON[1:]]], 0, ["NOTE pair 1"])
    yield Row("the question goes by both", frames_of((first, OPEN), (first, GOES_ON), (second, END)), [], [lines])
    begun = frames_of((first, swapped(OPEN)), (second, swapped(GOES_ON)), (second, swapped(END)))
    yield Row("the other end begins", begun, [], [lines])
    called = Wire(((101, 8), (902, 6)), ("4917012", "491710001"), tag=30, hosts=(1, 2))
    more = frames_of((called, OPEN), (second, GOES_ON), (first, END))
    yield Row("two transfer points, another title", more, [], [lines])
    bare, other = (Wire(((101, 8), (pc, 6)), tag=10 * pc, hosts=(1, pc - 900)) for pc in (902, 903))
    more = frames_of((bare, OPEN), (other, GOES_ON), (bare, END))
    wanted = ["FAULT answer, frame 2 of capture: it goes from ni=2 pc=903 ssn=6 to", "(pair 1", "(pair 2", "--join"]
    yield Row("two point codes without titles", more, [], [[OPEN]], 3, wanted)
    yield Row("two point codes of one end", more, ["--join"], [lines])
    home = Wire(((101, 8), (202, 6)), tag=50)
    away = Wire(((103, 8), (202, 6)), tag=60)
    more, parts = frames_of((home, BEGIN), (away, RESULT), (home, RESULT)), [DIALOGUE, ["A" + RESULT[1:]]]
    wanted = ["FAULT answer, frame 2 of capture", "(pair 1", "(pair 2"]
    yield Row("an answer to another point code", more, [], [[BEGIN]], 3, wanted, [""])
    yield Row("an answer under way", more, ["--under-way"], parts, 0, ["NOTE pair 2"])
    called = Wire(((101, 8), (902, 6)), titles, tag=65)
    named, direct = Wire(((101, 8), (902, 6)), ("4917012", None), tag=66), Wire(((101, 8), (202, 6)), ("4917012", None), tag=68)
    named.addresses["B"] = made.address(6, pc=202)
    more, wanted = frames_of((called, OPEN), (named, GOES_ON), (direct, END)), ["FAULT answer, frame 3 of capture", "--join"]
    yield Row("a point code in the address", more, [], [[OPEN, GOES_ON]], 3, wanted)
    yield Row("a point code in the address, joined", more, ["--join"], [lines])
    near = Wire(((101, 8), (901, 6)), titles, tag=70)
    far = Wire(((901, 8), (202, 6)), titles, tag=80, hosts=(2, 3))
    turns = [(near, BEGIN), (far, BEGIN), (far, RESULT), (near, RESULT)]
    wanted = ["NOTE messages captured on both sides of a transfer point, the first in frames 1 and 2: ", "--one-side"]
    yield Row("both sides of a transfer point", frames_of(*turns), [], [DIALOGUE, DIALOGUE], 0, wanted)
    away = Wire(((902, 8), (202, 6)), titles, tag=90, hosts=(4, 3))
    back = Wire(((101, 8), (902, 6)), titles, tag=95, hosts=(1, 4))
    turns = [(near, BEGIN), (far, BEGIN), (away, RESULT), (back, RESULT)]
    yield Row("both sides of two transfer points", frames_of(*turns), [], [DIALOGUE, DIALOGUE], 0, wanted)


def registers():
    """Two registers behind one transfer point, and IDs that come again."""
    one, other = (Wire(((101, 8), (901, 6)), ("4917012", gt), tag=10 * int(gt)) for gt in ("491702", "491703"))
    first, second = ["A 6203480101", GOES_ON], ["A 6203480102", "B 6506480107490102"]
    turns = [*((one, line) for line in first), *((other, line) for line in second), (one, "A 6203480103")]
    more = frames_of(*turns, (other, "B 6403490103"), (one, END), (other, END))
    wanted = ["FAULT answer, frame 6 of capture", "gt=491703 to", "to ni=2 pc=901 ssn=6 gt=491702", "--join"]
    yield Row("registers with one ID", more, [], [[*first, "A 6203480103"], second], 3, wanted)
    joined = [*first, *second, "A 6203480103", "B 6403490103", END, END]
    yield Row("registers with one ID, joined", more, ["--join"], [joined])
    turns[3] = other, "B 6506480108490102"
    joined = [*first, second[0], "B 6506480108490102", "A 6203480103", "B 6403490103", END]
    yield Row("registers with two IDs", frames_of(*turns, (other, "B 6403490103"), (one, END)), [], [joined])
    late = frames_of((one, BEGIN), (other, BEGIN), (one, RESULT), (other, RESULT))
    yield Row("a late answer", late, [], [DIALOGUE, DIALOGUE])
    asked = [Wire(((101, 8), (901, 6)), ("4917012", f"49171000{n}"), tag=20 + 2 * n) for n in range(3)]
    again = [turn for wire in asked for turn in ((wire, BEGIN), (one, RESULT))]
    yield Row("an ID comes again", frames_of(*again), [], [3 * DIALOGUE])


def begun():
    lines = [GOES_ON, END, BEGIN, RESULT]
    note = ["NOTE pair 1: messages to IDs that their receiver did not send in the capture, the first in frame 1: 1"]
    yield Row("under way", over(Wire().all(lines)), ["--under-way"], [lines], 0, note)
    yield Row("under way, not said", over(Wire().all(lines)), [], [lines], 0, [*note, "--under-way"])
    one, other = Wire(titles=("4917012", "491702")), Wire(titles=("4917013", "491702"), tag=20)
    turns, parts = [(one, BEGIN), (other, RESULT), (other, SECOND), (one, RESULT)], ["B" + RESULT[1:], SECOND]
    note = ["NOTE pair 2: messages to IDs that their receiver did not send in the capture, the first in frame 2: 1"]
    yield Row("another title was asked before", frames_of(*turns), ["--under-way"], [DIALOGUE, parts], 0, note)
    note = ["NOTE pair 1: messages to IDs that their receiver did not send in the capture, the first in frame 1: 1"]
    yield Row("no Begin", over(Wire().all([GOES_ON])), [], [["A" + GOES_ON[1:]]], 0, note)
    yield Row("nothing was under way", over(Wire().all(DIALOGUE)), ["--under-way"], [DIALOGUE])


def rows():
    for part in ends, answers, routes, registers, begun:
        yield from part()
