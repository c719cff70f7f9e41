"""Rows for tests/traces.py, as those of trace_rows.py, of what a trace leaves open, so that a blame is inconclusive:
dialogues that were under way before the trace or at a quiet mark, entries that can't be read, and tables that may not
be the dialogue's."""

from trace_rows import (
    AS_IF_MESSAGE,
    BACK,
    BAD_CONTINUE,
    BAD_LENGTH,
    BARE,
    BEHIND,
    DROPPED,
    CAME_AGAIN,
    FIVE_OCTETS,
    GIVEN_UP,
    INVOKE,
    IS_OPEN,
    LONG,
    MARK,
    MAY_BE_UNDER_WAY,
    NARROW,
    NO_OCTETS,
    OTHER_TAG,
    RESULT,
    SHORT,
    UNDER_WAY,
    UNREAD,
    WIDE,
    WRONG_CONTINUE,
    WRONG_END,
    Row,
    Wanted,
    accepted,
    begin,
    end,
    go_on,
    invoke,
    lines,
    request,
    result,
    uni,
)

EARLY, USED_BEFORE, NOT_SURE = "may have come too early", "may have used its ID", "not sure"
# A Continue of A to what B continues from; the same dialogue up to a quiet mark, and what has to be said of it.
ON = f"A {go_on('01', '07')}"
OPEN_AT_MARK = [SHORT[0], BACK, "Q"]
IS_OPEN_AT_MARK = Wanted([0, 1], "01", "07", "pass 1", f"inconc 2 F15 {MARK}", open=True)
# What is said of the ends if the first message, of the other end, goes to an ID that was not sent.
LATE_A, LATE_B = (f"inconc 0 F2 {EARLY}", f"inconc {EARLY}"), (f"inconc {EARLY}", f"inconc 0 F2 {EARLY}")

UNDER_WAY_ROWS = [
    *(
        Row(
            f"a message to an ID that was never sent, where dialogues may have been under way: {line!r}",
            "",
            lines(line, "", f"B {end('09')}"),
            [Wanted([0], "09", "", *found)],
            has_directives=True,
        )
        for line, *found in [
            (MAY_BE_UNDER_WAY, f"inconc {UNDER_WAY}", f"inconc 0 F2 {UNDER_WAY}"),
            ("#:  \tunder way \t", f"inconc {UNDER_WAY}", f"inconc 0 F2 {UNDER_WAY}"),
            ("#:under way\r", f"inconc {UNDER_WAY}", f"inconc 0 F2 {UNDER_WAY}"),
            ("# dialogues may have been under way", "pass", "fail 0 F2"),
            ("# Dialogues may have been under way", "pass", "fail 0 F2"),
            ("# under way", "pass", "fail 0 F2"),
            ("# : under way", "pass", "fail 0 F2"),
            ("#", "pass", "fail 0 F2"),
        ]
    ),
    Row(
        "what would pass does not, and an answer to what was invoked before the trace is no failure",
        "",
        lines(MAY_BE_UNDER_WAY, "", BACK, f"B {go_on('08', '02')}", f"A {end('08', RESULT)}"),
        [
            Wanted([0], "01", "07", f"inconc {UNDER_WAY}", f"inconc 0 F2 {UNDER_WAY}", open=True),
            Wanted([1, 2], "02", "08", f"inconc 1 F5 {UNDER_WAY}", f"inconc 0 F2 {UNDER_WAY}"),
        ],
        has_directives=True,
    ),
    Row(
        "it comes before what the table lacks, and before the doubt whose table it is",
        "",
        lines(MAY_BE_UNDER_WAY, "", BACK, f"A {go_on('01', '07', invoke('01', '63'))}", "Q", f"B {go_on('08', '02')}"),
        [
            Wanted(
                [0, 1],
                "01",
                "07",
                f"inconc 1 F6 {UNDER_WAY}",
                f"inconc 0 F2 {UNDER_WAY}",
                open=True,
                more={"table": "wide"},
            ),
            Wanted([3], "02", "08", f"inconc {NOT_SURE}", "fail 0 F2", open=True, more={"table": "wide"}),
        ],
        f'{{"tables":[{WIDE}]}}',
        has_directives=True,
    ),
    Row(
        "it holds from that line on, also where the line comes again, up to the next mark",
        "",
        lines(
            f"B {end('08')}",
            MAY_BE_UNDER_WAY,
            f"B {end('09')}",
            MAY_BE_UNDER_WAY,
            "",
            f"B {end('0A')}",
            "Q",
            f"B {end('0B')}",
        ),
        [
            Wanted([0], "08", "", "pass", "fail 0 F2"),
            # A directive is no comment on the entry below it.
            Wanted([1], "09", "", f"inconc {UNDER_WAY}", f"inconc 0 F2 {UNDER_WAY}"),
            Wanted([2], "0a", "", f"inconc {UNDER_WAY}", f"inconc 0 F2 {UNDER_WAY}"),
            Wanted([4], "0b", "", "pass", "fail 0 F2"),
        ],
        has_directives=True,
    ),
    Row(
        "so is one whose first entry is no message",
        "",
        lines(MAY_BE_UNDER_WAY, "", f"A {BAD_CONTINUE}"),
        [Wanted([0], "01", "07", "fail 0 F1", DROPPED, open=True)],
        has_directives=True,
    ),
    Row(
        "an ID of an earlier dialogue was sent",
        "--linger 1",
        lines(MAY_BE_UNDER_WAY, "", *SHORT, f"B {begin('09')}", f"A {end('09')}", SHORT[1]),
        [
            Wanted([0, 1], "01", ""),
            Wanted([2, 3], "", "09"),
            Wanted([4], "01", "", "pass", f"inconc 0 F2 {CAME_AGAIN}", again=True),
        ],
        has_directives=True,
    ),
    # ---- dialogues with a Begin
    *(
        Row(
            f"a Begin behind it may be of an ID that its end used just before the trace, {words or 'again'}",
            words,
            lines(MAY_BE_UNDER_WAY, "", SHORT[0], WRONG_END, f"A {uni(INVOKE)}", f"B {begin('05')}", f"A {end('05')}"),
            [
                Wanted([0, 1], "01", "", "pass", found, says=says),
                # A Unidirectional has no ID.
                Wanted([2], "", "", "fail 0 F6"),
                Wanted([3, 4], "", "05"),
            ],
            has_directives=True,
        )
        for words, found, says in [
            ("", f"inconc 1 F5 {USED_BEFORE}", ("--ids settled",)),
            ("--ids once", f"inconc 1 F5 {USED_BEFORE}", ("--ids settled",)),
            ("--ids settled", "fail 1 F5", ()),
        ]
    ),
    Row(
        "its own end knows what it used, and is at fault",
        "",
        lines(MAY_BE_UNDER_WAY, "", f"A {begin('01', INVOKE, INVOKE)}", f"B {begin('05')}", f"B {go_on('05', '09')}"),
        [
            Wanted([0], "01", "", "fail 0 F10", open=True),
            # To an ID that was never sent: B's Begin began the dialogue.
            Wanted([1, 2], "09", "05", "pass 1", "fail 1 F2", open=True),
        ],
        has_directives=True,
    ),
    Row(
        "a Begin before it is judged as ever, and so is one behind the next mark",
        "",
        lines(SHORT[0], MAY_BE_UNDER_WAY, "", WRONG_END, "Q", SHORT[0], WRONG_END),
        [Wanted([0, 1], "01", "", "pass", "fail 1 F5"), Wanted([3, 4], "01", "", "pass", "fail 1 F5")],
        has_directives=True,
    ),
]

EARLY_MARK_ROWS = [
    Row(
        "a dialogue goes on behind a mark, which came too early",
        "",
        lines(*OPEN_AT_MARK, ON, BACK),
        # There B has no transaction: none began.
        [IS_OPEN_AT_MARK, Wanted([3, 4], "01", "07", f"inconc 0 F2 {EARLY}", f"inconc 1 F8 {EARLY}", open=True)],
    ),
    Row(
        "so it does where the other end has sent nothing before the mark",
        "",
        lines(SHORT[0], "Q", BACK, ON),
        [
            Wanted([0], "01", "", "pass", "pass 1", open=True),
            Wanted([2, 3], "01", "07", f"inconc 1 F8 {EARLY}", f"inconc 0 F2 {EARLY}", open=True),
        ],
    ),
    Row(
        "so it does behind two marks, with another dialogue between them",
        "",
        lines(*OPEN_AT_MARK, f"A {begin('05')}", f"B {end('05')}", "Q", ON),
        [IS_OPEN_AT_MARK, Wanted([3, 4], "05", ""), Wanted([6], "01", "07", *LATE_A, open=True)],
    ),
    Row(
        "so it does with an end that was silent before the first",
        "",
        lines(SHORT[0], "Q", f"A {begin('05')}", f"B {end('05')}", "Q", BACK, ON),
        [
            Wanted([0], "01", "", "pass", "pass 1", open=True),
            Wanted([2, 3], "05", ""),
            Wanted([5, 6], "01", "07", f"inconc 1 F8 {EARLY}", f"inconc 0 F2 {EARLY}", open=True),
        ],
    ),
    Row(
        "an ID that was in use before the mark is begun, and A answers what was invoked before it",
        "",
        lines(SHORT[0], f"B {go_on('07', '01', INVOKE)}", "Q", f"B {begin('07')}", f"A {go_on('01', '07', RESULT)}"),
        [IS_OPEN_AT_MARK, Wanted([3, 4], "01", "07", f"inconc 1 F5 {EARLY}", f"inconc {EARLY}", open=True)],
    ),
    Row(
        "nothing passes then",
        "",
        lines(*OPEN_AT_MARK, SHORT[0], f"B {end('01')}"),
        [IS_OPEN_AT_MARK, Wanted([3, 4], "01", "", f"inconc {EARLY}", f"inconc {EARLY}")],
    ),
    Row(
        "a Begin before the mark, behind which the peer is silent, is no such dialogue",
        "",
        lines(SHORT[0], "Q", SHORT[0], WRONG_END),
        [Wanted([0], "01", "", "pass", "pass 1", open=True), Wanted([2, 3], "01", "", "pass", "fail 1 F5")],
    ),
    Row(
        "so A is at fault, too",
        "",
        lines(SHORT[0], "Q", f"A {begin('01', INVOKE, INVOKE)}", SHORT[1]),
        [Wanted([0], "01", "", "pass", "pass 1", open=True), Wanted([2, 3], "01", "", "fail 0 F10", "pass")],
    ),
    Row(
        "one that was over before the mark is none: its IDs are free",
        "",
        lines(*LONG, "Q", f"B {begin('07')}", f"A {end('07', result('05'))}"),
        [Wanted([0, 1, 2], "01", "07"), Wanted([4, 5], "", "07", "fail 1 F5", "pass")],
    ),
    Row(
        "but a message to such an ID may have been on its way at the mark",
        "",
        lines(*SHORT, "Q", SHORT[1]),
        [Wanted([0, 1], "01", ""), Wanted([3], "01", "", *LATE_B)],
    ),
    Row(
        "a later message of the same dialogue to such an ID says nothing",
        "",
        lines(*SHORT, "Q", f"B {begin('05')}", f"B {go_on('05', '01')}"),
        # A heard the Begin at most.
        [Wanted([0, 1], "01", ""), Wanted([3, 4], "01", "05", "pass 1", "fail 1 F2", open=True)],
    ),
    Row(
        "the last segment that names an ID counts",
        "",
        lines(*OPEN_AT_MARK, SHORT[0], "Q", SHORT[0], WRONG_END),
        [
            IS_OPEN_AT_MARK,
            Wanted([3], "01", "", f"inconc {EARLY}", f"inconc {EARLY}", open=True),
            Wanted([5, 6], "01", "", f"inconc {EARLY}", f"inconc 1 F5 {EARLY}"),
        ],
    ),
    Row(
        "an ID that was named before another mark alone is in use still",
        "",
        lines(
            *OPEN_AT_MARK,
            SHORT[0],
            SHORT[1],
            *SHORT,
            "Q",
            f"A {begin('02', INVOKE)}",
            f"B {go_on('07', '02', RESULT, RESULT)}",
        ),
        [
            IS_OPEN_AT_MARK,
            Wanted([3, 4], "01", "", f"inconc {EARLY}", f"inconc {EARLY}"),
            Wanted([5, 6], "01", "", again=True),
            # B's 07 was last named before the first mark.
            Wanted([8, 9], "02", "07", f"inconc {EARLY}", f"inconc 1 F12 {EARLY}", open=True),
        ],
    ),
    Row(
        "a dialogue that was under way at a mark leaves its IDs so, also if it is over",
        "",
        lines(*OPEN_AT_MARK, f"A {end('07')}", "Q", f"B {begin('07')}", f"A {end('07', result('05'))}"),
        [
            IS_OPEN_AT_MARK,
            Wanted([3], "", "07", *LATE_A),
            Wanted([5, 6], "", "07", f"inconc 1 F5 {EARLY}", f"inconc {EARLY}"),
        ],
    ),
    *(
        Row(
            f"an ID that comes again in its segment is judged by that, {words or 'again'}",
            words,
            lines(*OPEN_AT_MARK, *SHORT, SHORT[0], WRONG_END),
            [
                IS_OPEN_AT_MARK,
                Wanted([3, 4], "01", "", f"inconc {EARLY}", f"inconc {EARLY}"),
                Wanted([5, 6], "01", "", "pass", found, again=True),
            ],
        )
        for words, found in [("", f"inconc 1 F5 {CAME_AGAIN}"), ("--ids settled", "fail 1 F5")]
    ),
    Row(
        "with IDs that come once a dialogue goes on over a mark, too",
        "--ids once",
        lines(*OPEN_AT_MARK, ON, f"B {end('01')}"),
        [IS_OPEN_AT_MARK, Wanted([3, 4], "01", "07", f"inconc 0 F2 {EARLY}", f"inconc 1 F8 {EARLY}")],
    ),
    Row(
        "that dialogues may have been under way comes first",
        "",
        lines(*OPEN_AT_MARK, MAY_BE_UNDER_WAY, "", ON),
        [IS_OPEN_AT_MARK, Wanted([3], "01", "07", f"inconc 0 F2 {UNDER_WAY}", f"inconc {UNDER_WAY}", open=True)],
        has_directives=True,
    ),
    Row(
        "and that a dialogue is open comes behind",
        "--complete",
        lines(SHORT[0], "Q", BACK),
        [
            Wanted([0], "01", "", IS_OPEN, IS_OPEN, open=True),
            Wanted([2], "01", "07", *LATE_B, open=True),
        ],
    ),
]

UNREAD_ROWS = [
    *(
        Row(
            f"IDs that can't be read, {digits}: a dialogue by itself, which may have been of those before",
            "",
            lines(SHORT[0], f"A {digits}", WRONG_END, f"B {begin('05')}", f"A {end('05', RESULT)}", f"A {end('0A')}"),
            [
                Wanted([0, 2], "01", "", "pass", f"inconc 1 F5 {UNREAD}"),
                Wanted([1], "", "", *found, open=None),
                Wanted([3, 4], "", "05", "fail 1 F5"),
                Wanted([5], "", "0a", f"inconc 0 F2 {UNREAD}"),
            ],
        )
        for digits, *found in [
            (OTHER_TAG, "fail 0 F1", DROPPED),
            (NO_OCTETS, "fail 0 F1", DROPPED),
            (FIVE_OCTETS, "fail 0 F1", DROPPED),
            (BAD_LENGTH, f"inconc {BEHIND}"),
        ]
    ),
    *(
        Row(
            f"no message, {digits}: {name}",
            "",
            lines(f"A {digits}", f"B {end('01')}"),
            # B ends a dialogue that nothing else began.
            [Wanted([0, 1], "01", peer, "fail 0 F1", f"inconc {AS_IF_MESSAGE}")],
            # A record has no such entries: its entries are whole elements.
            has_directives=is_cut,
        )
        for name, digits, peer, is_cut in [
            ("the length says more than there is", "6209480101", "", True),
            ("octets after the message", begin("01") + "00", "", True),
            ("the last element is cut", "62064801016C09A1", "", False),
            ("an ID of another sort, in another order", "6206490105480101", "05", False),
            ("the ID is there twice", "6206480101480101", "", False),
            ("another tag than a message's", "6303480101", "", False),
            ("end-of-contents octets", "62054801010000", "", False),
        ]
    ),
    *(
        Row(
            f"no message, {digits}: {name}",
            "",
            lines(SHORT[0], f"A {digits}", SHORT[1]),
            [Wanted([0, 2], "01", ""), Wanted([1], "", "", "fail 0 F1", DROPPED, open=None)],
            has_directives=is_cut,
        )
        for name, digits, is_cut in [
            ("the tag alone", "62", True),
            ("no content", "6200", False),
            ("two originating IDs that differ", "6206480101480102", False),
            ("two destination IDs that differ", "6509480101490107490108", False),
            ("an ID after end-of-contents octets", "62050000480101", False),
            ("a Unidirectional with an ID", "6103480101", False),
        ]
    ),
    Row(
        "a tag alone is of a message, so that the trace is judged",
        "",
        lines("A 6200"),
        [Wanted([0], "", "", "fail 0 F1", DROPPED, open=None)],
    ),
    Row(
        "a fault before it is one all the same, and behind a mark it is over",
        "",
        lines(SHORT[0], WRONG_END, f"A {end('0A')}", f"B {OTHER_TAG}", "Q", SHORT[0], WRONG_END, f"A {end('0A')}"),
        [
            Wanted([0, 1], "01", "", "pass", "fail 1 F5"),
            Wanted([2], "", "0a", "fail 0 F2"),
            Wanted([3], "", "", DROPPED, "fail 0 F1"),
            Wanted([5, 6], "01", "", "pass", "fail 1 F5"),
            Wanted([7], "", "0a", "fail 0 F2"),
        ],
    ),
    *(
        Row(
            f"what B answers may have been invoked by what can't be read, with {len(before)} more before the dialogue",
            "",
            lines(*before, SHORT[0], BACK, f"A {OTHER_TAG}", f"B {end('01', result('02'))}"),
            [
                *(Wanted([at], "", "", "fail 0 F1", DROPPED, open=None) for at in range(len(before))),
                Wanted([at + len(before) for at in (0, 1, 3)], "01", "07", "pass", f"inconc 2 F5 {UNREAD}"),
                Wanted([2 + len(before)], "", "", "fail 0 F1", DROPPED, open=None),
            ],
        )
        for before in ([], [f"A {OTHER_TAG}"], [f"A {OTHER_TAG}"] * 2)
    ),
    Row(
        "what stands before the Begin of a dialogue is not of it, and what stands behind the fault changes nothing",
        "",
        lines(f"A {OTHER_TAG}", SHORT[0], WRONG_CONTINUE, f"A {OTHER_TAG}"),
        [
            Wanted([0], "", "", "fail 0 F1", DROPPED, open=None),
            Wanted([1, 2], "01", "07", "pass", "fail 1 F5", open=True),
            Wanted([3], "", "", "fail 0 F1", DROPPED, open=None),
        ],
    ),
    Row(
        "without a Begin the first one of the segment may be of a dialogue, also of one that it does not stand in",
        "",
        lines(
            f"B {OTHER_TAG}",
            f"A {go_on('02', '08')}",
            f"B {begin('05')}",
            f"A {end('05', RESULT)}",
            f"A {OTHER_TAG}",
        ),
        [
            Wanted([0], "", "", DROPPED, "fail 0 F1", open=None),
            Wanted([1], "02", "08", f"inconc 0 F2 {UNREAD}", "pass 1", open=True),
            Wanted([2, 3], "", "05", "fail 1 F5"),
            Wanted([4], "", "", "fail 0 F1", DROPPED, open=None),
        ],
    ),
]

TABLE_ROWS = [
    Row(
        "without a Begin the first context of any message has the table, and it is not sure",
        "",
        lines(BACK, f"B {go_on('07', '01', asks=accepted('2A0404'))}", f"B {go_on('07', '01', asks=accepted('2B09'))}"),
        [
            Wanted(
                [0, 1, 2],
                "01",
                "07",
                f"inconc {NOT_SURE}",
                "fail 0 F2",
                open=True,
                more={"context": "2a0404", "table": "wide"},
            ),
        ],
        f'{{"tables":[{NARROW},{WIDE}]}}',
    ),
    Row(
        "without a context it is the first table, and it is not sure",
        "",
        lines(BACK),
        [Wanted([0], "01", "07", f"inconc {NOT_SURE}", "fail 0 F2", open=True, more={"table": "narrow"})],
        f'{{"tables":[{NARROW},{WIDE}]}}',
    ),
    Row(
        "so it is where one table alone has no contexts",
        "",
        lines(BACK),
        [Wanted([0], "01", "07", f"inconc {NOT_SURE}", "fail 0 F2", open=True, more={"table": "narrow"})],
        f'{{"tables":[{NARROW},{BARE}]}}',
    ),
    Row(
        "a Begin that is not the first message has the table",
        "",
        lines(BACK, f"A {begin('01', asks=request('2A0404'))}"),
        # A can't take B's Continue for an answer, which lacks an AARE.
        [Wanted([0, 1], "01", "07", "pass 1", "fail 0 F2", open=True, more={"context": "2a0404", "table": "wide"})],
        f'{{"tables":[{NARROW},{WIDE}]}}',
    ),
    *(
        Row(
            f"two Begins in one dialogue, {name}",
            "",
            lines(f"A {begin('01', asks=first)}", f"A {begin('01', asks=second)}"),
            [Wanted([0, 1], "01", "", f"inconc 1 F3 {GIVEN_UP}", found, open=True, more=more)],
            f'{{"tables":[{NARROW},{WIDE},{BARE}]}}',
        )
        for name, first, second, found, more in [
            (
                "of two contexts with one table",
                request("2B09"),
                request("2A0405"),
                "pass 1",
                {"context": "2b09", "table": "narrow"},
            ),
            ("of one context", request("2A04"), request("2A04"), "pass 1", {"context": "2a04", "table": "wide"}),
            ("of none", "", "", "pass 1", {"table": "bare"}),
            (
                "of two tables",
                request("2B09"),
                request("2A04"),
                f"inconc {NOT_SURE}",
                {"context": "2b09", "table": "narrow"},
            ),
            (
                "with a context, and without",
                request("2A04"),
                "",
                f"inconc {NOT_SURE}",
                {"context": "2a04", "table": "wide"},
            ),
            ("without a context, and with one", "", request("2A04"), f"inconc {NOT_SURE}", {"table": "bare"}),
        ]
    ),
    Row(
        "a context in an answer does not change the table of a Begin without one",
        "",
        lines(f"A {begin('01', INVOKE)}", f"B {go_on('07', '01', asks=accepted('2A04'))}", f"B {end('01', RESULT)}"),
        # An AARE without an AARQ.
        [Wanted([0, 1, 2], "01", "07", "pass", "fail 1 F7", more={"table": "bare"})],
        f'{{"tables":[{WIDE},{BARE}]}}',
    ),
]

ROWS = UNDER_WAY_ROWS + EARLY_MARK_ROWS + UNREAD_ROWS + TABLE_ROWS
