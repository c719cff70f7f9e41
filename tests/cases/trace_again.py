"""Rows for tests/traces.py, as those of trace_rows.py, of IDs that come again between two quiet marks: which messages
begin a new dialogue, and which fault of it is doubtful."""

from trace_rows import (
    BACK,
    CAME_AGAIN,
    INVOKE,
    LONG,
    MAY_BE_UNDER_WAY,
    RESULT,
    SHORT,
    UNDECIDED,
    UNDER_WAY,
    WRONG_END,
    Row,
    Wanted,
    abort,
    begin,
    end,
    go_on,
    lines,
)

# What answers an invocation twice, in an End.
TWICE = (RESULT, RESULT)
NOT_SETTLED, SETTLED = f"inconc 1 F12 {CAME_AGAIN}", "fail 1 F12"

ROWS = [
    Row(
        "a Begin behind an End begins a new dialogue",
        "",
        lines(*SHORT, *SHORT, *SHORT),
        [Wanted([0, 1], "01", ""), Wanted([2, 3], "01", "", again=True), Wanted([4, 5], "01", "", again=True)],
    ),
    Row(
        "so it does behind an Abort, of whichever end",
        "",
        lines(SHORT[0], f"B {abort('01', '04')}", *LONG[:2], f"A {abort('07')}", *SHORT),
        [Wanted([0, 1], "01", ""), Wanted([2, 3, 4], "01", "07", again=True), Wanted([5, 6], "01", "", again=True)],
    ),
    Row(
        "so it does where its end used the ID in a Continue alone",
        "",
        lines(*LONG, f"B {begin('07')}", f"A {end('07')}"),
        [Wanted([0, 1, 2], "01", "07"), Wanted([3, 4], "", "07", again=True)],
    ),
    *(
        Row(
            f"a fault where an ID came again, {words}",
            words,
            lines(*SHORT, SHORT[0], WRONG_END),
            [
                Wanted([0, 1], "01", ""),
                Wanted([2, 3], "01", "", "pass", found, again=True, says=says),
            ],
        )
        for words, found, says in [
            ("", f"inconc 1 F5 {CAME_AGAIN}", ("dialogue 0", "dialogue 2")),
            ("--ids again", f"inconc 1 F5 {CAME_AGAIN}", ("dialogue 0", "dialogue 2")),
            ("--ids settled", "fail 1 F5", ()),
        ]
    ),
    *(
        Row(
            f"of several that had an ID the last is named, {name}",
            "",
            lines(*before, SHORT[0], WRONG_END),
            [
                *(Wanted(entries, "01", "", again=again) for entries, again in others),
                Wanted(mine, "01", "", "pass", f"inconc 1 F5 {CAME_AGAIN}", again=True, says=(said,)),
            ],
        )
        for name, before, others, mine, said in [
            (
                "the third",
                [*SHORT, *SHORT],
                [([0, 1], False), ([2, 3], True)],
                [4, 5],
                "this is dialogue 4, and that was dialogue 2",
            ),
            (
                "behind a mark, which ends two others",
                [*SHORT, *SHORT, "Q", *SHORT, *SHORT],
                [([0, 1], False), ([2, 3], True), ([5, 6], False), ([7, 8], True)],
                [9, 10],
                "this is dialogue 9, and that was dialogue 7",
            ),
        ]
    ),
    Row(
        "two IDs, each of another earlier dialogue: the last of these is named",
        "",
        lines(
            *SHORT,
            f"A {begin('02')}",
            f"B {end('02')}",
            SHORT[0],
            f"A {begin('02')}",
            BACK,
            f"B {go_on('07', '02')}",
        ),
        [
            Wanted([0, 1], "01", ""),
            Wanted([2, 3], "02", ""),
            Wanted(
                [4, 5, 6, 7],
                "01 02",
                "07",
                "pass 1",
                f"inconc 3 F3 {CAME_AGAIN}",
                again=True,
                open=True,
                says=("this is dialogue 4, and that was dialogue 2",),
            ),
        ],
    ),
    Row(
        "used once alone, the second Begin is of the same dialogue, whom its messages mean can't be told, and its ID is named",
        "--ids once",
        lines("# one", *SHORT, SHORT[0], WRONG_END),
        [Wanted([0, 1, 2, 3], "01", "", f"inconc {UNDECIDED}", f"inconc {UNDECIDED}", comes_again=("A", "01", 4))],
    ),
    Row(
        "a fault before the ID comes again is one",
        "",
        lines(SHORT[0], WRONG_END, *SHORT),
        [Wanted([0, 1], "01", "", "pass", "fail 1 F5"), Wanted([2, 3], "01", "", again=True)],
    ),
    Row(
        "a late message of an innocent end is taken for one of the new dialogue",
        "",
        lines(*LONG, SHORT[0], f"B {go_on('08', '01')}", BACK, f"A {end('08')}"),
        [
            Wanted([0, 1, 2], "01", "07"),
            Wanted([3, 4, 5, 6], "01", "07 08", "pass 1", f"inconc 2 F8 {CAME_AGAIN}", again=True),
        ],
    ),
    Row(
        "all IDs are free then: what carries one that nobody took is of a new dialogue",
        "",
        lines(*LONG, SHORT[0], f"A {end('07')}", f"B {end('01')}"),
        [
            Wanted([0, 1, 2], "01", "07"),
            Wanted([3, 5], "01", "", again=True),
            Wanted([4], "", "07", f"inconc 0 F2 {CAME_AGAIN}", again=True),
        ],
    ),
    Row(
        "a mark ends that: behind it no ID came again",
        "",
        lines(*SHORT, "Q", SHORT[0], WRONG_END),
        [Wanted([0, 1], "01", ""), Wanted([3, 4], "01", "", "pass", "fail 1 F5")],
    ),
    Row(
        "a Continue takes an own ID of a dialogue that is over, for a Begin that its end sent nothing to",
        "",
        lines(*LONG, f"A {begin('02')}", f"B {go_on('07', '02')}", f"A {end('07')}"),
        [Wanted([0, 1, 2], "01", "07"), Wanted([3, 4, 5], "02", "07", again=True)],
    ),
    Row(
        "the same, used once alone: one dialogue, and nobody is blamed",
        "--ids once",
        lines(*LONG, f"A {begin('02')}", f"B {go_on('07', '02')}", f"A {end('07')}"),
        [
            Wanted(
                [0, 1, 2, 3, 4, 5],
                "01 02",
                "07",
                f"inconc {UNDECIDED}",
                f"inconc {UNDECIDED}",
                comes_again=("B", "07", 5),
            ),
        ],
    ),
    Row(
        "it does not take one where it sent something to that Begin before (F3)",
        "",
        lines(*LONG, f"A {begin('02')}", f"B {go_on('08', '02')}", f"B {go_on('07', '02')}"),
        [Wanted([0, 1, 2, 3, 4, 5], "01 02", "07 08", "pass 1", "fail 5 F3")],
    ),
    Row(
        "nor does it take one of a dialogue that is not over (F3)",
        "",
        lines(*LONG[:2], f"A {begin('02')}", f"B {go_on('07', '02')}"),
        [Wanted([0, 1, 2, 3], "01 02", "07", "pass 1", "fail 3 F3", open=True)],
    ),
    # ---- IDs that only the other end named
    *(
        Row(
            f"an ID to which an End went is begun, where dialogues may have been under way, {words or 'again'}",
            words,
            lines(MAY_BE_UNDER_WAY, "", f"B {end('09')}", f"A {begin('09', INVOKE)}", f"B {end('09', *TWICE)}"),
            [
                Wanted([0], "09", "", f"inconc {UNDER_WAY}", f"inconc 0 F2 {UNDER_WAY}"),
                Wanted([1, 2], "09", "", "pass", found, again=True, says=says),
            ],
            has_directives=True,
        )
        for words, found, says in [
            ("", NOT_SETTLED, ("this is dialogue 1, and that was dialogue 0", "--ids settled")),
            ("--ids settled", SETTLED, ()),
        ]
    ),
    *(
        Row(
            f"so it is by the Continue that accepts another Begin, {words or 'again'}",
            words,
            lines(MAY_BE_UNDER_WAY, "", f"A {end('09')}", LONG[0], f"B {go_on('09', '01', *TWICE)}"),
            [
                Wanted([0], "", "09", f"inconc 0 F2 {UNDER_WAY}", f"inconc {UNDER_WAY}"),
                Wanted([1, 2], "01", "09", "pass", found, again=True, open=True),
            ],
            has_directives=True,
        )
        for words, found in [("", NOT_SETTLED), ("--ids settled", SETTLED)]
    ),
    *(
        Row(
            f"before that word nothing has settled of an ID from which its end did not send, {words or 'again'}",
            words,
            lines(f"B {end('09')}", f"A {begin('09', INVOKE)}", f"B {end('09', *TWICE)}"),
            [Wanted([0], "09", "", "pass", "fail 0 F2"), Wanted([1, 2], "09", "", "pass", NOT_SETTLED, again=True)],
        )
        for words in ("", "--ids settled")
    ),
    *(
        Row(
            f"so A does not fail by the ID that B went on from, {words or 'again'}",
            words,
            lines(f"B {go_on('07', '09')}", f"B {end('09')}", f"A {begin('09')}", f"A {go_on('09', '07')}"),
            [
                Wanted([0, 1], "09", "07", "pass 1", "fail 0 F2"),
                Wanted([2, 3], "09", "07", f"inconc 1 F2 {CAME_AGAIN}", "pass 1", again=True, open=True),
            ],
        )
        for words in ("", "--ids settled")
    ),
    Row(
        "an End too much to an ID from which its end sent does not unsettle it",
        "--ids settled",
        lines(*SHORT, f"B {end('01')}", f"A {begin('01', INVOKE)}", f"B {end('01', *TWICE)}"),
        # The second End is of the first dialogue (F4).
        [Wanted([0, 1, 2], "01", "", "pass", "fail 2 F4"), Wanted([3, 4], "01", "", "pass", SETTLED, again=True)],
    ),
    Row(
        "an ID from which its end did not send has settled, when one more dialogue in which it did is over",
        "--ids settled",
        lines(
            f"B {end('09')}",
            f"A {begin('09')}",
            f"B {end('09')}",
            f"A {begin('09', INVOKE)}",
            f"B {end('09', *TWICE)}",
        ),
        [
            Wanted([0], "09", "", "pass", "fail 0 F2"),
            Wanted([1, 2], "09", "", again=True),
            # A sent from it in the second.
            Wanted([3, 4], "09", "", "pass", SETTLED, again=True),
        ],
    ),
    # ---- a Continue to an ID that nobody named
    *(
        Row(
            f"a Continue from an ID whose dialogue is over may go on with one from before the trace, {words or 'again'}",
            words,
            lines(
                MAY_BE_UNDER_WAY,
                "",
                f"A {begin('02', INVOKE)}",
                f"B {end('02')}",
                f"A {go_on('02', '01')}",
                f"B {end('02')}",
            ),
            [
                Wanted([0, 1], "02", ""),
                Wanted([2, 3], "02", "01", f"inconc 0 F2 {CAME_AGAIN}", f"inconc 1 F8 {CAME_AGAIN}", again=True),
            ],
            has_directives=True,
        )
        for words in ("", "--ids settled")
    ),
    Row(
        "or with one that began before a mark",
        "",
        lines(
            f"B {begin('01')}",
            f"A {end('01')}",
            "Q",
            f"A {begin('02', INVOKE)}",
            f"B {end('02')}",
            f"A {go_on('02', '01')}",
            f"B {end('02')}",
        ),
        [
            Wanted([0, 1], "", "01"),
            Wanted([3, 4], "02", ""),
            Wanted([5, 6], "02", "01", f"inconc 0 F2 {CAME_AGAIN}", f"inconc 1 F8 {CAME_AGAIN}", again=True),
        ],
    ),
    Row(
        "it does not where no dialogue may have been under way, and nobody sent from the other ID before a mark",
        "",
        lines(f"A {end('01')}", "Q", f"A {begin('02', INVOKE)}", f"B {end('02')}", f"A {go_on('02', '01')}"),
        [Wanted([0], "", "01", "fail 0 F2"), Wanted([2, 3, 4], "02", "01", "fail 2 F2", "pass 1")],
    ),
    Row(
        "nor where an entry of the segment has named that ID",
        "",
        lines(
            MAY_BE_UNDER_WAY,
            "",
            f"A {begin('02')}",
            f"B {go_on('01', '02')}",
            f"B {end('02')}",
            f"A {go_on('02', '01')}",
        ),
        # A's Continue crosses the End of B.
        [Wanted([0, 1, 2, 3], "02", "01", "pass", "pass 1")],
        has_directives=True,
    ),
    Row(
        "nor where IDs come once",
        "--ids once",
        lines(MAY_BE_UNDER_WAY, "", f"A {begin('02', INVOKE)}", f"B {end('02')}", f"A {go_on('02', '01')}"),
        [Wanted([0, 1, 2], "02", "01", "fail 2 F2", "pass 1")],
        has_directives=True,
    ),
    Row(
        "nor where the dialogue has no Begin",
        "",
        lines(MAY_BE_UNDER_WAY, "", f"A {go_on('02', '01')}", f"B {end('02')}", f"A {go_on('02', '03')}"),
        [Wanted([0, 1, 2], "02", "01 03", f"inconc 0 F2 {UNDER_WAY}", f"inconc 1 F8 {UNDER_WAY}")],
        has_directives=True,
    ),
]
