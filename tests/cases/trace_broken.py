"""Rows for tests/traces.py, as those of trace_rows.py, of traces that end before their time: by a line with a fault,
or by the directive that they are broken off. trace_directives.py has what a directive may be."""

from trace_rows import (
    BACK,
    CAME_AGAIN,
    DROPPED,
    INVOKE,
    IS_OPEN,
    LONG,
    MAY_BE_UNDER_WAY,
    RESULT,
    SHORT,
    WRONG_CONTINUE,
    WRONG_END,
    Row,
    Wanted,
    begin,
    end,
    go_on,
    lines,
)

BROKEN_OFF, IS_BROKEN_OFF = "#: broken off", "the trace was broken off"
# A Begin of B.
OTHER = f"B {begin('05')}"

ROWS = [
    # ---- a line with a fault
    Row(
        "a fault of a line: the dialogue that is over is judged, the one that is open is not",
        "",
        lines(SHORT[0], WRONG_END, f"A {begin('02', INVOKE)}", "A 620"),
        [Wanted([0, 1], "01", "", "pass", "fail 1 F5")], error=(4, "odd"),
    ),
    Row(
        "of those that are open one that fails is told, and no other",
        "",
        lines(SHORT[0], f"A {begin('02', INVOKE)}", WRONG_CONTINUE, f"A {begin('03')}", f"A {begin('03')}", "B 6"),
        [Wanted([0, 2], "01", "07", "pass", "fail 1 F5", open=None)], error=(6, "odd"),
    ),
    Row(
        "so it is of an invocation that is answered twice",
        "",
        lines(LONG[0], f"B {go_on('07', '01', RESULT, RESULT)}", "A 620"),
        [Wanted([0, 1], "01", "07", "pass", "fail 1 F12", open=None)], error=(3, "odd"),
    ),
    Row(
        "an end that is not asked does not fail",
        "--of A",
        lines(LONG[0], f"B {go_on('07', '01', RESULT, RESULT)}", "A 620"),
        [], error=(3, "odd"),
    ),
    Row(
        "what is over is told, whatever its verdict is, also where it lingers",
        "",
        lines(*SHORT, SHORT[0], WRONG_END, f"A {begin('02')}", "A 620"),
        [Wanted([0, 1], "01", ""), Wanted([2, 3], "01", "", "pass", f"inconc 1 F5 {CAME_AGAIN}", again=True)],
        error=(6, "odd"),
    ),
    Row(
        "with IDs that come once, too",
        "--ids once",
        lines(*SHORT, f"A {begin('02', INVOKE)}", f"B {go_on('08', '02', RESULT, RESULT)}", f"A {begin('03')}", "A 620"),
        [Wanted([0, 1], "01", ""), Wanted([2, 3], "02", "08", "pass", "fail 1 F12", open=None)], error=(6, "odd"),
    ),
    Row(
        "a last line without a line feed, whose message is cut, is such a line",
        "",
        lines(SHORT[0], WRONG_END, SHORT[0])[:-3],
        [Wanted([0, 1], "01", "", "pass", "fail 1 F5")], error=(3, "cut"),
    ),
    Row(
        "with a line feed it is an entry, which is no message",
        "",
        lines(SHORT[0], WRONG_END, SHORT[0][:-2]),
        [Wanted([0, 1], "01", "", "pass", "fail 1 F5"), Wanted([2], "", "", "fail 0 F1", DROPPED, open=None)],
    ),
    Row(
        "octets after a message make it none, also in a last line without a line feed",
        "",
        lines(*SHORT, f"A {begin('02')}00")[:-1],
        [Wanted([0, 1], "01", ""), Wanted([2], "02", "", "fail 0 F1", DROPPED, open=True)],
    ),
    *(
        Row(
            f"{more[:12]!r} after a trace was broken off is such a line",
            "",
            lines(SHORT[0], WRONG_CONTINUE, OTHER, BROKEN_OFF, "", more),
            [Wanted([0, 1], "01", "07", "pass", "fail 1 F5", open=None)],
            error=(6, f"after {IS_BROKEN_OFF}"),
        )
        for more in [SHORT[0], "Q", BROKEN_OFF, MAY_BE_UNDER_WAY, "#: A one"]
    ),
    # ---- a trace that is broken off
    Row(
        "all that was read of a trace that is broken off is judged as ever",
        "",
        lines(*LONG[:2], *SHORT, f"{BROKEN_OFF}, 12 messages missing"),
        # A begins from 01, which is in use.
        [Wanted([0, 1, 2, 3], "01", "07", "fail 2 F3", "pass 1")],
        error=(None, f"{IS_BROKEN_OFF}, 12 messages missing"),
    ),
    Row(
        "what is open is, and what is doubtful",
        "",
        lines(*SHORT, SHORT[0], WRONG_END, OTHER, BROKEN_OFF, "# the end"),
        [
            Wanted([0, 1], "01", ""),
            Wanted([2, 3], "01", "", "pass", f"inconc 1 F5 {CAME_AGAIN}", again=True),
            Wanted([4], "", "05", open=True),
        ],
        error=(None, IS_BROKEN_OFF),
    ),
    Row(
        "what is to be complete is open at its end",
        "--complete",
        lines(*SHORT, "Q", SHORT[0], BACK, BROKEN_OFF),
        [Wanted([0, 1], "01", ""), Wanted([3, 4], "01", "07", IS_OPEN, IS_OPEN, open=True)],
        error=(None, IS_BROKEN_OFF),
    ),
]
