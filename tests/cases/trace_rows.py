"""Traces for tests/traces.py, as lines of digits, with what `test` has to say of them. It was worked out by hand from
what the standard asks of an end (docs/VERDICTS.md has the kinds) and from how a trace is cut into dialogues: messages
that share an ID of one end are one dialogue, up to a quiet mark, and an ID whose dialogue is over may come again.
trace_again.py has rows of such IDs, and trace_doubts.py of what else makes a blame doubtful."""

from dataclasses import dataclass, field

SYNTAX = "060700118605010101"
# Operations of each class, 45 to 48, and 50, to which 48 may be linked.
OPERATIONS = (
    '{"operations":[{"class":1,"code":45},{"class":2,"code":46},{"class":3,"code":47},{"class":4,"code":48},'
    '{"class":1,"code":50,"linked":[48]}]}'
)
PREARRANGED = OPERATIONS[:-1] + ',"prearranged":true}'
# Two tables for application contexts, in which 45 has another class, and one for a dialogue without one.
WIDE = '{"name":"wide","contexts":["2A04"],"operations":[{"class":1,"code":45,"name":"ask"}]}'
NARROW = '{"name":"narrow","contexts":["2B09","2A0405"],"operations":[{"class":2,"code":45}]}'
BARE = '{"name":"bare","operations":[{"class":4,"code":45}]}'
TABLES = {"wide": WIDE, "narrow": NARROW, "bare": BARE}


# ---- digits


def element(tag, *contents):
    """An element, by the digits of its tag and its contents."""
    digits = "".join(contents)
    return f"{tag}{len(digits) // 2:02X}{digits}"


def invoke(id, operation, linked=None):
    return element("A1", element("02", id), element("80", linked) if linked else "", element("02", operation))


def result(id):
    return element("A2", element("02", id))


def error(id, code="01"):
    return element("A3", element("02", id), element("02", code))


def reject(id, problem):
    """A Reject with an invoke problem."""
    return element("A4", element("02", id), element("81", problem))


def portion(*components):
    return element("6C", *components) if components else ""


def dialogue(pdu):
    return element("6B", element("28", SYNTAX, element("A0", pdu)))


def request(context):
    """A dialogue portion with an AARQ."""
    return dialogue(element("60", element("A1", element("06", context))))


def accepted(context):
    """A dialogue portion with an AARE that accepts."""
    outcome = element("A2", "020100") + element("A3", element("A1", "020100"))
    return dialogue(element("61", element("A1", element("06", context)), outcome))


def uni(*components):
    return element("61", portion(*components))


def begin(own, *components, asks=""):
    return element("62", element("48", own), asks, portion(*components))


def end(peer, *components, asks=""):
    return element("64", element("49", peer), asks, portion(*components))


def go_on(own, peer, *components, asks=""):
    """A Continue."""
    return element("65", element("48", own), element("49", peer), asks, portion(*components))


def abort(peer, cause=None):
    return element("67", element("49", peer), element("4A", cause) if cause else "")


INVOKE, RESULT = invoke("01", "2D"), result("01")
# No messages, whose IDs can be read: with an empty component portion (F1), and with a code that goes beyond a limit.
EMPTY = "6C00"
BAD_BEGIN, BAD_CONTINUE = element("62", element("48", "01"), EMPTY), element("65", element("48", "01"), "490107", EMPTY)
WIDE_CODE = element("02", "0100000000")
LIMIT_BEGIN = element("62", element("48", "01"), portion(element("A1", element("02", "01"), WIDE_CODE)))
LIMIT_END = element("64", element("49", "01"), portion(element("A3", element("02", "01"), WIDE_CODE)))
# No messages, whose IDs can't be read: another tag; an ID of no octets; a DTID of five; and an ID whose length can't be
# read, which is a limit.
OTHER_TAG, NO_OCTETS, FIVE_OCTETS, BAD_LENGTH = "6303040101", "62024800", "640749050102030405", "6203488501"


# ---- what is wanted


@dataclass
class Wanted:
    """A dialogue: the numbers of its entries in the trace, the IDs of A and of B, and of each of these ends what is
    said: `pass` and how many messages are unheard, 0 where that is left out; `pass COUNT WAY ENTRY` by a reading, which
    takes that entry in this way; `fail ENTRY KIND`; `inconc ENTRY KIND WORDS` or `inconc WORDS`, with words that the
    reason has. The entry is counted in the dialogue. None stands for an end of which nothing is said."""

    entries: list
    a_ids: str
    b_ids: str
    a: str = "pass"
    b: str = "pass"
    again: bool = False
    open: bool = False
    more: dict = field(default_factory=dict)
    # Words that the lines of the dialogue have.
    says: tuple = ()
    # The end, the ID and the line at which an ID comes again, of IDs that are to come once.
    comes_again: tuple = None


@dataclass
class Row:
    """A trace, and the dialogues in it; the error of the trace, where it has one: its line, and words."""

    name: str
    words: str
    lines: str
    dialogues: list
    table: str = OPERATIONS
    error: tuple = None
    # Whether what is wanted rests on a directive, which a record lacks.
    has_directives: bool = False
    # The numbers of the dialogues that are judged first, in that order.
    first: tuple = ()


def lines(*entries):
    return "".join(f"{entry}\n" for entry in entries)


GIVEN_UP, MARK, CAME_AGAIN, LACKS = "given up", "quiet mark", "earlier", "table lacks"
UNDER_WAY, MAY_BE_UNDER_WAY = "never sent in the trace", "#: under way"
UNREAD, BEHIND, IS_OPEN, UNDECIDED = "can't be read", "no message", "inconc open", "no entry of it is blamed"
NO_TAG = "no entry has the tag of a message"
# Words for the reaction to a malformed message. The first one is used in place of the kind of a fault.
REACTION, SEVERAL, UNLIKELY = "reaction", "only one malformed message can be judged", "only if an Abort answers entry"
AS_IF_MESSAGE, UNCLEAR = "it goes on as if entry", "it is open if it kept the rules"
# An end whose peer sent octets that are no message alone discards these.
DROPPED = "pass 1 dropped 0"

# A dialogue that A begins and B ends; one that goes to and fro.
SHORT = [f"A {begin('01')}", f"B {end('01')}"]
LONG = [f"A {begin('01', INVOKE)}", f"B {go_on('07', '01', RESULT)}", f"A {end('07')}"]
# B answers what was never invoked.
WRONG_END = f"B {end('01', result('05'))}"
WRONG_CONTINUE = f"B {go_on('07', '01', result('05'))}"
# A Continue of B that fits, and a Begin of A with an operation that the table lacks.
BACK, LACKED = f"B {go_on('07', '01')}", f"A {begin('01', invoke('01', '63'))}"

# A's last message crosses the End of B.
CROSSED = [SHORT[0], BACK, f"A {go_on('01', '07')}", f"B {end('01')}", f"A {go_on('01', '07')}"]

ROWS = [
    Row("a lawful dialogue", "", lines(*LONG), [Wanted([0, 1, 2], "01", "07")]),
    Row("a lawful dialogue, all of which was heard", "--heard", lines(*LONG), [Wanted([0, 1, 2], "01", "07")]),
    Row("a message crosses an End", "", lines(*CROSSED), [Wanted([0, 1, 2, 3, 4], "01", "07", "pass", "pass 1")]),
    Row(
        "a message crosses an End, and was to be heard",
        "--heard",
        lines(*CROSSED),
        [Wanted([0, 1, 2, 3, 4], "01", "07", "pass", "inconc in the run that was found, 1 message of its peer is unheard; another run may have fewer")],
    ),
    Row(
        "a message crosses an End, and A alone is asked",
        "--heard --of A",
        lines(*CROSSED),
        [Wanted([0, 1, 2, 3, 4], "01", "07", "pass", None)],
    ),
    Row(
        "an answer in the last message",
        "",
        lines(f"A {begin('01', INVOKE)}", f"B {end('01', RESULT)}"),
        [Wanted([0, 1], "01", "")],
    ),
    Row(
        "two dialogues side by side",
        "",
        lines(LONG[0], f"B {begin('05')}", LONG[1], f"A {end('05')}", LONG[2]),
        [Wanted([0, 2, 4], "01", "07"), Wanted([1, 3], "", "05")],
    ),
    Row(
        "both ends have the same ID: these are two",
        "",
        lines(SHORT[0], f"B {begin('01')}", f"A {end('01')}", f"B {end('01')}"),
        [Wanted([0, 3], "01", ""), Wanted([1, 2], "", "01")],
    ),
    Row(
        "IDs of one to four octets, which are others where they have other octets; a length that is padded",
        "",
        lines("A 6203480101", "A 620448020001", "B 650A48040A0B0C0D49020001", "A 640649040A0B0C0D", "B 640449810101"),
        [Wanted([0, 4], "01", ""), Wanted([1, 2, 3], "0001", "0a0b0c0d")],
    ),
    Row(
        "an indefinite length, and digits of either case",
        "",
        lines("A 628048010A0000", "B 648049010a0000"),
        [Wanted([0, 1], "0a", "")],
    ),
    Row(
        "what is open at the end of the trace passes",
        "",
        lines(LONG[0], LONG[1], f"B {begin('05')}"),
        [Wanted([0, 1], "01", "07", open=True), Wanted([2], "", "05", open=True)],
    ),
    # ---- a fault in one of two, of each kind
    Row(
        "a fault, with the comment above it, in one of two dialogues",
        "",
        lines("# first", LONG[0], f"A {begin('02')}", "", "# frame 12", WRONG_CONTINUE, f"B {end('02')}", LONG[2]),
        [
            Wanted([0, 2, 4], "01", "07", "pass", "fail 1 F5", more={"comment": "frame 12"}),
            Wanted([1, 3], "02", ""),
        ],
    ),
    Row(
        "F1, an empty component portion",
        "",
        lines("A 62054801016C00"),
        [Wanted([0], "01", "", "fail 0 F1", DROPPED, open=True)],
    ),
    Row(
        "F2, to an ID that was never sent",
        "",
        lines(SHORT[0], f"B {end('09')}"),
        [Wanted([0], "01", "", open=True), Wanted([1], "09", "", "pass", "fail 0 F2")],
    ),
    Row(
        "F4, behind its own End",
        "",
        lines(SHORT[0], "B 6506480102490101", "A 6403490102", "A 6403490102"),
        [Wanted([0, 1, 2, 3], "01", "02", "fail 3 F4")],
    ),
    Row(
        "F6, an error of an operation of class 3",
        "",
        lines(f"A {begin('01', invoke('01', '2F'))}", f"B {end('01', error('01'))}"),
        [Wanted([0, 1], "01", "", "pass", "fail 1 F6")],
    ),
    Row(
        "F9, no AARE for an AARQ",
        "",
        lines(f"A {begin('01', asks=request('2A0304'))}", "B 6506480102490101"),
        [Wanted([0, 1], "01", "02", "pass 1", "fail 1 F9", open=True, more={"context": "2a0304"})],
    ),
    Row(
        "F10, an invoke ID twice",
        "",
        lines(f"A {begin('01', INVOKE, INVOKE)}"),
        [Wanted([0], "01", "", "fail 0 F10", open=True)],
    ),
    Row(
        "F11, linked to an operation that lists nothing",
        "",
        lines(LONG[0], f"B {go_on('02', '01', invoke('01', '30', '01'))}"),
        [Wanted([0, 1], "01", "02", "pass", "fail 1 F11", open=True)],
    ),
    Row(
        "F12, answered twice",
        "",
        lines(LONG[0], f"B {end('01', RESULT, RESULT)}"),
        [Wanted([0, 1], "01", "", "pass", "fail 1 F12")],
    ),
    Row(
        "F13, called a duplicate that is none",
        "",
        lines(LONG[0], f"B {end('01', reject('01', '00'))}"),
        [Wanted([0, 1], "01", "", "pass", "fail 1 F13")],
    ),
    Row(
        "F14, the provider answers twice",
        "",
        lines(SHORT[0], f"B {abort('01', '04')}", f"B {abort('01', '04')}"),
        [Wanted([0, 1, 2], "01", "", "pass", "fail 2 F14")],
    ),
    Row(
        "both ends at fault, each at its first entry",
        "",
        lines(f"A {begin('01', INVOKE, INVOKE)}", WRONG_END),
        [Wanted([0, 1], "01", "", "fail 0 F10", "fail 1 F5")],
    ),
    # ---- IDs that are tangled
    Row(
        "one ID of B for two of A makes one dialogue: B goes on from an ID that it used for another (F3)",
        "",
        lines(SHORT[0], f"A {begin('02')}", BACK, f"B {go_on('07', '02')}", f"A {end('07')}"),
        [Wanted([0, 1, 2, 3, 4], "01 02", "07", "pass 1", "fail 3 F3")],
    ),
    Row(
        "dialogues that were two become one, by the entry that shares an ID with both",
        "",
        lines(*LONG[:2], f"A {begin('02')}", f"B {go_on('08', '02')}", f"B {begin('05')}", f"A {go_on('02', '07')}"),
        # The half of 07 is the one that A began from 01, which is another own ID: F8.
        [Wanted([0, 1, 2, 3, 5], "01 02", "07 08", "fail 4 F8", "pass 1", open=True), Wanted([4], "", "05", open=True)],
    ),
    # ---- quiet marks
    Row(
        "a mark ends each dialogue, and behind it an ID is free",
        "",
        lines(*SHORT, "Q", *SHORT, "Q"),
        [Wanted([0, 1], "01", ""), Wanted([3, 4], "01", "")],
    ),
    Row(
        "behind a mark nothing was begun (F2)",
        "",
        lines(SHORT[0], "Q", "Q", f"B {end('09')}"),
        [Wanted([0], "01", "", "pass", "pass 1", open=True), Wanted([3], "09", "", "pass", "fail 0 F2")],
    ),
    Row(
        "what is open at a mark is inconclusive (F15); what is not, passes",
        "",
        lines(SHORT[0], f"B {begin('05')}", BACK, f"A {end('05')}", "Q"),
        [Wanted([0, 2], "01", "07", "pass 1", f"inconc 2 F15 {MARK}", open=True), Wanted([1, 3], "", "05")],
    ),
    Row(
        "a fault before the mark counts, and not the mark",
        "",
        lines(SHORT[0], WRONG_CONTINUE, "Q"),
        [Wanted([0, 1], "01", "07", "pass 1", "fail 1 F5", open=True)],
    ),
    Row(
        "a peer that is silent up to a mark did not hear",
        "",
        lines(SHORT[0], "Q"),
        [Wanted([0], "01", "", "pass", "pass 1", open=True)],
    ),
    Row(
        "a dialogue that was judged before the mark, since its ID came again, does not end with it",
        "",
        lines(SHORT[0], BACK, *SHORT[1:], *SHORT, "Q"),
        [Wanted([0, 1, 2], "01", "07"), Wanted([3, 4], "01", "", again=True)],
    ),
    Row(
        "nor does one that lingers: A may have heard all of it before the mark",
        "",
        lines(SHORT[0], BACK, *SHORT[1:], "Q"),
        [Wanted([0, 1, 2], "01", "07")],
    ),
    *(
        Row(
            f"so B, whose ID has no End, has nothing open at the mark, {words or 'where it lingers'}",
            f"--of B {words}",
            lines(SHORT[0], f"B {go_on('06', '01')}", f"A {end('05')}", f"A {go_on('01', '05')}", f"A {begin('09')}", f"B {end('09')}", "Q"),
            # Nothing is at 05 which B could hear.
            [Wanted([0, 1, 2, 3], "01", "05 06", None, "pass 1"), Wanted([4, 5], "09", "", None)],
        )
        for words in ["", "--linger 1", "--ids once"]
    ),
    # ---- a Begin of an ID whose dialogue isn't over
    Row(
        "nothing was sent to the ID: its transaction may have been given up",
        "",
        lines(SHORT[0], SHORT[0]),
        [Wanted([0, 1], "01", "", f"inconc 1 F3 {GIVEN_UP}", "pass 1", open=True)],
    ),
    Row(
        "something was sent to it",
        "",
        lines(SHORT[0], BACK, SHORT[0]),
        [Wanted([0, 1, 2], "01", "07", "fail 2 F3", "pass 1", open=True)],
    ),
    Row(
        "something was sent to it before it was begun alone",
        "",
        lines(BACK, SHORT[0], SHORT[0]),
        [Wanted([0, 1, 2], "01", "07", f"inconc 2 F3 {GIVEN_UP}", "fail 0 F2", open=True)],
    ),
    Row(
        "ends may be prearranged: then nobody is blamed for it",
        "",
        lines(SHORT[0], BACK, SHORT[0]),
        [Wanted([0, 1, 2], "01", "07", f"inconc {UNDECIDED}", "pass 1", open=True)],
        PREARRANGED,
    ),
    # ---- lingering
    Row(
        "one entry behind the End the dialogue lingers: an End more is of it (F4)",
        "--linger 2",
        lines(*SHORT, f"B {begin('09')}", SHORT[1], f"A {end('09')}"),
        [Wanted([0, 1, 3], "01", "", "pass", "fail 2 F4"), Wanted([2, 4], "", "09")],
    ),
    Row(
        "two entries behind it, it is judged: an End more is of another, in which the ID came again",
        "--linger 2",
        lines(*SHORT, f"B {begin('09')}", f"A {end('09')}", SHORT[1]),
        [
            Wanted([0, 1], "01", ""),
            Wanted([2, 3], "", "09"),
            Wanted([4], "01", "", "pass", f"inconc 0 F2 {CAME_AGAIN}", again=True),
        ],
    ),
    Row(
        "a dialogue that is open lingers as long as it likes",
        "--linger 1",
        lines(*LONG[:2], *[f"B {begin('09')}", f"A {end('09')}"] * 3, LONG[2]),
        [
            Wanted([0, 1, 8], "01", "07"),
            Wanted([2, 3], "", "09"),
            Wanted([4, 5], "", "09", again=True),
            Wanted([6, 7], "", "09", again=True),
        ],
        first=(2, 4),
    ),
    Row(
        "used once alone, none is judged before the end",
        "--linger 0 --ids once",
        lines(*SHORT, f"B {begin('09')}", f"A {end('09')}", SHORT[1]),
        [Wanted([0, 1, 4], "01", "", "pass", "fail 2 F4"), Wanted([2, 3], "", "09")],
    ),
    # ---- entries that are no message
    Row(
        "F1, and the other end passes",
        "",
        lines(*LONG[:2], f"A {BAD_CONTINUE}"),
        [Wanted([0, 1, 2], "01", "07", "fail 2 F1", "pass 1 dropped 2", open=True)],
    ),
    Row(
        "F1, and the other end, which discards it, ends the dialogue",
        "",
        lines(*LONG[:2], f"A {BAD_CONTINUE}", f"B {end('01')}"),
        [Wanted([0, 1, 2, 3], "01", "07", "fail 2 F1", "pass 1 dropped 2")],
    ),
    Row(
        "F1, and the other end was at fault before it",
        "",
        lines(LONG[0], WRONG_CONTINUE, f"A {BAD_CONTINUE}"),
        [Wanted([0, 1, 2], "01", "07", "fail 2 F1", "fail 1 F5", open=True)],
    ),
    *(
        Row(
            f"F1 of a Begin, and the other end {name}",
            "",
            lines(f"A {BAD_BEGIN}", *sent),
            [Wanted([*range(1 + len(sent))], "01", own, "fail 0 F1", found, open=is_open)],
        )
        for name, sent, own, found, is_open in [
            ("aborts, and goes on", [f"B {abort('01', '02')}", BACK], "07", f"fail 2 {REACTION}", False),
            ("aborts twice", [f"B {abort('01', '02')}"] * 2, "", f"fail 2 {REACTION}", False),
            ("says that its kind is unknown", [f"B {abort('01', '00')}"], "", f"fail 1 {REACTION}", False),
            ("aborts, though all but the components is sound", [f"B {abort('01', '02')}"], "", f"inconc {UNLIKELY}", False),
            ("hears two of them", [f"A {BAD_BEGIN}"], "", f"inconc {SEVERAL}", True),
        ]
    ),
    Row(
        "F1 of a Begin, and another dialogue goes on",
        "",
        lines(f"A {BAD_BEGIN}", f"B {begin('05')}", f"B {end('01')}", f"A {end('05', RESULT)}"),
        # B ends what the Begin, without its components, began.
        [Wanted([0, 2], "01", "", "fail 0 F1", "pass 0 in part 0"), Wanted([1, 3], "", "05", "fail 1 F5")],
    ),
    Row(
        "a limit of the profile is nobody's fault",
        "",
        lines(SHORT[0], f"B {LIMIT_END}"),
        [Wanted([0, 1], "01", "", "pass", f"inconc {BEHIND}")],
    ),
    Row(
        "so is one of the first entry, behind which the other end says something",
        "",
        lines(f"A {LIMIT_BEGIN}", SHORT[1]),
        [Wanted([0, 1], "01", "", f"inconc {BEHIND}", f"inconc {BEHIND}")],
    ),
    Row(
        "of such an entry alone, the other end passes",
        "",
        lines(f"A {LIMIT_BEGIN}"),
        [Wanted([0], "01", "", f"inconc {BEHIND}", open=True)],
    ),
    # ---- messages without IDs
    Row(
        "a Unidirectional is a dialogue by itself",
        "",
        lines(f"A {uni(invoke('01', '30'))}", LONG[0], f"B {uni(invoke('01', '30'))}", *LONG[1:]),
        [Wanted([0], "", ""), Wanted([1, 3, 4], "01", "07"), Wanted([2], "", "")],
    ),
    Row(
        "an operation of class 1 in it (F6); one is over by itself",
        "--complete",
        lines(f"A {uni(INVOKE)}", f"B {uni(invoke('01', '30'))}"),
        [Wanted([0], "", "", "fail 0 F6"), Wanted([1], "", "")],
    ),
    # ---- an operation that the table lacks
    Row(
        "it is invoked, and the other end answers it",
        "",
        lines(LACKED, f"B {end('01', RESULT)}"),
        [Wanted([0, 1], "01", "", f"inconc 0 F6 {LACKS}", f"inconc 1 F6 {LACKS}")],
    ),
    Row(
        "it is invoked, and the other end answers nothing, or rejects it",
        "",
        lines(LACKED, SHORT[1], "Q", LACKED, f"B {end('01', reject('01', '01'))}"),
        [Wanted([0, 1], "01", "", f"inconc 0 F6 {LACKS}"), Wanted([3, 4], "01", "", f"inconc 0 F6 {LACKS}")],
    ),
    Row(
        "another invocation is answered twice: that rests on nothing that the table lacks",
        "",
        lines(f"A {begin('01', INVOKE, invoke('02', '63'))}", f"B {end('01', RESULT, RESULT)}"),
        [Wanted([0, 1], "01", "", f"inconc 0 F6 {LACKS}", "fail 1 F12")],
    ),
    # ---- the end that is asked
    Row(
        "A alone is asked, and B is at fault",
        "--of A",
        lines(SHORT[0], WRONG_END),
        [Wanted([0, 1], "01", "", "pass", None)],
    ),
    Row(
        "B alone is asked, and is at fault",
        "--of B",
        lines(SHORT[0], WRONG_END),
        [Wanted([0, 1], "01", "", None, "fail 1 F5")],
    ),
    Row(
        "B alone is asked, and A is inconclusive",
        "--of=B",
        lines(SHORT[0], SHORT[0]),
        [Wanted([0, 1], "01", "", None, "pass 1", open=True)],
    ),
    # ---- dialogues that are to be complete
    Row(
        "complete, and each is",
        "--complete",
        lines(*LONG, SHORT[0], f"B {abort('01')}", "Q", SHORT[0], "Q"),
        [Wanted([0, 1, 2], "01", "07"), Wanted([3, 4], "01", "", again=True), Wanted([6], "01", "", IS_OPEN, IS_OPEN, open=True)],
    ),
    Row(
        "a mark is no end: an invocation without an answer, by a peer that is silent",
        "--complete",
        lines(LONG[0], "Q"),
        [Wanted([0], "01", "", IS_OPEN, IS_OPEN, open=True, says=("answer of B", "Begin", "invocation 1", "entry 0"))],
    ),
    Row(
        "so it is of the end whose transaction is open at it (F15)",
        "--complete",
        lines(SHORT[0], BACK, "Q"),
        [Wanted([0, 1], "01", "07", IS_OPEN, f"inconc 2 F15 {MARK}", open=True, says=("waits for an End or an Abort",))],
    ),
    Row(
        "ends that are prearranged may end a dialogue in silence before a mark",
        "--complete",
        lines(LONG[0], "Q"),
        # What B could have heard is mostly taken as unheard before a mark (docs/VERDICTS.md).
        [Wanted([0], "01", "", "pass", "pass 1")],
        PREARRANGED,
    ),
    Row(
        "a Begin without an answer",
        "--complete",
        lines(SHORT[0]),
        [Wanted([0], "01", "", IS_OPEN, IS_OPEN, open=True, says=("answer of B", "Begin", "entry 0"))],
    ),
    Row(
        "an invocation without one",
        "--complete",
        lines(LONG[0], BACK),
        [Wanted([0, 1], "01", "07", IS_OPEN, IS_OPEN, open=True, says=("answer of B", "invocation 1", "entry 0"))],
    ),
    Row(
        "no End",
        "--complete",
        lines(*LONG[:2]),
        [Wanted([0, 1], "01", "07", IS_OPEN, IS_OPEN, open=True, says=("waits for an End or an Abort",))],
    ),
    Row(
        "a fault is one all the same",
        "--complete",
        lines(LONG[0], WRONG_CONTINUE),
        [Wanted([0, 1], "01", "07", IS_OPEN, "fail 1 F5", open=True)],
    ),
    # ---- tables by contexts
    Row(
        "the table of the longest beginning of the context that the Begin asks for",
        "",
        lines(
            f"A {begin('01', INVOKE, asks=request('2A0404'))}",
            f"A {begin('02', INVOKE, asks=request('2A040506'))}",
            f"A {begin('03', INVOKE)}",
            f"B {end('01', RESULT, asks=accepted('2A0404'))}",
            f"B {end('02', RESULT, asks=accepted('2A0404'))}",
            f"B {end('03', RESULT)}",
        ),
        [
            Wanted([0, 3], "01", "", more={"context": "2a0404", "table": "wide"}),
            Wanted([1, 4], "02", "", "pass", "fail 1 F6", more={"context": "2a040506", "table": "narrow"}),
            Wanted([2, 5], "03", "", "pass", "fail 1 F6", more={"table": "bare"}),
        ],
        f'{{"tables":[{WIDE},{BARE},{NARROW}]}}',
    ),
    Row(
        "an operation by its name",
        "",
        lines(f"A {begin('01', INVOKE, asks=request('2A04'))}", f"B {end('01', RESULT)}"),
        [Wanted([0, 1], "01", "", "pass", "fail 1 F9", more={"context": "2a04", "table": "wide"}, says=("ask",))],
        f'{{"tables":[{WIDE}]}}',
    ),
    Row(
        "no table for a context, and none for a dialogue without one",
        "",
        lines(
            f"A {begin('01', INVOKE, asks=request('2C0404'))}",
            f"A {begin('02', asks=request('2B09'))}",
            f"A {begin('03')}",
            f"B {end('01', RESULT, asks=accepted('2A0404'))}",
        ),
        [
            Wanted([0, 3], "01", "", None, None, more={"context": "2c0404", "verdict": "error"}, says=("no table",)),
            Wanted([1], "02", "", open=True, more={"context": "2b09", "table": "narrow"}),
            Wanted([2], "03", "", None, None, open=True, more={"verdict": "error"}, says=("no table",)),
        ],
        f'{{"tables":[{WIDE},{NARROW}]}}',
    ),
    Row(
        "one table without contexts is for all",
        "",
        lines(f"A {begin('01', INVOKE, asks=request('2C0404'))}", f"A {begin('02', INVOKE)}"),
        [Wanted([0], "01", "", open=True, more={"context": "2c0404"}), Wanted([1], "02", "", open=True)],
        '{"operations":[{"class":4,"code":45}]}',
    ),
    # ---- traces without a message
    Row("an empty trace", "", "", [], error=(None, NO_TAG)),
    Row("comments alone", "", "# nothing\n\n#\n", [], error=(None, NO_TAG)),
    Row("marks alone", "", "Q\nQ\n", [], error=(None, NO_TAG)),
    # ---- lines
    Row(
        "lines that end with CR LF",
        "",
        lines("# one", *SHORT, "", "Q").replace("\n", "\r\n"),
        [Wanted([0, 1], "01", "")],
    ),
    Row("a last line without an end", "", lines(*SHORT)[:-1], [Wanted([0, 1], "01", "")]),
    Row(
        "a carriage return at the end of the last line",
        "",
        lines(*SHORT)[:-1] + "\r",
        [], error=(2, "no digit; column 13"),
    ),
    Row(
        "CR LF below a comment",
        "",
        lines("# c", SHORT[0], "# frame 12", WRONG_END).replace("\n", "\r\n"),
        [Wanted([0, 1], "01", "", "pass", "fail 1 F5", more={"comment": "frame 12"})],
    ),
]
