"""Reports for tests/page.py: the objects that stand in a page of `tcapjudge test --html`, as docs/report.schema.json has
them, with the messages of each dialogue; and runs, the objects of `explain --chart`, which tests/explain.py has the program make."""

import json
import sys

sys.path.insert(0, "dev")

import page

VERDICTS = ["pass", "inconc", "fail", "error"]
VERSION = "0.1.0 (proved, kit 1 <logic> 2)"
# What is no name, or would be more than one where it is not taken for data.
HOSTILE = [
    "</script><script>alert(1)</script><img src=x onerror=alert(2)>.hex",
    "a\"b'c`d&amp;<b>&#x41;${1}{style}MARKER.hex",
    "tab\t, line\nfeed, nul\0, escape\x1b[31m, del\x7f, next line\x85.hex",
    "line\u2028separator, para\u2029graph, right\u202eto left, \u2066isolate, mark\u200f, joiner\u200d, order\ufeff.hex",
    "x" * 10_000,
    "\u05d0\u05d1\u05d2 \U0001f600 \u00e9.hex",
    "",
]
# networkLocUpContext-v2 of MAP, and the dialogue portions that ask for it and accept it (Q.773 4.2.3).
CONTEXT = "04000001000102"
AARQ = f"6b1e281c060700118605010101a011600f80020780a1090607{CONTEXT}"
AARE = f"6b2a2828060700118605010101a01d611b80020780a1090607{CONTEXT}a203020100a305a103020100"


def pass_of(sent, unheard=0):
    """An end that passes."""
    return {"verdict": "pass", "unheard": unheard, "sent": sent}


def blamed(entry, kind, text, shows=(), **more):
    """An end at fault at an entry, whose line has its number plus two. With `doubt` it is inconclusive. The first line of
    `text` is the sentence on the fault."""
    evidence = {key: more.pop(key) for key in ("component", "invoke") if key in more}
    evidence["shows"] = [{"what": what, "entries": entries} for what, entries in shows]
    verdict = "inconc" if "doubt" in more else "fail"
    return {"verdict": verdict, "entry": entry, "line": entry + 2, "kind": kind, "text": text, "evidence": evidence, **more}


def message(entry, end, kind, ids, octets, components=(), more="", **others):
    """A message: `ids` has words as `otid=01`, `components` has pairs, a component in few words and as `show` prints it."""
    show = " ".join(filter(None, [f"{entry} {end} {kind}", ids, more])) + "\n"
    show += "".join(f"  {shown}\n" for _, shown in components)
    return {"entry": entry, "end": end, "kind": kind, **dict(it.split("=") for it in ids.split()), "line": entry + 2,
            "components": [short for short, _ in components], "show": show, "octets": octets, **others}


def dialogue(trace, number, verdict, messages, a_ids, b_ids, ends, **more):
    """A dialogue. `ends` has what is said of A and B, or of one; of an error it is None."""
    entries = more.pop("entries", [it["entry"] for it in messages])
    flags = {name: more.pop(name, False) for name in ("open", "again", "marked")}
    behind = {"left_out": more.pop("left_out")} if "left_out" in more else {}
    ids = {"A": a_ids.split(), "B": b_ids.split()}
    return {"trace": trace, "dialogue": number, "verdict": verdict, "entries": entries, "lines": [it + 2 for it in entries],
            "ids": ids, **more, **flags, **(ends or {}), "messages": messages, **behind}


def trace(name, verdict, messages, unheard=0, names=None, text=None, line=None, hint=None, **counts):
    """The object of a trace."""
    dialogues = {it: counts.get(it, 0) for it in VERDICTS}
    others = {"names": names, "text": text, "line": line, "hint": hint}
    more = {key: value for key, value in others.items() if value is not None}
    return {"trace": name, "verdict": verdict, "messages": messages, "dialogues": dialogues, "unheard": unheard, **more}


def total(objects, left_out=0):
    """The object at the end, of the traces that stand before it."""
    traces = [it for it in objects if "dialogue" not in it]
    sums = {"traces": {it: sum(one["verdict"] == it for one in traces) for it in VERDICTS},
            "messages": sum(one["messages"] for one in traces),
            "dialogues": {it: sum(one["dialogues"][it] for one in traces) for it in VERDICTS},
            "unheard": sum(one["unheard"] for one in traces)}
    return {"total": sums, "left_out": left_out, "version": VERSION}


# ---- planted faults


def answered_already():
    """B answers the one Invoke twice, in one message: its second component is at fault."""
    result = ("ReturnResultLast 1", "ReturnResultLast id=1")
    comment = "frame 15, 2025-11-25T09:13:55.300001Z, entry 3"
    messages = [
        message(0, "A", "Begin", "otid=0b000001", f"623048040b000001{AARQ}6c08a106020101020102",
                [("Invoke 1 updateLocation 2", "Invoke id=1 op=2")], f"AARQ context={CONTEXT}",
                comment="frame 12, 2025-11-25T09:13:55.000001Z, entry 0"),
        message(1, "B", "Continue", "otid=7f01 dtid=0b000001", f"653648027f0149040b000001{AARE}", [],
                f"AARE context={CONTEXT} result=0 user=0"),
        message(2, "A", "Continue", "otid=0b000001 dtid=7f01", "650a48040b00000149027f01"),
        message(3, "B", "End", "dtid=0b000001", "641249040b0000016c0aa203020101a203020101", [result, result], comment=comment),
    ]
    text = ("  invocation 1 of updateLocation 2 was answered already, by the Return Result in this message\n"
            "  entry 3 of B, component 1: it answers an invocation that was answered already\n    End dtid=0b000001\n"
            "      ReturnResultLast id=1\n  the transaction of B: began by the peer's Begin, own ID 7f01\n"
            "  A: Invokes of 1 in this transaction: entry 0\n  B: Return Results Last of 1 before it: entry 3\n")
    shows = [("A: Invokes of 1 in this transaction", [0]), ("A: Invokes of 1 of class 2 in this transaction", []),
             ("B: Return Results Last of 1 before it", [3])]
    ends = {"A": pass_of(2), "B": blamed(3, "F12", text, shows, component=1, invoke=1, comment=comment)}
    return dialogue("calls.hex", 0, "fail", messages, "0b000001", "7f01", ends, context=CONTEXT, table="MAP")


def both_at_fault():
    """B goes on behind its End, and A answers from an ID of no transaction."""
    comment = "Frame 812, 12.625 s"
    messages = [
        message(0, "B", "Begin", "otid=c1", "62034801c1"),
        message(1, "A", "Continue", "otid=d2 dtid=c1", "65064801d24901c1"),
        message(2, "B", "End", "dtid=d2", "64034901d2"),
        message(3, "B", "Continue", "otid=c1 dtid=d2", "65064801c14901d2", comment=comment),
        message(4, "A", "Continue", "otid=d3 dtid=c1", "65064801d34901c1"),
    ]
    of_a = ("  its originating ID is d3; A's ID in this transaction is d2\n"
            "  entry 4 of A: its end has no transaction over which it may send it\n  B: Begins: entry 0\n")
    of_b = ("  its end has ended this dialogue\n"
            "  entry 3 of B: its end has ended this dialogue\n  B: Ends before it: entry 2\n")
    shows = [("B: Begins", [0]), ("A: Continues to its destination ID before it", [1])]
    ends = {"A": blamed(4, "F8", of_a, shows), "B": blamed(3, "F4", of_b, [("B: Ends before it", [2])], comment=comment)}
    return dialogue("calls.hex", 1, "fail", messages, "d2 d3", "c1", ends)


def open_at_mark():
    """A quiet mark stands where the transaction of B is open."""
    messages = [
        message(0, "A", "Begin", "otid=aa01", "62044802aa01"),
        message(1, "B", "Continue", "otid=bb02 dtid=aa01", "65084802bb024902aa01"),
        {"entry": 2, "line": 4, "mark": True},
    ]
    text = ("  a transaction of B is open at this quiet mark: that from bb02, as in entry 1\n"
            "  entry 2: a transaction of B is open at this quiet mark\n  B: Continues from it: entry 1\n")
    shows = [("B: Continues from it", [1])]
    ends = {"A": pass_of(1), "B": blamed(2, "F15", text, shows, reason="at_mark", doubt="the quiet mark is the bench's word")}
    return dialogue("calls.hex", 2, "inconc", messages, "aa01", "bb02", ends, table="CAP", marked=True)


def no_table():
    """A dialogue for which there is no table."""
    messages = [message(0, "A", "Begin", "otid=e5", "62034801e5")]
    text = "no table is for a dialogue without an application context name; give one with --table FILE\n"
    return dialogue("calls.hex", 3, "error", messages, "e5", "", None, text=text, open=True)


def long_dialogue():
    """A dialogue of 100 entries of which 6 are listed."""
    invoke, go_on = ("Invoke 5 updateGprsLocation 23", "Invoke id=5 op=23"), "65064801f04901f1"
    comment = "frames 21 to 23, 2025-11-25T09:14:00.000001Z, entry 50, sent before frame 20"
    messages = [
        message(0, "A", "Begin", "otid=f0", "620d4801f06c08a106020105020117", [invoke]),
        message(1, "B", "Continue", "otid=f1 dtid=f0", "65064801f14901f0"),
        message(2, "A", "Continue", "otid=f0 dtid=f1", go_on),
        message(50, "A", "Continue", "otid=f0 dtid=f1", "65104801f04901f16c08a106020105020117", [invoke], comment=comment),
        message(98, "A", "Continue", "otid=f0 dtid=f1", go_on),
        message(99, "A", "Continue", "otid=f0 dtid=f1", go_on),
    ]
    text = ("  not all invocations of ID 5 are over: 2 of them do not expire\n"
            "  entry 50 of A, component 0: it invokes an ID that is in use\n  A: Invokes of 5 before it: entries 0, 20\n")
    ends = {"A": blamed(50, "F10", text, [("A: Invokes of 5 before it", [0, 20])], component=0, invoke=5, comment=comment)}
    behind = {"left_out": 94, "entries": list(range(100))}
    return dialogue("long.hex", 0, "fail", messages, "f0", "f1", ends, table="MAP", **behind)


def undecided():
    """A dialogue of which nothing is shown, of a record, which has no lines, with octets that are no message."""
    fault = {"fault": "a component portion without content", "show": "1 A FAULT 11 15\n", "octets": "62054801016c00"}
    messages = [message(0, "A", "Begin", "otid=0b99", "620448020b99"), {"entry": 1, "end": "A", **fault}]
    text = "it is not found how it can have sent its part, and no entry of it is blamed\n"
    ends = {"A": {"verdict": "inconc", "reason": "undecided", "text": text}, "B": pass_of(0)}
    made = dialogue("record.bin", 0, "inconc", messages, "0b99", "", ends, open=True, again=True)
    for it in messages:
        it["line"] = 0
    return made | {"lines": [0, 0]}


def invoke_of(number, operation):
    """An Invoke, of an operation as the page has it."""
    return (f"Invoke {number} {operation}", f"Invoke id={number} op={operation.split()[-1]}")


def answer_to(number, kind="ReturnResultLast"):
    """An answer."""
    return (f"{kind} {number}", f"{kind} id={number}")


def answers():
    """B answers what A invoked, once and twice, from one ID and from another, and what it invoked itself; then an entry is no message."""
    of_b = "otid=b1 dtid=a1"
    messages = [
        message(0, "A", "Begin", "otid=a1", "", [invoke_of(1, "updateLocation 2"), invoke_of(2, "sendIMSI 58"), invoke_of(-3, "45")]),
        message(1, "B", "Continue", of_b, "", [answer_to(1, "ReturnResultNotLast"), answer_to(-3), invoke_of(7, "cancelLocation 3")]),
        message(2, "B", "Continue", of_b, "", [answer_to(1), answer_to(7), answer_to(9), ("Reject 1", "Reject id=1")]),
        message(3, "A", "Continue", "otid=a1 dtid=b1", "", [answer_to(7, "ReturnError"), invoke_of(2, "sendIMSI 58")]),
        message(4, "A", "Continue", "otid=a2 dtid=b1", "", [invoke_of(4, "checkIMEI 43")]),
        message(5, "B", "Continue", of_b, "", [answer_to(2), answer_to(4), answer_to(1)]),
        {"entry": 6, "end": "B", "line": 8, "fault": "a length", "show": "6 B FAULT 1 2\n", "octets": "62"},
        message(7, "B", "Continue", of_b, "", [answer_to(1)]),
    ]
    return dialogue("answers.hex", 0, "fail", messages, "a1 a2", "b1", {"B": blamed(7, "F12", "  entry 7 of B\n")})


def open_at_both_ends():
    """A quiet mark at which both ends are at fault."""
    made = open_at_mark()
    return made | {"A": made["B"]}


def open_at_end():
    """A dialogue that is to be complete and is open at the end of its trace."""
    messages = [message(0, "A", "Begin", "otid=d4", "62034801d4")]
    end = {"verdict": "inconc", "reason": "open", "text": "the dialogue is open at the end of its trace\n"}
    text = "  it waits for an answer of B to the Begin in entry 0\n"
    return dialogue("open.hex", 0, "inconc", messages, "d4", "", {"A": end, "B": end}, text=text, open=True)


def looked_like(look):
    """A trace that looks like another file."""
    return trace("packed.hex", "error", 0, text="line 1: no end; column 1", line=1, hint=f"this looks like {look}")


def planted():
    """The objects of a run with six dialogues that do not pass, and 31 that do."""
    objects = [
        answered_already(), both_at_fault(), open_at_mark(), no_table(),
        trace("calls.hex", "error", 60, unheard=2, fail=2, inconc=1, error=1, **{"pass": 20}),
        trace("passing.hex", "pass", 1_234, unheard=1, **{"pass": 11}),
        long_dialogue(), trace("long.hex", "fail", 100, fail=1),
        undecided(), trace("record.bin", "inconc", 2, inconc=1),
        trace("broken.hex", "error", 0, text="line 7: odd count of digits; column 9", line=7),
    ]
    return [*objects, total(objects)]


# ---- runs

# A's End of 02 crosses a Continue of B, which A's provider answers; and A's End of 04 is lost.
CROSSING_AND_LOSS = ("A 6203480101 B 6506480102490101 A 6403490102 B 6506480102490101 A 67064901024A0101 A 6203480103 "
                     "B 6506480104490103 A 6403490104 A 6203480105 B 6506480104490103 A 67064901044A0101")
# A's Reject of B's result comes behind A's second invocation of its ID.
LATE_RESULT = ("A 620D4801016C08A10602010102012D B 6506480102490101 B 650D4801024901016C05A203020101 "
               "A 65104801014901026C08A10602010102012E A 65104801014901026C08A406020101820101")


def told(entry, end, kind, ids, components=(), more=""):
    """A message of a run, of which no line is known and no octets are kept."""
    made = message(entry, end, kind, ids, "", components, more)
    return {name: value for name, value in made.items() if name not in ("line", "octets")}


def deed(step, end, entry, **more):
    """A step: what an end does with an entry."""
    return {"step": step, "end": end, "entry": entry, **more}


def run(title, entries, steps, left_out=(0, 0), **more):
    """The object of a run, of all entries where `more` has no other count."""
    behind = {"entries": entries, "steps": steps, "left_out": list(left_out)}
    return {"run": {"count": len(entries), "title": title, **more, **behind}}


def lawful_run():
    """The run of CROSSING_AND_LOSS."""
    entries = [
        told(0, "A", "Begin", "otid=01"), told(1, "B", "Continue", "otid=02 dtid=01"), told(2, "A", "End", "dtid=02"),
        told(3, "B", "Continue", "otid=02 dtid=01"), told(4, "A", "Abort", "dtid=02", more="cause=1"),
        told(5, "A", "Begin", "otid=03"), told(6, "B", "Continue", "otid=04 dtid=03"), told(7, "A", "End", "dtid=04"),
        told(8, "A", "Begin", "otid=05"), told(9, "B", "Continue", "otid=04 dtid=03"),
        told(10, "A", "Abort", "dtid=04", more="cause=1"),
    ]
    steps = [
        deed("sends", "A", 0), deed("receives", "B", 0), deed("sends", "B", 1), deed("receives", "A", 1), deed("sends", "A", 2),
        deed("sends", "B", 3), deed("receives", "B", 2), deed("replies", "A", 4, answers=3), deed("receives", "B", 4),
        deed("sends", "A", 5), deed("receives", "B", 5), deed("sends", "B", 6), deed("receives", "A", 6), deed("sends", "A", 7),
        deed("sends", "A", 8), deed("loses", "A", 7), deed("receives", "B", 8), deed("sends", "B", 9),
        deed("replies", "A", 10, answers=9), deed("receives", "B", 10),
    ]
    return run("LAWFUL 11", entries, steps)


def stopped_run():
    """The run of LATE_RESULT, which stops before A's Reject: an invocation of A has its ID by then."""
    entries = [
        told(0, "A", "Begin", "otid=01", [("Invoke 1 45", "Invoke id=1 op=45")]),
        told(1, "B", "Continue", "otid=02 dtid=01"),
        told(2, "B", "Continue", "otid=02 dtid=01", [("ReturnResultLast 1", "ReturnResultLast id=1")]),
        told(3, "A", "Continue", "otid=01 dtid=02", [("Invoke 1 46", "Invoke id=1 op=46")]),
        told(4, "A", "Continue", "otid=01 dtid=02", [("Reject 1", "Reject id=1 result=1")]),
    ]
    steps = [
        deed("sends", "A", 0), deed("receives", "B", 0), deed("sends", "B", 1), deed("receives", "A", 1), deed("sends", "B", 2), deed("receives", "A", 2),
        {"step": "expires", "end": "A", "half": "otid=01", "invoke": 1}, deed("sends", "A", 3), deed("receives", "B", 3),
        {"step": "stands", "entry": 4},
    ]
    text = ("  why: in the run that the certificate says, its end may not send it there (SendRefused): nothing there may be rejected so "
            "(RejectNotAllowed)\n  4 A Continue otid=01 dtid=02\n    Reject id=1 result=1\n"
            "  A: the half with otid=01 peer 02: active, no dialogue\n  component 0 is what it refuses:\n    Reject id=1 result=1\n"
            "      before this message, under 1: own invocation op=46, operation sent; invocations received and not answered 0; "
            "results received 1, errors 0\n  another certificate may show more: this says nothing of an end\n"
            "NOT BLAMED A 5\n  no fault is found; that does not clear it\nLAWFUL B 5 unheard 0\n")
    return run("UNDECIDED 4 65/50", entries, steps, marked=4, text=text)


def run_of_one():
    """A run of A alone: it hears one message of B, and not the other, and the half of its own Begin closes unseen. What stands
    before these steps and behind them is left out, and of one message that comes only that it does."""
    entries = [told(7, "B", "Begin", "otid=11"), told(8, "A", "Begin", "otid=12"), told(9, "B", "Begin", "otid=13"), {"entry": 10, "mark": True}]
    steps = [
        deed("receives", "A", 6), deed("tells", "B", 7), deed("discards", "A", 7, reason="the ID is used"), deed("sends", "A", 8),
        deed("tells", "B", 9), {"step": "closes", "end": "A", "half": "the half with otid=12"}, deed("loses", "B", 9),
        {"step": "quiet", "entry": 10},
    ]
    return run("LAWFUL 20 unheard 2", entries, steps, left_out=(12, 1), of="A", count=20)


def hostile():
    """A dialogue for each hostile name: it is the name of its trace, its table and an operation, a comment and a text."""
    objects = []
    for name in HOSTILE:
        part = (f"Invoke 1 {name} 2", f"Invoke id=1 op=2 parameter={name}")
        # As the program does: where there is no comment, none is named.
        comment = {"comment": name} if name else {}
        messages = [message(0, "A", "Begin", "otid=01", "62034801013c2f7363726970743e", [part], **comment)]
        doubt = {"reason": "lacking_operation", "doubt": name or "none"}
        ends = {"A": blamed(0, "F6", f"  entry 0 of A: {name}\n", [(name, [0])], **comment, **doubt)}
        objects += [dialogue(name, 0, "inconc", messages, "01", "", ends, table=name)]
        objects += [trace(name, "inconc", 1, inconc=1, text=name or None)]
    return [*objects, total(objects)]


def many(count, left_out=0, each=100, names=None):
    """So many dialogues that fail, each with IDs of its own, so many in a trace."""
    lines, traces = [], []
    form = line_of(answered_already())
    for at in range(count):
        if at % each == 0:
            name = f"calls-{at // each:04}.hex"
            traces.append(trace(name, "fail", 4 * each, names=names, fail=min(each, count - at)))
        ids = form.replace("0b000001", f"{0xA0000000 + at:08x}").replace('"calls.hex"', f'"{name}"')
        lines.append(ids.replace('"dialogue":0', f'"dialogue":{at % each}'))
        if at % each == each - 1 or at == count - 1:
            lines.append(line_of(traces[-1]))
    return [*lines, line_of(total(traces, left_out))]


# ---- pages


def line_of(value):
    """An object in one line of the page."""
    return json.dumps(value, separators=(",", ":"), ensure_ascii=False).replace("<", "\\u003c")


def page_of(lines):
    """The page that has these lines."""
    head, tail = page.frame()
    return head + "".join(f"{line}\n" for line in lines) + tail


def page_with(objects):
    """The page that has these objects."""
    return page_of(map(line_of, objects))
