"""Finds the faults of an end of TCAP dialogues: an independent reading of the kinds F1 to F15 that docs/KINDS.md
describes (Q.771, operation classes and linked operations; Q.773 4.2.2 and 4.2.3; Q.774 3.2 and 3.3). It reads the
output of `tcapjudge show` for a record and of `tcapjudge table` for an operation table, and shares nothing else with
the code under test. tests/fault_kinds.py compares its findings with the known faults of tests/cases/faults.json, and
tests/fuzz.py compares them, for random records, with `judge` and `blame`."""

from dataclasses import replace

from before import Before, is_request
from shown import (
    ABORT,
    ANSWERS,
    BEGIN,
    CONTINUE,
    END,
    ERROR,
    GENERAL,
    INVOKE,
    LAST,
    NOT_LAST,
    NO_MESSAGE,
    OF_ERROR,
    OF_INVOKE,
    OF_RESULT,
    QUIET,
    REJECT,
    RESULTS,
    UNIDIRECTIONAL,
    Table,
    entries_in,
    number_in,
    of_id,
    printed,
    rejects_of,
    takes,
)

# The reasons of octets beyond a limit of this profile: they are no F1.
LIMITS = {2, 3, 4, 12, 13, 16, 17, 18}
# The classes that report success, and those that report failure (Q.771).
SUCCESS, FAILURE = (1, 3), (1, 2)


class Sending:
    """A message of an end, with the entries before it. A message without destination ID goes over no half."""

    def __init__(self, before, message):
        self.table, self.before, self.message = before.table, before, message
        self.there, self.told = before.there(message.dtid), before.told(message.dtid)
        self.half = before.half(message.dtid)

    def ahead_of(self, at):
        """Returns what the end sent to this ID before that component: its messages, and this one up to there."""
        return [*self.told, replace(self.message, components=self.message.components[:at])]

    def own_of(self, id):
        """Returns the own invocations of that ID."""
        return of_id(self.half.invoked, id, INVOKE)

    def heard_of(self, id, *kinds):
        return of_id(self.half.heard, id, *kinds)


# ---- F2 to F9, F14 and F15: of messages and of quiet marks


def answers_no_transaction(s):
    """F2: nothing came from the destination ID that the message could answer (Q.774 3.3)."""
    asked = {None: True, 1: any(m.kind == CONTINUE for m in s.there), 4: any(m.kind == BEGIN for m in s.there)}
    return s.message.dtid is not None and not (s.there and asked.get(s.message.cause, False))


def reuses_id(s):
    """F3: the originating ID is that of another transaction (Q.774 3.3)."""
    m, own = s.message, s.before.own
    if m.kind == BEGIN:
        return m.otid in s.before.used
    return m.kind == CONTINUE and any(o.kind == CONTINUE and o.otid == m.otid and o.dtid != m.dtid for o in own)


def goes_on_after_end(s):
    """F4: the end has ended the transaction (Q.774 3.3)."""
    return s.message.dtid is not None and s.message.cause is None and s.before.has_ended(s.message.dtid)


def fits_response(s):
    """Returns whether a Continue, an End or an Abort may have an AARE: it must answer an AARQ, and accept or refuse as
    the message does (Q.773 4.2.3)."""
    m, user, provider = s.message, number_in(s.message.says, "user"), number_in(s.message.says, "provider")
    if m.kind == ABORT:
        fits = m.says["result"] == "1" and user in (0, 1, 2)
    else:
        fits = m.says["result"] == "0" and 0 in (user, provider)
    return fits and any(map(is_request, s.there))


def misplaces_dialogue(s):
    """F7: no such message carries that dialogue portion (Q.774 3.2, dialogues; Q.773 4.2.3)."""
    m = s.message
    if m.pdu is None:
        return False
    if m.kind in (UNIDIRECTIONAL, BEGIN):
        return m.pdu != ("AUDT" if m.kind == UNIDIRECTIONAL else "AARQ")
    if m.pdu == "ABRT":
        return m.kind != ABORT or int(m.says["source"]) > 1
    return m.pdu != "AARE" or not fits_response(s)


def has_no_half(s):
    """F8: no half of a transaction may send it (Q.774 3.3)."""
    m, half, before = s.message, s.half, s.before
    is_given_up = m.kind == ABORT and m.pdu == "ABRT" and m.says["source"] == "1"
    if half.how in ("none", "refused") or half.how == "unanswered" and not is_given_up:
        return True
    if m.kind == CONTINUE:
        is_other = half.own is not None and half.own != m.otid
        if is_other or half.how == "accepted" and m.otid in before.begun:
            return True
    return half.own is not None and before.is_answered_as_closed(half.own)


def does_not_fit_dialogue(s):
    """F9: the dialogue portion does not fit the dialogue state (Q.774 3.2, dialogues)."""
    m, half = s.message, s.half
    is_first = half.how == "accepted" and not any(o.kind == CONTINUE for o in s.told)
    if m.kind in (CONTINUE, END):
        return m.pdu is not None and not is_first or is_first and is_request(half.begin) and m.pdu != "AARE"
    is_of_user = m.pdu == "ABRT" and m.says["source"] == "0"
    return m.pdu == "AARE" and not is_first or is_of_user and not is_request(half.begin)


def replies_to_nothing(s):
    """F14: an Abort of the provider has no message left to answer (Q.774 3.3, abnormal procedures)."""
    before, is_accepted = s.before, s.half.how == "accepted"
    if s.message.cause == 4:
        return not is_accepted or bool(s.told)
    continues = [m for m in s.there if m.kind == CONTINUE]
    replies = len(before.aborts(s.message.dtid, 1)) + 1 + (bool(s.told) and not is_accepted)
    are_open = bool(continues) and all(before.is_surely_open(m.dtid) for m in continues)
    return s.message.cause == 1 and (replies > len(continues) or are_open)


def leaves_open(before):
    """F15: a transaction of the end is open at a quiet mark after these entries."""
    continues = [m for m in before.own if m.kind == CONTINUE and before.is_surely_open(m.otid)]
    return any(not before.is_over_tangled(m) for m in continues)


# ---- F5, F6 and F10 to F13: of the component of that number


def is_unknown(s, c, of_both):
    """Returns whether the peer sent nothing from there that a component answers or rejects. For one end alone, a stack
    may have read differently what it calls mistyped or badly structured."""
    if c.kind == INVOKE:
        return False
    if c.id is None or c.of == GENERAL:
        is_reading = c.of == GENERAL and c.problem in (1, 2) and not of_both
        return not (is_reading and of_id(s.there, c.id, INVOKE, *ANSWERS))
    return not of_id(s.there, c.id, *{OF_RESULT: RESULTS, OF_ERROR: (ERROR,)}.get(c.of, (INVOKE,)))


def answers_nothing(s, at, of_both=False):
    """F5: it answers or rejects what the peer never sent (Q.774 3.2)."""
    m, c = s.message, s.message.components[at]
    if m.kind == UNIDIRECTIONAL:
        return c.kind in ANSWERS
    return c.kind != INVOKE if m.kind == BEGIN else is_unknown(s, c, of_both)


def has_wrong_operation(s, at):
    """F6: the table, or the class of an operation, does not allow it (Q.771, operation classes)."""
    c, table = s.message.components[at], s.table
    if c.kind == INVOKE:
        return table.class_of(c.operation) != 4 if s.message.kind == UNIDIRECTIONAL else not table.has(c.operation)
    if c.kind == REJECT or s.message.dtid is None:
        return False
    classes = SUCCESS if c.kind in RESULTS else FAILURE
    invokes = [o for o in of_id(s.there, c.id, INVOKE) if c.operation in (None, o.operation)]
    return not any(table.class_of(o.operation) in classes for o in invokes)


def invokes_in_use(s, at):
    """F10: an invoke ID is in use (Q.774 3.2; Q.771, operation classes)."""
    c, heard, whole = s.message.components[at], s.half.heard, [*s.told, s.message]
    if c.kind != INVOKE:
        return False
    lasting = [o for o in s.own_of(c.id) if not s.table.expires(o.operation)]
    reporting = [o for o in lasting if s.table.class_of(o.operation) in SUCCESS]
    rejected = len(rejects_of(heard, c.id, OF_INVOKE, GENERAL))
    answered = len(s.heard_of(c.id, LAST, ERROR)) + rejected
    refused = len(rejects_of(whole, c.id, OF_RESULT, GENERAL))
    is_twice = any(o.kind == INVOKE and o.id == c.id for o in s.message.components[:at])
    is_busy = len(lasting) > len(s.heard_of(c.id, *ANSWERS)) + rejected or len(reporting) > answered + refused
    return is_twice or is_busy


def links_badly(s, at):
    """F11: no invocation that may be linked to has the linked ID (Q.774 3.2; Q.771, linked operations)."""
    c = s.message.components[at]
    if c.kind != INVOKE or c.linked is None:
        return False
    invokes = s.heard_of(c.linked, INVOKE)
    taken = [o for o in of_id(s.ahead_of(at), c.linked, LAST, ERROR, REJECT) if takes(o)]
    return len(invokes) <= len(taken) or not any(c.operation in s.table.linked(o.operation) for o in invokes)


def answers_again(s, at):
    """F12: an invocation is answered again (Q.774 3.2; Q.771, operation classes)."""
    c, told = s.message.components[at], s.ahead_of(at + 1)
    if not takes(c) and c.kind != NOT_LAST:
        return False
    invokes = s.heard_of(c.id, INVOKE)
    classes = [s.table.class_of(o.operation) for o in invokes]
    n1, n2, n3 = (classes.count(n) for n in (1, 2, 3))
    results = len(of_id(told, c.id, LAST)) + (c.kind == NOT_LAST)
    errors, rejects = len(of_id(told, c.id, ERROR)), len(rejects_of(told, c.id, OF_INVOKE))
    is_over_class = results > n1 + n3 or errors > n1 + n2 or results + errors > n1 + n2 + n3
    return is_over_class or results + errors + rejects > len(invokes) or answers_operation_again(s, at)


def answers_operation_again(s, at):
    """F12, for a Return Result that names an operation."""
    c = s.message.components[at]
    if c.operation is None:
        return False
    before = [o for o in of_id(s.ahead_of(at), c.id, LAST) if o.operation == c.operation]
    return len(before) + 1 > sum(o.operation == c.operation for o in s.heard_of(c.id, INVOKE))


def rejects_invoke_badly(s, at):
    """F13, for an invoke problem (Q.773 4.2.2)."""
    c = s.message.components[at]
    invokes, table = s.heard_of(c.id, INVOKE), s.table
    linked = [o for o in invokes if o.linked is not None]
    problems = [o.problem for o in rejects_of(s.ahead_of(at + 1), c.id, OF_INVOKE)]
    # The lists of own invocations that one of these is linked to, each with that one.
    links = [(table.linked(own.operation), o) for o in linked for own in s.own_of(o.linked)]
    if c.problem == 0:
        return problems.count(0) >= len(invokes)
    if c.problem == 6 and all(listed for listed, _ in links):
        return True
    if c.problem == 7 and not any(listed and o.operation not in listed for listed, o in links):
        return True
    return c.problem > 7 or c.problem in (5, 6, 7) and sum(problem in (5, 6, 7) for problem in problems) > len(linked)


def rejects_answer_badly(s, at):
    """F13, for a result problem or an error problem (Q.773 4.2.2)."""
    c = s.message.components[at]
    kinds, classes, last = (RESULTS, SUCCESS, 2) if c.of == OF_RESULT else ((ERROR,), FAILURE, 4)
    own, answers = s.own_of(c.id), s.heard_of(c.id, *ANSWERS)
    suited = [o for o in own if s.table.class_of(o.operation) in classes]
    operations = {None} | {o.operation for o in own}
    is_other = any(o.kind in RESULTS and o.operation not in operations for o in answers)
    is_expected = len(suited) == len(own) and len(answers) < 2 and not is_other
    if len(rejects_of(s.ahead_of(at + 1), c.id, c.of)) > len(s.heard_of(c.id, *kinds)):
        return True
    return c.problem > last or c.problem == 1 and is_expected or c.problem > 1 and not suited


def rejects_badly(s, at):
    """F13: nothing that was heard allows a Reject with that problem (Q.774 3.2; Q.773 4.2.2)."""
    c = s.message.components[at]
    if c.kind != REJECT or c.id is None or c.of == GENERAL:
        return False
    return rejects_invoke_badly(s, at) if c.of == OF_INVOKE else rejects_answer_badly(s, at)


# ---- findings

OF_MESSAGE = {
    "F2": answers_no_transaction,
    "F3": reuses_id,
    "F4": goes_on_after_end,
    "F7": misplaces_dialogue,
    "F8": has_no_half,
    "F9": does_not_fit_dialogue,
    "F14": replies_to_nothing,
}
OF_COMPONENT = {
    "F5": answers_nothing,
    "F6": has_wrong_operation,
    "F10": invokes_in_use,
    "F11": links_badly,
    "F12": answers_again,
    "F13": rejects_badly,
}
LOW = ["F2", "F3", "F4", "F5", "F6", "F7"]


def component_at_fault(s, kind, of_both=False):
    """Returns the number of the first component of a message that has a kind, or None if there is none."""
    if kind not in OF_COMPONENT:
        return None
    given = {"of_both": True} if of_both and kind == "F5" else {}
    return next((at for at in range(len(s.message.components)) if OF_COMPONENT[kind](s, at, **given)), None)


def having(s, kinds, of_both=False):
    """Returns those of these kinds that a message has."""
    of_message = {kind for kind in kinds if kind in OF_MESSAGE and OF_MESSAGE[kind](s)}
    return [kind for kind in kinds if kind in of_message or component_at_fault(s, kind, of_both) is not None]


def kinds_of(s):
    """Returns the kinds of a message: the lowest of F2 to F7, and all of F8 to F14."""
    if s.message.cause is not None:
        further = having(s, ["F14"])
    elif s.message.dtid is None:
        further = having(s, ["F10", "F11"])
    else:
        further = having(s, ["F8"]) or having(s, ["F9", "F10", "F11", "F12", "F13"])
    return having(s, LOW)[:1] + further


def kinds_behind(before, entry):
    """Returns the kinds of an entry, a message of the end or a quiet mark, after the given entries."""
    if entry.kind == QUIET:
        return ["F15"] if leaves_open(before) else []
    return [] if before.is_over_tangled(entry) else kinds_of(Sending(before, entry))


def breaks_grammar(entry):
    """F1: the octets are no message, for a reason that is no limit of this profile."""
    return entry.reason not in LIMITS


def faults_in(table, entries):
    """Returns for each end the number of the entry at fault, with its kinds, the lowest of F1 to F7 and all of F8 to
    F15; or None if it has no fault."""
    found, since, again = {"A": None, "B": None}, [], set()
    for entry in entries:
        if entry.kind == NO_MESSAGE:
            if breaks_grammar(entry):
                found[entry.end] = found[entry.end] or [entry.number, ["F1"]]
            break
        for end in entry.end or "AB":
            before = Before(table, end, since)
            if before.uses_again(entry):
                again.add(end)
            if found[end] is None and end not in again:
                kinds = kinds_behind(before, entry)
                found[end] = [entry.number, kinds] if kinds else None
        since, again = ([], set()) if entry.kind == QUIET else ([*since, entry], again)
    return found


def refuted_in(table, entries):
    """Returns the number of the first entry that has one of F1 to F7, asked of both ends, and the lowest of these
    kinds; or None."""
    since = []
    for entry in entries:
        if entry.kind == NO_MESSAGE:
            return [entry.number, "F1"] if breaks_grammar(entry) else None
        if entry.kind != QUIET:
            kinds = having(Sending(Before(table, entry.end, since), entry), LOW, of_both=True)
            if kinds:
                return [entry.number, kinds[0]]
        since = [] if entry.kind == QUIET else [*since, entry]
    return None
