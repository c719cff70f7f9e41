"""Judges one end of a dialogue, as `blame` does: whether it is blamed, by tests/oracle/kinds.py, or LAWFUL alone, by
tests/oracle/one_end.py. For tests/oracle/malformed.py.

An entry is an Entry of this file; a mark is None."""

from dataclasses import dataclass

import kinds
import one_end
import shown
from decoding import decoded
from ends import Message, Table

NAMES = {"invoke": shown.INVOKE, "error": shown.ERROR, "reject": shown.REJECT}
PROBLEMS = shown.GENERAL, shown.OF_INVOKE, shown.OF_RESULT, shown.OF_ERROR


@dataclass(frozen=True)
class Entry:
    """An entry of a dialogue: who sent it, its octets, and its message or the number of its first fault."""

    end: str
    octets: bytes
    message: Message = None
    fault: int = None


def entry_of(end, octets):
    message, fault = decoded(octets)
    return Entry(end, octets, message, fault)


@dataclass(frozen=True)
class Judged:
    """What is found of an end: "lawful", "blamed" or "neither". `is_sure` is false if the blame is `inconc`. `unheard` is
    the number of messages of its peer that a lawful end did not hear."""

    what: str
    entry: int = None
    kind: str = None
    is_sure: bool = True
    unheard: int = 0


# ---- as `show` prints it


def code_text(code):
    return code.lower() if isinstance(code, str) else str(code)


def table_lines(table):
    """Returns an operation table, an object of JSON, as `table` prints it."""
    for row in table["operations"]:
        words = [f"op={code_text(row['code'])}", f"class={row['class']}"]
        words += [f"linked={','.join(map(code_text, row['linked']))}"] if row.get("linked") else []
        words += ["expires=false"] if not row.get("expires", True) else []
        yield " ".join(words)
    if table.get("prearranged"):
        yield "prearranged=true"


def table_of_ends(table):
    """Returns an operation table for ends.py."""
    rows = {}
    for row in table["operations"]:
        linked = tuple(map(code_text, row.get("linked", ())))
        rows[code_text(row["code"])] = (row["class"], linked, row.get("expires", True))
    return Table(rows, table.get("prearranged", False))


def component_shown(component):
    kind, id, *parts = component
    if kind == "result":
        return shown.Component("", shown.LAST if parts[0] else shown.NOT_LAST, id, None, parts[1], None, None)
    linked, operation = parts if kind == "invoke" else (None, None)
    of, problem = (PROBLEMS[parts[0]], parts[1]) if kind == "reject" else (None, None)
    return shown.Component("", NAMES[kind], id, linked, operation, of, problem)


def says(dialogue):
    """Returns the values of a dialogue portion by their names."""
    if dialogue[0] == "AARE":
        return {"result": str(dialogue[1]), dialogue[2]: str(dialogue[3])}
    return {"source": str(dialogue[1])} if dialogue[0] == "ABRT" else {}


def entry_shown(number, entry):
    """Returns an entry, or a mark, as shown.py reads it."""
    if entry is None:
        return shown.Entry(number)
    if entry.message is None:
        return shown.Entry(number, entry.end, shown.NO_MESSAGE, reason=entry.fault)
    m = entry.message
    ids = (id.hex() if id is not None else None for id in (m.otid, m.dtid))
    pdu, values = (m.dialogue[0], says(m.dialogue)) if m.dialogue else (None, {})
    components = tuple(map(component_shown, m.components))
    return shown.Entry(number, entry.end, m.kind, "", None, *ids, m.cause, pdu, values, components)


# ---- judging


class Judge:
    """Judges the ends of dialogues by one operation table."""

    def __init__(self, table):
        self.table, self.of_ends = shown.Table("\n".join(table_lines(table))), table_of_ends(table)

    def of_end(self, end, entries):
        """Returns what is found of an end."""
        read = [entry_shown(number, entry) for number, entry in enumerate(entries)]
        found = kinds.faults_in(self.table, read)[end]
        if found:
            entry, (kind, *_) = found
            return Judged("blamed", entry, kind, not self.is_doubtful(end, read, entry, kind))
        if any(entry is not None and entry.message is None for entry in entries):
            return Judged("neither")
        items = [entry and (entry.end, entry.message) for entry in entries]
        unheard = one_end.unheard_of(end, items, self.of_ends)
        return Judged("neither") if unheard is None else Judged("lawful", unheard=unheard)

    def is_doubtful(self, end, read, number, kind):
        """Returns whether a blame is `inconc` for a reason that its dialogue alone shows (docs/TRACES.md, verdicts)."""
        since, entry = shown_since(read, number), read[number]
        if kind == "F3" and entry.kind == shown.BEGIN:
            return self.table.is_prearranged or not is_heard(since, end, entry.otid)
        return kind == "F15" or self.lacks_operation(end, since, entry, kind)

    def lacks_operation(self, end, since, entry, kind):
        """Returns whether the component at fault invokes or answers an operation that the table lacks."""
        if kind not in kinds.OF_COMPONENT:
            return False
        sending = kinds.Sending(kinds.Before(self.table, end, since), entry)
        at = kinds.component_at_fault(sending, kind)
        if at is None:
            return False
        component = entry.components[at]
        is_invoke = component.kind == shown.INVOKE
        asked = [component] if is_invoke else shown.of_id(sending.there, component.id, shown.INVOKE)
        return any(not self.table.has(it.operation) for it in asked)


def shown_since(read, number):
    """Returns the entries before one, since the last quiet mark."""
    marks = [entry.number for entry in read[:number] if entry.kind == shown.QUIET]
    return read[marks[-1] + 1 if marks else 0 : number]


def is_heard(entries, end, id):
    """Returns whether the peer sent something to an ID since its end last began a transaction from it."""
    heard = False
    for entry in entries:
        if entry.end == end and entry.kind == shown.BEGIN and entry.otid == id:
            heard = False
        heard |= entry.end != end and entry.dtid == id
    return heard
