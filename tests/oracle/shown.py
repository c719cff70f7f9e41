"""Reads the output of `tcapjudge show` for a record, and of `tcapjudge table` for an operation table, for
tests/oracle/kinds.py."""

import subprocess
from dataclasses import dataclass, replace

from tested import PROGRAM

UNIDIRECTIONAL, BEGIN, CONTINUE, END, ABORT = "Unidirectional", "Begin", "Continue", "End", "Abort"
QUIET, NO_MESSAGE = "Q", "FAULT"
INVOKE, LAST, NOT_LAST, ERROR, REJECT = "Invoke", "ReturnResultLast", "ReturnResultNotLast", "ReturnError", "Reject"
RESULTS, ANSWERS = (LAST, NOT_LAST), (LAST, NOT_LAST, ERROR)
# The problems of a Reject, by the component that they are about, as `show` names it.
GENERAL, OF_INVOKE, OF_RESULT, OF_ERROR = "general", "invoke", "result", "error"


# ---- records and tables


@dataclass(frozen=True)
class Component:
    """A component. The operation is the one that an Invoke or a Return Result names; a Reject has a problem `of`
    something."""

    line: str
    kind: str
    id: int
    linked: int
    operation: str
    of: str
    problem: int


@dataclass(frozen=True)
class Entry:
    """A message; a quiet mark, which has no end; or octets that are no message, which have a reason."""

    number: int
    end: str = ""
    kind: str = QUIET
    head: str = ""
    reason: int = None
    otid: str = None
    dtid: str = None
    cause: int = None
    # The PDU of the dialogue portion, and its values: `result`, `user` or `provider`, `source`.
    pdu: str = None
    says: dict = None
    components: tuple = ()


def parts_of(words):
    """Returns the values of words NAME=VALUE, by their names."""
    return dict(word.split("=", 1) for word in words if "=" in word)


def number_in(parts, name):
    return int(parts[name]) if name in parts else None


def component_of(line):
    kind, *words = line.split()
    parts = parts_of(words)
    # The code of a Return Error has the name of an error problem.
    of = next((of for of in (GENERAL, OF_INVOKE, OF_RESULT, OF_ERROR) if of in parts), None) if kind == REJECT else None
    id = None if parts["id"] == "null" else int(parts["id"])
    return Component(line, kind, id, number_in(parts, "linked"), parts.get("op"), of, number_in(parts, of))


def entry_of(line):
    """Returns an entry without its components."""
    number, end, *words = line.split()
    if end == QUIET:
        return Entry(int(number))
    kind, *words = words
    if kind == NO_MESSAGE:
        return Entry(int(number), end, kind, reason=int(words[0]))
    parts, head = parts_of(words), line.split(" ", 2)[2]
    pdu = next((word for word in words if "=" not in word), None)
    ids = parts.get("otid"), parts.get("dtid")
    return Entry(int(number), end, kind, head, None, *ids, number_in(parts, "cause"), pdu, parts)


def entries_of(show):
    """Returns the entries of a record, from the output of `show`, or None if the record itself has a fault."""
    entries = []
    for line in show.splitlines():
        if line.startswith(NO_MESSAGE):
            return None
        if line.startswith("  "):
            entries[-1] = replace(entries[-1], components=(*entries[-1].components, component_of(line)))
        else:
            entries.append(entry_of(line))
    return entries


class Table:
    """An operation table, from the output of `table`. An operation that it lacks has no class, lists nothing and does
    not expire."""

    def __init__(self, text):
        rows = [parts_of(line.split()) for line in text.splitlines()]
        self.rows = {row["op"]: row for row in rows if "op" in row}
        self.is_prearranged = {"prearranged": "true"} in rows

    def has(self, operation):
        return operation in self.rows

    def class_of(self, operation):
        return int(self.rows[operation]["class"]) if self.has(operation) else None

    def linked(self, operation):
        """Returns the operations that may be linked to an operation."""
        listed = self.rows[operation].get("linked") if self.has(operation) else None
        return listed.split(",") if listed else []

    def expires(self, operation):
        return self.has(operation) and "expires" not in self.rows[operation]


# ---- counted components


def of_id(messages, id, *kinds):
    """Returns the components of these kinds with that invoke ID, in these messages."""
    return [c for message in messages for c in message.components if c.id == id and c.kind in kinds]


def rejects_of(messages, id, *of):
    """Returns the Rejects of that invoke ID with a problem of these."""
    return [c for c in of_id(messages, id, REJECT) if c.of in of]


def takes(component):
    """Returns whether a component takes an invocation of its ID."""
    is_reject = component.kind == REJECT and component.of == OF_INVOKE and component.id is not None
    return component.kind in (LAST, ERROR) or is_reject


# ---- octets


def printed(word, octets):
    """Returns the output of the program's word for these octets."""
    return subprocess.run([PROGRAM, word, "/dev/stdin"], input=octets, capture_output=True, check=False).stdout.decode()


def entries_in(record):
    """Returns the entries of the octets of a record, or None if the record itself has a fault."""
    return entries_of(printed("show", record))
