"""Decodes messages of TCAP, with the number of the first fault of octets that are none: an independent reading of
docs/MESSAGES.md and docs/REASONS.md (Q.773 4.2). It shares nothing with the code under test. A message is one of
tests/oracle/ends.py."""

from elements import CUT, PAST_END, TRAILING, Fault, element_at, header_at
from ends import Message

BAD_INTEGER, BAD_NAME, TAG, MISSING, EMPTY, VERSION, SYNTAX, BAD_SIZE, BAD_ID, WIDE = 6, 7, 8, 9, 11, 12, 13, 14, 15, 17
KINDS = {0x61: "Unidirectional", 0x62: "Begin", 0x64: "End", 0x65: "Continue", 0x67: "Abort"}
DIALOGUE, UNIDIALOGUE = bytes.fromhex("00118605010101"), bytes.fromhex("00118605010201")
ANSWERS = {0xA2: True, 0xA7: False}
MOST_OF_CODE, MOST_OF_ID = 4, 4


class Content:
    """The elements that are left of a content."""

    def __init__(self, octets, at, end):
        self.octets, self.at, self.end = octets, at, end

    def has(self, *tags):
        """Returns whether the next octet is one of these tags."""
        return self.at < self.end and self.octets[self.at] in tags

    def inner(self, element):
        return Content(self.octets, element.begin, element.end)

    def take(self, *tags, fault=TAG):
        """Takes the next element, which has one of these tags, or any if there are none. Returns its tag and what
        reads its content."""
        if self.at == self.end:
            raise Fault(MISSING)
        element = element_at(self.octets, self.at, self.end)
        if tags and (len(element.tag) > 1 or element.tag[0] not in tags):
            raise Fault(fault)
        self.at = element.next
        return element.tag[0], self.inner(element)

    def all(self):
        return self.octets[self.at : self.end]

    def finish(self):
        if self.at < self.end:
            raise Fault(TRAILING)


# ---- values


def integer(content):
    """Returns an INTEGER (X.690 8.3)."""
    octets = content.all()
    if not octets or len(octets) > 1 and (octets[0], octets[1] >> 7) in ((0, 0), (0xFF, 1)):
        raise Fault(BAD_INTEGER)
    return int.from_bytes(octets, "big", signed=True), len(octets)


def small(content, least=0):
    """Returns an INTEGER of one octet, from `least`."""
    value, size = integer(content)
    if size > 1 or value < least:
        raise Fault(BAD_SIZE)
    return value


def invoke_id(content):
    return small(content, -128)


def name(content):
    """Returns an OBJECT IDENTIFIER (X.690 8.19)."""
    octets = content.all()
    firsts = [at for at in range(len(octets)) if at == 0 or octets[at - 1] < 0x80]
    if not octets or octets[-1] >= 0x80 or any(octets[at] == 0x80 for at in firsts):
        raise Fault(BAD_NAME)
    return octets


def transaction_id(content, tag):
    octets = content.take(tag)[1].all()
    if not 1 <= len(octets) <= MOST_OF_ID:
        raise Fault(BAD_ID)
    return octets


def code(content):
    """Returns an operation code or an error code, as `show` prints it."""
    tag, inner = content.take(2, 6)
    if tag == 6:
        return name(inner).hex()
    value, size = integer(inner)
    if size > MOST_OF_CODE:
        raise Fault(WIDE)
    return str(value)


# ---- components


def parameter(content):
    """Reads a parameter if there is one, and then the end of the content."""
    if content.at < content.end:
        content.take()
    content.finish()


def result(content):
    """Returns the operation that a Return Result names, or None if it names none."""
    named = None
    if content.has(0x30):
        inner = content.take(0x30)[1]
        named = code(inner)
        parameter(inner)
    content.finish()
    return named


def reject(content):
    tag, inner = content.take(2, 5)
    if tag == 5 and inner.at < inner.end:
        raise Fault(BAD_SIZE)
    id = invoke_id(inner) if tag == 2 else None
    of, inner = content.take(0x80, 0x81, 0x82, 0x83)
    found = ("reject", id, of & 3, small(inner))
    content.finish()
    return found


def component(content):
    """Takes a component."""
    tag, inner = content.take(0xA1, 0xA2, 0xA3, 0xA4, 0xA7)
    if tag == 0xA4:
        return reject(inner)
    id = invoke_id(inner.take(2)[1])
    if tag in ANSWERS:
        return ("result", id, ANSWERS[tag], result(inner))
    if tag == 0xA1:
        linked = invoke_id(inner.take(0x80)[1]) if inner.has(0x80) else None
        found = ("invoke", id, linked, code(inner))
    else:
        found = ("error", id, code(inner))
    parameter(inner)
    return found


def components(content):
    """Returns the components of a component portion."""
    if content.at == content.end:
        raise Fault(EMPTY)
    found = []
    while content.at < content.end:
        found.append(component(content))
    return found


# ---- dialogue portions


def version(content):
    if content.has(0x80):
        octets = content.take(0x80)[1].all()
        if len(octets) != 2 or octets[0] > 7 or octets[1] < 0x80:
            raise Fault(VERSION)


def wrapped(content, outer, *tags):
    """Takes an element with exactly one in it. Returns the tag of the inner one and what reads it."""
    around = content.take(outer)[1]
    found = around.take(*tags)
    return found, around


def request(content):
    """Reads the protocol version and the application context name."""
    version(content)
    (_, inner), around = wrapped(content, 0xA1, 6)
    name(inner)
    around.finish()


def response(content):
    """Returns an AARE."""
    request(content)
    (_, inner), around = wrapped(content, 0xA2, 2)
    outcome = small(inner)
    around.finish()
    (source, inner), around = wrapped(content, 0xA3, 0xA1, 0xA2)
    number = small(inner.take(2)[1])
    inner.finish()
    around.finish()
    return ("AARE", outcome, "user" if source == 0xA1 else "provider", number)


def information(content):
    """Reads the user information, if there is any, and then the end of the content."""
    if content.has(0xBE):
        inner = content.take(0xBE)[1]
        while inner.at < inner.end:
            inner.take(0x28)
    content.finish()


def pdu(content, syntax):
    """Returns a PDU of an abstract syntax."""
    allowed = (0x60, 0x61, 0x64) if syntax == DIALOGUE else (0x60,)
    tag, inner = content.take(*allowed, fault=SYNTAX)
    if tag == 0x60:
        request(inner)
        found = ("AARQ",) if syntax == DIALOGUE else ("AUDT",)
    elif tag == 0x61:
        found = response(inner)
    else:
        found = ("ABRT", small(inner.take(0x80)[1]))
    information(inner)
    return found


def dialogue(content):
    """Takes a dialogue portion."""
    (_, external), portion = wrapped(content, 0x6B, 0x28)
    syntax = name(external.take(6, fault=SYNTAX)[1])
    if syntax not in (DIALOGUE, UNIDIALOGUE):
        raise Fault(SYNTAX)
    around = external.take(0xA0, fault=SYNTAX)[1]
    found = pdu(around, syntax)
    around.finish()
    external.finish()
    portion.finish()
    return found


# ---- messages


def transaction(kind, content):
    """Returns a message of that kind with its transaction portion and its dialogue portion."""
    message = Message(kind)
    if kind in ("Begin", "Continue"):
        message.otid = transaction_id(content, 0x48)
    if kind in ("Continue", "End", "Abort"):
        message.dtid = transaction_id(content, 0x49)
    if kind == "Abort" and content.has(0x4A):
        message.cause = small(content.take(0x4A)[1])
    elif content.has(0x6B):
        message.dialogue = dialogue(content)
    return message


def message_in(tag, content):
    """Returns the message with that outer tag and content."""
    message = transaction(KINDS[tag], content)
    if message.kind == "Unidirectional" or message.kind != "Abort" and content.has(0x6C):
        message.components = components(content.take(0x6C)[1])
    content.finish()
    return message


def outer_element(octets):
    """Returns the outer element."""
    if not octets:
        raise Fault(CUT)
    try:
        return element_at(octets, 0, len(octets))
    except Fault as fault:
        raise Fault(CUT if fault.reason == PAST_END else fault.reason) from fault


def decoded(octets):
    """Returns the message of these octets, and the number of their first fault: one of these is None."""
    try:
        outer = outer_element(octets)
        if octets[0] not in KINDS:
            raise Fault(TAG)
        message = message_in(octets[0], Content(octets, outer.begin, outer.end))
        if outer.next < len(octets):
            raise Fault(TRAILING)
    except Fault as fault:
        return None, fault.reason
    return message, None


def content_of(octets):
    """Returns where the content of the outer element begins and ends: at the end of the octets if its length says more
    than there is, or if it has no ending. Returns None if its header is cut or beyond a limit."""
    try:
        _, begin, size = header_at(octets, 0, len(octets)) if octets else (0, 0, 0)
    except Fault:
        return None
    if size is not None:
        return begin, min(begin + size, len(octets))
    try:
        return begin, element_at(octets, 0, len(octets)).end
    except Fault:
        return begin, len(octets)
