"""Reads the octets of the layers below TCAP: packets of SCTP (RFC 9260), messages of M3UA (RFC 4666) and of SCCP
(ITU-T Q.713), and the outside of a TCAP message (ITU-T Q.773, X.690). Nothing here keeps a state. Below TCAP, what
can't be read is refused with a name and a reason."""

import collections
import struct

SCTP_HEADER = 12
# The payload protocol identifiers of chunks of SCTP, and the ports of M3UA and SUA.
M3UA, SUA, M2PA = 3, 4, 5
PORTS = {M3UA: b"\x0b\x59", SUA: b"\x36\xb1"}
OTHERS = {2: "M2UA", M2PA: "M2PA"}
# SCCP's own management, and the subsystems of 3GPP TS 23.003 that do not use TCAP: RANAP, RNSAP, BSSAP+ and the like.
NO_TCAP = {1, 98, 142, 143, *range(249, 255)}
# The messages of Q.713 that carry data without a connection: the number of octets before the pointers, whether the
# pointers and the length of the data have two octets, and whether there is a pointer to an optional part.
FORMS = {0x09: (2, False, False), 0x11: (3, False, True), 0x13: (3, True, True)}
FORMS |= {0x0A: (2, False, False), 0x12: (3, False, True), 0x14: (3, True, True)}
# The messages of SUA (RFC 3868) that carry data without a connection: their class and their type.
CLDT, CLDR = 0x701, 0x702
# The messages that bring a message back to its sender.
SERVICE = {0x0A, 0x12, 0x14, CLDR}
NAMES = {0x09: "UDT", 0x11: "XUDT", 0x13: "LUDT", 0x0A: "UDTS", 0x12: "XUDTS", 0x14: "LUDTS", CLDR: "CLDR"}
# The tags of the messages of TCAP (Q.773 4.2.1), of those with an originating and with a destination transaction ID,
# and of these IDs, which have 1 to 4 octets; and the tags of ANSI TCAP.
UNIDIRECTIONAL, BEGIN = 0x61, 0x62
MESSAGES = {0x61, 0x62, 0x64, 0x65, 0x67}
OTID, DTID, LONGEST_ID = 0x48, 0x49, 4
ANSI = {0xE1, 0xE2, 0xE3, 0xE4, 0xE5, 0xE6, 0xF6}

# The head of a chunk; the TSN and the payload protocol identifier of a chunk of data; the head of a message of M3UA,
# and of its parameters; and from Protocol Data the point codes, the service indicator and the network indicator.
CHUNK, DATA = struct.Struct(">BBH"), struct.Struct(">I4xI")
M3UA_HEAD, PARAMETER, LABEL = struct.Struct(">BxHI"), struct.Struct(">HH"), struct.Struct(">IIBB")

Chunk = collections.namedtuple("Chunk", "tsn first last ppid payload")
Label = collections.namedtuple("Label", "ni opc dpc")
Party = collections.namedtuple("Party", "pc ssn gt")
# The addresses are octets; the segment is None or (first, left, reference).
Unitdata = collections.namedtuple("Unitdata", "kind called calling content segment")


class Refused(Exception):
    """Octets that can't be read: the name of the fault, and the reason."""

    def __init__(self, name, why):
        super().__init__(f"{name}: {why}")
        self.name, self.why = name, why


def part(octets, at, count, name, what):
    """Returns this many octets from that place on. Raises Refused if there are fewer."""
    if at < 0 or at + count > len(octets):
        raise Refused(name, f"{what} goes past the end")
    return octets[at : at + count]


def number(octets, at, count, name, what, order="big"):
    return int.from_bytes(part(octets, at, count, name, what), order)


# ---- SCTP


def chunks_of(packet):
    """Yields the chunks of data of a packet, after its header."""
    at, end = SCTP_HEADER, len(packet)
    while at < end:
        if at + 4 > end:
            raise Refused("sctp", "the header of a chunk goes past the end")
        kind, flags, size = CHUNK.unpack_from(packet, at)
        if size < 4:
            raise Refused("sctp", "a chunk is shorter than its header")
        if at + size > end:
            raise Refused("sctp", "a chunk goes past the end")
        if kind == 64:
            raise Refused("sctp", "a chunk of I-DATA (RFC 8260), which is not read")
        if kind == 0:
            if size < 16:
                raise Refused("sctp", "the header of DATA goes past the end")
            tsn, ppid = DATA.unpack_from(packet, at + 4)
            yield Chunk(tsn, flags & 2, flags & 1, ppid, packet[at + 16 : at + size])
        at += size + -size % 4


def cut_label(packet):
    """Returns the label of the message of M3UA that a cut in a packet goes through, or None if the label comes after
    the cut."""
    at = SCTP_HEADER
    while at + 4 <= len(packet):
        kind, _, size = CHUNK.unpack_from(packet, at)
        if kind == 0 and at + size > len(packet):
            return first_label(packet[at + 16 :])
        at += max(4, size + -size % 4)
    return None


def adaptation_of(ppid, ports):
    """Returns M3UA or SUA if a chunk carries it, by its payload protocol or, if that is 0, by the ports; else None."""
    if ppid:
        return ppid if ppid in PORTS else None
    return next((protocol for protocol, port in PORTS.items() if port in ports), None)


# ---- M3UA, M2PA


def first_label(message):
    """Returns the label of a message of M3UA that may be cut, or None if there is none before the cut."""
    at = 8
    while at + 16 <= len(message):
        tag, size = PARAMETER.unpack_from(message, at)
        if tag == 0x210:
            opc, dpc, _, ni = LABEL.unpack_from(message, at + 4)
            return Label(ni, opc, dpc)
        at += max(4, size + -size % 4)
    return None


def m2pa_label(message):
    """Returns the label of the content of a message of M2PA (RFC 4165 2.3.1, Q.704 2.2), or None if it has no
    content."""
    if len(message) < 22 or message[2:4] != b"\x0b\x01":
        return None
    label = int.from_bytes(message[18:22], "little")
    return Label(message[17] >> 6, label >> 14 & 0x3FFF, label & 0x3FFF)


def protocol_data(message):
    """Returns the label and the message of SCCP that a message of M3UA carries, or None if it carries none."""
    if len(message) < 8:
        raise Refused("m3ua", "the header of M3UA goes past the end")
    version, kind, length = M3UA_HEAD.unpack_from(message)
    if version != 1 or length < 8:
        raise Refused("m3ua", "neither its version nor its length is that of M3UA")
    if kind != 0x101:
        return None
    if length > len(message):
        raise Refused("m3ua", "a message of M3UA goes past the end")
    at = 8
    while at < length:
        if at + 4 > length:
            raise Refused("m3ua", "a parameter goes past the end")
        tag, size = PARAMETER.unpack_from(message, at)
        if size < 4:
            raise Refused("m3ua", "a parameter is shorter than its header")
        if at + size > length:
            raise Refused("m3ua", "a parameter goes past the end")
        if tag == 0x210:
            if size < 16:
                raise Refused("m3ua", "Protocol Data goes past the end")
            opc, dpc, indicator, ni = LABEL.unpack_from(message, at + 4)
            return (Label(ni, opc, dpc), message[at + 16 : at + size]) if indicator == 3 else None
        at += size + -size % 4
    raise Refused("m3ua", "a message of data without Protocol Data")


# ---- SCCP


def digits_of(indicator, title):
    """Returns the digits of a global title, which come after the octets that its indicator announces (Q.713
    3.4.2.3)."""
    before = {1: 1, 2: 1, 3: 2, 4: 3}.get(indicator)
    if before is None:
        raise Refused("sccp", f"a global title with the indicator {indicator}")
    head, pairs = part(title, 0, before, "sccp", "a global title"), title[before:]
    digits = "".join(f"{octet & 15:x}{octet >> 4:x}" for octet in pairs)
    is_odd = head[0] & 0x80 if indicator == 1 else head[1] & 15 == 1 if indicator > 2 else False
    return digits[:-1] if is_odd and digits else digits


def party(octets):
    """Reads a called or a calling party address (Q.713 3.4)."""
    if not octets:
        raise Refused("sccp", "an address without its indicator")
    indicator, at, pc, ssn, gt = octets[0], 1, None, None, None
    if indicator & 1:
        pc, at = number(octets, at, 2, "sccp", "an address", "little") & 0x3FFF, at + 2
    if indicator & 2:
        ssn, at = number(octets, at, 1, "sccp", "an address"), at + 1
    if indicator >> 2 & 15:
        gt = digits_of(indicator >> 2 & 15, octets[at:])
    return Party(pc, ssn, gt)


def segment_of(octets, at):
    """Returns the segmentation of an optional part that begins there, or None if it has none."""
    while number(octets, at, 1, "sccp", "the optional part"):
        size = number(octets, at + 1, 1, "sccp", "an optional parameter")
        content = part(octets, at + 2, size, "sccp", "an optional parameter")
        if octets[at] == 0x10:
            part(content, 0, 4, "sccp", "a segmentation")
            return bool(content[0] & 0x80), content[0] & 15, content[1:4]
        at += 2 + size
    return None


def pointed(octets, at, kind, is_long, is_wide):
    """Returns the octets of the parameter that the pointer there points to. If it is wide, its length has two
    octets."""
    try:
        where = octets[at] | octets[at + 1] << 8 if is_long else octets[at]
        begin = at + is_long + where
        end = begin + 1 + (octets[begin] | octets[begin + 1] << 8 if is_wide else octets[begin]) + is_wide
    except IndexError:
        raise Refused("sccp", f"a parameter of the {NAMES[kind]} goes past the end") from None
    if where == 0:
        raise Refused("sccp", f"a {NAMES[kind]} without one of its parameters")
    if end > len(octets):
        raise Refused("sccp", f"a parameter of the {NAMES[kind]} goes past the end")
    return octets[begin + 1 + is_wide : end]


def unitdata(octets):
    """Returns what a connectionless message of SCCP carries, or None if the message is of another kind."""
    if not octets:
        raise Refused("sccp", "a message of SCCP without octets")
    kind = octets[0]
    if kind not in FORMS:
        return None
    at, is_long, has_more = FORMS[kind]
    size = 1 + is_long
    called = pointed(octets, at, kind, is_long, False)
    calling = pointed(octets, at + size, kind, is_long, False)
    content, segment = pointed(octets, at + 2 * size, kind, is_long, is_long), None
    if has_more:
        at += 3 * size
        where = number(octets, at, size, "sccp", "a pointer", "little")
        segment = segment_of(octets, at + size - 1 + where) if where else None
    return Unitdata(kind, called, calling, content, segment)


# ---- the outside of a TCAP message


def header(octets, at):
    """Returns where the content of the element there begins, and its length, or None for an indefinite length (X.690
    8.1)."""
    begin = at
    try:
        if octets[at] & 31 == 31:
            at += 1
            while octets[at] & 0x80:
                at += 1
        length = octets[at + 1]
    except IndexError:
        raise Refused("element", "an element goes past the end") from None
    if length < 0x80:
        return at + 2, length
    if length == 0x80:
        if not octets[begin] & 0x20:
            raise Refused("element", "a primitive element of indefinite length")
        return at + 2, None
    if length > 0x84:
        raise Refused("element", f"the length octet {length:02x}")
    return at + 2 + (length & 127), number(octets, at + 2, length & 127, "element", "an element")


def end_of(octets):
    """Returns where the element at the front ends. Raises Refused if the octets end before it does."""
    at, depth = 0, 0
    while True:
        if depth and octets[at : at + 2] == b"\0\0":
            at, depth = at + 2, depth - 1
        else:
            at, length = header(octets, at)
            depth += length is None
            at += length or 0
        if at > len(octets):
            raise Refused("element", f"the message is not whole: {len(octets)} octets, and it goes on")
        if depth == 0:
            return at


def outer_content(octets):
    """Returns the content of the outer element. If that is not whole, returns all there is of its content."""
    begin, length = header(octets, 0)
    if length is not None:
        return octets[begin : begin + length]
    try:
        return octets[begin : end_of(octets) - 2]
    except Refused:
        return octets[begin:]


def elements_of(octets):
    """Yields the first octet of the tag of each element, and its content, up to the first element that is not whole."""
    try:
        while octets and octets[0] != 0:
            end, (begin, length) = end_of(octets), header(octets, 0)
            yield octets[0], octets[begin : end if length is not None else end - 2]
            octets = octets[end:]
    except Refused:
        return


def ids_of(octets):
    """Returns the tag of a message and its originating and destination transaction ID, with None for those that it does
    not have. They are read as `test` reads them: the tag is None if no message has it; the IDs are those of the whole
    elements of the content, in any order; both are None if two of one sort differ, or of a Unidirectional."""
    tag = octets[0] if octets and octets[0] in MESSAGES else None
    ids = {OTID: set(), DTID: set()}
    try:
        for sort, content in elements_of(outer_content(octets)):
            if sort in ids and 1 <= len(content) <= LONGEST_ID:
                ids[sort].add(content)
    except Refused:
        return tag, None, None
    if tag == UNIDIRECTIONAL or max(map(len, ids.values())) > 1:
        return tag, None, None
    return tag, *(next(iter(ids[sort]), None) for sort in (OTID, DTID))
