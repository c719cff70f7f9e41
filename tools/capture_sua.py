"""Reads messages of SUA (RFC 3868), which carry the data of SCCP without its messages. Nothing here keeps a state."""

import collections
import ipaddress
import re

from signalling import CLDT, M3UA_HEAD, PARAMETER, SERVICE, Refused, Unitdata, number, part

# Parameters of a message (RFC 3868 3.10), and those of an address (3.10.2).
SOURCE, DESTINATION, DATA, SEGMENTATION = 0x102, 0x103, 0x10B, 0x117
TITLE, POINT_CODE, SUBSYSTEM, IPV4, HOST_NAME, IPV6 = range(0x8001, 0x8007)
HOST = re.compile(rb"[A-Za-z0-9._-]+")

Party = collections.namedtuple("Party", "pc ssn gt host")


def parameters(octets, at, end, what):
    """Returns the parameters between these places, each content by its tag. The first of several with one tag
    counts."""
    found = {}
    while at < end:
        if at + 4 > end:
            raise Refused("sua", f"a parameter of {what} goes past the end")
        tag, size = PARAMETER.unpack_from(octets, at)
        if size < 4:
            raise Refused("sua", f"a parameter of {what} is shorter than its header")
        if at + size > end:
            raise Refused("sua", f"a parameter of {what} goes past the end")
        found.setdefault(tag, octets[at + 4 : at + size])
        at += size + -size % 4
    return found


def unitdata(message):
    """Returns what a message of SUA carries without a connection, or None if it carries nothing so."""
    if len(message) < 8:
        raise Refused("sua", "the header of SUA goes past the end")
    version, kind, length = M3UA_HEAD.unpack_from(message)
    if version != 1 or length < 8:
        raise Refused("sua", "neither its version nor its length is that of SUA")
    if kind != CLDT and kind not in SERVICE:
        return None
    if length > len(message):
        raise Refused("sua", "a message of SUA goes past the end")
    found = parameters(message, 8, length, "SUA")
    if SOURCE not in found or DESTINATION not in found or kind == CLDT and DATA not in found:
        raise Refused("sua", "a message of SUA without an address or without its data")
    return Unitdata(kind, found[DESTINATION], found[SOURCE], found.get(DATA, b""), segment_of(found.get(SEGMENTATION)))


def segment_of(content):
    """Returns a segmentation, or None if the message is whole (RFC 3868 3.10.23)."""
    if content is None:
        return None
    part(content, 0, 4, "sua", "a segmentation")
    first, left = bool(content[0] & 0x80), content[0] & 0x7F
    return None if first and left == 0 else (first, left, content[1:4])


def party(address):
    """Reads a source or a destination address. A host counts only if there is neither a point code nor a title."""
    pc, ssn, gt = parts_of(address)
    return Party(pc, ssn, gt, host_of(parameters_of(address)) if pc is None and gt is None else None)


def parameters_of(address):
    """Returns the parameters of an address, which come after two indicators (RFC 3868 3.10.2)."""
    return parameters(address, 4, len(address), "an address")


def parts_of(address):
    """Returns the point code, the subsystem number and the digits of the global title of an address."""
    found = parameters_of(address)
    pc = number(found[POINT_CODE], 0, 4, "sua", "a point code") if POINT_CODE in found else None
    ssn = number(found[SUBSYSTEM], 3, 1, "sua", "a subsystem number") if SUBSYSTEM in found else None
    return pc, ssn, digits_of(found[TITLE]) if TITLE in found else None


def digits_of(title):
    """Returns the digits of a global title, two in an octet, the first in its lower half (RFC 3868 3.10.2.3)."""
    count = number(title, 4, 1, "sua", "a global title")
    digits = "".join(f"{octet & 15:x}{octet >> 4:x}" for octet in title[8:])
    return part(digits, 0, count, "sua", "a global title")


def host_of(found):
    """Returns the IP address or the name of a host."""
    if name := found.get(HOST_NAME):
        name = name.rstrip(b"\0")
        if not HOST.fullmatch(name):
            raise Refused("sua", "the name of a host has other signs than letters, digits, dots and dashes")
        return name.decode()
    for tag, size in (IPV4, 4), (IPV6, 16):
        if tag in found:
            return str(ipaddress.ip_address(part(found[tag], 0, size, "sua", "an IP address")))
    raise Refused("ends", "an address of SUA with its subsystem alone: neither a point code, a title nor a host")
