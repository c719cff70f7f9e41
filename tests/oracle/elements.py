"""Reads elements of X.690 from octets, with the first fault: an independent reading of docs/MESSAGES.md (elements) and
docs/REASONS.md (how an element is read). For tests/oracle/decoding.py."""

from dataclasses import dataclass

CUT, LENGTH, SIZE, TAG, PAST_END, TRAILING, PRIMITIVE, DEEP = 1, 2, 3, 4, 5, 10, 16, 18
# The reasons that are limits of the profile.
LIMITS = {2, 3, 4, 12, 13, 16, 17, 18}
MOST_OCTETS, MOST_OPEN, MOST_OF_TAG = 65_535, 32, 5


class Fault(Exception):
    """The first fault of octets, with the number of its reason."""

    def __init__(self, reason):
        super().__init__(reason)
        self.reason = reason


@dataclass(frozen=True)
class Element:
    """An element: its tag, where its content begins and ends in the octets, and where the next element begins."""

    tag: bytes
    begin: int
    end: int
    next: int


def tag_at(octets, at, end):
    """Returns the end of the tag that begins at an offset."""
    last = at + 1
    if octets[at] & 0x1F == 0x1F:
        while True:
            if last == at + MOST_OF_TAG:
                raise Fault(TAG)
            if last == end:
                raise Fault(PAST_END)
            last += 1
            if octets[last - 1] < 0x80:
                break
    return last


def header_at(octets, at, end):
    """Returns where the tag that begins at an offset ends, where the content begins, and the size of the content, or
    None if its length is indefinite."""
    after = tag_at(octets, at, end)
    if after == end:
        raise Fault(PAST_END)
    length, begin = octets[after], after + 1
    if length < 0x80:
        return after, begin, length
    if length == 0x80:
        if not octets[at] & 0x20:
            raise Fault(PRIMITIVE)
        return after, begin, None
    count = length & 0x7F
    if count > 4:
        raise Fault(LENGTH)
    if begin + count > end:
        raise Fault(PAST_END)
    size = int.from_bytes(octets[begin : begin + count], "big")
    if size > MOST_OCTETS:
        raise Fault(SIZE)
    return after, begin + count, size


def ending(octets, begin, end, depth):
    """Returns the offset of the ending of an element of indefinite length whose content begins at an offset, inside
    `depth - 1` open ones."""
    if depth > MOST_OPEN:
        raise Fault(DEEP)
    at = begin
    while True:
        if at == end or octets[at] == 0 and at + 1 == end:
            raise Fault(PAST_END)
        if octets[at] == 0 and octets[at + 1] == 0:
            return at
        _, inner, size = header_at(octets, at, end)
        if inner - begin + (size or 0) > MOST_OCTETS:
            raise Fault(SIZE)
        if size is None:
            at = ending(octets, inner, end, depth + 1) + 2
            if at - begin > MOST_OCTETS:
                raise Fault(SIZE)
        elif inner + size > end:
            raise Fault(PAST_END)
        else:
            at = inner + size


def element_at(octets, at, end):
    """Returns the element that begins at an offset below `end`."""
    after, begin, size = header_at(octets, at, end)
    tag = octets[at:after]
    if size is None:
        last = ending(octets, begin, end, 1)
        return Element(tag, begin, last, last + 2)
    if begin + size > end:
        raise Fault(PAST_END)
    return Element(tag, begin, begin + size, begin + size)


def whole_elements(octets, at, end):
    """Returns the elements from an offset on, up to the first that is not whole, whose header is beyond a limit, or
    whose tag is 00."""
    found = []
    while at < end:
        try:
            element = element_at(octets, at, end)
        except Fault:
            break
        if element.tag == b"\0":
            break
        found.append(element)
        at = element.next
    return found
