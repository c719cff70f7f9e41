"""Follows associations of SCTP (RFC 9260): puts their chunks of data in the order in which they were sent, each once,
joins those that carry one message, and notes between which point codes an association carries messages."""

import bisect
import collections

from signalling import Refused


class Direction:
    """What one end of an association sent: its chunks of data by their TSNs, which are counted on over 2^32."""

    def __init__(self):
        # The TSN, the place and the hash of the octets of each chunk, sorted by TSN.
        self.tsns, self.places, self.hashes, self.pieces = [], [], [], {}

    def took(self, chunk, frame, index):
        """Returns the counted TSN of a chunk and its place, or None if the chunk came before."""
        tsn, at = chunk.tsn, len(self.tsns)
        if at:
            last = self.tsns[-1]
            tsn = last + (tsn - last + 2**31) % 2**32 - 2**31
            at = at if tsn > last else bisect.bisect_left(self.tsns, tsn)
        if at == len(self.tsns):
            place = frame, index, tsn
        elif self.tsns[at] == tsn:
            if self.hashes[at] != hash(chunk.payload):
                raise Refused("tsn", f"the TSN {chunk.tsn} comes again, with other octets")
            return None
        else:
            # It was sent before the chunks with a greater TSN, though it was captured after them.
            place = *self.places[at][:2], tsn
        self.tsns.insert(at, tsn)
        self.places.insert(at, place)
        self.hashes.insert(at, hash(chunk.payload))
        return tsn, place

    def whole(self, chunk, tsn, place, frame):
        """Returns the place, the frames and the octets of a message if this chunk completes it, else None."""
        if chunk.first and chunk.last:
            return place, (frame,), chunk.payload
        self.pieces[tsn] = chunk, place, frame
        first = last = tsn
        while not self.pieces[first][0].first and first - 1 in self.pieces:
            first -= 1
        while not self.pieces[last][0].last and last + 1 in self.pieces:
            last += 1
        if not (self.pieces[first][0].first and self.pieces[last][0].last):
            return None
        taken = [self.pieces.pop(one) for one in range(first, last + 1)]
        return taken[0][1], tuple(sorted({number for *_, number in taken})), b"".join(piece.payload for piece, *_ in taken)

    def gaps(self):
        """Yields the place of each chunk before which others are missing, how many, and the TSN of the first of
        them."""
        for before, tsn, place in zip(self.tsns, self.tsns[1:], self.places[1:]):
            if tsn != before + 1:
                yield place, tsn - before - 1, (before + 1) % 2**32


class Way:
    """The direction of an association's packets from one host to another: the chunks sent, and the labels, which are
    pairs of point codes, of all messages that the association carries."""

    __slots__ = "direction", "labels"

    def __init__(self, direction, labels):
        self.direction, self.labels = direction, labels


class Ways:
    """All ways of a capture. Packets are of one association if they have the same verification tag and ports, or go
    between the same hosts and ports."""

    def __init__(self):
        self.ways, self.directions, self.labels = {}, collections.defaultdict(Direction), {}

    def of(self, hosts, head):
        """Returns the way of packets between these hosts, in that order, with that head: two ports and the tag."""
        return self.ways.get((hosts, head)) or self.add(hosts, head)

    def add(self, hosts, head):
        tag, ports = head[4:], (head[:2], head[2:4])
        # Packets that a tool made have no tag. Then only the hosts tell the two directions apart.
        direction = self.directions[head if any(tag) else (head, hosts[0])]
        names = [frozenset(zip(hosts, ports))] + ([head] if any(tag) else [])
        known = [self.labels[name] for name in names if name in self.labels]
        labels = known[0] if known else set()
        if known and known[-1] is not labels:
            self.make_one(labels, known[-1])
        self.labels.update(dict.fromkeys(names, labels))
        self.ways[hosts, head] = Way(direction, labels)
        return self.ways[hosts, head]

    def make_one(self, labels, gone):
        """Makes one association of two that have these labels."""
        labels |= gone
        self.labels = {name: labels if found is gone else found for name, found in self.labels.items()}
        for way in self.ways.values():
            way.labels = labels if way.labels is gone else way.labels

    def all(self):
        """Returns each direction, with the labels of its association."""
        ways = {id(way.direction): way for way in self.ways.values()}
        return [(way.direction, frozenset(way.labels)) for way in ways.values()]

    def labels_of(self, hosts, head):
        """Returns the labels of the association of such packets. If the head is unknown, returns those of all
        associations between these hosts, as far as the hosts are known."""
        if (hosts, head) in self.ways:
            return self.ways[hosts, head].labels
        found = [way.labels for (between, _), way in self.ways.items() if are_of(hosts, between)]
        return set().union(*found)


def are_of(hosts, between):
    """Returns whether packets between these hosts may be of the others: both are the same, in any order, or the outer
    hosts of a tunnel, or a host is unknown since the header of IP was cut."""
    return begin(hosts, between) or begin(hosts, between[::-1])


def begin(hosts, between):
    """Returns whether each host is unknown, equals the other, or comes before it in an outer header of IP."""
    pairs = [pair for two in zip(hosts, between) for pair in zip(*two)]
    return all(not one or f"{other},".startswith(f"{one},") for one, other in pairs)
