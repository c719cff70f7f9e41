"""Finds messages that were captured on both sides of a transfer point, so that each occurs twice, and makes one of
the copies. docs/LINES_OF_CAPTURE.md, "Both sides of a transfer point", has the rules."""

import collections

from capture_pairs import code_of


class Copies:
    """The copies of one message, in the order of the capture."""

    __slots__ = "all",

    def __init__(self, first):
        self.all = [first]

    def passes_on(self, message):
        """Returns whether a message leaves the point at which the last copy came, for a point at which no copy
        was."""
        codes = {code_of(end) for one in self.all for end in (one.sender, one.receiver)}
        return code_of(self.all[-1].receiver) == code_of(message.sender) and code_of(message.receiver) not in codes

    def is_repeated_by(self, message):
        """Returns whether a message goes between the same addresses in another association."""
        last = self.all[-1]
        is_same = last.sender is message.sender and last.receiver is message.receiver
        return is_same and len(self.all) == 1 and None not in (last.way, message.way) and way_of(last) != way_of(message)


def way_of(message):
    """Returns what identifies the association of a message: its two ways have one set of labels."""
    return id(message.way.labels)


def repeated(messages):
    """Returns the octets that several messages have. Of most captures these are few."""
    seen, again = set(), set()
    for message in messages:
        (again if message.octets in seen else seen).add(message.octets)
    return again


def copies_of(messages):
    """Returns the copies of each message that has several."""
    waiting, found, again = collections.defaultdict(list), [], repeated(messages)
    for message in messages:
        if message.octets not in again:
            continue
        # The last one first: an ID that comes again makes messages with the same octets.
        for copies in reversed(waiting[message.octets]):
            if copies.passes_on(message) or copies.is_repeated_by(message):
                copies.all.append(message)
                break
        else:
            found.append(Copies(message))
            waiting[message.octets].append(found[-1])
    copies = [one.all for one in found if len(one.all) > 1]
    turned = turned_ways(copies)
    return [one for one in copies if not are_between_same(one) or turned[frozenset((one[0].sender, one[0].receiver))]]


def are_between_same(copies):
    return copies[0].sender is copies[1].sender


def turned_ways(copies):
    """Returns for each two addresses whether the copies that one sends the other pass two associations in one order,
    and those of the other in the opposite order. Two associations that share a load do not show this."""
    orders = collections.defaultdict(lambda: collections.defaultdict(set))
    for one in copies:
        if are_between_same(one):
            orders[frozenset((one[0].sender, one[0].receiver))][one[0].sender].add(tuple(map(way_of, one)))

    def are_turned(of_senders):
        orders = list(of_senders.values())
        if len(orders) != 2 or any(len(order) != 1 for order in orders):
            return False
        return orders[0] == {order[::-1] for order in orders[1]}

    return {both: are_turned(of_senders) for both, of_senders in orders.items()}


def one_side(messages, copies):
    """Returns the messages with one of each that has copies: the first, with the sender of the first and the receiver
    of the last. Its `hops` are the pairs of codes that the copies went between."""
    gone = set()
    for first, *others in copies:
        first.receiver = others[-1].receiver
        first.hops = frozenset(frozenset((code_of(one.sender), code_of(one.receiver))) for one in others) | first.hops
        gone.update(map(id, others))
    return [message for message in messages if id(message) not in gone]
