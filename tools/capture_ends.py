"""Decides which addresses of a capture are one end, and whose ID a message goes to. docs/LINES_OF_CAPTURE.md, "Ends", has the
rules."""

import collections

import signalling
from capture_frames import Fault

PARTS = "pc", "ssn", "gt"
# If more ends of one place than this have sent an ID, the ID identifies none of them: it is one of a few IDs that
# everybody uses.
MANY = 50
# The most ends that a fault names.
LISTED = 4


def text_of(address):
    """Returns an address as it is printed."""
    parts = ((part, getattr(address, part)) for part in ("ni", *PARTS, "side", "host"))
    return " ".join(f"{part}={value}" for part, value in parts if value is not None)


def places_of(address):
    """Returns where an address is: its point code and its title, or its host."""
    places = None if address.pc is None else (address.ni, address.pc), address.gt, address.host
    return [place for place in places if place is not None]


def are_near(one, other):
    """Returns whether two addresses share a point code or a title."""
    return any(place in places_of(other) for place in places_of(one))


def are_routes(one, other):
    """Returns whether two addresses have one title and subsystem, and so are reached through two point codes."""
    return one.gt is not None and (one.gt, one.ssn) == (other.gt, other.ssn)


class Ends:
    """Decides which addresses are one end. Each address is known by the parts that --by looks at, and stands for
    itself until it is joined with another."""

    def __init__(self, by, addresses):
        self.by, self.addresses, self.named, self.members = by, addresses, [], None

    def name(self, address):
        """Returns the parts of an address that --by looks at, as an address, or None if there are none."""
        if address.name is None:
            pc, ssn, gt = (getattr(address, part) if part in self.by else None for part in PARTS)
            own = address.side, address.host
            if {pc, ssn, gt, *own} == {None}:
                return None
            name = self.addresses.of(address.ni if "pc" in self.by else None, pc, ssn, gt, *own)
            address.name, address.parent = name, name.parent
            self.named.append(address)
        return address.name

    @staticmethod
    def find(address):
        """Returns the representative of the end of an address."""
        while (parent := address.parent) is not address:
            address.parent = address = parent.parent
        return address

    def join(self, one, other):
        """Makes two ends one. Returns the representative of the result, and the former representative of `one`."""
        kept, gone = self.find(other), self.find(one)
        gone.parent = kept
        return kept, gone

    def of(self, end):
        """Returns all addresses of an end, in the order in which they came. Nothing may be joined after this."""
        if self.members is None:
            self.members = collections.defaultdict(list)
            for address in self.named:
                self.members[self.find(address)].append(address)
        return self.members[self.find(end)]

    def names_of(self, end):
        """Returns the names of all addresses of an end, each once."""
        return list(dict.fromkeys(address.name for address in self.of(end)))


class Sent:
    """Who sent which ID, and to whom: each ID with the pairs of addresses that it was sent between."""

    def __init__(self):
        self.pairs, self.indexed, self.at = collections.defaultdict(list), collections.Counter(), {}

    def add(self, otid, sender, receiver):
        self.pairs[otid].append((sender, receiver))

    def near(self, which, address, otid):
        """Returns the pairs that the ID was sent between whose sender (0) or receiver (1) is near that address. A
        place with too many pairs gives none."""
        pairs = self.pairs.get(otid, [])
        for pair in pairs[self.indexed[otid] :]:
            for side, one in enumerate(pair):
                for place in places_of(one):
                    self.at.setdefault((otid, side, place), {})[pair] = None
        self.indexed[otid] = len(pairs)
        found = [self.at.get((otid, which, place), {}) for place in places_of(address)]
        return [pair for at_place in found if len(at_place) <= MANY for pair in at_place]


class Answers:
    """Takes the messages in order, and joins the addresses that answers show to be one end. If an answer can't be
    decided, that is the message's fault, with the pairs to which it may belong."""

    def __init__(self, ends, messages, words):
        self.ends, self.messages, self.words = ends, messages, words
        # For each end: the address to which it sent an ID last.
        self.called = collections.defaultdict(dict)
        # Earlier uses of an ID: the ID, and the addresses of its sender and of its receiver. Then these two addresses
        # of each message whose IDs can't be read.
        self.earlier, self.sent, self.unread = set(), Sent(), set()
        self.speaking = {ends.find(message.sender) for message in messages}
        # For each end: each ID that it sent in the whole capture, with what identifies its dialogues. Made when it is
        # needed.
        self.dialogues, self.clashing = None, set()

    def take(self, message):
        """Takes the next message."""
        if message.fault:
            return
        sender, receiver = message.sender.name, message.receiver.name
        if not (message.otid or message.dtid or message.tag == signalling.UNIDIRECTIONAL):
            self.unread.add((sender, receiver))
        if message.dtid and not self.words.apart:
            self.settle(message, sender, receiver)
        if message.otid and not message.fault:
            self.note(message.otid, sender, receiver)

    def note(self, otid, sender, receiver):
        """Notes the ID that a message sends."""
        called = self.called[self.ends.find(sender)]
        before = called.get(otid)
        if before != receiver:
            if before is not None:
                self.earlier.add((otid, sender, before))
            called[otid] = receiver
            self.sent.add(otid, sender, receiver)

    def settle(self, message, sender, receiver):
        """Decides whose ID a message goes to."""
        find = self.ends.find
        called = self.called[find(receiver)].get(message.dtid)
        if called is None:
            self.settle_strange(message, sender, receiver)
        elif find(called) not in (find(sender), find(receiver)) and not self.is_late(message, sender, receiver, called):
            if self.words.join or self.are_one(sender, called, called.gt is not None):
                self.join(sender, called)
            else:
                self.refuse(message, [(receiver, called)])

    def is_late(self, message, sender, receiver, called):
        """Returns whether a message goes to an ID that was sent to its sender before it was sent again to another end.
        An end that never speaks does not count: it is a title that another end answers for."""
        is_known = (message.dtid, receiver, sender) in self.earlier and not are_routes(sender, called)
        return is_known and self.ends.find(called) in self.speaking

    def settle_strange(self, message, sender, receiver):
        """Decides whose ID it is if the receiver did not send it: another address of the receiver may have, or a
        message of the receiver whose IDs can't be read."""
        find = self.ends.find
        ends = find(sender), find(receiver)
        own, others = {}, {}
        for asker, called in self.sent.near(0, receiver, message.dtid):
            if self.is_older(receiver, asker) or find(asker) == ends[0] or find(called) == ends[1]:
                continue
            if find(called) == ends[0]:
                own[find(asker)] = asker, called
            elif called.gt is not None or are_near(sender, called):
                others[find(asker), find(called)] = asker, called
        pairs = list((own or others).values())
        is_only = len(pairs) == 1 and not self.has_unread(receiver, sender)
        if pairs and (self.words.join or is_only and self.is_pair(sender, receiver, *pairs[0])):
            self.join(receiver, pairs[-1][0])
            self.join(sender, pairs[-1][1])
        elif pairs:
            self.refuse(message, pairs)
        else:
            self.settle_far(message, sender, receiver)

    def has_unread(self, sender, receiver):
        """Returns whether one end sent the other a message whose IDs can't be read."""
        find = self.ends.find
        return any((find(one), find(other)) == (find(sender), find(receiver)) for one, other in self.unread)

    def is_older(self, receiver, asker):
        """Returns whether a message more likely belongs to a dialogue older than the capture, of a receiver that
        speaks for itself."""
        return self.words.under_way and self.ends.find(receiver) in self.speaking and not are_routes(receiver, asker)

    def settle_far(self, message, sender, receiver):
        """Refuses the message if nothing shows that the sender of the ID is the receiver, but only one end sent the ID
        to the message's sender. It may then be an answer, since a node may have two point codes. With --under-way it
        is accepted: its beginning may be older than the capture."""
        find = self.ends.find
        pairs = self.sent.near(1, sender, message.dtid)
        pairs = {find(asker): (asker, called) for asker, called in pairs if find(called) == find(sender)}
        if self.words.join and pairs:
            self.join(receiver, [*pairs.values()][-1][0])
        elif len(pairs) == 1 and not self.words.under_way:
            self.refuse(message, list(pairs.values()))

    def is_pair(self, sender, receiver, asker, called):
        """Returns whether a message from and to other addresses may go between these two ends."""
        is_sender = self.ends.find(sender) == self.ends.find(called)
        return (is_sender or self.are_one(sender, called, called.gt is not None)) and self.are_one(receiver, asker)

    def are_one(self, one, other, is_translated=False):
        """Returns whether two addresses may be taken as one end."""
        return are_routes(one, other) or ((is_translated or are_near(one, other)) and not self.clash(one, other))

    def clash(self, one, other):
        """Returns whether two ends have sent one ID in different dialogues, as two independent ends do."""
        roots = self.ends.find(one), self.ends.find(other)
        if not self.speaking.issuperset(roots) or frozenset(roots) in self.clashing:
            return frozenset(roots) in self.clashing
        if self.dialogues is None:
            self.dialogues = collections.defaultdict(dict)
            for message in self.messages:
                if message.otid:
                    ids = self.dialogues[self.ends.find(message.sender)]
                    ids.setdefault(message.otid, set()).add(message.dtid or message.place)
        few, many = sorted((self.dialogues[root] for root in roots), key=len)
        if any(otid in many and few[otid].isdisjoint(many[otid]) for otid in few):
            self.clashing.add(frozenset(roots))
        return frozenset(roots) in self.clashing

    def join(self, one, other):
        """Makes two ends one, if they are not yet."""
        if self.ends.find(one) == self.ends.find(other):
            return
        kept, gone = self.ends.join(one, other)
        for what in [self.called] if self.dialogues is None else [self.called, self.dialogues]:
            few, many = sorted((what.pop(kept, {}), what.pop(gone, {})), key=len)
            for otid, value in few.items():
                many[otid] = many[otid] | value if otid in many and isinstance(value, set) else value
            what[kept] = many
        if gone in self.speaking:
            self.speaking.add(kept)

    def refuse(self, message, pairs):
        """Gives a message its fault, with the pairs of those that sent the ID."""
        sender, receiver = message.sender.name, message.receiver.name
        asked = ", and from ".join(f"{text_of(asker)} to {text_of(called)}" for asker, called in pairs[:LISTED])
        more = f", and from {len(pairs) - LISTED} others" if len(pairs) > LISTED else ""
        why = (
            f"it goes from {text_of(sender)} to {text_of(receiver)}, to the ID {message.dtid.hex()}, which"
            f" was sent from {asked}{more}: --join where these are one end, --apart where they are not"
        )
        message.fault = Fault(message.place, "answer", why, pairs=pairs)
