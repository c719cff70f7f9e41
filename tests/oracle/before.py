"""Answers the first four questions of docs/VERDICTS.md for one end, from the entries since the last quiet mark: which
own IDs it uses again, which IDs are tangled, and over which half of a transaction a message goes (Q.774 3.3). For
tests/oracle/kinds.py."""

from dataclasses import dataclass

from shown import ABORT, BEGIN, CONTINUE, END, Entry


@dataclass(frozen=True)
class Half:
    """A half of a transaction: how it began; its own ID, if that is known; its Begin, the peer's or its own; the
    messages that it heard; and the messages that may have its own invocations."""

    how: str = "none"
    own: str = None
    begin: Entry = None
    heard: tuple = ()
    invoked: tuple = ()


NO_HALF = Half()


def is_end(message):
    """Returns whether a message is an End, or an Abort of a user or of the dialogue service, which has no cause."""
    return message.kind == END or message.kind == ABORT and message.cause is None


def is_request(message):
    return message.kind == BEGIN and message.pdu == "AARQ"


class Before:
    """The entries before a message since the last quiet mark, for one end: its own messages and those of its peer."""

    def __init__(self, table, end, entries):
        self.table, self.end, self.entries = table, end, entries
        self.own = [m for m in entries if m.end == end]
        self.peer = [m for m in entries if m.end != end]
        self.used = {m.otid for m in self.own if m.otid is not None}
        self.begun = {m.otid for m in self.own if m.kind == BEGIN}
        went = {(m.otid, m.dtid) for m in self.own if m.kind == CONTINUE}
        came = {(m.dtid, m.otid) for m in self.peer if m.kind == CONTINUE and m.dtid in self.used}
        # Pairs of an own ID and an ID of the peer that belong together.
        self.joined = went | came

    def there(self, peer):
        """Returns the peer's messages from that ID of the peer."""
        return [m for m in self.peer if m.otid is not None and m.otid == peer]

    def told(self, peer):
        """Returns the own messages to that ID of the peer, without the Aborts of the provider."""
        return [m for m in self.own if m.dtid is not None and m.dtid == peer and m.cause is None]

    def aborts(self, peer, cause):
        """Returns the Aborts of the own provider to that ID of the peer, with that cause."""
        return [m for m in self.own if m.dtid == peer and m.cause == cause]

    def has_ended(self, peer):
        return any(is_end(m) and m.dtid == peer for m in self.own)

    def was_ended(self, own):
        """Returns whether the peer sent an End, or an Abort of any kind, to that own ID."""
        return any(m.kind in (END, ABORT) and m.dtid == own for m in self.peer)

    # -- own IDs that are used again

    def may_be_over(self, own):
        ended = {m.dtid for m in self.own if is_end(m)}
        return self.table.is_prearranged or self.was_ended(own) or any((own, peer) in self.joined for peer in ended)

    def uses_again(self, message):
        """Returns whether the message uses an own ID again whose transaction may be over."""
        own, peer = message.otid, message.dtid
        if own not in self.used or not self.may_be_over(own):
            return False
        is_asked = any(m.kind == BEGIN for m in self.there(peer))
        is_new = is_asked and not self.told(peer) and (own, peer) not in self.joined
        return message.kind == BEGIN or message.kind == CONTINUE and is_new

    # -- IDs that are tangled

    def is_tangled(self, own):
        return sum(x == own for x, _ in self.joined) > 1

    def is_guessed(self, peer):
        """Returns whether that ID sent a Begin, and later a Continue to an own ID that was not used by then."""
        used, has_begun = set(), False
        for m in self.entries:
            if m.end == self.end:
                used.add(m.otid)
            elif m.otid == peer and m.kind == BEGIN:
                has_begun = True
            elif m.otid == peer and has_begun and m.dtid not in used:
                return True
        return False

    def is_tangled_there(self, peer):
        """Returns whether an ID of the peer is tangled."""
        there = self.there(peer)
        begins = sum(m.kind == BEGIN for m in there)
        answers_own = any(m.kind == CONTINUE and m.dtid in self.begun for m in there)
        is_shared = sum(d == peer for _, d in self.joined) > 1
        return is_shared or begins > 1 or begins == 1 and answers_own or self.is_guessed(peer)

    def is_over_tangled(self, message):
        """Returns whether the message goes over tangled IDs."""
        if message.dtid is None:
            return False
        near = {x for x, d in self.joined if d == message.dtid} | ({message.otid} - {None})
        far = {d for x, d in self.joined if x in near} | {message.dtid}
        return any(map(self.is_tangled, near)) or any(map(self.is_tangled_there, far))

    # -- halves

    def is_surely_open(self, own):
        """Returns whether the half with that own ID is certainly open."""
        first = next((m for m in self.own if m.kind == CONTINUE and m.otid == own), None)
        if first is None or self.table.is_prearranged:
            return False
        return not self.has_ended(first.dtid) and not self.was_ended(own)

    def is_answered_as_closed(self, own):
        """Returns whether the provider answered, with an Abort with cause 1, a Continue that can only have gone to
        that ID."""
        used = False
        for at, m in enumerate(self.entries):
            if m.end == self.end and m.cause == 1 and used:
                before = [p for p in self.entries[:at] if p.end != self.end and p.otid == m.dtid and p.kind == CONTINUE]
                if before and all(p.dtid == own for p in before):
                    return True
            used = used or m.end == self.end and m.otid == own
        return False

    def accepted(self, peer):
        """Returns the half that began with the peer's Begin."""
        there, told = self.there(peer), self.told(peer)
        begin = next(m for m in there if m.kind == BEGIN)
        own = next((m.otid for m in told if m.kind == CONTINUE), None)
        to_own = [m for m in there if m.kind == CONTINUE and m.dtid == own]
        how = "refused" if self.aborts(peer, 4) else "accepted"
        return Half(how, own, begin, (begin, *to_own), tuple(told))

    def begun_by(self, own, peer):
        """Returns the half that began with the own Begin from that ID."""
        begin = next(m for m in self.own if m.kind == BEGIN and m.otid == own)
        heard = [m for m in self.there(peer) if m.kind == CONTINUE and m.dtid == own]
        while heard and is_request(begin) and heard[0].pdu != "AARE":
            heard = heard[1:]
        return Half("begun" if heard else "unanswered", own, begin, tuple(heard), (begin, *self.told(peer)))

    def half(self, peer):
        """Returns the half over which a message to that ID of the peer goes."""
        there = self.there(peer)
        if any(m.kind == BEGIN for m in there):
            return self.accepted(peer)
        own = next((m.dtid for m in there if m.kind == CONTINUE and m.dtid in self.begun), None)
        return self.begun_by(own, peer) if own is not None else NO_HALF
