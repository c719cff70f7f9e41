"""Looks for a run in which one end keeps the rules and sends what a record has: an independent reading of
docs/CERTIFICATES.md, the certificate that is proposed for one end alone and its replay, with the end of
tests/oracle/ends.py. It shares nothing with the code under test.

An item is an end and a message of ends.py, or None for a quiet mark. Gap g comes before item g. A place in time is 2g
for gap g, and 2j + 1 for item j."""

from ends import End, Refused

OPENING = ("Begin", "Continue")
ENDING = ("End", "Abort")
# The kind of message that the Abort of a provider with this cause answers.
ANSWERED = {1: "Continue", 4: "Begin"}
OF_ANSWER = {2: "result", 3: "error"}


class Segment:
    """The certificate for one end over the items between two quiet marks."""

    def __init__(self, end, items, first, last):
        self.end, self.items, self.numbers = end, items, range(first, last)
        # By the number of a message: the gap in which it arrives, or the number of the Abort that answers it.
        self.gaps, self.tied, self.lost = {}, {}, set()
        # The steps that no record shows: by their gap, the closings, and the expiries.
        self.closings, self.expiries = [], []

    def sender(self, number):
        return self.items[number][0]

    def message(self, number):
        return self.items[number][1]

    def transaction(self, number):
        """Returns the number of the Begin to whose transaction a message belongs, or None."""
        message = self.message(number)
        if message.kind == "Begin":
            return number
        before = self.from_id(number, message.dtid) if message.dtid is not None else []
        return self.transaction(before[-1]) if before else None

    def from_id(self, number, id):
        """Returns the earlier messages from that ID of the other end than that of a message."""
        others = (at for at in self.numbers if at < number and self.sender(at) != self.sender(number))
        return [at for at in others if self.message(at).otid == id]

    def tie(self):
        for number in reversed(self.numbers):
            message = self.message(number)
            if message.kind == "Abort" and message.cause in ANSWERED:
                may = [at for at in self.from_id(number, message.dtid) if at not in self.tied]
                may = [at for at in may if self.message(at).kind == ANSWERED[message.cause]]
                if may:
                    self.tied[may[-1]] = number

    def gap(self, number):
        """Returns the gap in which a message arrives, if it is not lost."""
        gap, message = number + 1, self.message(number)
        if message.kind in ENDING and self.transaction(number) is not None:
            others = (at for at in self.numbers if at > number and self.sender(at) != self.sender(number))
            others = (at for at in others if self.message(at).cause is None)
            later = [at for at in others if self.transaction(at) == self.transaction(number)]
            gap = later[-1] + 1 if later else gap
        before = [at for at in self.tied if at < number and self.sender(at) == self.sender(number)]
        return max([gap, *(self.tied[at] + 1 for at in before)])

    def is_unanswered(self, number):
        """Returns whether the end sent nothing that shows that it heard a message before a quiet mark."""
        message = self.message(number)
        own = [self.message(at) for at in self.numbers if self.sender(at) == self.end]
        told = any(it.dtid == message.otid for it in own)
        from_there = any(it.kind == "Continue" and it.otid == message.dtid for it in own)
        return message.kind in OPENING and not told and not (message.kind == "Continue" and from_there)

    def time(self, number):
        return 2 * self.tied[number] + 1 if number in self.tied else 2 * self.gaps[number]

    def deliver(self, is_marked):
        """Gives each message its gap, or loses it."""
        for end in "AB":
            limit = None
            for number in reversed([at for at in self.numbers if self.sender(at) == end]):
                self.gaps[number] = self.gap(number)
                is_lost = is_marked and end != self.end and number not in self.tied and self.is_unanswered(number)
                if is_lost or limit is not None and self.time(number) > limit:
                    self.lost.add(number)
                else:
                    limit = self.time(number)

    def arrived(self, number):
        return number not in self.lost and number not in self.tied

    def expire(self):
        """Lets invocations expire whose answers are rejected as unrecognized."""
        for number in self.numbers:
            for component in self.message(number).components if self.sender(number) == self.end else ():
                if component[0] == "reject" and component[2] in OF_ANSWER and component[3] == 0:
                    self.expire_for(number, component[1], OF_ANSWER[component[2]])

    def having(self, end, number, kind, id):
        """Returns the messages of an end before a number, in its transaction, with a component of that kind and ID."""
        mine = (at for at in self.numbers if at < number and self.sender(at) == end)
        mine = (at for at in mine if self.transaction(at) == self.transaction(number))
        return [at for at in mine if any(it[:2] == (kind, id) for it in self.message(at).components)]

    def expire_for(self, number, id, kind):
        answers = self.having("BA"["AB".index(self.end)], number, kind, id)
        invokes = self.having(self.end, number, "invoke", id)
        if answers and invokes and self.arrived(answers[-1]):
            step = (self.gaps[answers[-1]], self.message(invokes[-1]).otid, id)
            if step not in self.expiries:
                self.expiries.append(step)

    def close(self):
        """Closes halves of the end to which answered Continues went."""
        for number, abort in sorted(self.tied.items(), key=lambda it: it[1]):
            begin = self.transaction(number)
            if self.message(number).kind != "Continue" or self.sender(number) == self.end or begin is None:
                continue
            is_over = any(self.ends(at, abort) for at in self.numbers if at < abort and self.transaction(at) == begin)
            if not is_over and begin not in [it[1] for it in self.closings]:
                self.closings.append((abort, begin))

    def ends(self, number, before):
        """Returns whether a message has ended its transaction at this end before an item."""
        message = self.message(number)
        if message.kind not in ENDING:
            return False
        if self.sender(number) == self.end:
            return message.cause is None
        return self.arrived(number) and self.gaps[number] <= before


def segments(end, items):
    """Yields the segments of the items, each with the number of the mark after it, or None."""
    first = 0
    for number, item in enumerate([*items, None]):
        if item is None:
            yield Segment(end, items, first, number), number if number < len(items) else None
            first = number + 1


def half_of(segment, state, begin):
    """Returns the half of the end that a Begin names."""
    id = segment.message(begin).otid
    return state.with_own(id) if segment.sender(begin) == segment.end else state.with_peer(id)


class Stopped(Exception):
    """The certificate gives no run."""


def must(holds):
    if not holds:
        raise Stopped


def pass_gap(segment, state, gap):
    """Passes a gap. Returns how many messages the end could not receive."""
    for _, begin in [it for it in segment.closings if it[0] == gap]:
        half = half_of(segment, state, begin)
        must(half and state.may_close(half))
        half.close()
    for _, own, id in [it for it in segment.expiries if it[0] == gap]:
        half = state.with_own(own)
        must(half and state.may_expire(half, id))
        del half.out[id]
    unheard = 0
    for number in segment.numbers:
        if segment.sender(number) != segment.end and segment.arrived(number) and segment.gaps[number] == gap:
            try:
                state.receive(segment.message(number))
            except Refused:
                unheard += 1
    return unheard


def send(segment, state, number):
    """Has the end send a message."""
    message = segment.message(number)
    if message.kind == "Abort" and message.cause is not None:
        answered = [at for at, abort in segment.tied.items() if abort == number]
        must(answered and answered[0] not in segment.lost)
        must(state.reply_to(segment.message(answered[0])) == message.cause)
        return
    state.make_room(message)
    try:
        state.send(message)
    except Refused as refused:
        raise Stopped from refused


def replayed(segment, mark, table):
    """Returns how many messages are unheard in a segment, or None if the certificate gives no run."""
    segment.tie()
    segment.deliver(mark is not None)
    segment.expire()
    segment.close()
    state, peers = End(table), [at for at in segment.numbers if segment.sender(at) != segment.end]
    unheard = len([at for at in peers if at in segment.lost])
    after = segment.numbers.stop
    for number in [*segment.numbers, after]:
        unheard += pass_gap(segment, state, number)
        if number < after and segment.sender(number) == segment.end:
            send(segment, state, number)
    if mark is not None:
        # No message waits at the mark, and each open half closes.
        must(not any(segment.arrived(at) and segment.gaps[at] > mark for at in peers))
        must(all(state.may_close(half) for half in state.halves if half.is_open()))
    return unheard


def unheard_of(end, items, table):
    """Returns how many messages of the peer an end did not hear in the run that is proposed, or None if that is no run
    in which it keeps the rules and sends its part of these items."""
    try:
        return sum(replayed(segment, mark, table) for segment, mark in segments(end, items))
    except Stopped:
        return None
