"""Finds why nobody is blamed for a refuted entry, and the lines in which `tcapjudge explain` says so: an independent
reading of docs/FORMAT.md (what `explain` prints) and docs/VERDICTS.md (the first two questions). tests/facts.py
compares the lines with the program's."""

from before import Before
from evidence import MOST, Scene, lines, since_mark
from kinds import Sending, faults_in
from shown import BEGIN, CONTINUE

# Why an ID is tangled.
TANGLED = {
    "two": "two IDs of the other end stand with it",
    "twice": "its end began it twice",
    "both": "its end began it, and went on from it to an ID that the other end began",
    "guessed": "its end began it, and went on from it to an ID that the other end had not used",
}


def used_again(entries, table, end, number):
    """Returns the first entry since the last quiet mark, up to that one, in which the end used an own ID again whose
    transaction may have been over; or None."""
    for entry in [*since_mark(entries, number), entries[number]]:
        if entry.end == end and Before(table, end, since_mark(entries, entry.number)).uses_again(entry):
            return entry.number
    return None


def why_there(before, peer):
    """Returns the first reason why an ID of the peer is tangled, or None if it is not."""
    there = before.there(peer)
    begins = sum(m.kind == BEGIN for m in there)
    reasons = {
        "two": len({x for x, d in before.joined if d == peer}) > 1,
        "twice": begins > 1,
        "both": begins > 0 and any(m.kind == CONTINUE and m.dtid in before.begun for m in there),
        "guessed": before.is_guessed(peer),
    }
    return next((why for why, holds in reasons.items() if holds), None)


def tangled_ids(before, message):
    """Yields the IDs that a message goes over, each with its end and the reason why it is tangled, or None if it is
    not: its destination ID; own IDs that belong with it, and its originating ID; and IDs of the peer that belong with
    one of these."""
    peer = "B" if before.end == "A" else "A"
    near = sorted(x for x, d in before.joined if d == message.dtid) + [message.otid]
    far = [d for x in near for d in sorted(d for y, d in before.joined if y == x)]
    yield from [(peer, d, why_there(before, d)) for d in [message.dtid]]
    yield from [(before.end, x, "two" if before.is_tangled(x) else None) for x in near]
    yield from [(peer, d, why_there(before, d)) for d in far]


def pairing(stretch, end, one):
    """Returns the entries of a segment that tie an ID of an end to IDs of the other end: the ID's Begins; and, of the
    Continues from it and of those to it, the first, the first after each Begin, and each with another ID of the other
    end than the one before."""
    found, last = [], {}
    for m in stretch:
        own, other = (m.otid, m.dtid) if m.end == end else (m.dtid, m.otid)
        if own == one and m.kind == CONTINUE and last.get(m.end) != other:
            found.append(m.number)
            last[m.end] = other
        if own == one and m.kind == BEGIN and m.end == end:
            found.append(m.number)
            last = {}
    return found


def tangled_line(before, message):
    """Returns the line that names the tangled ID."""
    end, one, why = next(found for found in tangled_ids(before, message) if found[2])
    named = pairing(before.entries, end, one)
    text = f"transaction ID {one} of {end} is tangled ({TANGLED[why]}): "
    more = f" and {len(named) - MOST} more" if len(named) > MOST else ""
    return text + f"{'entry' if len(named) == 1 else 'entries'} {', '.join(map(str, named[:MOST]))}{more}"


def unblamed_lines(entries, table, number):
    """Returns the lines that say why nobody is blamed for a refuted entry."""
    entry = entries[number]
    before, again = Before(table, entry.end, since_mark(entries, number)), used_again(entries, table, entry.end, number)
    why = "nobody is blamed for it: "
    if again is not None:
        return [f"{why}{entry.end} used an own ID again in entry {again}, so that its transactions can't be told apart"]
    if before.is_over_tangled(entry):
        s = Scene(Sending(before, entry), None, None)
        stood = [line for ground in (s.begins(), s.continues(), s.gone_on(), s.used()) for line in ground.lines()]
        return [why + tangled_line(before, entry), *stood]
    return [f"{why}what it rejects may be mistyped or badly structured as this end reads it"]


def refuted_lines(entries, table, number, kind):
    """Returns the lines after REFUTED for both ends."""
    told = lines(entries, table, entries[number].end, number, kind, of_both=True)
    is_blamed = any(found and found[0] <= number for found in faults_in(table, entries).values())
    return told + ([] if is_blamed else unblamed_lines(entries, table, number))
