#!/usr/bin/env python3
"""Makes lines for `tcapjudge pack` from a capture, one file for each pair of ends. docs/CAPTURES.md describes it.

    python3 tools/lines_of_capture.py CAPTURE FOLDER [--a WHAT] [--by PARTS] [--join | --apart] [--one-side]
        [--under-way] [--whole] [--progress]

Standard output has a line for each file. Standard error has what was left out (NOTE) and what could not be read or
decided (FAULT). The exit status is 0, or 2 if tshark is not installed, 3 if there was a fault, or 4 for wrong words."""

import argparse
import datetime
import gc
import os
import shutil
import sys
import time

import capture_frames
import capture_shapes
import signalling
from capture_copies import copies_of, one_side
from capture_ends import PARTS, text_of
from capture_frames import Fault
from capture_pairs import lone_of, pairs_of, stop_by, with_ends

NO_TSHARK, FAULTY, WRONG_WORDS = 2, 3, 4
# The most faults of the capture, and gaps in it, that are printed.
SHOWN = 10
# The most addresses of one end that are printed.
LISTED = 4
# Directives of `tcapjudge test`: the Begin of a dialogue may be missing from the trace; the trace ends before its
# messages do.
UNDER_WAY, BROKEN_OFF = "#: under way", "#: broken off"


class Words(argparse.ArgumentParser):
    """A parser whose status for wrong words is that of the program."""

    def error(self, message):
        self.print_usage(sys.stderr)
        self.exit(WRONG_WORDS, f"error: {message}\n")


def parts_of(text):
    """Reads the parts in --by."""
    parts = text.split(",")
    if not set(parts) <= set(PARTS):
        raise argparse.ArgumentTypeError(f"{text}: only {', '.join(PARTS)} may stand there, with commas between")
    return parts


def wanted_of(text):
    """Reads what --a requires of an end: parts with their values."""
    wanted = {}
    for one in text.split(","):
        part, _, value = one.partition("=")
        if part not in (*PARTS, "side", "host") or not value or part in ("pc", "ssn") and not value.isdecimal():
            raise argparse.ArgumentTypeError(f"{text}: as ssn=8, pc=101, gt=4917012, side=near, with commas between")
        wanted[part] = int(value) if part in ("pc", "ssn") else value
    return wanted


def words_of(arguments):
    words = Words(description="Makes lines for `tcapjudge pack` of a capture, one file for each pair of ends.")
    which = "which end is A: ssn=8, pc=101, gt=4917012, host=10.0.0.1, or several of them, with commas between"
    apart = "what tells ends apart: pc,ssn,gt, or some of it"
    words.add_argument("capture", metavar="CAPTURE", help="a pcap or a pcapng")
    words.add_argument("folder", metavar="FOLDER", help="where the files go: made where it is not there, else empty")
    words.add_argument("--a", metavar="WHAT", type=wanted_of, help=which)
    words.add_argument("--by", metavar="PARTS", type=parts_of, default=PARTS, help=apart)
    answers = words.add_mutually_exclusive_group()
    answers.add_argument("--join", action="store_true", help="where it is not clear who answers: it is who was called")
    answers.add_argument("--apart", action="store_true", help="each address is an end")
    words.add_argument("--one-side", action="store_true", help="of what both sides of a transfer point have, keep one")
    words.add_argument("--under-way", action="store_true", help="dialogues may be older than the capture: the files say so")
    words.add_argument("--whole", action="store_true", help="nothing was filtered: a missing chunk of SCTP is a fault")
    words.add_argument("--progress", action="store_true", help="say on standard error each second how far it is")
    return words.parse_args(arguments)


class Progress:
    """Prints once a second how many frames were read and how many messages were written, if that is asked for."""

    def __init__(self, is_asked):
        self.is_asked, self.counts, self.due = is_asked, {"frames read": 0, "messages written": 0}, time.monotonic() + 1

    def over(self, what, counted):
        """Returns the same things one after the other, and counts them if progress is asked for."""
        return self.each(what, counted) if self.is_asked else counted

    def each(self, what, counted):
        for one in counted:
            yield one
            self.counts[what] += 1
            if time.monotonic() >= self.due:
                self.due = time.monotonic() + 1
                print(", ".join(f"{name}: {count}" for name, count in self.counts.items()), file=sys.stderr, flush=True)


# ---- A and B


def first_end(pair, ends, wanted):
    """Returns the end that is A: the one that --a asks for; if neither fits, the first that begins, else the first
    that sends. If both fit, that is the pair's fault."""
    if wanted:
        fits = [end for end in pair.ends if any(is_wanted(one, wanted) for one in ends.names_of(end))]
        if len(fits) == 1:
            return fits[0]
        if fits:
            place = pair.messages[0].place if pair.messages else pair.fault.place
            pair.stop(Fault(place, "a", "both ends are the one that --a asks for"))
            pair.cut()
            return None
        pair.notes.append("no end of it is the one that --a asks for: A is the end that begins first")
    for message in pair.messages:
        if message.tag == signalling.UNIDIRECTIONAL or message.tag == signalling.BEGIN and message.otid:
            return ends.find(message.sender)
    return ends.find(pair.messages[0].sender) if pair.messages else None


def is_wanted(end, wanted):
    return all(getattr(end, part) == value for part, value in wanted.items())


def note_lone(pair, ends, is_begun):
    """Notes how many messages of a pair go to an ID that their receiver did not send before."""
    if lone := lone_of(pair, ends):
        which = f"messages to IDs that their receiver did not send in the capture, the first in {frame_text(lone[0])}"
        hint = "" if is_begun else "; --under-way where their dialogues are older than the capture"
        pair.notes.append(f"{which}: {len(lone)}{hint}")


# ---- output


def frame_text(message):
    """Returns the frames of a message in the capture."""
    first, last = message.frames[0], message.frames[-1]
    return f"frame {first}" if first == last else f"frames {first} to {last}"


def stamps(times):
    """Returns a function from the number of a frame to its time, which tshark gives in seconds since 1970, in ISO
    8601."""
    known, text = None, ""

    def stamp(frame):
        nonlocal known, text
        seconds, _, rest = times[frame].partition(".")
        if not seconds.isdecimal():
            return "no time"
        if seconds != known:
            at = datetime.datetime.fromtimestamp(int(seconds), datetime.timezone.utc)
            known, text = seconds, f"{at:%Y-%m-%dT%H:%M:%S}"
        return f"{text}.{rest[:6].ljust(6, '0')}Z"

    return stamp


def addresses_of(end, ends):
    """Returns the addresses of an end, at most LISTED, since `pack` limits the length of a line."""
    names = ends.names_of(end)
    more = f", and {len(names) - LISTED} others" if len(names) > LISTED else ""
    return ", ".join(text_of(one) for one in names[:LISTED]) + more


def head_of(pair, both, ends, words, title):
    """Yields the lines before the first message. The first of the two ends is A."""
    yield f"# {title}\n"
    for letter, end in zip("AB", both):
        yield f"#: {letter} {addresses_of(end, ends)}\n"
    if words.under_way:
        yield f"{UNDER_WAY}\n"
    yield from (f"# NOTE {note}\n" for note in pair.notes)


def lines_of(pair, first, ends, times):
    """Yields the lines of each message."""
    stamp = stamps(times)
    for entry, message in enumerate(pair.messages):
        moved = f", sent before frame {message.place[0]}" if message.place[0] < message.frames[0] else ""
        letter = "A" if ends.find(message.sender) is first else "B"
        head = f"# {frame_text(message)}, {stamp(message.frames[0])}, entry {entry}{moved}"
        yield f"{head}\n{letter} {message.octets.hex()}\n"


def foot_of(pair, capture):
    """Yields the lines after the last message of a pair that has a fault."""
    count = pair.behind
    missing = f", {count} message{'s' * (count != 1)} missing" if pair.is_counted else ""
    yield f"# {place_text(pair.fault, capture)}; messages that were found from there on, and are not in this file: {count}\n"
    yield f"{BROKEN_OFF}{missing}\n"


def name_of(path):
    """Returns the name of a file with only printable characters."""
    return "".join(sign if sign.isprintable() else "?" for sign in os.path.basename(path))


def place_text(fault, capture):
    """Returns the name of a fault, its frame and its reason."""
    return f"{fault.name}, frame {fault.place[0]} of {name_of(capture)}: {fault.why}"


def fault_text(fault, capture):
    """Returns the line that is printed for a fault."""
    return f"FAULT {place_text(fault, capture)}"


def write(pairs, ends, reader, words, progress):
    """Writes the files, and prints what is in them. A pair without messages has no file."""
    told = set(map(id, reader.faults))
    for number, pair in enumerate(pairs, 1):
        note_lone(pair, ends, words.under_way)
        first = first_end(pair, ends, words.a)
        names = " and ".join(addresses_of(end, ends) for end in pair.both())
        if pair.fault and id(pair.fault) not in told:
            print(f"{fault_text(pair.fault, words.capture)} (pair {number}: {names})", file=sys.stderr)
        for note in pair.notes:
            print(f"NOTE pair {number}: {note}", file=sys.stderr)
        if not pair.messages:
            print(f"no file for pair {number}, {names}: messages that are left out: {pair.behind}")
            continue
        path = os.path.join(words.folder, f"pair-{number}.hex")
        title = f"pair {number} of {len(pairs)} of {name_of(words.capture)}, told apart by {', '.join(words.by)}"
        both = first, next(end for end in pair.ends if end != first)
        with open(path, "x", encoding="utf-8") as file:
            file.writelines(head_of(pair, both, ends, words, title))
            file.writelines(progress.over("messages written", lines_of(pair, both[0], ends, reader.times)))
            if pair.fault:
                file.writelines(foot_of(pair, words.capture))
        names = ", ".join(f"{letter} is {addresses_of(end, ends)}" for letter, end in zip("AB", both))
        print(f"{path}: {names}, messages: {len(pair.messages)}")


def say(reader, counts, gaps, pairs, capture):
    """Prints what is wrong with the capture as a whole, with how many pairs each fault may be of, and what was left
    out."""
    for fault, count in list(zip(reader.faults, counts))[:SHOWN]:
        print(f"{fault_text(fault, capture)}; pairs of which it may be: {count}", file=sys.stderr)
    if len(reader.faults) > SHOWN:
        print(f"NOTE faults of the capture behind these: {len(reader.faults) - SHOWN}", file=sys.stderr)
    for what, count in sorted(reader.told.items()):
        print(f"NOTE {what}: {count}", file=sys.stderr)
    for gap in gaps[:SHOWN]:
        print(f"NOTE frame {gap.place[0]}: {gap.why}", file=sys.stderr)
    if len(gaps) > SHOWN:
        print(f"NOTE places behind these where chunks of SCTP are missing: {len(gaps) - SHOWN}", file=sys.stderr)
    if not pairs and not reader.faults:
        print(f"FAULT none, {name_of(capture)}: no message of TCAP was found", file=sys.stderr)


def read(words, progress):
    """Reads the capture. Returns the reader after the last frame."""
    reader = capture_frames.Reader()
    try:
        for frame in progress.over("frames read", capture_shapes.frames_of(words.capture)):
            reader.take(frame)
    except signalling.Refused as refused:
        reader.fault((reader.number + 1, 0, 0), refused)
    reader.close()
    return reader


def pairs_in(reader, gaps, words):
    """Returns the pairs of a capture that was read, its ends, and how many pairs each of its faults may be of."""
    reader.messages.sort(key=lambda message: message.place)
    if copies := copies_of(reader.messages):
        first = f"the first in frames {copies[0][0].frames[0]} and {copies[0][1].frames[0]}"
        what = "only the first is kept" if words.one_side else "each appears twice; --one-side keeps the first"
        reader.told[f"messages captured on both sides of a transfer point, {first}: {what}"] = len(copies)
        if words.one_side:
            reader.messages = one_side(reader.messages, copies)
    messages, ends, faults = with_ends(reader.messages, reader.addresses, words)
    reader.faults = sorted(reader.faults + faults + (gaps if words.whole else []), key=lambda fault: fault.place)
    pairs = pairs_of(messages, ends)
    return pairs, ends, stop_by(reader.faults, pairs, ends)


def lines_of_capture(words):
    """Makes the files, and prints what they are. Returns the exit status."""
    progress = Progress(words.progress)
    reader = read(words, progress)
    gaps = list(reader.gaps())
    pairs, ends, counts = pairs_in(reader, gaps, words)
    say(reader, counts, [] if words.whole else gaps, pairs, words.capture)
    try:
        write(pairs, ends, reader, words, progress)
        sys.stdout.flush()
    except OSError as error:
        print(f"error: {error}", file=sys.stderr)
        return FAULTY
    return FAULTY if reader.faults or not pairs or any(pair.fault for pair in pairs) else 0


def main(arguments):
    words = words_of(arguments)
    for stream in sys.stdout, sys.stderr:
        # A path may be no text.
        stream.reconfigure(errors="backslashreplace")
    if not shutil.which("tshark"):
        print("missing: tshark, of Wireshark, which reads the layers below", file=sys.stderr)
        return NO_TSHARK
    # `tshark` takes `-` for the standard input.
    if words.capture != "-" and not os.path.exists(words.capture):
        print(f"FAULT capture, {words.capture}: there is no such file", file=sys.stderr)
        return FAULTY
    try:
        os.makedirs(words.folder, exist_ok=True)
        if os.listdir(words.folder):
            raise OSError(f"{words.folder} is not empty: name another folder, or remove this one")
    except OSError as error:
        print(f"error: {error}", file=sys.stderr)
        return WRONG_WORDS
    # Few objects here form cycles. The search for these takes time with each message that is kept, so it is turned off.
    gc.disable()
    return lines_of_capture(words)


if __name__ == "__main__":
    sys.exit(main(sys.argv[1:]))
