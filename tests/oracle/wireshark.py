"""Compares the output of `tshark` and of `tcapjudge show` for messages, field by field, for tests/captures.py."""

import collections
import re
import subprocess

import capture_sua
import made_captures as made
import random_messages
import signalling

RANDOM = 2000
# The parts of a line of `show`, with the field of tshark for each.
FIELDS = {
    "otid": "tcap.otid",
    "dtid": "tcap.dtid",
    "cause": "tcap.p_abortCause",
    "context": "tcap.application_context_name",
    "result": "tcap.result",
    "user": "tcap.dialogue_service_user",
    "provider": "tcap.dialogue_service_provider",
    "source": "tcap.abort_source",
}
KINDS = {
    "Unidirectional": "tcap.unidirectional_element",
    "Begin": "tcap.begin_element",
    "End": "tcap.end_element",
    "Continue": "tcap.continue_element",
    "Abort": "tcap.abort_element",
}

# Party addresses of SCCP: with and without a point code, a subsystem number, and each form of a global title, with an
# even and an odd count of digits.
ADDRESSES = (
    "00 10001204214365 420a 416500 4365000a 06080421436587 06088421436507 0a080021436587 0e08001221436587"
    " 0e08001121430587 1208001204214365 1208001104214305 136500080011042103"
).split()
# The calling address for all of these.
CALLING = "4208"
# Addresses of SUA (RFC 3868 3.10.2), likewise: indicators, then a title (8001), a point code (8002) and a subsystem (8003).
SUA_ADDRESSES = """
    00020003 80020008000000ca 8003000800000006
    00010004 8001001000000004 0700010494711002
    00010005 8001000f00000004 0600010494712000 8003000800000006
    00010007 8001001000000004 0800010494711083 80020008000000ca 8003000800000006
    00020001 8003000800000008
""".split("\n")[1:-1]
SUA_CALLING = "00020003 8002000800000065 8003000800000008"


def dotted(contents):
    """Returns an object identifier as Wireshark prints it, from the octets of its contents (X.690 8.19)."""
    parts, value = [], 0
    for octet in contents:
        value = value << 7 | octet & 127
        if not octet & 128:
            parts, value = [*parts, value], 0
    first = min(parts[0] // 40, 2)
    return ".".join(map(str, [first, parts[0] - 40 * first, *parts[1:]]))


def shown(program, messages):
    """Returns for each message its kind and its fields in the output of `show`, or None if it has a fault."""
    record = b"".join(b"A" + octets for octets in messages)
    run = subprocess.run([program, "show"], input=record, capture_output=True, check=False)
    said = []
    for line in run.stdout.decode().splitlines():
        if re.match(r"\d", line):
            _, _, kind, *words = line.split()
            fields = dict(word.split("=") for word in words if "=" in word)
            if "context" in fields:
                fields["context"] = dotted(bytes.fromhex(fields["context"]))
            said.append(None if kind == "FAULT" else {"kind": kind} | {name: fields.get(name, "") for name in FIELDS})
    return said


def told_by_tshark(path, capture, fields):
    """Returns the values of the fields of each frame of a capture."""
    with open(path, "wb") as file:
        file.write(capture)
    words = ["tshark", "-n", "-r", path, "-T", "fields", "-E", "separator=/t"]
    words += [word for field in fields for word in ("-e", field)]
    run = subprocess.run(words, capture_output=True, check=False)
    return [line.split("\t") for line in run.stdout.decode().splitlines()]


def addresses_agree(folder):
    """Returns whether tshark and the tool read addresses alike."""
    called, calling = [bytes.fromhex(one) for one in ADDRESSES], bytes.fromhex(CALLING)
    capture = made.pcap([made.mtp3(made.udt(b"", one, calling)) for one in called], made.MTP3)
    fields = ["sccp.called.pc", "sccp.called.ssn", "sccp.called.digits"]
    theirs = told_by_tshark(f"{folder}/capture", capture, fields)
    ours = [["" if part is None else str(part) for part in signalling.party(one)[:3]] for one in called]
    if ours != theirs:
        print(f"addresses: {ours} {theirs}")
    return ours == theirs


def sua_addresses_agree(folder):
    """Returns whether tshark and the tool read addresses of SUA alike."""
    called, calling = [bytes.fromhex(one) for one in SUA_ADDRESSES], bytes.fromhex(SUA_CALLING)
    chunks = [made.data(tsn, made.sua(b"", one, calling), ppid=made.SUA_PPID) for tsn, one in enumerate(called)]
    capture = made.pcap([frame for chunk in chunks for frame in made.ip(made.sctp([chunk]))])
    fields = [f"sua.destination.{name}" for name in ("point_code", "ssn", "global_title_digits")]
    theirs = told_by_tshark(f"{folder}/capture", capture, fields)
    ours = [["" if part is None else str(part) for part in capture_sua.parts_of(one)] for one in called]
    if ours != theirs:
        print(f"addresses of SUA: {ours} {theirs}")
    return ours == theirs


def read_by_tshark(path, messages):
    """Yields for each message what tshark reads."""
    capture = made.pcap([made.exported(octets) for octets in messages], made.EXPORTED)
    for line in told_by_tshark(path, capture, [*FIELDS.values(), *KINDS.values()]):
        values = dict(zip([*FIELDS, *KINDS], line))
        kinds = [kind for kind in KINDS if values[kind]]
        yield {"kind": " ".join(kinds)} | {name: values[name] for name in FIELDS}


def agreements(program, folder, messages):
    """Returns for each field whether both read it alike in all messages: the given ones, except those that `show` does
    not read, and random ones, all of which it must read. Prints what differs."""
    maker = random_messages.Maker()
    made_up = [maker.message() for _ in range(RANDOM)]
    ours = shown(program, [*messages, *made_up])
    theirs = list(read_by_tshark(f"{folder}/capture", [*messages, *made_up]))
    differ, counts = collections.Counter(), collections.Counter()
    for number, (octets, own, other) in enumerate(zip([*messages, *made_up], ours, theirs)):
        if own is None:
            if number >= len(messages):
                differ["all are read"] += 1
                print(f"show does not read {octets.hex()}")
            continue
        for name in own:
            counts[name] += own[name] != ""
            if own[name] != other[name]:
                differ[name] += 1
                print(f"{name} of {octets.hex()}: show says {own[name]!r}, tshark {other[name]!r}")
    names = ["kind", *FIELDS, "all are read"]
    fields = ", ".join(f"{name} {counts[name]}" for name in names[:-1])
    print(f"tshark and show are compared on {len(ours)} messages, so often with a field: {fields}")
    is_whole = len(ours) == len(theirs) == len(messages) + RANDOM
    return [is_whole and differ[name] == 0 and (counts[name] > 50 or name not in counts) for name in names]
