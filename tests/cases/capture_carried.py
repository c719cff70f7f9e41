"""Captures of SUA, of SCTP in UDP, and of both sides of a transfer point, as in capture_rows.py: tests/captures.py runs
them."""

import struct
import subprocess
import tempfile

import made_captures as made
from capture_answers import Wire, frames_of
from capture_rows import BEGIN, DIALOGUE, END, GOES_ON, LONG, OPEN, RESULT, SECOND, Row, over, payloads_over, swapped


class Sua(Wire):
    """Writes what two ends send each other in SUA."""

    def __init__(self, ends=((101, 8), (202, 6)), titles=(None, None), hosts=({}, {}), **more):
        super().__init__(ends, **more)
        parts = zip("AB", ends, titles, hosts)
        self.addresses = {end: made.sua_address(ssn, pc, gt, **of) for end, (pc, ssn), gt, of in parts}

    def m3ua(self, line, sccp=None):
        return sccp or self.sccp(line, made.sua)

    def chunk(self, line, payload=None, **more):
        return super().chunk(line, payload, **{"ppid": made.SUA_PPID} | more)


TITLES = "4917012", "491702"
# Packets of SUA that are damaged.
PACKETS = [Sua(titles=TITLES).packet("A", Sua(titles=TITLES).chunk(LONG)), Sua().packet("B", Sua().chunk(RESULT))]
OTHER = [swapped(line) for line in DIALOGUE]


def sua():
    yield Row("SUA", over(Sua().all(DIALOGUE)), [], [DIALOGUE])
    for wanted in "pc=202", "ssn=6", "pc=202,ssn=6":
        yield Row(f"SUA, A is {wanted}", over(Sua().all(DIALOGUE)), ["--a", wanted], [OTHER])
    titles = Sua(((None, 8), (None, 6)), TITLES)
    yield Row("SUA by titles", over(titles.all(DIALOGUE)), ["--a", "gt=491702"], [OTHER])
    hosts = [("10.0.0.2", {"ipv4": bytes([10, 0, 0, 2])}), ("hlr.example", {"name": b"hlr.example\0"})]
    hosts += [("2001:db8::2", {"ipv6": bytes.fromhex("20010db8" + 23 * "0" + "2")})]
    for text, of in hosts:
        frames = Sua(((None, 8), (None, 6)), hosts=({"ipv4": b"\x0a\0\0\1"}, of)).all(DIALOGUE)
        yield Row(f"SUA by the host {text}", over(frames), ["--a", f"host={text}"], [OTHER])
    wanted = ["FAULT ends, frame 1 of capture: an address of SUA with its subsystem alone"]
    yield Row("SUA by subsystems alone", over(Sua(((None, 8), (None, 6))).frames(BEGIN)), status=3, said=wanted)
    wire, parts = Sua(), payloads_over(bytes.fromhex(LONG[2:]), 3)
    ends = wire.addresses["B"], wire.addresses["A"]
    units = [made.sua(part, *ends, (at == 0, 2 - at, 9)) for at, part in enumerate(parts)]
    frames = [frame for unit in units for frame in wire.frames(LONG, wire.chunk(LONG, unit))]
    yield Row("segments of SUA", over(frames + wire.all([RESULT])), [], [[LONG, RESULT]])
    whole = made.sua(bytes.fromhex(BEGIN[2:]), *ends, (True, 0, 9))
    yield Row("a segment of SUA alone", over(wire.frames(BEGIN, wire.chunk(BEGIN, whole))), [], [[BEGIN]])
    back = wire.frames("B", wire.chunk("B", made.cldr(bytes.fromhex(BEGIN[2:]), *ends[::-1])))
    up = wire.frames("A", wire.chunk("A", struct.pack(">BBBBI", 1, 0, 3, 1, 8)))
    wanted = ["came back to their sender (CLDR): 1", "SUA that carry no data without a connection: 1"]
    yield Row("SUA with a message that came back", over(up + wire.all([BEGIN]) + back), [], [[BEGIN]], 0, wanted)
    by_port = made.ip(made.sctp([made.data(1, wire.m3ua(BEGIN), ppid=0)], ports=(14001, 14001)))
    yield Row("SUA by its port", over(by_port), [], [[BEGIN]])


def of_sua():
    """Messages of SUA that can't be read: they end what their association carries."""
    odd = {
        "sua": [("is shorter than", b"\1\0\7\1\0\0\0\x0c\1\2\0\3"), ("goes past the end", b"\1\0\7\1\0\0\0\x40")],
        "pc": [("the point code 70000", made.sua(b"", made.sua_address(6, 70000), made.sua_address(8, 101)))],
    }
    odd["sua"] += [("without an address", b"\1\0\7\1\0\0\0\x10" + made.parameter(0x10B, bytes(4)))]
    odd["sua"] += [("a global title goes past", made.sua(b"", made.parameter(0x8001, bytes(4)), bytes(4) + b"\x80\1\0\x0c" + b"\0\0\0\4\5\0\1\4"))]
    for name, rows in odd.items():
        for why, octets in rows:
            wire, third = Sua(), Sua(((303, 8), (404, 6)), tag=9)
            third.hosts = 3, 4
            frames = wire.frames(BEGIN) + third.frames(BEGIN) + wire.frames(BEGIN, wire.chunk(BEGIN, octets))
            wanted = [f"FAULT {name}, frame 3 of capture: ", why]
            yield Row(f"SUA, {why}", over(frames + wire.all([RESULT]) + third.all([RESULT])), [], [[BEGIN], DIALOGUE], 3, wanted)


def over_udp(wire, line, ports=(made.UDP_PORT, made.UDP_PORT), cut=None, payload=None):
    """The frames of a line over SCTP in UDP."""
    hosts = wire.hosts if line[0] == "A" else wire.hosts[::-1]
    packet = wire.packet(line[0], wire.chunk(line, payload))
    return made.ip(made.udp(packet, ports), hosts, protocol=17, cut=cut)


def udp():
    def all_over(wire, **more):
        return [frame for line in DIALOGUE for frame in over_udp(wire, line, **more)]

    yield Row("SCTP in UDP", over(all_over(Wire())), [], [DIALOGUE])
    yield Row("SUA in UDP", over(all_over(Sua())), [], [DIALOGUE])
    yield Row("SCTP in UDP, one port translated", over(all_over(Wire(), ports=(40000, made.UDP_PORT))), [], [DIALOGUE])
    wanted = ["NOTE left out: frames of the protocols eth:ethertype:ip:udp:data", "tshark -d udp.port==PORT,sctp -U", "FAULT none"]
    yield Row("SCTP in UDP at another port", over(all_over(Wire(), ports=(9900, 9900))), [], [], 3, wanted)
    wire = Wire()
    yield Row("fragments of UDP", over(over_udp(wire, LONG, cut=96) + over_udp(wire, RESULT)), [], [[LONG, RESULT]])
    part = over_udp(Wire(), LONG, cut=96)[:1]
    wanted = ["FAULT fragment, frame 2 of capture"]
    yield Row("a fragment of UDP is missing", over(over_udp(Wire(), BEGIN) + part), [], [[BEGIN]], 3, wanted)
    wanted = ["NOTE left out: frames of the protocols eth:ethertype:ip:data"]
    others = made.ip(made.udp(bytes(200), (53, 53)), (5, 6), protocol=17, cut=96)[:1]
    yield Row("a fragment of other UDP", over(over_udp(Wire(), BEGIN) + others), [], [[BEGIN]], 0, wanted)
    frames = all_over(Wire())
    for kept in 100, 42, 36:
        wanted = [f"FAULT cut, frame 2 of capture: {kept} octets of"]
        yield Row(f"SCTP in UDP, cut to {kept}", over(frames, cuts={2: kept}), [], [[BEGIN]], 3, wanted)


# ---- what tshark makes of a capture that is not read


def exported(frames, *options):
    """A capture of what tshark exports of these frames, as a fault or a NOTE proposes."""
    with tempfile.TemporaryDirectory() as folder:
        with open(f"{folder}/capture", "wb") as file:
            file.write(over(frames))
        words = ["tshark", "-r", "capture", *options, "-U", "OSI layer 3", "-w", "new"]
        subprocess.run(words, cwd=folder, capture_output=True, check=True)
        with open(f"{folder}/new", "rb") as file:
            return file.read()


def hints():
    wire = Wire()
    units = [made.m2pa(wire.mtp3(line)) for line in DIALOGUE]
    frames = [frame for line, unit in zip(DIALOGUE, units) for frame in wire.frames(line, wire.chunk(line, unit, ppid=5))]
    yield Row("M2PA", over(frames), [], [], 3, ["FAULT adaptation, frame 1", "tshark -U 'OSI layer 3' -w NEW"])
    yield Row("M2PA that tshark exported", exported(frames), [], [DIALOGUE])
    for name, wire in ("M3UA", Wire()), ("SUA", Sua()):
        frames = [frame for line in DIALOGUE for frame in over_udp(wire, line, (9900, 9900))]
        yield Row(f"{name} that tshark exported", exported(frames, "-d", "udp.port==9900,sctp"), [], [DIALOGUE])


# ---- both sides of a transfer point


def sides():
    """What goes by the transfer point 901, captured on both sides of it."""
    near = Wire(((101, 8), (901, 6)), TITLES, tag=70)
    far = Wire(((901, 8), (202, 6)), TITLES, tag=80, hosts=(2, 3))
    lines = [OPEN, GOES_ON, END]
    turns = [(near, OPEN), (far, OPEN), (far, GOES_ON), (near, GOES_ON), (near, END), (far, END)]
    note = "NOTE messages captured on both sides of a transfer point, the first in frames 1 and 2: "
    yield Row("both sides", frames_of(*turns), [], [lines, lines], 0, [f"{note}each appears twice; --one-side keeps the first: 3"])
    kept = [f"{note}only the first is kept: 3"]
    yield Row("one side", frames_of(*turns), ["--one-side"], [lines], 0, kept)
    yield Row("one side, by its far end", frames_of(*turns), ["--one-side", "--a", "pc=202"], [[swapped(line) for line in lines]], 0, kept)
    # Each message is in the place of its first copy: END of A passed the near side before GOES_ON came there.
    crossed = [(near, OPEN), (far, OPEN), (far, GOES_ON), (near, END), (near, GOES_ON), (far, END)]
    yield Row("one side, messages that cross", frames_of(*crossed), ["--one-side"], [lines], 0, kept)
    late = [(near, OPEN), (far, OPEN), (far, GOES_ON), (near, END), (far, END)]
    yield Row("a copy is missing", frames_of(*late), ["--one-side"], [lines], 0, [f"{note}only the first is kept: 2"])
    twice = [turn for _ in range(2) for turn in ((near, BEGIN), (far, BEGIN), (far, RESULT), (near, RESULT))]
    yield Row("an ID comes again, one side", frames_of(*twice), ["--one-side"], [2 * DIALOGUE], 0, [f"{note}only the first is kept: 4"])
    parts = [(near, BEGIN), (far, BEGIN), (far, RESULT), (near, RESULT)]
    frames = [frame for wire, line in parts for frame in wire.frames(line)]
    odd = far.frames(BEGIN, far.chunk(BEGIN, far.m3ua(BEGIN, b"\x09")))
    wanted = [f"{note}only the first is kept: 2", "FAULT sccp, frame 3 of capture"]
    yield Row("one side, a fault on the other", over(frames[:2] + odd + frames[2:]), ["--one-side"], [[BEGIN]], 3, wanted, [""])


def same_codes():
    """What goes through a transfer point that leaves the labels as they are, over two associations."""
    near, far = Wire(tag=70), Wire(tag=80, hosts=(2, 3))
    turns = [(near, BEGIN), (far, BEGIN), (far, RESULT), (near, RESULT)]
    note = "NOTE messages captured on both sides of a transfer point, the first in frames 1 and 2: "
    twice = [BEGIN, BEGIN, RESULT, RESULT]
    yield Row("both sides, same codes", frames_of(*turns), [], [twice], 0, [f"{note}each appears twice"])
    yield Row("one side, same codes", frames_of(*turns), ["--one-side"], [DIALOGUE], 0, [f"{note}only the first is kept: 2"])
    shared = [(near, BEGIN), (near, RESULT), (far, BEGIN), (far, RESULT)]
    yield Row("two associations share the load", frames_of(*shared), ["--one-side"], [2 * DIALOGUE])
    lone = [(near, SECOND), (far, SECOND)]
    yield Row("two associations, one way", frames_of(*lone), ["--one-side"], [[SECOND, SECOND]])


def rows():
    for part in sua, of_sua, udp, hints, sides, same_codes:
        yield from part()
