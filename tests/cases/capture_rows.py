"""Captures, with the options of tools/lines_of_capture.py, and the lines, the exit status and the words on standard
error that are wanted of it, of layers and of faults: tests/captures.py runs them. Of some rows it is said how each file ends:
what stands in it after `#: broken off`, and None where it is not broken off; and, instead of the record that `pack`
makes of it, an expression for what `test` prints of each."""

import collections
import shutil
import subprocess
import tempfile

import made_captures as made

FIELDS = "name capture options files status said broken judged"
Row = collections.namedtuple("Row", FIELDS, defaults=([], [], 0, [], None, None))

BEGIN, RESULT = "A 620d4801016c08a10602010102012d", "B 640a4901016c05a203020101"
SECOND, OTHER_RESULT = "A 620d4801026c08a10602010102012e", "B 640a4901026c05a203020101"
OPEN, GOES_ON, END = "A 6203480101", "B 6506480107490101", "A 6403490107"

DIALOGUE = [BEGIN, RESULT]
LONG = "A 6281b64801016c81b0a181ad02010102012d0481a4" + "5a" * 164


class Wire:
    """Writes what two ends send each other, each with a point code, a subsystem number and a global title."""

    def __init__(self, ends=((101, 8), (202, 6)), titles=(None, None), tag=0x1000, tsn=0xFFFFFFFE, hosts=(1, 2)):
        self.hosts = hosts
        self.codes = dict(zip("AB", (code for code, _ in ends)))
        self.addresses = {end: made.address(ssn, gt=gt) for end, (_, ssn), gt in zip("AB", ends, titles)}
        self.tags, self.tsns = {"A": tag, "B": tag + 1}, {"A": tsn, "B": 77}

    def sccp(self, line, form=made.udt, **more):
        """The message of SCCP of a line."""
        called = self.addresses["B" if line[0] == "A" else "A"]
        return form(bytes.fromhex(line[2:]), called, self.addresses[line[0]], **more)

    def m3ua(self, line, sccp=None):
        codes = self.codes["A"], self.codes["B"]
        return made.m3ua(sccp or self.sccp(line), *(codes if line[0] == "A" else codes[::-1]))

    def chunk(self, line, payload=None, **more):
        """The next chunk of data of the end of a line."""
        self.tsns[line[0]] += 1
        return made.data(self.tsns[line[0]], payload or self.m3ua(line), **more)

    def packet(self, end, *chunks):
        return made.sctp(chunks, self.tags[end])

    def frames(self, line, chunk=None, cut=None):
        """The frames of a line, or of a chunk of its end."""
        hosts = self.hosts if line[0] == "A" else self.hosts[::-1]
        return made.ip(self.packet(line[0], chunk or self.chunk(line)), hosts, cut=cut)

    def all(self, lines):
        return [frame for line in lines for frame in self.frames(line)]

    def mtp3(self, line, sccp=None):
        codes = self.codes["A"], self.codes["B"]
        return made.mtp3(sccp or self.sccp(line), *(codes if line[0] == "A" else codes[::-1]))

    def alone(self, line):
        codes = self.codes["A"], self.codes["B"]
        return made.exported(bytes.fromhex(line[2:]), codes=codes if line[0] == "A" else codes[::-1])


def payloads_over(payload, count):
    """A payload cut into so many pieces."""
    step = -(-len(payload) // count)
    return [payload[at : at + step] for at in range(0, len(payload), step)]


def segments(wire, line, count, reference=9):
    """The segments of the message of a line, each a message of SCCP."""
    parts = payloads_over(bytes.fromhex(line[2:]), count)
    for at, part in enumerate(parts):
        yield wire.sccp(f"{line[0]} {part.hex()}", made.xudt, segment=(at == 0, len(parts) - 1 - at, reference))


def over(frames, link=made.ETHERNET, **more):
    return made.pcap(frames, link, **more)


def frames_of(*turns):
    """A capture of lines, each with the ends that send it."""
    return over([frame for wire, line in turns for frame in wire.frames(line)])


def swapped(line):
    """A line of the other end."""
    return ("B" if line[0] == "A" else "A") + line[1:]


# Packets of SCTP that are damaged.
PACKETS = [
    Wire().packet("A", Wire().chunk(BEGIN)),
    Wire().packet("A", Wire().chunk(LONG, Wire().m3ua(LONG, Wire().sccp(LONG, made.ludt)))),
    *(Wire().packet("A", Wire().chunk(LONG, Wire().m3ua(LONG, one))) for one in segments(Wire(), LONG, 2)),
    Wire(titles=("4917012", "49171")).packet("B", Wire().chunk(RESULT, Wire(titles=("4917012", "49171")).m3ua(RESULT))),
]


# ---- what a capture is made of


def layers():
    yield Row("a dialogue", over(Wire().all(DIALOGUE)), [], [DIALOGUE])
    yield Row("a pcapng", made.pcapng(Wire().all(DIALOGUE)), [], [DIALOGUE])
    yield Row("MTP3", over([Wire().mtp3(line) for line in DIALOGUE], made.MTP3), [], [DIALOGUE])
    units = [made.mtp2(Wire().mtp3(line), number) for number, line in enumerate(DIALOGUE)]
    yield Row("MTP2", over(units, made.MTP2), [], [DIALOGUE], 0, ["sent again is not looked for; frames of MTP2: 2"])
    yield Row("alone", over([Wire().alone(line) for line in DIALOGUE], made.EXPORTED), [], [DIALOGUE])
    alone = [made.exported(bytes.fromhex(line[2:]), codes=None) for line in DIALOGUE]
    yield Row("alone, in and out", made.pcapng(alone, made.EXPORTED, [2, 1]), ["--a", "side=near"], [DIALOGUE])
    yield Row("alone, from nobody", over(alone, made.EXPORTED), status=3, said=["FAULT ends, frame 1 of capture"])
    yield Row("SCCP exported", over([made.exported(Wire().sccp(BEGIN), "sccp")], made.EXPORTED), [], [[BEGIN]])
    bare = over([Wire().sccp(BEGIN)], made.SCCP)
    yield Row("the link type SCCP", bare, status=3, said=["FAULT link, frame 1 of capture"])
    wire = Wire()
    frames = wire.frames(BEGIN, wire.chunk(BEGIN, wire.m3ua(BEGIN, wire.sccp(BEGIN, made.ludt)))) + wire.all([RESULT])
    yield Row("LUDT", over(frames), [], [DIALOGUE])
    if shutil.which("text2pcap"):
        yield Row("text2pcap", by_text2pcap(), [], [DIALOGUE])


def by_text2pcap():
    """A dialogue as text2pcap writes it, of octets of M3UA."""
    text = "".join(f"{way}\n0000 {Wire().m3ua(line).hex(' ')}\n" for way, line in zip("OI", DIALOGUE))
    with tempfile.TemporaryDirectory() as folder:
        with open(f"{folder}/text", "w", encoding="utf-8") as file:
            file.write(text)
        words = ["text2pcap", "-q", "-D", "-S", "2905,2905,3", "-4", "10.0.0.1,10.0.0.2", "text", "capture"]
        subprocess.run(words, cwd=folder, capture_output=True, check=False)
        with open(f"{folder}/capture", "rb") as file:
            return file.read()


def transport():
    wire = Wire()
    both = made.ip(wire.packet("A", wire.chunk(BEGIN), wire.chunk(SECOND)))
    yield Row("two chunks in a frame", over(both + wire.all([RESULT])), [], [[BEGIN, SECOND, RESULT]])
    again = over(both + wire.all([RESULT]) + both)
    yield Row("two chunks that come again", again, [], [[BEGIN, SECOND, RESULT]], 0, ["came again"])
    wire = Wire()
    first, second = wire.frames(BEGIN), wire.frames(SECOND)
    late = over(second + wire.all([OTHER_RESULT]) + first)
    yield Row("a chunk that comes late", late, [], [[BEGIN, SECOND, OTHER_RESULT]])
    wire = Wire()
    turns = [BEGIN, GOES_ON, "B 650d4801074901016c05a203020101", "A 65104801014901076c08a10602010202012e"]
    turns += ["B 640a4901016c05a203020102"]
    begin, lost, *between, last = (wire.chunk(line) for line in turns)
    packets = zip("ABAB", [begin, *between, lost + last])
    late = over([frame for end, chunk in packets for frame in wire.frames(end, chunk)])
    yield Row("a chunk that comes late, and another behind it in its frame", late, [], [turns])
    wire = Wire()
    frames = [wire.frames(f"A 62034801{number:02x}") for number in range(5)]
    order = [frame for number in (0, 4, 1, 3, 2) for frame in frames[number]]
    yield Row("chunks in disorder", over(order), [], [[f"A 62034801{number:02x}" for number in range(5)]])
    frames = [frame for number in (0, 1, 3, 4) for frame in frames[number]]
    lines = [f"A 62034801{number:02x}" for number in (0, 1, 3, 4)]
    yield Row("a chunk that is missing", over(frames), [], [lines], 0, ["NOTE frame 3: before it chunks"], [None])
    yield Row("and nothing was filtered", over(frames), ["--whole"], [lines[:2]], 3, ["FAULT gap, frame 3 of capture"], [""])
    wire = Wire()
    parts = zip(payloads_over(wire.m3ua(LONG), 3), (2, 0, 1))
    chunks = [wire.chunk(LONG, piece, flags=flags) for piece, flags in parts]
    pieces = [wire.frames(LONG, chunk)[0] for chunk in chunks]
    rest = wire.all([RESULT])
    yield Row("pieces of SCTP", over(pieces + rest), [], [[LONG, RESULT]])
    yield Row("pieces of SCTP in disorder", over([pieces[2], pieces[0], *rest, pieces[1]]), [], [[LONG, RESULT]])
    wanted = ["FAULT pieces, frame 2 of capture", "NOTE pair 1"]
    yield Row("a piece is missing", over(rest + pieces[:2]), [], [["A" + RESULT[1:]]], 3, wanted, [""])
    wire = Wire()
    yield Row("fragments of IP", over(wire.frames(LONG, cut=96) + wire.all([RESULT])), [], [[LONG, RESULT]])
    wire = Wire()
    part = over(wire.all([BEGIN]) + wire.frames(LONG, cut=96)[:1])
    yield Row("a fragment is missing", part, [], [[BEGIN]], 3, ["FAULT fragment, frame 2 of capture"])
    again = Wire().all([BEGIN]) + Wire().all([SECOND])
    yield Row("one TSN, two contents", over(again), [], [[BEGIN]], 3, ["FAULT tsn, frame 2 of capture"])


def of_sccp():
    wire = Wire()
    parts = list(segments(wire, LONG, 3))
    frames = [wire.frames(LONG, wire.chunk(LONG, wire.m3ua(LONG, part)))[0] for part in parts]
    rest = wire.all([RESULT])
    yield Row("segments of SCCP", over(frames + rest), [], [[LONG, RESULT]])
    wire = Wire()
    frames = [wire.frames(LONG, wire.chunk(LONG, wire.m3ua(LONG, part)))[0] for part in segments(wire, LONG, 3)]
    late = [frames[1], frames[0], *wire.all([RESULT]), frames[2]]
    yield Row("segments of SCCP in disorder", over(late), [], [[LONG, RESULT]])
    wire = Wire()
    begin, parts = wire.frames(BEGIN), list(segments(wire, LONG, 3))
    lone = [wire.frames(LONG, wire.chunk(LONG, wire.m3ua(LONG, part)))[0] for part in (parts[0], parts[2])]
    wanted = ["FAULT segment, frame 2 of capture"]
    yield Row("no middle segment, in disorder", over(begin + lone[::-1]), [], [[BEGIN]], 3, wanted)
    wire = Wire()
    both = [part for pair in zip(segments(wire, LONG, 3, 1), segments(wire, SECOND, 3, 2)) for part in pair]
    mixed = [wire.frames("A", wire.chunk("A", wire.m3ua("A", part)))[0] for part in both]
    yield Row("segments of two messages", over(mixed), [], [[LONG, SECOND]])
    wire = Wire()
    frames = [wire.mtp3(LONG, part) for part in segments(wire, LONG, 3)]
    begin = [wire.mtp3(BEGIN)]
    wanted = ["FAULT segment, frame 2 of capture"]
    yield Row("no first segment", over(begin + frames[1:], made.MTP3), [], [[BEGIN]], 3, wanted)
    yield Row("no last segment", over(begin + frames[:2], made.MTP3), [], [[BEGIN]], 3, wanted, [""])
    yield Row("no middle segment", over(begin + frames[::2], made.MTP3), [], [[BEGIN]], 3, wanted)
    back = [wire.mtp3(BEGIN), wire.mtp3(RESULT, wire.sccp(RESULT, made.udts)), wire.mtp3(RESULT)]
    yield Row("a message came back", over(back, made.MTP3), [], [DIALOGUE], 0, ["came back"])
    managed = made.udt(b"\x01\x08\x65\x00\x00", made.address(1), made.address(1))
    others = [wire.mtp3(BEGIN, managed), wire.mtp3(BEGIN, b"\x01" + bytes(9)), made.m3ua(b"\x01" * 20, indicator=5)]
    frames = [*others[:2], b"\x85" + wire.mtp3(BEGIN)[1:], *(wire.mtp3(line) for line in DIALOGUE)]
    wanted = ["without TCAP: 1", "a connection, or manage it: 1", "NOTE left out: frames of the protocols mtp3"]
    yield Row("what is no TCAP", over(frames, made.MTP3), [], [DIALOGUE], 0, wanted)
    isup = wire.frames(BEGIN, wire.chunk(BEGIN, others[2])) + wire.all(DIALOGUE)
    yield Row("another user of M3UA", over(isup), [], [DIALOGUE], 0, ["nothing of SCCP: 1"])
    for name, octets in ("short", b"\x09"), ("cut", wire.sccp(BEGIN)[:-1]), ("no pointer", b"\x09\0\0\0\0"):
        frames = [wire.mtp3(BEGIN), wire.mtp3(BEGIN, octets)]
        yield Row(f"{name} SCCP", over(frames, made.MTP3), [], [[BEGIN]], 3, ["FAULT sccp, frame 2 of capture"])


# ---- faults


def contents():
    endless = "A 62804801026c80a18002010102012d000000000000"
    yield Row("indefinite lengths", over(Wire().all([BEGIN, endless, RESULT])), [], [[BEGIN, endless, RESULT]])
    wire = Wire()
    other = wire.frames(BEGIN) + wire.frames(BEGIN, wire.chunk(BEGIN, b"hello", ppid=46)) + wire.frames(RESULT)
    yield Row("another payload", over(other), [], [DIALOGUE], 0, ["payload protocol 46: 1"])
    wire = Wire()
    frames = wire.frames(BEGIN) + wire.frames(BEGIN, b"\0\3\0\2")
    yield Row("a short chunk", over(frames), [], [[BEGIN]], 3, ["FAULT sctp, frame 2 of capture"])
    frames = wire.frames(BEGIN, b"\x40\3\0\x14" + bytes(16))
    yield Row("I-DATA", over(frames), status=3, said=["FAULT sctp, frame 1 of capture: a chunk of I-DATA"])


def captures():
    frames = Wire().all(DIALOGUE)
    yield Row("cut frames", over(frames, limit=100), status=3, said=["FAULT cut, frame 1 of capture: 100 octets of"])
    yield Row("a cut capture", over(frames)[:-1], [], [[BEGIN]], 3, ["FAULT capture, frame 2 of capture", "cut short"], [""])
    yield Row("an empty file", b"", status=3, said=["FAULT none"])
    yield Row("no frames", over([]), status=3, said=["FAULT none"])
    yield Row("another file", b"hello\n" * 30, status=3, said=["FAULT"])
    yield Row("noise", bytes(range(256)) * 9, status=3, said=["FAULT"])
    yield Row("no file", None, status=3, said=["FAULT capture, /", "/none: there is no such file\n"])
    udp = made.ip(b"\x30\x39\x30\x39\0\x0c\0\0abcd", protocol=17)
    between = over(frames[:1] + udp + frames[1:])
    yield Row("other frames", between, [], [DIALOGUE], 0, ["protocols eth:ethertype:ip:udp"])
    long = made.ip(b"\x30\x39\x30\x39\x01\0\0\0" + bytes(248), protocol=17)
    yield Row("other frames, cut", over(frames + long, limit=200), [], [DIALOGUE], 0, ["ip:udp"])


def broken_of(parts):
    """How files end, each with a dialogue, or with its first message alone: how many are missing there is not known."""
    return [None if part == DIALOGUE else "" for part in parts]


def others():
    """Frames of others, which end what they may be of."""
    odd = {
        "adaptation": b"\x01\0\x0b\1\0\0\0\x08",
        "m3ua": b"\x01\0\1\1\0\0\0\x40",
        "pc": made.m3ua(Wire().sccp(BEGIN), 101, 70000),
        "sccp": made.m3ua(b"\x09", 303, 404),
    }
    for name, payload in odd.items():
        wire, other = Wire(), Wire(((303, 8), (404, 6)), tag=9, hosts=(3, 4))
        ppid, wanted = 5 if name == "adaptation" else 3, [f"FAULT {name}, frame 3 of capture"]

        def between(third, payload=payload, ppid=ppid, wire=wire, other=other):
            frames = wire.frames(BEGIN) + other.frames(BEGIN)
            frames += third.frames(BEGIN, third.chunk(BEGIN, payload, ppid=ppid))
            return over(frames + other.frames(RESULT) + wire.frames(RESULT))

        parts = [DIALOGUE, DIALOGUE] if name == "pc" else [DIALOGUE, [BEGIN]]
        yield Row(f"another association, {name}", between(other), [], parts, 3, wanted, broken_of(parts))
        parts = {"pc": [DIALOGUE, DIALOGUE], "sccp": [DIALOGUE, [BEGIN]]}.get(name, [[BEGIN], DIALOGUE])
        yield Row(f"the same association, {name}", between(wire), [], parts, 3, wanted, broken_of(parts))
    near, third = Wire(), Wire(((303, 8), (404, 6)), tag=9, hosts=(3, 4))
    for name, opc, dpc, parts in ("of them", 101, 202, [[BEGIN]]), ("of others", 303, 404, [DIALOGUE]):
        wire, carried = Wire(), made.m2pa(made.mtp3(near.sccp(BEGIN), opc, dpc))
        frames = wire.frames(BEGIN) + third.frames(BEGIN, third.chunk(BEGIN, carried, ppid=5)) + wire.frames(RESULT)
        wanted = ["FAULT adaptation, frame 2 of capture: a chunk of M2PA", f"may be: {2 - len(parts[0])}"]
        yield Row(f"M2PA {name}", over(frames), [], parts, 3, wanted, broken_of(parts))
    units = [made.mtp3(near.sccp(BEGIN), 303, 404), made.mtp3(b"\x09", 303, 404), made.mtp3(near.sccp(RESULT), 404, 303)]
    frames = [near.mtp3(BEGIN), *units, near.mtp3(RESULT)]
    wanted = ["FAULT sccp, frame 3 of capture", "pairs of which it may be: 1"]
    yield Row("SCCP of others", over(frames, made.MTP3), [], [DIALOGUE, [BEGIN]], 3, wanted)


def rows():
    for part in layers, transport, of_sccp, contents, captures, others:
        yield from part()
