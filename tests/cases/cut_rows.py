"""More captures as those of capture_rows.py: of frames that were not captured whole, of associations, of third parties and of
tunnels; and cut frames of every type of Ethernet. tests/captures.py runs them, too."""

import collections
import subprocess

import capture_shapes
import made_captures as made
from capture_rows import BEGIN, DIALOGUE, END, GOES_ON, LONG, OPEN, OTHER_RESULT, RESULT, SECOND, Row, Wire, over


def cuts():
    """Cut frames of others, and of the same association."""
    def frames():
        wire, other = Wire(), Wire(((303, 8), (404, 6)), tag=9, hosts=(3, 4))
        turns = (other, BEGIN), (wire, BEGIN), (other, RESULT), (other, SECOND), (wire, RESULT)
        return [frame for one, line in turns for frame in one.frames(line)]

    for kept, ended in (100, 1), (40, 1), (32, 1), (20, 2):
        parts = [[BEGIN], [BEGIN] if ended == 2 else DIALOGUE]
        cut = over(frames(), cuts={3: kept})
        wanted = [f"FAULT cut, frame 3 of capture: {kept} octets", f"may be: {ended}"]
        yield Row(f"a frame of others cut to {kept}", cut, [], parts, 3, wanted)
    alone = over(frames()[1:3] + frames()[4:], cuts={2: 100})
    yield Row("the only frame of others, cut", alone, [], [DIALOGUE], 3, ["FAULT cut, frame 2 of capture", "may be: 0"])
    lone = over(Wire().all([BEGIN, RESULT, END]), cuts={2: 60})
    yield Row("the only frame of a direction, cut", lone, [], [[BEGIN]], 3, ["FAULT cut, frame 2 of capture"])
    wire = Wire()
    two = made.ip(wire.packet("A", wire.chunk(BEGIN), wire.chunk(SECOND)))
    cut = over(two + wire.all([RESULT]), cuts={1: len(two[0]) - 4})
    yield Row("the second chunk is cut", cut, [], [[BEGIN]], 3, ["FAULT cut, frame 1 of capture"])
    wire, paths = Wire(), Wire(hosts=(11, 12))
    paths.tsns = wire.tsns
    turns = (wire, BEGIN), (paths, SECOND), (wire, OTHER_RESULT), (paths, RESULT)
    both = [frame for one, line in turns for frame in one.frames(line)]
    yield Row("an association of two paths", over(both), [], [[BEGIN, SECOND, OTHER_RESULT, RESULT]])
    cut = over(both, cuts={4: 60})
    yield Row("a frame of its second path is cut", cut, [], [[BEGIN, SECOND, OTHER_RESULT]], 3, ["FAULT cut, frame 4"])
    titles = "4917012", "491702"
    first, second = (Wire(((101, 8), (pc, 6)), titles, tag=10 * pc, hosts=(1, pc - 900)) for pc in (902, 903))
    load = first.frames(OPEN) + second.frames(GOES_ON) + first.frames(END)
    wanted = ["FAULT cut, frame 2 of capture", "may be: 1"]
    yield Row("what goes by the other point is cut", over(load, cuts={2: 100}), [], [[OPEN]], 3, wanted)
    other = Wire(((303, 8), (902, 6)), ("4917013", "491703"), tag=70, hosts=(3, 2))
    point = first.frames(OPEN) + other.frames(BEGIN) + other.frames(RESULT) + first.frames(GOES_ON) + first.frames(END)
    wanted = ["FAULT cut, frame 3 of capture", "may be: 1"]
    yield Row("others at that transfer point, cut", over(point, cuts={3: 100}), [], [[OPEN, GOES_ON, END], [BEGIN]], 3, wanted)
    isup = b"\x85" + Wire().mtp3(LONG)[1:]
    units = [Wire().mtp3(BEGIN), isup, Wire().mtp3(RESULT)]
    yield Row("a cut frame of ISUP", over(units, made.MTP3, cuts={2: 30}), [], [DIALOGUE], 0, ["protocols mtp3"])
    units[1] = made.mtp3(Wire().sccp(LONG), 303, 404)
    wanted = ["FAULT cut, frame 2 of capture", "may be: 0"]
    yield Row("a cut frame of other point codes", over(units, made.MTP3, cuts={2: 30}), [], [DIALOGUE], 3, wanted)


def third_parties():
    """Cut frames that carry no signalling, and end nothing."""
    filled = bytes(range(100))
    frames = {
        "CDP": ("eth:llc:cdp", made.llc(b"\xaa\xaa\3\0\0\x0c\x20\0" + filled)),
        "IS-IS": ("eth:llc:osi:isis", made.llc(b"\xfe\xfe\3\x83\x1b\1\0\x10\1" + filled)),
        "an unknown SAP": ("eth:llc:data", made.llc(b"\xc2\xc2\3" + filled)),
        "an unknown type": ("eth:ethertype:data", made.ethernet(0x7777, made.inside(Wire().frames(LONG)[0]))),
        "an unknown type in a VLAN": ("vlan:ethertype:data", made.ethernet(0x8100, b"\0\5\x77\x77" + filled)),
        "LACP": ("ethertype:slow:lacp", made.ethernet(0x8809, b"\1\1\1\x14" + filled)),
        "EAPOL": ("ethertype:eapol", made.ethernet(0x888E, b"\2\3\0\x5f" + filled)),
        "OSPF": ("ip:ospf", made.ip(b"\2\1\0\x2c" + filled, protocol=89)[0]),
        "a fragment of OSPF": ("ip:data", made.ip(bytes(96) + filled, protocol=89, cut=96)[1]),
        "an unknown protocol of IP": ("ip:data", made.ip(filled, protocol=200)[0]),
    }
    for name, (protocols, frame) in frames.items():
        wire = Wire()
        between = [*wire.frames(BEGIN), frame, *wire.frames(RESULT)]
        yield Row(f"{name}, cut", over(between, cuts={2: 60}), [], [DIALOGUE], 0, [protocols])


def carriers():
    """Frames that are cut before it shows what they carry, and end what they may be of: both dialogues, or, where the outer
    hosts are known, only that in a tunnel between these."""
    wire, other = Wire(hosts=(5, 6)), Wire(((303, 8), (404, 6)), tag=9, hosts=(3, 4))

    def tunnelled(line, head=b"", protocol=4):
        return made.ip(head + made.inside(other.frames(line)[0]), protocol=protocol)[0]

    # GTP for users, from and to its port 2152.
    gtp = b"\x08\x68\x08\x68\x01\0\0\0\x30\xff\0\xf0\0\0\0\1"
    carried = made.inside(tunnelled(SECOND))
    frames = {
        "a tag": (17, 2, made.ethernet(0x8100, b"\0\5\x08\0" + carried)),
        "SNAP": (21, 2, made.llc(b"\xaa\xaa\3\0\0\0\x08\0" + carried)),
        "MPLS": (18, 2, made.ethernet(0x8847, b"\0\1\1\x40" + carried)),
        "PPPoE": (20, 2, made.ethernet(0x8864, b"\x11\0\0\1\0\x80\0\x21" + carried)),
        "MACsec": (21, 2, made.ethernet(0x88E5, bytes(6) + b"\x08\0" + carried)),
        "IP over IP": (40, 1, tunnelled(SECOND)),
        "GRE": (36, 1, tunnelled(SECOND, b"\0\0\x08\0", 47)),
        "a fragment of UDP": (40, 1, made.ip(bytes(96) + carried, protocol=17, cut=96)[1]),
        "IP over UDP": (60, 1, tunnelled(SECOND, gtp, 17)),
        "SCTP over IP over UDP": (90, 1, tunnelled(SECOND, gtp, 17)),
    }
    for name, (kept, ended, frame) in frames.items():
        wire.tsns, other.tsns = {"A": 0, "B": 0}, {"A": 0, "B": 0}
        turns = [tunnelled(BEGIN), *wire.frames(BEGIN), frame, tunnelled(RESULT), *wire.frames(RESULT)]
        parts = [[BEGIN], [BEGIN] if ended == 2 else DIALOGUE]
        wanted = [f"FAULT cut, frame 3 of capture: {kept} octets", f"may be: {ended}"]
        yield Row(f"{name}, cut at {kept}", over(turns, cuts={3: kept}), [], parts, 3, wanted)


# ---- every type of Ethernet


def types():
    """The types of Ethernet that tshark knows."""
    run = subprocess.run(["tshark", "-G", "decodes"], capture_output=True, text=True, check=False)
    rows = [line.split("\t") for line in run.stdout.splitlines() if line.startswith("ethertype\t")]
    return [kind for kind in sorted({int(row[1]) for row in rows}) if kind >= 1536]


def shapes_of(folder, frames, cuts=None):
    """What the tool makes of each frame."""
    with open(f"{folder}/frames", "wb") as file:
        file.write(made.pcap(frames, cuts=cuts))
    return [capture_shapes.Shape(frame.shape) for frame in capture_shapes.frames_of(f"{folder}/frames")]


def are_cuts_met(folder):
    """Whether no frame that as a whole is read for SCTP is taken for one without signalling, wherever it is cut: of frames of
    each type that tshark knows, in which SCTP over IP stands behind some octets, of the same over SNAP, and of SCTP in UDP."""
    frame = Wire().frames(BEGIN)[0]
    in_udp = made.ip(made.udp(frame[34:]), protocol=17)[0]
    begins = [bytes(count) + inner for count in range(24) for inner in (frame, frame[12:], made.inside(frame))]
    kinds = [kind.to_bytes(2, "big") for kind in types()]
    heads = frame[:12], made.llc(b"")[:12] + b"\1\0\xaa\xaa\3\0\0\0"
    frames = [in_udp] + [head + kind + begin for head in heads for kind in kinds for begin in begins]
    stacks = collections.defaultdict(list)
    for frame, shape in zip(frames, shapes_of(folder, frames)):
        if shape.is_sctp:
            stacks[shape.protocols].append(frame)
    turns = [(frame, kept) for found in stacks.values() for frame in found[:2] for kept in range(1, len(frame))]
    shapes = shapes_of(folder, [frame for frame, _ in turns], {at: kept for at, (_, kept) in enumerate(turns, 1)})
    missed = sorted({shape.protocols for shape in shapes if shape.is_harmless})
    stacks.pop("eth:ethertype:ip:udp:data")
    if missed or len(stacks) < 20:
        print(f"cut frames of {len(stacks)} kinds that carry SCTP: taken for others where they are cut to {missed}")
    return not missed and len(stacks) >= 20


def rows():
    for part in cuts, third_parties, carriers:
        yield from part()
