"""Captures written octet by octet, for tests/captures.py: TCAP messages in SCCP (ITU-T Q.713), M3UA (RFC 4666), SCTP
(RFC 9260), IPv4 and Ethernet; in SUA (RFC 3868), and SCTP in UDP (RFC 6951); in SCCP and MTP3 (ITU-T Q.704); and
alone, as PDUs that Wireshark exported."""

import struct

ETHERNET, MTP2, MTP3, SCCP, EXPORTED = 1, 140, 141, 142, 252
M3UA_PPID, SUA_PPID, UDP_PORT = 3, 4, 9899
START = 1_700_000_000


def pcap(frames, link=ETHERNET, limit=None, cuts=None):
    """A capture of these frames, one each millisecond, of each of which at most so many octets were kept: of some, by their
    numbers, other counts."""
    parts = [struct.pack("<IHHiIII", 0xA1B2C3D4, 2, 4, 0, 0, limit or 262144, link)]
    for at, frame in enumerate(frames):
        kept = frame[: (cuts or {}).get(at + 1, limit)]
        parts.append(struct.pack("<IIII", START + at // 1000, at % 1000 * 1000, len(kept), len(frame)) + kept)
    return b"".join(parts)


def block(kind, body):
    """A block of a pcapng."""
    body += bytes(-len(body) % 4)
    return struct.pack("<II", kind, len(body) + 12) + body + struct.pack("<I", len(body) + 12)


def pcapng(frames, link=ETHERNET, directions=None):
    """The same as a pcapng, with the directions, 1 in and 2 out, where there are any."""
    parts = [block(0x0A0D0D0A, struct.pack("<IHHq", 0x1A2B3C4D, 1, 0, -1)), block(1, struct.pack("<HHI", link, 0, 0))]
    for at, frame in enumerate(frames):
        time = START * 1_000_000 + at * 1000
        body = struct.pack("<IIIII", 0, time >> 32, time & 0xFFFFFFFF, len(frame), len(frame)) + frame
        body += bytes(-len(frame) % 4)
        if directions:
            body += struct.pack("<HHIHH", 2, 4, directions[at], 0, 0)
        parts.append(block(6, body))
    return b"".join(parts)


# ---- layers


def ethernet(kind, content):
    """A frame of Ethernet, of a type or, of IEEE 802.3, of a length."""
    return bytes([2, 0, 0, 0, 0, 2, 2, 0, 0, 0, 0, 1]) + struct.pack(">H", kind) + content


def llc(content):
    """A frame of IEEE 802.3 of content that begins with the header of LLC."""
    return ethernet(len(content), content)


def inside(frame):
    """What a frame of Ethernet carries."""
    return frame[14:]


def ip(packet, ends=(1, 2), protocol=132, cut=None):
    """Frames of Ethernet that carry a packet of IPv4 from one end to the other, in fragments of so many octets."""
    step = cut or len(packet) or 1
    frames = []
    for at in range(0, len(packet) or 1, step):
        part, more = packet[at : at + step], at + step < len(packet)
        head = struct.pack(">BBHHHBBH", 0x45, 0, 20 + len(part), 7, (0x2000 if more else 0) | at // 8, 64, protocol, 0)
        head += bytes([10, 0, 0, ends[0], 10, 0, 0, ends[1]])
        total = sum(struct.unpack(">10H", head))
        total = (total & 0xFFFF) + (total >> 16)
        head = head[:10] + struct.pack(">H", ~(total + (total >> 16)) & 0xFFFF) + head[12:]
        frames.append(bytes([2, 0, 0, 0, 0, ends[1], 2, 0, 0, 0, 0, ends[0], 8, 0]) + head + part)
    return frames


def sctp(chunks, tag=0x11223344, ports=(2905, 2905)):
    """A packet of SCTP. Its checksum is left at 0: tshark does not look at it unless it is told to."""
    return struct.pack(">HHII", *ports, tag, 0) + b"".join(chunks)


def udp(packet, ports=(UDP_PORT, UDP_PORT)):
    """A datagram, without a checksum."""
    return struct.pack(">HHHH", *ports, 8 + len(packet), 0) + packet


def data(tsn, payload, sequence=0, flags=3, ppid=M3UA_PPID, stream=1):
    """A chunk of data: flags 3 for a whole one, 2 for the first piece, 0 for one between, 1 for the last."""
    head = struct.pack(">BBHIHHI", 0, flags, 16 + len(payload), tsn & 0xFFFFFFFF, stream, sequence & 0xFFFF, ppid)
    return head + payload + bytes(-len(payload) % 4)


def m3ua(sccp, opc=101, dpc=202, indicator=3):
    """A message of M3UA with Protocol Data, behind a Routing Context."""
    content = struct.pack(">IIBBBB", opc, dpc, indicator, 2, 0, 5) + sccp
    parts = struct.pack(">HHIHH", 6, 8, 1, 0x210, 4 + len(content)) + content + bytes(-len(content) % 4)
    return struct.pack(">BBBBI", 1, 0, 1, 1, 8 + len(parts)) + parts


def m2pa(unit):
    """A message of M2PA (RFC 4165): its header, two sequence numbers, a priority, and a message signal unit."""
    return struct.pack(">BBBBI", 1, 0, 11, 1, 17 + len(unit)) + bytes(9) + unit


def parameter(tag, content):
    """A parameter of SUA, padded to a multiple of four octets, which its length does not count."""
    return struct.pack(">HH", tag, 4 + len(content)) + content + bytes(-len(content) % 4)


def sua_address(ssn=None, pc=None, gt=None, **hosts):
    """An address of SUA (RFC 3868 3.10.2): a routing and an address indicator, then its parameters. A global title has
    the indicator 4, E.164 and international."""
    route = 1 if gt else 3 if "name" in hosts else 4 if hosts else 2
    parts = struct.pack(">HH", route, (gt is not None) << 2 | (pc is not None) << 1 | (ssn is not None))
    if gt is not None:
        digits = gt + "0" * (len(gt) % 2)
        pairs = bytes.fromhex("".join(digits[at + 1] + digits[at] for at in range(0, len(digits), 2)))
        parts += parameter(0x8001, bytes([0, 0, 0, 4, len(gt), 0, 1, 4]) + pairs)
    if pc is not None:
        parts += parameter(0x8002, struct.pack(">I", pc))
    if ssn is not None:
        parts += parameter(0x8003, bytes([0, 0, 0, ssn]))
    for name, tag in ("ipv4", 0x8004), ("name", 0x8005), ("ipv6", 0x8006):
        parts += parameter(tag, hosts[name]) if name in hosts else b""
    return parts


def sua(content, called, calling, segment=None):
    """A message CLDT: routing context, protocol class, source, destination, sequence control, perhaps a segmentation,
    (first, left, reference), and the data."""
    parts = parameter(6, b"\0\0\0\1") + parameter(0x115, b"\0\0\0\0")
    parts += parameter(0x102, calling) + parameter(0x103, called) + parameter(0x116, b"\0\0\0\5")
    if segment:
        first, left, reference = segment
        parts += parameter(0x117, bytes([first << 7 | left]) + reference.to_bytes(3, "big"))
    parts += parameter(0x10B, content)
    return struct.pack(">BBBBI", 1, 0, 7, 1, 8 + len(parts)) + parts


def cldr(content, called, calling):
    """A message CLDR, which brings data back: routing context, cause, source, destination, data."""
    parts = parameter(6, b"\0\0\0\1") + parameter(0x106, b"\0\0\1\1")
    parts += parameter(0x102, calling) + parameter(0x103, called) + parameter(0x10B, content)
    return struct.pack(">BBBBI", 1, 0, 7, 2, 8 + len(parts)) + parts


def mtp3(sccp, opc=101, dpc=202):
    """A message signal unit of MTP3: the service information octet, and the routing label of ITU-T."""
    return b"\x83" + struct.pack("<I", dpc | opc << 14 | 5 << 28) + sccp


def mtp2(unit, number):
    """A signal unit of MTP2 (ITU-T Q.703) that carries one of MTP3, without its check bits."""
    return bytes([0x80 | number, 0x80 | number, min(63, len(unit))]) + unit


def address(ssn=None, pc=None, gt=None):
    """A party address. A global title is digits of E.164, behind all that can stand before them."""
    indicator, parts = 0x40 if gt is None else 0, b""
    if pc is not None:
        indicator, parts = indicator | 1, struct.pack("<H", pc)
    if ssn is not None:
        indicator, parts = indicator | 2, parts + bytes([ssn])
    if gt is not None:
        digits = gt + "0" * (len(gt) % 2)
        pairs = bytes.fromhex("".join(digits[at + 1] + digits[at] for at in range(0, len(digits), 2)))
        indicator, parts = indicator | 0x10, parts + bytes([0, 0x11 if len(gt) % 2 else 0x12, 4]) + pairs
    return bytes([indicator]) + parts


def varied(head, called, calling, content, wide=False):
    """A message of SCCP: its fixed part, pointers, then the addresses and the data, each behind its length."""
    parts = [bytes([len(called)]) + called, bytes([len(calling)]) + calling]
    parts.append((struct.pack("<H", len(content)) if wide else bytes([len(content)])) + content)
    size, count = (2, 4) if wide else (1, 3 if head[0] in (9, 10) else 4)
    pointers, at = b"", count * size
    for number, part in enumerate(parts):
        # A pointer counts from its own first octet, one of two octets from its last.
        pointers += (at - number * size - (size - 1)).to_bytes(size, "little")
        at += len(part)
    return head + pointers + bytes((count - 3) * size) + b"".join(parts)


def udt(content, called, calling):
    """Unitdata."""
    return varied(b"\x09\x00", called, calling, content)


def udts(content, called, calling):
    """Unitdata Service: what came back, with its return cause."""
    return varied(b"\x0a\x01", called, calling, content)


def ludt(content, called, calling):
    """Long Unitdata."""
    return varied(b"\x13\x00\x0f", called, calling, content, wide=True)


def xudt(content, called, calling, segment=None):
    """Extended Unitdata, with a segmentation parameter, (first, left, reference), where there is one."""
    message = bytearray(varied(b"\x11\x01\x0f", called, calling, content))
    if segment:
        first, left, reference = segment
        message[6] = len(message) - 6
        message += bytes([0x10, 4, first << 7 | 0x40 | left]) + reference.to_bytes(3, "little") + b"\x00"
    return bytes(message)


def exported(content, name="tcap", codes=(101, 202)):
    """A PDU that Wireshark exported: tags that name its protocol and the point codes, then the PDU."""
    tags = struct.pack(">HH", 12, len(name) + -len(name) % 4) + name.encode() + bytes(-len(name) % 4)
    if codes:
        tags += b"".join(struct.pack(">HHI", tag, 4, code) for tag, code in zip((28, 29), codes))
    return tags + struct.pack(">HH", 0, 0) + content
