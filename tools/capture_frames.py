"""Finds the messages in a capture, in the order in which they were sent. Reads the octets that `tshark` gives of its
frames, and follows what spans several frames: chunks of SCTP and segments of SCCP and SUA."""

import collections

import capture_sua
import signalling
from capture_sctp import Ways
from capture_shapes import EXPORT, SCCP_LINK, UDP_PORT, Shape, cut_of, octets_of
from signalling import Refused

# The greatest point code of 14 bits.
MOST_CODE = 0x3FFF

# A fault and its place; the labels that an unknown message may have, or None if it may have any; and the pairs that it
# may be of, besides its own.
Fault = collections.namedtuple("Fault", "place name why labels pairs", defaults=(None, ()))


class Address:
    """An address as the layers give it. There is one object for each address, so that addresses compare by identity.
    `name` is the address of the parts that --by looks at; `parent` leads to another address of the same end, or to
    itself."""

    __slots__ = "ni", "pc", "ssn", "gt", "side", "host", "name", "parent"

    def __init__(self, ni, pc, ssn, gt, side=None, host=None):
        self.ni, self.pc, self.ssn, self.gt, self.side, self.host = ni, pc, ssn, gt, side, host
        self.name, self.parent = None, self


class Addresses:
    """All addresses."""

    def __init__(self):
        self.known = {}

    def of(self, *parts):
        found = self.known.get(parts)
        if found is None:
            found = self.known[parts] = Address(*parts)
        return found


class Message:
    """A message of TCAP, or what was sent in place of one. Messages are sorted by place: the frame, the number in the
    frame, and a TSN among messages at the same place. `way` is that of SCTP if it has one; `hops` are the codes that
    other copies of it went between."""

    __slots__ = "place", "frames", "sender", "receiver", "octets", "fault", "way", "hops", "tag", "otid", "dtid"

    def __init__(self, place, frames, sender, receiver, octets, fault=None, way=None):
        self.place, self.frames, self.sender, self.receiver = place, frames, sender, receiver
        self.octets, self.fault, self.way, self.hops = octets, fault, way, frozenset()
        self.tag, self.otid, self.dtid = signalling.ids_of(octets)


def refuse_codes(codes):
    """Refuses point codes that are not of ITU-T."""
    for code in codes:
        if code is not None and code > MOST_CODE:
            raise Refused("pc", f"the point code {code} has over 14 bits: it is not of ITU-T")


class Reader:
    """Takes frames one after the other, and collects messages, faults, and notes."""

    def __init__(self):
        self.messages, self.faults, self.told = [], [], collections.Counter()
        # Fragments of IP with their shapes, and the hosts between which SCTP in UDP was seen.
        self.ways, self.segments, self.fragments, self.udp_hosts = Ways(), [], {}, set()
        # The ends of a message of SCCP, by its label and the octets of its addresses.
        self.addresses, self.ends = Addresses(), {}
        self.shapes, self.number, self.times = {}, 0, {}

    def fault(self, place, refused, labels=None):
        """Adds a fault of messages that may have these labels. The labels of an association are found after the last
        frame, by its hosts and the head of a packet."""
        self.faults.append(Fault(place, refused.name, refused.why, labels))

    def take(self, frame):
        """Takes the next frame."""
        self.number = int(frame.number)
        shape = self.shapes.get(frame.shape)
        if shape is None:
            shape = self.shapes[frame.shape] = Shape(frame.shape)
        if shape.is_sctp or shape.is_sccp or shape.is_exported:
            self.times[self.number] = frame.time
        place = self.number, 0, 0
        try:
            if frame.kept == frame.length or shape.is_harmless:
                self.take_whole(frame, shape, place)
            elif shape.is_packet and frame.octets:
                self.take_packet(shape.hosts, octets_of(frame, shape), cut_of(frame))
            else:
                raise cut_of(frame)
        except Refused as refused:
            self.fault(place, refused, self.scope_of(frame, shape))

    @staticmethod
    def scope_of(frame, shape):
        """Returns the labels of messages that an unreadable frame may carry."""
        if shape.label:
            return frozenset([shape.label])
        if not shape.has_hosts:
            return None
        return shape.hosts, b""

    def take_layers(self, frame, shape, place):
        """Takes the octets that tshark gives, by the layers that it found below them."""
        if shape.link == SCCP_LINK:
            raise Refused("link", "the link type SCCP, of which tshark gives no octets; one with MTP3 or M3UA is read")
        if shape.is_exported and shape.name == "tcap":
            self.take_bare(shape, octets_of(frame, shape), place)
        elif shape.is_exported and shape.name != "sccp":
            protocol = signalling.SUA if shape.name == "sua" else signalling.M3UA
            self.take_adapted(protocol, octets_of(frame, shape), place, (self.number,))
        elif shape.is_exported or shape.is_sccp:
            if shape.is_mtp2:
                self.told["what MTP2 sent again is not looked for; frames of MTP2"] += 1
            self.take_sccp(shape.label, octets_of(frame, shape), place, (self.number,))
        else:
            self.leave_out(shape)

    def leave_out(self, shape):
        """Counts a frame that carries nothing that is read."""
        is_udp = shape.protocols.endswith(":udp:data")
        hint = f" (SCTP at another port than {UDP_PORT}: tshark -d udp.port==PORT,sctp {EXPORT})" if is_udp else ""
        self.told[f"left out: frames of the protocols {shape.protocols or 'that tshark does not know'}{hint}"] += 1

    def take_whole(self, frame, shape, place):
        """Takes a frame of which all that is read was captured: a packet of SCTP, a fragment, or other layers."""
        parts = frame.parts or frame.parts6
        for number in parts.split(",") if parts else ():
            self.fragments.pop(int(number), None)
        if not parts and shape.is_fragment and (shape.is_sctp or shape.is_udp_fragment):
            self.fragments[self.number] = shape
        elif shape.is_sctp:
            if shape.is_in_udp:
                self.udp_hosts.add(frozenset(shape.hosts))
            self.take_packet(shape.hosts, octets_of(frame, shape))
        else:
            self.take_layers(frame, shape, place)

    def take_packet(self, hosts, octets, cut=None):
        """Takes a packet of SCTP, or the part of one before a cut."""
        if len(octets) < signalling.SCTP_HEADER:
            raise cut or Refused("sctp", "the header of SCTP goes past the end")
        head, index = octets[:8], 0
        way = self.ways.of(hosts, head)
        try:
            for index, chunk in enumerate(signalling.chunks_of(octets), 1):
                try:
                    self.take_chunk(way, chunk, index, head)
                except Refused as refused:
                    self.fault((self.number, index, 0), refused, (hosts, head))
        except Refused as refused:
            cut = cut or refused
        if cut:
            self.fault((self.number, index + 1, 0), cut, (hosts, head))
            if label := signalling.cut_label(octets):
                way.labels.add(label)

    def take_chunk(self, way, chunk, index, head):
        """Takes a chunk of data, by its number in the packet."""
        ppid = chunk.ppid
        if ppid in signalling.OTHERS:
            name = signalling.OTHERS[ppid]
            if label := ppid == signalling.M2PA and signalling.m2pa_label(chunk.payload):
                way.labels.add(label)
            why = f"a chunk of {name} (payload protocol {ppid}), which is not read, but what tshark {EXPORT} makes of it is"
            raise Refused("adaptation", why)
        took = way.direction.took(chunk, self.number, index)
        protocol = signalling.adaptation_of(ppid, (head[:2], head[2:4]))
        if took is None:
            self.told["left out: chunks of SCTP that came again, and stand once in the files"] += 1
        elif protocol is None:
            self.told[f"left out: chunks of SCTP of the payload protocol {ppid}"] += 1
        elif whole := way.direction.whole(chunk, *took, self.number):
            place, frames, message = whole
            self.take_adapted(protocol, message, place, frames, way)

    def take_adapted(self, protocol, message, place, frames, way=None):
        """Takes a message of M3UA or SUA, of a way of SCTP if there is one."""
        if protocol == signalling.SUA:
            self.take_sua(message, place, frames, way)
        elif found := signalling.protocol_data(message):
            if way:
                way.labels.add(found[0])
            self.take_sccp(*found, place, frames, way)
        else:
            self.told["left out: messages of M3UA that carry nothing of SCCP"] += 1

    def take_sua(self, message, place, frames, way):
        """Takes a message of SUA. Its label has the point codes of its addresses, or what they have in their place."""
        found = capture_sua.unitdata(message)
        if found is None:
            self.told["left out: messages of SUA that carry no data without a connection"] += 1
            return
        parties = [capture_sua.party(address) for address in (found.calling, found.called)]
        label = signalling.Label(None, *(next(part for part in (one.pc, one.gt, one.host) if part is not None) for one in parties))
        if way:
            way.labels.add(label)
        refuse_codes(one.pc for one in parties)
        ends = [self.addresses.of(None, one.pc, one.ssn, one.gt, None, one.host) for one in parties]
        self.take_unitdata(found, label, *ends, place, frames, way)

    def take_sccp(self, label, octets, place, frames, way=None):
        """Takes a message of SCCP. If it can't be read, the fault has this label."""
        try:
            refuse_codes(label[1:] if label else ())
            found = signalling.unitdata(octets)
            if found is None:
                self.told["left out: messages of SCCP that need or make a connection, or manage it"] += 1
                return
            ends = self.ends.get((label, found.calling, found.called))
            if ends is None:
                ends = self.address_of(label, 1, found.calling), self.address_of(label, 2, found.called)
                self.ends[label, found.calling, found.called] = ends
        except Refused as refused:
            self.fault(place, refused, frozenset([label]) if label else None)
        else:
            self.take_unitdata(found, label, *ends, place, frames, way)

    def take_unitdata(self, found, label, sender, receiver, place, frames, way):
        """Takes what SCCP or SUA carries without a connection: a message of TCAP, or a segment of one."""
        if sender.ssn in signalling.NO_TCAP or receiver.ssn in signalling.NO_TCAP:
            self.told["left out: messages of SCCP of subsystems without TCAP"] += 1
        elif found.kind in signalling.SERVICE:
            self.told[f"left out: messages that came back to their sender ({signalling.NAMES[found.kind]})"] += 1
        elif found.segment is None:
            self.add(place, frames, sender, receiver, found.content, way)
        else:
            key = label, found.calling, found.segment[2]
            self.segments.append((place, frames, sender, receiver, way, key, found))

    def address_of(self, label, code, party):
        """Returns an address, by the routing label if there is one, else by SCCP alone."""
        read = signalling.party(party)
        return self.addresses.of(label and label.ni, label[code] if label else read.pc, read.ssn, read.gt)

    def put_together(self):
        """Puts together the segments of messages of SCCP, in the order in which they were sent: a chunk of SCTP may
        have been captured after a later one."""
        open_ones = {}
        for place, frames, sender, receiver, way, key, found in sorted(self.segments, key=lambda one: one[0]):
            first, left, _ = found.segment
            if first and key not in open_ones:
                open_ones[key] = [place, (), left + 1, sender, receiver, b"", way]
            elif first or key not in open_ones or open_ones[key][2] != left + 1:
                why = f"the segment with {left} behind it does not follow those before it"
                self.messages.append(Message(place, frames, sender, receiver, b"", Fault(place, "segment", why)))
                continue
            parts = open_ones[key]
            parts[1:3], parts[5] = [parts[1] + frames, left], parts[5] + found.content
            if left == 0:
                place, frames, _, sender, receiver, octets, way = open_ones.pop(key)
                self.add(place, tuple(sorted(set(frames))), sender, receiver, octets, way)
        for place, frames, _, sender, receiver, octets, _ in open_ones.values():
            fault = Fault(place, "segment", "a message of SCCP of which the last segments are missing")
            self.messages.append(Message(place, frames, sender, receiver, octets, fault))

    def take_bare(self, shape, octets, place):
        """Takes a message of TCAP alone. Its ends are known by point codes, or by whether it came in or went out."""
        if shape.label:
            ends = [self.addresses.of(None, code, None, None) for code in shape.label[1:]]
        elif shape.side:
            ends = [self.addresses.of(None, None, None, None, side) for side in shape.side]
        else:
            raise Refused("ends", "a message of TCAP alone, of which nothing says who sent it")
        self.add(place, (self.number,), *ends, octets)

    def add(self, place, frames, sender, receiver, octets, way=None):
        """Adds what SCCP or SUA carries as a whole, whatever it is: `test` says what is wrong with it. No line has no
        octets, so nothing is added if there are none."""
        if not octets:
            self.told["left out: messages without octets"] += 1
            return
        if octets[0] in signalling.ANSI:
            self.told["messages with a tag of ANSI TCAP, which `test` takes for no messages (F1)"] += 1
        self.messages.append(Message(place, frames, sender, receiver, octets, way=way))

    def close(self):
        """Adds the faults of parts that are still missing after the last frame, and finds the labels of the
        associations."""
        for number, shape in self.fragments.items():
            if shape.is_udp_fragment and frozenset(shape.hosts) not in self.udp_hosts:
                self.leave_out(shape)
            else:
                self.fault((number, 0, 0), Refused("fragment", "a fragment of IP without the others"), (shape.hosts, b""))
        for direction, labels in self.ways.all():
            for chunk, place, frame in direction.pieces.values():
                why = f"a piece of a message of SCTP without the others, TSN {chunk.tsn} in frame {frame}"
                self.fault(place, Refused("pieces", why), labels)
        found = {}
        for at, fault in enumerate(self.faults):
            if isinstance(fault.labels, tuple):
                if fault.labels not in found:
                    found[fault.labels] = frozenset(self.ways.labels_of(*fault.labels))
                self.faults[at] = fault._replace(labels=found[fault.labels])
        self.put_together()

    def gaps(self):
        """Yields a fault for each place with missing chunks of SCTP."""
        for direction, labels in self.ways.all():
            for place, count, tsn in direction.gaps():
                why = f"before it chunks of SCTP are missing in the capture, {count} from the TSN {tsn} on"
                yield Fault(place, "gap", why, labels)
