"""Runs `tshark` for the layers below SCTP and SCCP: the frames of a capture, and what their fields say."""

import collections
import io
import os
import subprocess
import tempfile

import signalling
from capture_cuts import SCCP_USER, SCTP_NUMBER, UDP_NUMBER, may_carry
from signalling import Refused

# The fields that tshark is asked for. The fields after the octets are equal in many frames: they are a frame's shape.
FIELDS = {
    "number": "frame.number",
    "time": "frame.time_epoch",
    "length": "frame.len",
    "kept": "frame.cap_len",
    "parts": "ip.fragment",
    "parts6": "ipv6.fragment",
    "octets": "data.data",
    "link": "frame.encap_type",
    "protocols": "frame.protocols",
    "way": "frame.packet_flags_direction",
    "ip": "ip.proto",
    "ipv6": "ipv6.nxt",
    "hops": "ipv6.hopopts.nxt",
    "options": "ipv6.dstopts.nxt",
    "routing": "ipv6.routing.nxt",
    "pieces": "ipv6.fraghdr.nxt",
    "type": "eth.type",
    "tagged": "vlan.etype",
    "cooked": "sll.etype",
    "snap": "llc.type",
    "more": "ip.flags.mf",
    "more6": "ipv6.fraghdr.more",
    "offset": "ip.frag_offset",
    "offset6": "ipv6.fraghdr.offset",
    "source": "ip.src",
    "source6": "ipv6.src",
    "target": "ip.dst",
    "target6": "ipv6.dst",
    "udp": "udp.srcport",
    "to_udp": "udp.dstport",
    "user": "mtp3.service_indicator",
    "network": "mtp3.network_indicator",
    "opc": "mtp3.opc",
    "dpc": "mtp3.dpc",
    "name": "exported_pdu.prot_name",
    "from": "exported_pdu.ss7_opc",
    "to": "exported_pdu.ss7_dpc",
}
OWN = list(FIELDS).index("link")
# With these disabled, tshark gives their octets whole, as data.
UNREAD = ["sctp", "m3ua", "sua", "sccp", "tcap"]
# The port of SCTP in UDP (RFC 6951), and how tshark is told to read nothing over it.
UDP_PORT = "9899"
AS_DATA = f"udp.port=={UDP_PORT},data"
NEXT_HEADERS = "ip", "ipv6", "hops", "options", "routing", "pieces"
TYPES = "type", "tagged", "cooked", "snap"
SCCP_LINK = "101"
# The protocols of PDUs that Wireshark exported that are read, and how tshark exports those that are not read otherwise.
EXPORTED = "tcap", "sccp", "m3ua", "sua"
EXPORT = "-U 'OSI layer 3' -w NEW"

Frame = collections.namedtuple("Frame", [*list(FIELDS)[:OWN], "shape"])


class Shape:
    """What frames have in common if their fields from the link on are equal."""

    def __init__(self, text):
        fields = dict(zip(list(FIELDS)[OWN:], text.split("\t")))
        self.link, self.protocols, self.name = fields["link"], fields["protocols"], fields["name"]
        layers = self.protocols.split(":")
        self.hosts = (fields["source"], fields["source6"]), (fields["target"], fields["target6"])
        self.has_hosts = any(map(any, self.hosts))
        numbers, types = (set(",".join(fields[name] for name in names).split(",")) - {""} for names in (NEXT_HEADERS, TYPES))
        is_quoted = not {"icmp", "icmpv6"}.isdisjoint(layers)
        has_data = layers[-1] == "data" and not is_quoted
        ports = [fields[name].split(",")[-1] for name in ("udp", "to_udp")]
        is_by_port = UDP_PORT in ports and not is_quoted
        self.is_in_udp = is_by_port and layers[-2:] == ["udp", "data"]
        self.is_sctp = self.is_in_udp or SCTP_NUMBER in numbers and has_data
        last = {name: fields[name].split(",")[-1] for name in ("more", "more6", "offset", "offset6")}
        self.is_fragment = not {"", "0", "False"}.issuperset(last.values())
        self.is_packet = self.is_sctp and not self.is_fragment
        # The whole datagram is in the last fragment.
        self.is_udp_fragment = self.is_fragment and UDP_NUMBER in numbers and has_data and "udp" not in layers
        self.is_exported = "exported_pdu" in layers and self.name in EXPORTED
        self.side = {1: ("far", "near"), 2: ("near", "far")}.get(int(fields["way"] or "0", 0) & 3)
        user = int(fields["user"], 0) if fields["user"] else None
        self.is_sccp, self.is_mtp2 = user == SCCP_USER, "mtp2" in layers
        # A header of UDP that was cut has no port.
        is_udp = is_by_port or layers[-1] == "udp" and "" in ports
        self.is_harmless = not (is_udp or may_carry(layers, numbers, types, user))
        self.label = None
        if self.is_exported and fields["from"] and fields["to"]:
            self.label = signalling.Label(None, int(fields["from"]), int(fields["to"]))
        elif self.is_sccp and fields["opc"] and fields["dpc"]:
            codes = [int(fields[name].split(",")[-1], 0) for name in ("network", "opc", "dpc")]
            self.label = signalling.Label(*codes)


def octets_of(frame, shape):
    """Returns the octets that tshark gives of a frame: the content above the layers that it reads."""
    try:
        return bytes.fromhex(frame.octets.replace(":", ""))
    except ValueError:
        why = f"tshark does not give one row of octets, of the protocols {shape.protocols}"
        raise Refused("frame", why) from None


def cut_of(frame):
    """Returns the fault of a frame that was not captured whole."""
    return Refused("cut", f"{frame.kept} octets of {frame.length} were captured")


def frames_of(path):
    """Yields the frames of a capture. Raises Refused if tshark can't go on."""
    words = ["tshark", "-n", "-r", path, "-T", "fields"]
    words += [word for how in ("separator=/t", "occurrence=a", "aggregator=,") for word in ("-E", how)]
    words += [word for name in UNREAD for word in ("--disable-protocol", name)] + ["-d", AS_DATA]
    words += [word for field in FIELDS.values() for word in ("-e", field)]
    with tempfile.TemporaryDirectory() as folder, tempfile.TemporaryFile() as said:
        # The preferences of the user who runs it are ignored.
        env = os.environ | {"WIRESHARK_CONFIG_DIR": folder}
        how = {"encoding": "utf-8", "errors": "replace", "newline": "\n"}
        with subprocess.Popen(words, stdout=subprocess.PIPE, stderr=said, env=env) as run:
            for line in io.TextIOWrapper(run.stdout, **how):
                yield Frame._make(line[:-1].split("\t", OWN))
        if run.returncode:
            said.seek(0)
            lines = said.read().decode(errors="replace").splitlines()
            why = " ".join(line for line in lines if not line.startswith("Running as"))
            raise Refused("capture", why or f"tshark ended with the status {run.returncode}")
