"""Decides whether a frame that was not captured whole may carry signalling, SCTP or MTP3, by the layers that `tshark`
reads of it before the cut. If whole frames of some kind are never read, cut frames of that kind are not missed."""

SCTP_NUMBER, UDP_NUMBER = "132", "17"
SCCP_USER = 3
# These carry no packet of SCTP, though their content may quote one.
ENDS = {"tcp", "arp", "icmp", "icmpv6", "lldp", "stp"}
# Layers that each carry one other layer.
LINKS = {"eth", "sll", "ethertype", "vlan", "ieee8021ad", "llc", "osi"}
UNDER_IP = LINKS | {"raw", "null", "mpls", "pppoes", "ppp"}
# What tshark reads over LINKS (`tshark -G decodes`) that carries frames or packets of others: tags, tunnels and other
# links.
CARRIERS = set(
    """
    3comxns 6lowpan avsp awdl_data batadv bpq brcm-tag brdwlk btl2cap cesoeth cfp cl3 cmd comp_data crtp crtp_cntcp crtp_cs
    crtp_cudp16 crtp_cudp8 csm_encaps ddp dect ecatf ecpri esl etag exeh fcoe fr gmhdr gnw hbbak hsr idp ieee1722 ieee8021ah
    ieee8021cb ieee802a infiniband ipos irlap isi isl lapbether linx llap llt lwapp lwl4 m2m macsec mausb mdshdr mint mpls
    nsh nwp ppp pppmux pppoes radiotap realtek rohc roofnet rtcfg rtmac siii tdmoe tecmp telkonet tipc trill tte tte_pcf
    vines_ip vmlab vntag wcp wlan wlan_centrino wlccp wpan wreth x25 xip
    """.split()
)
# The Ethernet types of two of them, MACsec and TDMoE. If they are cut, tshark takes them for data of an unknown type.
TAKEN_FOR_DATA = {"0x88e5", "0xd00d"}
# If one of these is over UDP, or over a link of another kind, a frame or packet of a tunnel has begun.
BEGUN = {"eth", "ethertype", "llc", "ip", "ipv6", "mpls", "ppp", "vxlan", "geneve", "teredo", "nsh"}
# The IANA numbers of the headers between IPv6 and its payload; and of protocols that carry packets of others: IP, GRE,
# Ethernet, PPP, MPLS and the like, and UDP, whose header is not read in a fragment.
EXTENSIONS = set("0 43 44 60 135 139 140".split())
TUNNELS = set("4 17 41 47 51 53 55 61 80 93 94 97 98 99 106 108 115 136 137 141 142 143 144 145 173".split())


def may_carry(layers, numbers, types, user):
    """Returns whether such a frame may carry signalling: by the names of its layers, the protocol numbers in its IP
    headers, its Ethernet types, and the user of MTP3, or None if it has none."""
    names = set(layers)
    if user is not None:
        return user == SCCP_USER
    if ENDS & names:
        return False
    if SCTP_NUMBER in numbers:
        return True
    if "udp" in names:
        return has_begun(layers[len(layers) - layers[::-1].index("udp") :])
    if first_over(UNDER_IP, layers) in ("ip", "ipv6"):
        return not numbers - EXTENSIONS or bool(TUNNELS & numbers)
    over = first_over(LINKS, layers)
    if layers[0] not in ("eth", "sll") or over is None or over == "data" and TAKEN_FOR_DATA & types:
        return True
    return over in CARRIERS or has_begun(layers[layers.index(over) :])


def has_begun(layers):
    return not BEGUN.isdisjoint(layers)


def first_over(under, layers):
    """Returns the first layer that is not in `under`, or None if the cut comes before it."""
    return next((name for name in layers if name not in under), None)
