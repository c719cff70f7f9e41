"""Frames of a network in which all is lawful: a centre asks three registers, behind two transfer points that share the load,
and calls each by the titles of its subscribers. For tests/captures.py and bench/captures.py."""

import random

import made_captures as made

SIDE_BY_SIDE = 40
SUBSCRIBERS = 2000
CENTRE = made.address(8, gt="4917012")
# Dialogue portions that ask for a context of MAP and that take it, and an invocation and its result, of an operation of it.
REQUEST = bytes.fromhex("6b1e281c060700118605010101a011600f80020780a109060704000001001403")
RESPONSE = bytes.fromhex("6b2a2828060700118605010101a01d611b80020780a109060704000001001403a203020100a305a103020100")
FILL = bytes(55)


def element(tag, content):
    return bytes([tag, 0x81, len(content)]) + content


def invoke(number):
    return bytes([0x6C, 0x41, 0xA1, 0x3F, 2, 1, number, 2, 1, 45, 4, len(FILL)]) + FILL


def result(number):
    return bytes([0x6C, 0x43, 0xA2, 0x41, 2, 1, number, 0x30, 0x3C, 2, 1, 45, 4, len(FILL)]) + FILL


def dialogue(number):
    """The messages of a dialogue, with their ends: a Begin, two Continues and an End."""
    a, b = number.to_bytes(4, "big"), (0x40000000 + number).to_bytes(4, "big")
    yield "A", element(0x62, b"\x48\x04" + a + REQUEST + invoke(1))
    yield "B", element(0x65, b"\x48\x04" + b + b"\x49\x04" + a + RESPONSE + result(1))
    yield "A", element(0x65, b"\x48\x04" + a + b"\x49\x04" + b + invoke(2))
    yield "B", element(0x64, b"\x49\x04" + a + result(2))


def packets(count):
    """So many packets, each with the hosts between which it goes."""
    chance, tsns, begun, under_way = random.Random(1), {}, 0, []
    for _ in range(count):
        if len(under_way) < SIDE_BY_SIDE:
            under_way.append((begun % SUBSCRIBERS, list(dialogue(begun))))
            begun += 1
        at, point = chance.randrange(len(under_way)), chance.randrange(2)
        subscriber, left = under_way[at]
        end, octets = left.pop(0)
        if not left:
            under_way.pop(at)
        register = made.address(6, gt=f"49170200{subscriber % 3}")
        called = made.address(6, gt=f"4917{subscriber:07}") if octets[0] == 0x62 else register
        hosts, codes = ((1, 2 + point), (101, 901 + point)) if end == "A" else ((2 + point, 1), (901 + point, 101))
        sccp = made.udt(octets, *((called, CENTRE) if end == "A" else (CENTRE, register)))
        tsns[hosts] = tsns.get(hosts, 0) + 1
        chunk = made.data(tsns[hosts], made.m3ua(sccp, *codes))
        yield hosts, made.sctp([chunk], tag=16 * hosts[0] + hosts[1])


def frames(count):
    return [frame for hosts, packet in packets(count) for frame in made.ip(packet, hosts)]


def shaken(count):
    """The same, but that packets of one way come behind the next one of it, and come again, and that between them stand frames of
    others that are not read."""
    chance, order = random.Random(2), list(packets(count))
    for at in range(count - 1):
        if order[at][0] == order[at + 1][0] and chance.randrange(4) == 0:
            order[at : at + 2] = order[at + 1], order[at]
    carried = made.m2pa(made.mtp3(made.udt(b"", CENTRE, CENTRE), 303, 404))
    for number, (hosts, packet) in enumerate(order):
        yield from made.ip(packet, hosts)
        if chance.randrange(20) == 0:
            yield from made.ip(packet, hosts)
        if chance.randrange(50) == 0:
            yield from made.ip(made.sctp([made.data(number, carried, ppid=5)], tag=7), (8, 9))
