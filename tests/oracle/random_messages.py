"""Makes random messages of the grammar of docs/FORMAT.md, the same in every run, for tests/captures.py."""

import random

SEED = 773
DIALOGUE, UNIDIALOGUE = bytes.fromhex("060700118605010101"), bytes.fromhex("060700118605010201")


class Maker:
    """Makes messages. Lengths are the shortest, padded, or indefinite."""

    def __init__(self, seed=SEED):
        self.random = random.Random(seed)

    def element(self, tag, *contents, plain=False):
        """Returns an element of that tag around these."""
        content = b"".join(contents)
        form = self.random.randrange(10)
        if form == 0 and tag & 0x20 and not plain:
            return bytes([tag, 0x80]) + content + b"\0\0"
        size = len(content)
        octets = (size.bit_length() + 7) // 8 or 1
        if form == 1 and not plain:
            octets = self.random.randint(octets, 4)
        elif size < 0x80:
            return bytes([tag, size]) + content
        return bytes([tag, 0x80 | octets]) + size.to_bytes(octets, "big") + content

    def octets(self, least, most):
        return self.random.randbytes(self.random.randint(least, most))

    def maybe(self, make, *given):
        """Returns what `make` returns, or nothing."""
        return make(*given) if self.random.random() < 0.5 else b""

    def number(self, tag, most=127):
        return self.element(tag, bytes([self.random.randint(0, most)]))

    def small(self):
        """Returns a number of a dialogue portion."""
        return self.number(2, self.random.choice([1, 2, 127]))

    def name(self):
        """Returns the contents of an object identifier, with subidentifiers of up to 28 bits."""
        parts = [self.random.choice([4, 40, 83, 120])]
        parts += [self.random.getrandbits(self.random.choice([3, 7, 14, 28])) for _ in range(self.random.randint(1, 7))]
        return b"".join(self.subidentifier(part) for part in parts)

    @staticmethod
    def subidentifier(value):
        octets = [value & 127]
        while value := value >> 7:
            octets.append(value & 127 | 128)
        return bytes(reversed(octets))

    def parameter(self, depth=0):
        """Returns any one element."""
        if depth == 3 or self.random.random() < 0.5:
            return self.element(self.random.choice([0x04, 0x0A, 0x80, 0x81, 0x9E]), self.octets(0, 20))
        tag = self.random.choice([0x30, 0xA0, 0xA3])
        return self.element(tag, *(self.parameter(depth + 1) for _ in range(self.random.randint(0, 3))))

    def external(self):
        return self.element(0x28, self.element(6, self.name()), self.element(0xA0, self.parameter()))

    # ---- dialogue portions

    def information(self):
        return self.element(0xBE, *(self.external() for _ in range(self.random.randint(1, 2))))

    def context(self):
        return self.element(0xA1, self.element(6, self.name()))

    def version(self):
        return self.element(0x80, b"\x07\x80")

    def dialogue(self, pdu):
        """Returns a dialogue portion with that PDU."""
        if pdu in ("AARQ", "AUDT"):
            parts = [self.maybe(self.version), self.context(), self.maybe(self.information)]
            inner = self.element(0x60, *parts)
        elif pdu == "AARE":
            diagnostic = self.element(0xA3, self.element(self.random.choice([0xA1, 0xA2]), self.small()))
            parts = [self.maybe(self.version), self.context(), self.element(0xA2, self.small()), diagnostic]
            inner = self.element(0x61, *parts, self.maybe(self.information))
        else:
            inner = self.element(0x64, self.number(0x80, 1), self.maybe(self.information))
        syntax = UNIDIALOGUE if pdu == "AUDT" else DIALOGUE
        return self.element(0x6B, self.element(0x28, syntax, self.element(0xA0, inner)))

    # ---- components

    def invoke_id(self, tag=2):
        return self.element(tag, self.octets(1, 1))

    def code(self):
        """Returns a local code of one octet, or of two that need both; or a global one."""
        if self.random.random() < 0.2:
            return self.element(6, self.name())
        longer = bytes([self.random.randint(1, 126)]) + self.octets(1, 1)
        return self.element(2, self.random.choice([self.octets(1, 1), longer]))

    def component(self):
        kind = self.random.choice([0xA1, 0xA1, 0xA2, 0xA3, 0xA4, 0xA7])
        if kind == 0xA1:
            parts = [self.invoke_id(), self.maybe(self.invoke_id, 0x80), self.code(), self.maybe(self.parameter)]
        elif kind == 0xA3:
            parts = [self.invoke_id(), self.code(), self.maybe(self.parameter)]
        elif kind == 0xA4:
            whose = self.invoke_id() if self.random.random() < 0.8 else self.element(5)
            parts = [whose, self.number(self.random.randint(0x80, 0x83), 7)]
        else:
            parts = [self.invoke_id(), self.maybe(lambda: self.element(0x30, self.code(), self.maybe(self.parameter)))]
        return self.element(kind, *parts)

    def components(self):
        return self.element(0x6C, *(self.component() for _ in range(self.random.randint(1, 4))))

    # ---- messages

    def transaction(self, tag):
        return self.element(tag, self.octets(1, 4))

    def message(self):
        """Returns a message of one of the five kinds."""
        kind = self.random.choice([0x61, 0x62, 0x62, 0x64, 0x64, 0x65, 0x65, 0x67, 0x67])
        otid = self.transaction(0x48) if kind in (0x62, 0x65) else b""
        dtid = self.transaction(0x49) if kind in (0x64, 0x65, 0x67) else b""
        if kind == 0x61:
            return self.element(kind, self.maybe(self.dialogue, "AUDT"), self.components())
        if kind == 0x67:
            tails = self.number(0x4A), self.number(0x4A, 4), self.dialogue("ABRT"), self.dialogue("AARE"), b""
            return self.element(kind, dtid, self.random.choice(tails))
        pdu = "AARQ" if kind == 0x62 else "AARE"
        return self.element(kind, otid, dtid, self.maybe(self.dialogue, pdu), self.maybe(self.components))
