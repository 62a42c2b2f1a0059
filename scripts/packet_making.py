"""Packets made by chance, valid ones, and the values that make faults of their bytes."""
import random

from packet_reading import checksum

NETWORKS = [0, 1, 2, 9, 10, 19, 20, 29, 30, 255, 256, 258, 0x7FFF, 0x8000, 0xFEFE, 0xFEFF, 0xFF00, 0xFFFF]
BYTES = [0, 1, 2, 3, 4, 5, 6, 7, 8, 9, 10, 15, 16, 31, 32, 33, 63, 64, 126, 127, 128, 129, 130, 253, 254, 255]
LETTERS = b"aAbBzZ@[`{=*~ 19"
ANY_LETTERS = LETTERS + bytes([0xC5, 0xC4, 0xE5, 0xE1, 0xC1, 0x00, 0x1F, 0x7F, 0x22, 0x5C])


class Chance(random.Random):
    """Values of fields: mostly such as lie at a bound."""

    def byte(self) -> int:
        return self.choice(BYTES) if self.random() < 0.7 else self.randrange(256)

    def network(self) -> int:
        return self.choice(NETWORKS) if self.random() < 0.7 else self.randrange(65536)

    def two(self) -> bytes:
        return self.network().to_bytes(2, "big")

    def some(self, most: int) -> bytes:
        """Bytes of any value, with runs of one value among them."""
        made = b""
        while len(made) < most and self.random() < 0.8:
            made += bytes([self.byte()]) * self.choice([1, 1, 1, 2, 7, 8, 9, 40])
        return made[:most]

    def length(self, least: int) -> int:
        return max(least, self.choice([0, 1, 1, 2, 3, 4, 5, 8, 11, 31, 32]))

    def text(self, least: int, letters: bytes = ANY_LETTERS) -> bytes:
        return bytes(self.choice(letters) for _ in range(self.length(least)))

    def name(self) -> bytes:
        """A zone's name."""
        name = self.text(1, LETTERS)
        return b"**" if name == b"*" else name

    def range(self) -> tuple[int, int]:
        """A valid range."""
        ends = sorted(min(max(self.network(), 1), 0xFEFF) for _ in range(2))
        return ends[0], ends[1]


def counted(text: bytes) -> bytes:
    return bytes([len(text)]) + text


def datagram(chance: Chance) -> bytes:
    data = chance.choice([b"", b"\x01", b"\x02", b"\x01ping", chance.some(586), chance.some(60)])
    front = chance.two() + chance.two() + bytes(chance.byte() for _ in range(2))
    sockets = bytes(chance.choice([4, chance.byte()]) for _ in range(3))
    body = front + sockets + data
    field = chance.choice([0, checksum(body), checksum(body), chance.network()])
    length = 13 + len(data) + 1024 * chance.choice([0, 0, 1, 2, 15]) + 16384 * chance.choice([0, 0, 0, 1, 3])
    return length.to_bytes(2, "big") + field.to_bytes(2, "big") + body + chance.choice([b"", b"", b"\x01", b"\x55" * 20])


def aarp(chance: Chance) -> bytes:
    ends = b"".join(chance.randbytes(6) + bytes([chance.choice([0, 0, 255])]) + chance.two() + bytes([chance.byte()]) for _ in range(2))
    return bytes.fromhex("0001809B060400") + bytes([chance.choice([1, 2, 3])]) + ends + chance.choice([b"", b"", b"\xAA" * 18])


def extended(chance: Chance, is_first: bool) -> bytes:
    start, end = chance.range()
    distance = 0 if is_first else chance.choice([0, 1, 14, 15, 30, 31])
    third = 0x80 + distance + chance.choice([0, 0, 0x20, 0x40, 0x60])
    last = 0x82 if is_first else chance.choice([0x82, 0x82, 0, chance.byte()])
    return start.to_bytes(2, "big") + bytes([third]) + end.to_bytes(2, "big") + bytes([last])


def rtmp(chance: Chance) -> bytes:
    made = chance.two() + bytes([8, chance.byte()]) + extended(chance, True)
    for _ in range(chance.choice([0, 1, 2, 3, 8])):
        nonextended = chance.two() + bytes([chance.byte() % 128])
        made += nonextended if chance.random() < 0.3 else extended(chance, False)
    return made


def atp(chance: Chance) -> bytes:
    control = chance.choice([0x40, 0x80, 0xC0]) + chance.randrange(64)
    part = chance.randrange(8) if control // 64 == 2 else chance.byte()
    return bytes([control, part]) + chance.two() + chance.randbytes(4) + chance.choice([b"", b"hi", chance.some(60), chance.some(578)])


def nbp(chance: Chance) -> bytes:
    function = chance.choice([1, 2, 3, 3, 4])
    count = chance.choice([1, 2, 3]) if function == 3 else 1
    made = bytes([function * 16 + count, chance.byte()])
    for _ in range(count):
        made += chance.two() + bytes(chance.byte() for _ in range(3))
        made += counted(chance.text(1)) + counted(chance.text(1)) + counted(chance.text(0))
    return made + chance.choice([b"", b"", b"\xFF\x00"])


def entries(chance: Chance, one_network: bool, least: int) -> bytes:
    first, made = chance.two(), b""
    for _ in range(max(least, chance.choice([0, 1, 2, 3]))):
        made += (first if one_network else chance.two()) + counted(chance.name())
    return made


def zip_packet(chance: Chance) -> bytes:
    function = chance.choice([1, 2, 5, 6, 6, 8, 8])
    if function == 1:
        count = chance.choice([0, 1, 2, 3, 9])
        return bytes([1, count]) + b"".join(chance.two() for _ in range(count)) + chance.choice([b"", b"\x00\x01\x02"])
    if function == 5:
        return bytes([5]) + chance.choice([bytes(5), chance.randbytes(5)]) + counted(chance.text(0)) + chance.choice([b"", b"\x09"])
    if function == 6:
        flags = chance.choice([0x00, 0x20, 0x80, 0xA0, 0xC0, 0x7F, 0xFF])
        default = counted(chance.name()) if flags >= 0x80 else b""
        front = bytes([6, flags]) + chance.two() + chance.two() + counted(chance.text(0))
        return front + b"\x06" + chance.randbytes(6) + default + chance.choice([b"", b"", b"\x00"])
    return bytes([function, chance.byte()]) + entries(chance, function == 8, function // 8)


MAKERS = {
    "datagram": datagram, "echo": datagram, "AARP": aarp, "RTMP": rtmp, "ATP": atp, "NBP": nbp, "ZIP": zip_packet,
}
