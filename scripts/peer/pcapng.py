"""Blocks of pcapng, as docs/FORMATS.md has them ("The captures of a router"): written big-endian, and read so from `atalk route`."""
import struct
from typing import Iterator, NamedTuple

SECTION, INTERFACE, STATISTICS, PACKET = 0x0A0D0D0A, 1, 5, 6
ETHERNET = 1
NAME, END = 2, 0  # options of an interface


class Block(NamedTuple):
    kind: int
    body: bytes


def padded(data: bytes) -> bytes:
    return data + b"\0" * (-len(data) % 4)


def block(kind: int, body: bytes) -> bytes:
    return struct.pack(">II", kind, len(body) + 12) + body + struct.pack(">I", len(body) + 12)


def section() -> bytes:
    return block(SECTION, struct.pack(">IHHq", 0x1A2B3C4D, 1, 0, -1))


def interface(name: str) -> bytes:
    text = name.encode()
    return block(INTERFACE, struct.pack(">HHIHH", ETHERNET, 0, 0, NAME, len(text)) + padded(text) + struct.pack(">HH", END, 0))


def packet(number: int, time: int, frame: bytes) -> bytes:
    return block(PACKET, struct.pack(">IIIII", number, time >> 32, time & 0xFFFFFFFF, len(frame), len(frame)) + padded(frame))


def heartbeat(time: int) -> bytes:
    return block(STATISTICS, struct.pack(">III", 0, time >> 32, time & 0xFFFFFFFF))


def name_of(body: bytes) -> str:
    """The name of an interface, which is its first option."""
    return body[12 : 12 + struct.unpack_from(">H", body, 10)[0]].decode()


def packet_of(body: bytes) -> tuple[int, bytes]:
    """The number of its interface, and the frame of a packet."""
    length = struct.unpack_from(">I", body, 12)[0]
    return struct.unpack_from(">I", body)[0], body[20 : 20 + length]


def time_of(body: bytes) -> int:
    """The time of a packet or of a heartbeat."""
    high, low = struct.unpack_from(">II", body, 4)
    return high << 32 | low


class Reader:
    """Whole blocks of a stream that comes in pieces."""

    def __init__(self):
        self.rest = b""

    def feed(self, data: bytes) -> Iterator[Block]:
        self.rest += data
        while len(self.rest) >= 12:
            kind, length = struct.unpack_from(">II", self.rest)
            if len(self.rest) < length:
                return
            yield Block(kind, self.rest[8 : length - 4])
            self.rest = self.rest[length:]
