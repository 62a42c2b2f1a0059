"""Frames of EtherTalk and their packets, read and made, as far as the checks need them."""
import struct
from typing import NamedTuple, Optional

ALL = bytes.fromhex("090007FFFFFF")  # every AppleTalk station of a cable
DDP, AARP = bytes.fromhex("080007809B"), bytes.fromhex("00000080F3")
REQUEST, RESPONSE, PROBE = 1, 2, 3  # of AARP


class Addr(NamedTuple):
    """An address; network 0 is the own cable, and node 255 all of its stations."""

    net: int
    node: int

    def __str__(self):
        return f"{self.net}.{self.node}"


def addr(text: str) -> Addr:
    net, node = text.split(".")
    return Addr(int(net), int(node))


class Resolution(NamedTuple):
    """An AARP packet: who has an address, or asks for it."""

    function: int
    hardware: bytes
    source: Addr
    target: Addr


class Datagram(NamedTuple):
    hops: int
    target: Addr
    source: Addr
    target_socket: int
    source_socket: int
    kind: int
    data: bytes


class Frame(NamedTuple):
    """A frame, and the packet in it that could be read."""

    target: bytes
    source: bytes
    resolution: Optional[Resolution]
    datagram: Optional[Datagram]


def resolution_of(body: bytes) -> Optional[Resolution]:
    if len(body) < 28:
        return None
    function, hardware, _, net, node, _, _, target_net, target_node = struct.unpack(">H6sBHB6sBHB", body[6:28])
    return Resolution(function, hardware, Addr(net, node), Addr(target_net, target_node))


def datagram_of(body: bytes) -> Optional[Datagram]:
    if len(body) < 13:
        return None
    head, _, net, source_net, node, source_node, socket, source_socket, kind = struct.unpack(">HHHHBBBBB", body[:13])
    length = head & 0x3FF
    return Datagram(head >> 10 & 15, Addr(net, node), Addr(source_net, source_node), socket, source_socket, kind, body[13:length])


def frame_of(data: bytes) -> Frame:
    protocol, body = data[17:22], data[22:]
    is_snap = data[14:17] == b"\xaa\xaa\x03"
    resolution = resolution_of(body) if is_snap and protocol == AARP else None
    datagram = datagram_of(body) if is_snap and protocol == DDP else None
    return Frame(data[:6], data[6:12], resolution, datagram)


def get_net_info(zone: str) -> bytes:
    """A node's question about its cable."""
    return bytes([5, 0, 0, 0, 0, 0, len(zone)]) + zone.encode()


class NetInfo(NamedTuple):
    """What a node is told of its cable."""

    flags: int
    first: int
    last: int
    zone: str
    group: bytes
    default: str


def net_info_of(data: bytes) -> Optional[NetInfo]:
    if len(data) < 8 or data[0] != 6:
        return None
    flags, first, last = struct.unpack(">BHH", data[1:6])
    zone, rest = data[7 : 7 + data[6]], data[7 + data[6] :]
    group, rest = rest[1 : 1 + rest[0]], rest[1 + rest[0] :]
    default = rest[1 : 1 + rest[0]] if rest else b""
    return NetInfo(flags, first, last, zone.decode(), group, default.decode())


class Distance(NamedTuple):
    """A tuple of routing data."""

    first: int
    last: int
    distance: int


def distances_of(data: bytes) -> list[Distance]:
    """What routing data tells, after its router's address: first the range of the cable on which it was sent."""
    at, found = 2 + 1 + data[2] // 8, []
    while at + 3 <= len(data):
        net, distance = struct.unpack_from(">HB", data, at)
        extended = bool(distance & 0x80) and at + 6 <= len(data)
        last = struct.unpack_from(">H", data, at + 3)[0] if extended else net
        found.append(Distance(net, last, distance & 0x1F))
        at += 6 if extended else 3
    return found


def broadcast_request(asker: Addr, socket: int, kind: str, zone: str) -> bytes:
    """A question for all names of a type in a zone, whose answers go to the asker's socket."""
    texts = b"".join(bytes([len(text)]) + text.encode() for text in ("=", kind, zone))
    return bytes([0x11, 1]) + struct.pack(">HBBB", asker.net, asker.node, socket, 0) + texts


def objects_of(data: bytes) -> list[str]:
    """The objects of the names in a lookup reply."""
    at, found = 2, []
    for _ in range(data[0] & 15):
        at += 5
        texts = []
        for _ in range(3):
            texts.append(data[at + 1 : at + 1 + data[at]].decode())
            at += 1 + data[at]
        found.append(texts[0])
    return found
