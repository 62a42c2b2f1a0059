"""The interfaces and the packets of a capture that `--capture` writes, read from its bytes by crates/pcapng/README.md."""
from typing import NamedTuple

from captures import SNAP
from heard import Bytes, Cut

SECTION, INTERFACE, PACKET = 0x0A0D0D0A, 1, 6  # types of blocks
SECTION_BODY = bytes.fromhex("1A2B3C4D00010000FFFFFFFFFFFFFFFF")  # big-endian, version 1.0, of a length that isn't told
INTERFACE_FRONT = bytes.fromhex("0001000000000000")  # Ethernet, of any length
END, COMMENT, NAME = 0, 1, 2  # options; an interface's name, and a packet's comment
KINDS = {header: kind for kind, header in SNAP.items()}


class Bad(Exception):
    """The capture isn't one, or has what none of ours has."""


class Packet(NamedTuple):
    interface: int
    time: int  # in microseconds
    target: bytes
    source: bytes
    kind: str  # ddp or aarp
    data: bytes
    comment: str  # empty where there is none


class Capture(NamedTuple):
    interfaces: list[str]
    packets: list[Packet]


def need(holds, what):
    if not holds:
        raise Bad(what)


def blocks(data):
    """The type and the body of each block."""
    read = Bytes(data)
    while read.left():
        place, kind, size = read.place, read.number(4), read.number(4)
        need(size % 4 == 0 and size >= 12, f"the block at {place} has the length {size}")
        body = read.take(size - 12)
        again = read.number(4)
        need(again == size, f"the block at {place} has the lengths {size} and {again}")
        yield kind, body


def padded(read, size):
    """So many bytes, after which zeros fill up to a multiple of four."""
    value = read.take(size)
    need(not any(read.take(-size % 4)), "what fills up isn't zero")
    return value


def options(read):
    """The options up to the end of a block: none, or some and the one that ends them."""
    found = []
    while read.left():
        code, size = read.number(2), read.number(2)
        if code == END:
            need(size == 0 and read.left() == 0 and found, "the end of the options is another one")
            return found
        found.append((code, padded(read, size)))
    need(not found, "options have no end")
    return found


def interface(body):
    """The name of an interface, which has no other option."""
    read = Bytes(body)
    front, told = read.take(8), options(read)
    need(front == INTERFACE_FRONT, f"an interface begins with {front.hex()}")
    need([code for code, _ in told] == [NAME], f"an interface has the options {told}")
    return told[0][1].decode("ascii")


def packet(body):
    """A packet, which has no option but a comment."""
    read = Bytes(body)
    number, time, held, sent = read.number(4), read.number(8), read.number(4), read.number(4)
    need(held == sent, f"of {sent} bytes {held} were kept")
    frame, told = padded(read, held), options(read)
    need([code for code, _ in told] in ([], [COMMENT]), f"a packet has the options {told}")
    comment = told[0][1].decode("ascii") if told else ""
    need(comment or not told, "a comment is empty")
    return Packet(number, time, *content(frame), comment)


def content(frame):
    """Target, source, kind and bytes of a frame."""
    read = Bytes(frame)
    target, source, size = read.take(6), read.take(6), read.number(2)
    need(size == read.left(), f"a frame has the length {size}, and {read.left()} bytes follow")
    header = read.take(8)
    need(header in KINDS, f"a frame has the LLC and SNAP header {header.hex()}")
    return target, source, KINDS[header], read.take(read.left())


def capture_in(data):
    """The capture: a section header, then all interfaces, then the packets, each on one of these."""
    capture = Capture([], [])
    try:
        whole = list(blocks(data))
        need(whole and whole[0] == (SECTION, SECTION_BODY), "no section header is at the front")
        for kind, body in whole[1:]:
            need(kind in (INTERFACE, PACKET), f"a block has the type {kind}")
            if kind == PACKET:
                capture.packets.append(packet(body))
                need(capture.packets[-1].interface < len(capture.interfaces), "a packet has no interface")
            else:
                need(not capture.packets, "an interface comes after a packet")
                capture.interfaces.append(interface(body))
    except (Cut, UnicodeDecodeError) as fault:
        raise Bad(f"a block or a field ends too early, or is no text: {fault!r}") from fault
    return capture
