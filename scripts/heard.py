"""What was heard on the cables of an AppleTalk network: the frames of captures, as tshark finds them, and what is in them.

tshark opens the captures, of whatever form, and finds the frames that have a datagram or an AARP packet; their bytes are read
here, since tshark's texts don't keep a name's bytes, nor say which tuple has which distance.
"""
import json
import os
import re
import subprocess
import sys
import tempfile
from dataclasses import dataclass
from datetime import datetime
from typing import NamedTuple

from captures import SNAP

NAMED_RANGE = re.compile(r"cable \d+, (\d+)-(\d+)")
BAD = 31  # the distance of a range that can't be reached
REQUEST, RESPONSE, PROBE = 1, 2, 3  # functions of AARP
BROADCAST, LOOKUP, REPLY, FORWARD = 1, 2, 3, 4  # operations of NBP


class Address(NamedTuple):
    net: int
    node: int

    def __str__(self):
        return f"{self.net}.{self.node}"


class Range(NamedTuple):
    first: int
    last: int

    def holds(self, net):
        return self.first <= net <= self.last

    def __str__(self):
        return f"{self.first}-{self.last}"


class Datagram(NamedTuple):
    hops: int
    target: Address
    source: Address
    target_socket: int
    source_socket: int
    kind: int
    data: bytes

    def is_same(self):
        """All of it that stays the same when a router passes it on."""
        return self[1:]


class Aarp(NamedTuple):
    function: int
    hardware: str
    sender: Address
    asker: str
    target: Address


class Frame(NamedTuple):
    time: float
    wire: int  # an index into the wires
    sender: str  # hardware addresses, as twelve hexadecimal digits
    receiver: str
    packet: Datagram | Aarp


@dataclass
class Wire:
    """What one interface of one capture heard: a cable, or a piece of one."""
    name: str
    named: Range | None  # the range in the interface's name
    end: float = 0.0  # the time of the last frame of the capture


class Tuple(NamedTuple):
    """A name as NBP has it."""
    address: Address
    socket: int
    enumerator: int
    object: bytes
    type: bytes
    zone: bytes


class Cut(Exception):
    """A packet ends before what it should have."""


class Bytes:
    """Bytes that are read from left to right."""

    def __init__(self, data):
        self.data, self.place = data, 0

    def left(self):
        return len(self.data) - self.place

    def take(self, count):
        if self.left() < count:
            raise Cut
        self.place += count
        return self.data[self.place - count : self.place]

    def number(self, count):
        return int.from_bytes(self.take(count), "big")

    def address(self):
        return Address(self.number(2), self.number(1))

    def text(self):
        return self.take(self.number(1))


def datagram(data):
    """The datagram at the front of the bytes, without the padding that follows it."""
    size = int.from_bytes(data[:2], "big")
    if len(data) < 13 or not 13 <= size % 1024 <= len(data):
        raise Cut
    read = Bytes(data[: size % 1024])
    read.take(4)
    nets, nodes = (read.number(2), read.number(2)), (read.number(1), read.number(1))
    target, source = (Address(*ends) for ends in zip(nets, nodes))
    return Datagram(size >> 10 & 15, target, source, read.number(1), read.number(1), read.number(1), read.take(read.left()))


def aarp(data):
    read = Bytes(data)
    if read.take(6) != bytes.fromhex("0001809B0604"):
        raise Cut
    function = read.number(2)
    ends = []
    for _ in ("sender", "target"):
        hardware = read.take(6).hex().upper()
        read.take(1)
        ends += [hardware, read.address()]
    return Aarp(function, *ends)


def packet(data):
    """What is in the bytes of a frame."""
    for kind, read in (("ddp", datagram), ("aarp", aarp)):
        place = data.find(SNAP[kind], 14, 32)
        if place >= 0:
            return read(data[place + 8 :])
    raise Cut


def routing_data(data):
    """Who sends routing data, its cable's range, and the distances of the other ranges."""
    read = Bytes(data)
    net, _, node = read.number(2), read.number(1), read.number(1)
    tuples = []
    while read.left() >= 3:
        first, distance = read.number(2), read.number(1)
        last = read.number(2) if distance & 0x80 else first
        if distance & 0x80:
            read.number(1)
        if first:
            tuples.append((Range(first, last), distance & 0x1F))
        else:  # the version, with which the data of a nonextended cable begin
            tuples.append((Range(net, net), 0))
    if not tuples:
        raise Cut
    return Address(net, node), tuples[0][0], dict(tuples[1:])


def names(data):
    """The operation of an NBP packet, and its names."""
    read = Bytes(data)
    head = read.number(1)
    read.number(1)
    tuples = []
    for _ in range(head & 15):
        address = read.address()
        tuples.append(Tuple(address, read.number(1), read.number(1), read.text(), read.text(), read.text()))
    return head >> 4, tuples


def zone_reply(data):
    """The number of zones in all, if it says so, and the zones of networks, of a reply to a query; None if it isn't one."""
    read = Bytes(data)
    function, count = read.number(1), read.number(1)
    if function not in (2, 8):
        return None
    entries = []
    while read.left() >= 3:
        entries.append((read.number(2), read.text()))
    return (count if function == 8 else None), entries


class CableInfo(NamedTuple):
    """An answer about a cable (NetInfoReply)."""
    range: Range
    zone: bytes
    default: bytes  # empty where the zone that was asked for is one of the cable's
    is_only: bool


def cable_question(data):
    """The zone that a question about the cable (GetNetInfo) asks for; None if it isn't one."""
    read = Bytes(data)
    if read.number(1) != 5:
        return None
    read.take(5)
    return read.text()


def cable_info(data):
    read = Bytes(data)
    if read.number(1) != 6:
        return None
    flags, first, last, zone = read.number(1), read.number(2), read.number(2), read.text()
    read.text()  # the address of the zone's group
    return CableInfo(Range(first, last), zone, read.text() if flags & 0x80 else b"", bool(flags & 0x20))


class ListRequest(NamedTuple):
    """A request for a list of zones: 7 is GetMyZone, 8 GetZoneList, 9 GetLocalZones."""
    transaction: int
    function: int
    index: int


class ListPage(NamedTuple):
    transaction: int
    is_last: bool
    zones: list[bytes]


def zone_list(data):
    """What a transaction with a router's socket for zones asks for or answers; None if it does neither."""
    read = Bytes(data)
    control = read.number(1) & 0xC0
    read.number(1)
    transaction, first, _, number = read.number(2), read.number(1), read.number(1), read.number(2)
    if control == 0x40:
        return ListRequest(transaction, first, number)
    return ListPage(transaction, first != 0, [read.text() for _ in range(number)]) if control == 0x80 else None


def value(fields, end):
    """The field whose name ends so; the beginnings differ between versions of tshark."""
    found = next((value for name, value in fields.items() if name.endswith(end)), "")
    return found[0] if isinstance(found, list) else found


def lines_of(path):
    """What tshark prints of the frames of a capture that have AppleTalk in them: a line before each, and one of it."""
    command = ["tshark", "-n", "-r", path, "-Y", "ddp || aarp", "-T", "ek", "-x", "-J", "frame"]
    with tempfile.TemporaryFile("w+") as said:
        try:
            with subprocess.Popen(command, stdout=subprocess.PIPE, stderr=said, text=True) as running:
                yield from running.stdout
        except FileNotFoundError:
            sys.exit("gather: needs tshark")
        said.seek(0)
        words = said.read().strip().splitlines()
    if running.returncode != 0:  # a capture that was cut short is read up to there
        print(f"gather: {words[-1] if words else path}", file=sys.stderr)


def frames_of(path, wires):
    """The frames of a capture; its interfaces are added to the wires."""
    seats, frames = {}, []
    for line in lines_of(path):
        layers = json.loads(line).get("layers")
        if layers is None:
            continue
        fields, raw = layers["frame"], layers["frame_raw"]
        data = bytes.fromhex(raw[0] if isinstance(raw, list) else raw)
        try:
            held = packet(data)
        except Cut:
            continue
        wire = wire_of(path, fields, seats, wires)
        frames.append(Frame(time_of(fields), wire, data[6:12].hex().upper(), data[:6].hex().upper(), held))
    for wire in seats.values():
        wires[wire].end = max(frame.time for frame in frames) if frames else 0.0
    return frames


def time_of(fields):
    """A frame's time, in seconds; some versions of tshark give a date."""
    text = value(fields, "frame_time_epoch")
    if re.fullmatch(r"[\d.]+", text):
        return float(text)
    return datetime.fromisoformat(text[:26].rstrip("Z") + "+00:00").timestamp()


def wire_of(path, fields, seats, wires):
    """The wire of a frame's interface, a new one where it is the first frame of it."""
    number, name = value(fields, "interface_id"), value(fields, "interface_name")
    if number not in seats:
        found = NAMED_RANGE.fullmatch(name)
        seats[number] = len(wires)
        title = os.path.basename(path) + (f": {name}" if name else "")
        title = "".join(letter if letter.isprintable() else "?" for letter in title)
        wires.append(Wire(title, Range(int(found[1]), int(found[2])) if found else None))
    return seats[number]


def read_captures(paths):
    """The wires, and the frames of all captures, in the order of their times."""
    wires, frames = [], []
    for path in paths:
        frames += frames_of(path, wires)
    return wires, sorted(frames, key=lambda frame: frame.time)
