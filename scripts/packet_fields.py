"""What tshark should say of a packet: its protocols, and the fields of each with their values, read from the packet's bytes by
docs/FORMATS.md and named as tshark names them. A number is an int; an address or a text, which has its length before it, bytes.
"""
from typing import NamedTuple

from heard import Bytes, Cut

LONG_ROW = 0x80  # in the distance of a row: it has a range
NO_FUNCTION, REQUEST, RESPONSE = 0, 1, 2  # functions of ATP
ONCE = 0x20  # in the control byte of ATP
ZIP_SOCKET = 6
ZONE_LISTS = (7, 8, 9)  # requests for the asker's zone, for all zones, and for those of the cable
NO_DEFAULT = 0x80  # in the flags of an answer about a cable, where the zone is one of its own


class Fields(Bytes):
    """Bytes that are read from left to right, and the fields that were found in them."""

    def __init__(self, data):
        super().__init__(data)
        self.found, self.protocols, self.sure, self.is_part = [], [], 0, False

    def add(self, name, value):
        self.found.append((name, value))
        return value

    def whole(self, name, count=1):
        return self.add(name, self.number(count))

    def raw(self, name, count):
        return self.add(name, self.take(count))

    def lettered(self, name):
        """A text with its length."""
        length = self.take(1)
        return self.add(name, length + self.take(length[0]))

    def bits(self, byte, **places):
        """Parts of a byte, each with its mask: their names have a dot where these have two strokes."""
        for name, mask in places.items():
            self.add(name.replace("__", "."), (byte & mask) // (mask & -mask))

    def need(self, holds):
        if not holds:
            raise Cut

    def rely(self):
        """The fields up to here are there, whatever follows."""
        self.sure = len(self.found)


class Meant(NamedTuple):
    protocols: list[str]
    fields: list[tuple]
    is_known: bool  # whether all of the packet is read; else tshark may say what it likes of what follows these fields
    is_part: bool  # whether it is a part of an answer that tshark takes for the whole, and then finds too short


def aarp(read):
    read.whole("aarp.hard.type", 2)
    read.whole("aarp.proto.type", 2)
    read.whole("aarp.hard.size")
    read.whole("aarp.proto.size")
    read.whole("aarp.opcode", 2)
    for end in ("src", "dst"):
        read.raw(f"aarp.{end}.hw_mac", 6)
        read.raw(f"aarp.{end}.proto_id", 4)


class End(NamedTuple):
    """Where a datagram comes from, or goes to."""
    net: int
    node: int
    socket: int


def datagram(read):
    """The header of a datagram: its source, its target and its type."""
    field = read.number(2)
    read.add("ddp.hopcount", field >> 10 & 15)
    read.add("ddp.len", field & 0x3FF)
    read.whole("ddp.checksum", 2)
    nets = [read.whole(f"ddp.{name}.net", 2) for name in ("dst", "src")]
    nodes = [read.whole(f"ddp.{name}.node") for name in ("dst", "src")]
    sockets = [read.whole(f"ddp.{name}_socket") for name in ("dst", "src")]
    target, source = (End(*parts) for parts in zip(nets, nodes, sockets))
    kind = read.whole("ddp.type")
    read.need(len(read.data) == field & 0x3FF)
    read.rely()
    return source, target, kind


def routing_data(read, *_):
    """Rows with ranges; the first one has the version."""
    read.protocols.append("rtmp")
    read.whole("rtmp.net", 2)
    read.need(read.whole("nbp.nodeid.length") == 8)
    read.whole("nbp.nodeid")
    is_first = True
    while read.left() or is_first:
        read.whole("rtmp.tuple.range_start", 2)
        distance = read.number(1)
        read.need(distance & LONG_ROW)
        read.add("rtmp.tuple.dist", distance - LONG_ROW)
        read.whole("rtmp.tuple.range_end", 2)
        version = read.number(1)
        if is_first:
            read.add("rtmp.version", version)
        is_first = False


def routing_request(read, *_):
    read.protocols.append("rtmp")
    read.need(read.whole("rtmp.function") in (1, 2, 3))


def names(read, *_):
    read.protocols.append("nbp")
    info = read.whole("nbp.info")
    read.bits(info, nbp__op=0xF0, nbp__count=0x0F)
    read.need(1 <= info >> 4 <= 4)
    read.whole("nbp.tid")
    for _ in range(info & 15):
        read.whole("nbp.net", 2)
        for name in ("node", "port", "enum"):
            read.whole(f"nbp.{name}")
        for name in ("object", "type", "zone"):
            read.lettered(f"nbp.{name}")


def zones(read, *_):
    """A packet of ZIP, but for those of transactions."""
    read.protocols.append("zip")
    function = read.whole("zip.function")
    read.need(function in ZIP)
    ZIP[function](read, function)


def zone_query(read, _function):
    for _ in range(read.whole("zip.network_count")):
        read.whole("zip.network", 2)


def zone_reply(read, function):
    """The zones of networks. An extended reply (8) says how many zones its network has, of which others may have the rest."""
    total, count = read.whole("zip.network_count"), 0
    while read.left():
        read.whole("zip.network", 2)
        read.lettered("zip.zone_name")
        count += 1
    read.need(count == total or count < total and function == 8)
    read.is_part = count < total


def cable_question(read, _function):
    read.raw("zip.zero_value", 1)
    read.raw("zip.zero_value", 4)
    read.lettered("zip.zone_name")


def cable_info(read, _function):
    flags = read.number(1)
    read.bits(flags, zip__flags=0xC0, zip__flags__zone_invalid=0x80, zip__flags__use_broadcast=0x40,
              zip__flags__only_one_zone=0x20)
    read.whole("zip.network_start", 2)
    read.whole("zip.network_end", 2)
    read.lettered("zip.zone_name")
    read.raw("zip.multicast_address", read.whole("zip.multicast_length"))
    if flags & NO_DEFAULT:
        read.lettered("zip.default_zone")


ZIP = {1: zone_query, 2: zone_reply, 5: cable_question, 6: cable_info, 8: zone_reply}


def transaction(read, source, target, asked):
    """A packet of ATP. Its data are known where they ask for a list of zones, or answer that. tshark takes all packets with the
    same two ends and the same number for those of one transaction, which is what its first request asks for, and a packet
    without a function for a request."""
    read.protocols.append("atp")
    control = read.whole("atp.ctrlinfo")
    function = control >> 6
    read.bits(control, atp__function=0xC0, atp__xo=ONCE, atp__eom=0x10, atp__sts=0x08)
    if function == REQUEST and control & ONCE:
        read.bits(control, atp__treltimer=0x07)
    read.whole("atp.bitmap")
    number = read.whole("atp.tid", 2)
    read.need(read.left() >= 4)
    read.rely()
    if function in (NO_FUNCTION, REQUEST) and target.socket == ZIP_SOCKET:
        list_function = read.data[read.place]
        read.need(asked.setdefault((source, target, number), list_function) == list_function)
        read.need(function == REQUEST)
        zone_list_request(read)
    else:
        read.need(function == RESPONSE and asked.get((target, source, number)) in ZONE_LISTS)
        zone_list_page(read)


def zone_list_request(read):
    read.protocols.append("zip")
    read.need(read.whole("zip.atp_function") in ZONE_LISTS)
    read.raw("zip.zero_value", 1)
    read.whole("zip.start_index", 2)


def zone_list_page(read):
    read.protocols.append("zip")
    read.whole("zip.last_flag")
    read.raw("zip.zero_value", 1)
    for _ in range(read.whole("zip.count", 2)):
        read.lettered("zip.zone_name")


def rest(read, *_):
    """Data of which nothing more is said."""
    if read.left():
        read.protocols.append("data")
        read.raw("data.data", read.left())


INNER = {1: routing_data, 2: names, 3: transaction, 5: routing_request, 6: zones}
UNKNOWN = {88}  # types of datagrams that tshark knows, and this doesn't


def meant(kind, data, asked):
    """What tshark should say of a packet, as far as it is known. What was asked for before is by the two ends and the number of
    each transaction; what this packet asks for is added."""
    read = Fields(data)
    read.protocols = ["eth", "llc", kind]
    try:
        if kind == "aarp":
            aarp(read)
        else:
            source, target, inner = datagram(read)
            read.need(inner not in UNKNOWN)
            INNER.get(inner, rest)(read, source, target, asked)
        read.need(not read.left())
    except Cut:
        return Meant(read.protocols, read.found[:read.sure], False, False)
    return Meant(read.protocols, read.found, True, read.is_part)
