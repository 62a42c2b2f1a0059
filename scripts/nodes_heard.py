"""The nodes of an internet, as far as they were heard: their addresses, zones, routers and names; and the hardware addresses
that stations learnt.
"""
from dataclasses import dataclass, field

from gathered import Cable
from heard import (BROADCAST, PROBE, REPLY, RESPONSE, Aarp, Address, Cut, Datagram, ListRequest, Range, cable_info,
                   cable_question, names, zone_list)
from zones_heard import ANY

NOBODY = Address(0, 0)
STARTUP = 0xFF00  # the first network of the startup range, from which nobody is reached
PROBES_END = 1.0  # seconds after its last probe in which a station hasn't settled
FORGOTTEN = 50.0  # seconds after which a node forgets a router that it doesn't hear
MOST_NAMES = 32
MADE_UP = b"?"  # a zone


@dataclass
class Node:
    cable: Cable
    address: Address
    hardware: str
    zone: bytes = b""
    router: Address | None = None
    names: list = field(default_factory=list)
    mapping: dict = field(default_factory=dict)
    remarks: list = field(default_factory=list)


@dataclass
class Station:
    """A hardware address on a wire, with an address that it sends from."""
    first: float
    last: float = 0.0


def sender_address(frame):
    """The address from which a frame's own sender sends its datagram; None where another station made it."""
    data = frame.packet
    if isinstance(data, Datagram) and data.hops == 0 and 1 <= data.source.node <= 253 and 0 < data.source.net < STARTUP:
        return data.source
    return None


def stations_of(frames, at_home):
    """Who sends, by wire, hardware address and address; addresses that a station has left since are left out."""
    found = {}
    for frame in frames:
        address = sender_address(frame)
        if address and at_home(frame.wire, address):
            station = found.setdefault((frame.wire, frame.sender, address), Station(frame.time))
            station.last = frame.time
    return [key for key, it in found.items()
            if not any(later.first > it.last and is_one(other, key) for other, later in found.items())]


def is_one(one, other):
    """Whether two are of one wire and have the same hardware address or the same address."""
    return one[0] == other[0] and (one[1] == other[1] or one[2] == other[2])


def guessed_range(frames, wire):
    """A range for a cable without routers: what a node was told of it, or the networks of those that send there."""
    nets = {address.net for frame in frames if frame.wire == wire for address in [sender_address(frame)] if address}
    if not nets:
        return None, []
    range_ = Range(min(nets), max(nets))
    return range_, [f"ask for the range of this cable: no router was heard, and {range_} are the networks of those that send"]


class Nodes:
    """What was heard of nodes."""

    def __init__(self, tables, frames):
        self.tables, self.frames = tables, frames
        self.zones, self.asked, self.routers, self.names, self.mappings, self.probes = {}, {}, {}, {}, {}, {}
        for frame in frames:
            try:
                self.hear(frame)
            except Cut:
                pass
        self.fill_cables()
        self.nodes = self.settled() + self.unsettled()
        self.nodes.sort(key=lambda node: (tables.place(node.cable), node.address, node.hardware))

    def hear(self, frame):
        data = frame.packet
        if isinstance(data, Aarp):
            self.hear_aarp(frame)
        elif data.kind == 6 and data.hops == 0:
            self.hear_zone(frame)
        elif data.kind == 2:
            self.hear_names(frame)
        if isinstance(data, Datagram):
            self.hear_router(frame)

    def hear_aarp(self, frame):
        if frame.packet.function == RESPONSE:
            self.mappings.setdefault((frame.wire, frame.receiver), {})[frame.packet.sender] = frame.packet.hardware
        elif frame.packet.function == PROBE:
            self.probes[frame.wire, frame.sender] = frame.time

    def hear_zone(self, frame):
        """What a node asks about its cable is its zone, unless the answer has a default zone."""
        zone, info = cable_question(frame.packet.data), cable_info(frame.packet.data)
        if zone is not None:
            self.asked[frame.wire, frame.sender] = zone
            if zone not in ANY:
                self.zones.setdefault((frame.wire, frame.sender), zone)
        elif info is not None:
            for (wire, hardware), asked in self.asked.items():
                is_for = frame.receiver == hardware or int(frame.receiver[:2], 16) % 2 == 1
                if wire == frame.wire and is_for and asked.upper() == info.zone.upper():
                    self.zones[wire, hardware] = info.default or info.zone

    def hear_names(self, frame):
        operation, tuples = names(frame.packet.data)
        if operation == REPLY:
            for it in tuples:
                self.names.setdefault(it.address, {})[it.object.upper(), it.type.upper()] = it

    def hear_router(self, frame):
        """A node's router is the one to which it sends what is for other cables, and what it asks routers."""
        data, speaker = frame.packet, self.speaker(frame.wire, frame.receiver)
        if speaker is None or data.hops != 0:
            return
        asks = data.kind == 2 and data.data[:1] and data.data[0] >> 4 == BROADCAST
        asks |= data.kind == 3 and data.target_socket == 6 and isinstance(zone_list(data.data), ListRequest)
        if asks or not speaker.own.holds(data.target.net):
            self.routers[frame.wire, frame.sender] = speaker

    def speaker(self, wire, hardware):
        return next((it for it in self.tables.speakers if (it.wire, it.hardware) == (wire, hardware)), None)

    def cable(self, wire, address):
        return next((it for it in self.tables.cables if it.wire == wire and it.range.holds(address.net)), None)

    def settled(self):
        """The nodes that have an address."""
        ports = {(it.wire, it.hardware, it.address) for it in self.tables.speakers}
        found = stations_of(self.frames, lambda wire, address: self.cable(wire, address))
        nodes = [self.node(*key) for key in found if key not in ports]
        for node in nodes:
            if sum(it.hardware == node.hardware and it.cable is node.cable for it in nodes) > 1:
                node.remarks.append(f"ask whether {node.address} is behind a bridge, which lends its hardware address; "
                                    "then leave `hardware` out")
        return nodes

    def node(self, wire, hardware, address):
        cable = self.cable(wire, address)
        node = Node(cable, address, hardware, mapping=self.mappings.get((wire, hardware), {}))
        node.names = list(self.names.get(address, {}).values())[:MOST_NAMES]
        node.router = self.router(wire, hardware, cable)
        zone = next((it.zone for it in reversed(node.names) if it.zone not in ANY), None) or self.zones.get((wire, hardware))
        if zone is None:
            zone = cable.zones[0]
            if len(cable.zones) != 1:
                node.remarks.append(f"ask the node at {address} for its zone: this is its cable's first")
        node.zone = zone
        return node

    def router(self, wire, hardware, cable):
        """The router that a node sends through, as it was seen to do, or else the one that it heard last; none where it must have
        forgotten that."""
        on = [it for it in self.tables.speakers if it.wire == wire and it.own == cable.range and it.silence <= FORGOTTEN]
        seen = self.routers.get((wire, hardware))
        if seen in on and not seen.is_silent():
            return seen.address
        return max(on, key=lambda it: it.heard).address if on else None

    def unsettled(self):
        """Stations that still probe for an address when the capture ends."""
        known = {(it.cable.wire, it.hardware) for it in self.settled()} | {(it.wire, it.hardware) for it in self.tables.speakers}
        nodes = []
        for (wire, hardware), last in self.probes.items():
            cable = next((it for it in self.tables.cables if it.wire == wire), None)
            if cable and (wire, hardware) not in known and self.tables.wires[wire].end - last < PROBES_END:
                remark = f"ask the station with the hardware address {hardware} for its address: it was still choosing one"
                zone = cable.zones[0]
                mapping = self.mappings.get((wire, hardware), {})
                nodes.append(Node(cable, NOBODY, hardware, zone, mapping=mapping, remarks=[remark]))
        return nodes

    def fill_cables(self):
        """Cables of which no zone was heard have those that their nodes ask for, or one that is made up."""
        for cable in self.tables.cables:
            if not cable.zones:
                asked = {zone for (wire, _), zone in self.zones.items() if wire == cable.wire}
                cable.zones = sorted(asked) or [MADE_UP]
                cable.remarks.append("no router told of them: " + ("its nodes ask for these" if asked else "this one is made up"))

    def fill_ports(self):
        """The mappings that routers' ports learnt."""
        for router in self.tables.routers:
            for port in router.ports:
                if port.speaker:
                    port.mapping = self.mappings.get((port.speaker.wire, port.hardware), {})
