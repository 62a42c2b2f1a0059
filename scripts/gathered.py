"""The tables of an internet, as they are gathered; its cables, routers and ports follow from what these ports announce.

What doesn't follow is left for those who can ask: a remark that begins with `ask`, at its place.
"""
from dataclasses import dataclass, field

from heard import BAD, Address, Range
from speakers import Speaker

NOBODY = Address(0, 0)


@dataclass
class Cable:
    range: Range
    wire: int | None  # None where no capture is of it
    name: str = ""
    zones: list = field(default_factory=list)
    remarks: list = field(default_factory=list)


@dataclass
class Port:
    cable: Cable
    address: Address
    hardware: str | None = None
    speaker: Speaker | None = None
    mapping: dict = field(default_factory=dict)
    remarks: list = field(default_factory=list)


@dataclass
class Row:
    range: Range
    distance: int
    port: int  # from 1
    next: Address = NOBODY
    state: str = "Good"
    remarks: list = field(default_factory=list)


@dataclass
class ZoneList:
    range: Range
    zones: list
    complete: bool = True
    remarks: list = field(default_factory=list)


@dataclass
class Router:
    ports: list
    rows: list = field(default_factory=list)
    lists: list | None = None  # None where they are those of the cables
    remarks: list = field(default_factory=list)

    def voices(self):
        """What its ports tell, those that were heard until the end, if some were."""
        return live([port.speaker for port in self.ports if port.speaker])

    def name(self):
        """What to call it: its first port that was heard."""
        return f"the router at {next((port.address for port in self.ports if port.speaker), self.ports[0].address)}"


def cables_of(wires, groups, extra):
    """The cables, by rising range: those of the captures, and those that are only heard of. A wire on which two ranges are
    announced is two cables; one on which none is has the range in its name, or else the `extra` one, with its remark."""
    cables, speakers = [], [it for group in groups for it in group.speakers]
    for place, wire in enumerate(wires):
        owns = {it.own for it in speakers if it.wire == place}
        spoken = {it.own for it in speakers if it.wire == place and not it.is_silent()}
        for own in spoken or owns:
            cables.append(Cable(own, place, wire.name))
        if not owns:
            range_, remarks = (wire.named, []) if wire.named else extra(place)
            cables += [Cable(range_, place, wire.name, remarks=remarks)] if range_ else []
    known = {cable.range for cable in cables}
    far = {range_ for it in speakers if not it.is_silent() for range_, distance in it.told.items() if distance != BAD}
    far |= {range_ for group in groups for it in live(group.speakers) for range_ in it.direct()}
    cables += [Cable(range_, None, f"no capture, {range_}") for range_ in far - known]
    return sorted(cables, key=lambda it: (it.range, -1 if it.wire is None else it.wire))


def cable_at(cables, range_, wire=None):
    """The cable of a range, on this wire if it is one; None if there is none."""
    found = [cable for cable in cables if cable.range == range_]
    return next((cable for cable in found if wire is not None and cable.wire == wire), found[0] if found else None)


class Tables:
    """What was gathered of one internet: its cables, and its routers, whose rows and lists are filled in later."""

    def __init__(self, wires, speakers, groups, cables):
        self.wires, self.speakers, self.cables = wires, speakers, cables
        self.taken = {speaker.address for speaker in speakers}
        self.routers = [self.router(group) for group in groups]
        self.routers.sort(key=lambda router: [(self.place(port.cable), port.address) for port in router.ports])

    def place(self, cable):
        return next(place for place, it in enumerate(self.cables) if it is cable)

    def router(self, group):
        """A router with the ports that were heard, and those on ranges that it announces as its own cables'."""
        ports = []
        for speaker in group.speakers:
            cable = cable_at(self.cables, speaker.own, speaker.wire)
            if cable is not None:
                ports.append(Port(cable, speaker.address, speaker.hardware, speaker))
        router = Router(ports)
        for range_ in sorted(frozenset().union(*(it.direct() for it in live(group.speakers)))):
            cable = cable_at(self.cables, range_)
            if cable is not None and all(port.cable.range != range_ for port in ports):
                ports.append(self.unheard_port(router, cable))
        ports.sort(key=lambda port: self.place(port.cable))
        self.remark_silence(router)
        if group.doubts:
            others = ", ".join(sorted(str(it.address) for it in group.doubts))
            router.remarks.append(f"ask {router.name()} for its other addresses: {others} could be among them")
        return router

    def remark_silence(self, router):
        heard = [port for port in router.ports if port.speaker]
        silent = [port for port in heard if port.speaker.is_silent()]
        if len(silent) == len(heard):
            silence = round(min(port.speaker.silence for port in heard))
            router.remarks.append(f"ask whether {router.name()} is on: it sent no routing data in the last {silence} seconds")
            return
        for port in silent:
            port.remarks.append(f"ask why {port.address} sent no routing data in the last {round(port.speaker.silence)} seconds")

    def unheard_port(self, router, cable):
        """A port that is only heard of; its address is made up."""
        address = next(Address(net, node) for net in range(cable.range.first, cable.range.last + 1) for node in range(253, 0, -1)
                       if Address(net, node) not in self.taken)
        self.taken.add(address)
        return Port(cable, address, remarks=[f"ask {router.name()} for its address on {cable.range}: this one is made up"])


def live(speakers):
    """Those that were heard until the end, or all where none was."""
    return [it for it in speakers if not it.is_silent()] or speakers
