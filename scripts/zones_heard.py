"""The zones of cables, and what each router was told of them, from ZIP, ATP and NBP."""
from dataclasses import dataclass, field

from gathered import ZoneList
from heard import (FORWARD, LOOKUP, REPLY, Address, Cut, Datagram, ListPage, ListRequest, cable_info, names, zone_list,
                   zone_reply)

ANY = (b"", b"*")
LOCAL_ZONES = 9


@dataclass
class Told:
    """Zones of a range, as far as one router told of them, or was told of them."""
    zones: list = field(default_factory=list)
    total: int | None = None
    time: float = 0.0

    def is_complete(self):
        return self.total is not None and len(self.zones) >= self.total

    def add(self, time, total, zones):
        is_again = self.is_complete() and all(is_in(zone, self.zones) for zone in zones)
        if self.total != total or (self.is_complete() and not is_again):
            self.zones = []
        self.total, self.time = total, time
        self.zones += [zone for zone in zones if not is_in(zone, self.zones)]


def is_in(zone, zones):
    return zone.upper() in [other.upper() for other in zones]


def are_same(zones, others):
    return sorted(zone.upper() for zone in zones) == sorted(zone.upper() for zone in others)


class Zones:
    """What was heard of zones, by range."""

    def __init__(self, frames, cables):
        self.cables = cables
        self.told = {}  # by the address that told, the one that was told, and the range
        self.defaults, self.seen, self.listed = {}, {}, []
        self.requests, self.pages = {}, {}
        for frame in frames:
            if isinstance(frame.packet, Datagram):
                try:
                    self.hear(frame.time, frame.packet)
                except Cut:
                    pass

    def range_of(self, net):
        return next((cable.range for cable in self.cables if cable.range.holds(net)), None)

    def hear(self, time, data):
        if data.kind == 6 and data.source_socket == 6:
            self.hear_reply(time, data)
            self.hear_info(time, data)
        elif data.kind == 3 and 6 in (data.source_socket, data.target_socket):
            self.hear_list(time, data)
        elif data.kind == 2:
            self.hear_names(data)

    def tell(self, time, data, range_, total, zones):
        if range_:
            self.told.setdefault((data.source, data.target, range_), Told()).add(time, total, zones)

    def hear_reply(self, time, data):
        reply = zone_reply(data.data)
        if reply is None:
            return
        total, entries = reply
        nets = dict.fromkeys(net for net, _ in entries)
        for net in nets:
            zones = [zone for other, zone in entries if other == net]
            self.tell(time, data, self.range_of(net), len(zones) if total is None else total, zones)

    def hear_info(self, time, data):
        info = cable_info(data.data)
        if info is None:
            return
        zone = info.default or info.zone
        self.see(info.range, zone)
        if info.default:
            self.defaults[info.range] = info.default
        if info.is_only:
            self.tell(time, data, info.range, 1, [zone])

    def hear_list(self, time, data):
        heard = zone_list(data.data)
        if isinstance(heard, ListRequest):
            self.requests[data.source, data.source_socket, heard.transaction] = heard
        elif isinstance(heard, ListPage):
            asked = self.requests.get((data.target, data.target_socket, heard.transaction))
            if asked and asked.function == LOCAL_ZONES:
                self.hear_page(time, data, asked, heard)
            self.listed += [zone for zone in heard.zones if not is_in(zone, self.listed)]

    def hear_page(self, time, data, asked, page):
        before = [] if asked.index <= 1 else self.pages.get((data.source, data.target), [])
        zones = before + [zone for zone in page.zones if not is_in(zone, before)]
        self.pages[data.source, data.target] = zones
        if page.is_last:
            self.tell(time, data, self.range_of(data.source.net), len(zones), zones)

    def hear_names(self, data):
        operation, tuples = names(data.data)
        if operation == REPLY:
            for it in tuples:
                self.see(self.range_of(it.address.net), it.zone)
        elif operation == FORWARD or (operation == LOOKUP and data.target == Address(0, 255)):
            net = data.target.net or data.source.net
            for it in tuples:
                self.see(self.range_of(net), it.zone)

    def see(self, range_, zone):
        if range_ and zone not in ANY and not is_in(zone, self.seen.setdefault(range_, [])):
            self.seen[range_].append(zone)

    def latest(self, range_, tellers=None, hearers=None):
        """What was told last of a range by one of these addresses, or to one of these; a whole list before a part of one."""
        found = [told for (teller, hearer, about), told in self.told.items() if about == range_
                 and (tellers is None or teller in tellers) and (hearers is None or hearer in hearers)]
        return max(found, key=lambda it: (it.is_complete(), it.time), default=None)

    def fill_cables(self, routers):
        """The zones of each cable: as its own routers tell them, or others."""
        for cable in self.cables:
            on = {port.address for router in routers for port in router.ports if any(it.cable is cable for it in router.ports)}
            told = self.latest(cable.range, tellers=on) or self.latest(cable.range)
            cable.zones = list(told.zones) if told else []
            whole = told is not None and told.is_complete()
            if not whole:
                cable.zones += [zone for zone in self.seen.get(cable.range, []) if not is_in(zone, cable.zones)]
                self.remark_zones(cable, routers)
            default = self.defaults.get(cable.range)
            if default:
                cable.zones = [default] + [zone for zone in cable.zones if zone.upper() != default.upper()]

    def remark_zones(self, cable, routers):
        on = [router for router in routers if any(port.cable is cable for port in router.ports)]
        whom = on[0].name() if on else "somebody"
        heard = ", and only these were heard of" if cable.zones else ""
        cable.remarks.append(f"ask {whom} for the zones of {cable.range}: nobody asked, as far as was heard{heard}")

    def fill_lists(self, router):
        """A router's lists: what it was told last of other cables, and what it tells of its own; left out where none of them
        is known to differ from the cables' zones."""
        addresses = {port.address for port in router.ports}
        own = {port.cable.range for port in router.ports}
        lists, unheard = [], []
        for row in router.rows:
            cable = next((it for it in self.cables if it.range == row.range), None)
            known = [self.latest(row.range, tellers=addresses)]
            known += [] if row.range in own else [self.latest(row.range, hearers=addresses)]
            told = max((it for it in known if it), key=lambda it: it.time, default=None)
            if told is None:
                unheard.append(row.range)
                lists.append(ZoneList(row.range, cable.zones if cable else []))
            else:
                lists.append(ZoneList(row.range, told.zones, told.is_complete()))
        router.lists = None if all(self.is_cables(it) for it in lists) else lists
        if unheard:
            ranges = ", ".join(map(str, unheard))
            router.remarks.append(f"ask {router.name()} for its zones of {ranges}: nobody asked, as far as was heard")

    def is_cables(self, zones):
        cable = next((it for it in self.cables if it.range == zones.range), None)
        return cable is not None and zones.complete and are_same(zones.zones, cable.zones)

    def nowhere(self):
        """Zones that are in lists of all zones, and on no cable."""
        return [zone for zone in self.listed if not any(is_in(zone, cable.zones) for cable in self.cables)]
