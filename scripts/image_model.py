"""Images and their audit, as docs/FORMATS.md and docs/RULES.md say: read apart from the crates, to compare them with."""
import dataclasses
import struct

LAST_NETWORK = 0xFEFF
MOST_DISTANCE = 14
MOST_ZONES = {1: 64, 2: 255}
MOST_MAPPINGS = 512


class Fault(Exception):
    """The first fault of bytes that are no image: its place and its cause."""

    def __init__(self, place, cause):
        super().__init__(f"bad image at {place}: {cause}")


@dataclasses.dataclass
class Router:
    ports: list  # (cable, (network, node), hardware address, mappings)
    rows: list  # (first, last, distance, port, (network, node), state)
    lists: list  # (first, last, complete, zones)


@dataclasses.dataclass
class Node:
    cable: int
    address: tuple
    hardware: bytes
    zone: bytes
    router: tuple | None
    names: list
    mappings: list  # ((network, node), hardware address)


@dataclasses.dataclass
class Image:
    version: int
    cables: list  # (first, last, zones)
    routers: list
    nodes: list


class Reader:
    """Reads an image from left to right."""

    def __init__(self, data):
        self.data, self.at, self.version = data, 0, 1

    def take(self, count):
        """The place of a field, and its bytes, all of which must be there."""
        place, end = self.at, self.at + count
        if len(self.data) < end:
            raise Fault(len(self.data), "Cut")
        self.at = end
        return place, self.data[place:end]

    def number(self, size=1):
        return int.from_bytes(self.take(size)[1], "big")

    def within(self, low, high, cause):
        place, field = self.take(1)
        if not low <= field[0] <= high:
            raise Fault(place, cause)
        return field[0]

    def many(self, most, item):
        return [item() for _ in range(self.within(0, most, "Count"))]

    def rising(self, most, item):
        """A list whose items rise strictly by their first field."""
        items = []

        def next_item():
            place = self.at
            key = self.number(2)
            if items and key <= items[-1][0]:
                raise Fault(place, "Order")
            items.append(item(key))

        self.many(most, next_item)
        return items

    def text(self, is_good):
        place = self.at
        length = self.within(1, 32, "Name")
        text = self.take(length)[1]
        if not is_good(text):
            raise Fault(place, "Name")
        return text

    def zone(self):
        return self.text(lambda text: text != b"*" and all(0x20 <= byte <= 0x7E for byte in text))

    def entity(self):
        return self.text(lambda text: text != b"=" and 0xC5 not in text)

    def address(self):
        return struct.unpack(">HB", self.take(3)[1])

    def station(self, cables):
        cable = self.within(0, cables - 1, "Index")
        return cable, self.address(), self.take(6)[1]

    def mappings(self):
        """What a port or a node of version 2 knows, rising strictly by address."""
        known = []
        if self.version == 1:
            return known
        place, count = self.at, self.number(2)
        if count > MOST_MAPPINGS:
            raise Fault(place, "Count")
        for _ in range(count):
            place, address = self.at, self.address()
            if known and address <= known[-1][0]:
                raise Fault(place, "Order")
            known.append((address, self.take(6)[1]))
        return known

    def zones(self):
        return self.many(MOST_ZONES[self.version], self.zone)

    def cable(self):
        return self.number(2), self.number(2), self.zones()

    def row(self, first, ports):
        last, distance = self.number(2), self.within(0, 31, "Value")
        port, following = self.within(0, ports - 1, "Index"), self.address()
        return first, last, distance, port, following, self.within(0, 3, "Value")

    def zone_list(self, first):
        return first, self.number(2), self.within(0, 1, "Value"), self.zones()

    def router(self, cables):
        ports = self.many(16, lambda: (*self.station(cables), self.mappings()))
        rows = self.rising(200, lambda first: self.row(first, len(ports)))
        return Router(ports, rows, self.rising(200, self.zone_list))

    def names(self):
        names = []

        def name():
            socket, place = self.within(1, 254, "Value"), self.at
            enumerator = self.within(1, 255, "Value")
            if names and enumerator <= names[-1][1]:
                raise Fault(place, "Order")
            names.append((socket, enumerator, self.entity(), self.entity()))

        self.many(32, name)
        return names

    def node(self, cables):
        station, zone = self.station(cables), self.zone()
        router = self.address() if self.within(0, 1, "Value") else None
        return Node(*station, zone, router, self.names(), self.mappings())

    def image(self):
        if self.take(4)[1] != b"ATIM":
            raise Fault(0, "Magic")
        self.version = self.within(1, 2, "Version")
        cables = self.many(200, self.cable)
        routers = self.many(200, lambda: self.router(len(cables)))
        nodes = self.many(200, lambda: self.node(len(cables)))
        if self.at < len(self.data):
            raise Fault(self.at, "Trailing")
        return Image(self.version, cables, routers, nodes)


def folded(zones):
    return [zone.upper() for zone in zones]


def twice(zones):
    return len(set(folded(zones))) < len(zones)


class Audit:
    """The first place that breaks each rule, in the order in which places are tried."""

    def __init__(self, image):
        self.image = image
        self.ranges = [cable[:2] for cable in image.cables]

    def places(self, test, what):
        """The first part of a router, counted from 1, for which the test of router and part holds."""
        for r, router in enumerate(self.image.routers, 1):
            for k, part in enumerate(getattr(router, what + "s"), 1):
                if test(router, part):
                    yield f"router {r} {what} {k}"

    def cables_in_order(self):
        before = 0
        for k, (first, last, zones) in enumerate(self.image.cables, 1):
            if not before < first <= last <= LAST_NETWORK or not zones or twice(zones):
                yield f"cable {k}"
            before = last

    def stations(self):
        for r, router in enumerate(self.image.routers, 1):
            cables = set()
            for p, (cable, address, hardware, _) in enumerate(router.ports, 1):
                yield f"router {r} port {p}", cable, address, hardware, r, cable in cables
                cables.add(cable)
        for k, node in enumerate(self.image.nodes, 1):
            yield f"node {k}", node.cable, node.address, node.hardware, ("node", k), False

    def stations_addressed(self):
        addresses, hardwares = set(), {}
        for place, cable, (net, node), hardware, owner, again in self.stations():
            first, last = self.ranges[cable]
            stands = first <= net <= last and 1 <= node <= 253 and hardware[0] % 2 == 0
            if not stands or again or (net, node) in addresses or hardwares.get(hardware, owner) != owner:
                yield place
            addresses.add((net, node))
            hardwares.setdefault(hardware, owner)

    def rows_cover_cables(self):
        for r, router in enumerate(self.image.routers, 1):
            for k, row in enumerate(router.rows, 1):
                if row[5] > 1 or row[:2] not in self.ranges:
                    yield f"router {r} row {k}"
            for k, ends in enumerate(self.ranges, 1):
                if all(row[:2] != ends for row in router.rows):
                    yield f"router {r} cable {k}"

    def own_port(self, router, row):
        cable = self.ranges.index(row[:2])
        return next((p for p, port in enumerate(router.ports) if port[0] == cable), None)

    def direct_rows_direct(self):
        def breaks(router, row):
            own = self.own_port(router, row)
            if own is None:
                return row[2] == 0 or row[4] == (0, 0)
            return (row[2], row[3], row[4]) != (0, own, (0, 0))

        return self.places(breaks, "row")

    def distances_fit(self):
        return self.places(lambda _, row: row[2] > MOST_DISTANCE, "row")

    def following(self, router, row):
        """The next router of a row, if there is one on the cable of the row's port."""
        cable = router.ports[row[3]][0]
        for other in self.image.routers:
            if other is not router and any(port[0] == cable and port[1] == row[4] for port in other.ports):
                return other
        return None

    def next_routers_exist(self):
        return self.places(lambda router, row: row[4] != (0, 0) and self.following(router, row) is None, "row")

    def distances_fall(self):
        def breaks(router, row):
            if row[4] == (0, 0):
                return False
            following = self.following(router, row)
            return all(other[:2] != row[:2] or other[2] + 1 != row[2] for other in following.rows)

        return self.places(breaks, "row")

    def zone_lists_agree(self):
        zones = {cable[:2]: set(folded(cable[2])) for cable in self.image.cables}
        for r, router in enumerate(self.image.routers, 1):
            for k, (first, last, complete, names) in enumerate(router.lists, 1):
                if not complete or twice(names) or zones.get((first, last)) != set(folded(names)):
                    yield f"router {r} list {k}"
            for k, ends in enumerate(self.ranges, 1):
                if all(known[:2] != ends for known in router.lists):
                    yield f"router {r} cable {k}"

    def nodes_served(self):
        for k, node in enumerate(self.image.nodes, 1):
            near = [port[1] for router in self.image.routers for port in router.ports if port[0] == node.cable]
            lost = node.router is not None and node.router not in near
            if lost or node.zone.upper() not in folded(self.image.cables[node.cable][2]):
                yield f"node {k}"

    def mappings_true(self):
        owners = [(f"router {r} port {p}", port) for r, router in enumerate(self.image.routers, 1) for p, port in enumerate(router.ports, 1)]
        owners += [(f"node {k}", (node.cable, node.address, node.hardware, node.mappings)) for k, node in enumerate(self.image.nodes, 1)]
        stations = {owner[:3] for _, owner in owners}
        for place, (cable, _, _, mappings) in owners:
            if any((cable, *mapping) not in stations for mapping in mappings):
                yield place

    def line(self):
        """The verdict line."""
        rules = [self.cables_in_order, self.stations_addressed, self.rows_cover_cables, self.direct_rows_direct, self.distances_fit,
                 self.next_routers_exist, self.distances_fall, self.zone_lists_agree, self.nodes_served, self.mappings_true]
        for number, rule in enumerate(rules, 1):
            place = next(iter(rule()), None)
            if place is not None:
                return f"no: C{number} {place}"
        rows = [row for router in self.image.routers for row in router.rows]
        counts = f"{len(self.image.cables)} cables, {len(self.image.routers)} routers, {len(self.image.nodes)} nodes, {len(rows)} rows"
        return f"yes: {counts}, greatest distance {max((row[2] for row in rows), default=0)}"


def verdict(data):
    """What auditing these bytes answers."""
    try:
        return Audit(Reader(data).image()).line()
    except Fault as fault:
        return str(fault)
