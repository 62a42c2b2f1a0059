"""Internets made by chance, and their images."""
import collections
import struct

ZONES = [b"Red", b"Blue", b"red", b"BLUE", b"Machine Room", b"a" * 32, b"~", b"Green"]
FIRST_NODE = 60000  # the station that the first node is; the ports of router R, from 0, are stations from 16 R on


def hardware(station):
    return b"\x02\0\0\0" + struct.pack(">H", station)


def addressed(place, net, node, station):
    """A cable's place, an address on it, and the hardware address of a station."""
    return struct.pack(">BHB", place, net, node) + hardware(station)


def texts(*names):
    """Each name after its length."""
    return b"".join(bytes([len(name)]) + name for name in names)


def zone_list(names):
    return bytes([len(names)]) + texts(*names)


class Made:
    """An internet made by chance, whose tables are the shortest ways through it, and then perhaps spoiled.

    Cables are (first network, last network), routers the lists of their ports, as (cable, network, node), and nodes are
    (cable, address, zone, router, names), where a name is (object, type); they are there once the image was made.
    """

    spoiled = True
    version = 1
    most_zones = 64

    def __init__(self, chance):
        self.chance = chance
        self.nodes = []
        count = self.cable_count()
        starts = sorted(chance.sample(range(1, 6000), count))
        ends = [chance.randint(a, b - 1) for a, b in zip(starts, starts[1:] + [6500])]
        self.cables = list(zip(starts, ends))
        self.zones = [self.some_zones() for _ in self.cables]
        self.routers = self.some_routers(count)

    def cable_count(self):
        return self.chance.randint(1, 9) if self.chance.random() < 0.98 else self.chance.randint(15, 40)

    def some_zones(self):
        names, known = [], set()
        pool, most = ZONES, 4
        if self.chance.random() < 0.05:
            count = self.most_zones + 6
            pool, most = [b"Zone %d" % k for k in range(count)] + [b"zONE %d" % k for k in range(0, count, 9)], self.most_zones
        for name in self.chance.sample(pool, self.chance.randint(1, most)):
            if name.upper() not in known:
                known.add(name.upper())
                names.append(name)
        return names

    def some_routers(self, count):
        """Lists of (cable, net, node): each further cable is joined to an earlier one, and there are some loops."""
        joins = [[self.chance.randrange(k), k] for k in range(1, count)]
        joins += [self.chance.sample(range(count), min(count, self.chance.randint(2, 3))) for _ in range(self.chance.randint(0, 3))]
        routers = []
        for node, join in enumerate(joins, 1):
            routers.append([(k, self.chance.randint(*self.cables[k]), node) for k in join])
        return routers

    def distances(self, target):
        """How many routers each router hands a datagram on to, on the way to the cable."""
        found = {r: 0 for r, ports in enumerate(self.routers) if any(k == target for k, _, _ in ports)}
        waiting = collections.deque(found)
        while waiting:
            r = waiting.popleft()
            near = {k for k, _, _ in self.routers[r]}
            for s, ports in enumerate(self.routers):
                if s not in found and near & {k for k, _, _ in ports}:
                    found[s] = found[r] + 1
                    waiting.append(s)
        return found

    def row(self, r, target, distances):
        """First and last network, distance, port, the next router's network and node, state."""
        own = [p for p, (k, _, _) in enumerate(self.routers[r]) if k == target]
        if own:
            return [*self.cables[target], 0, own[0], 0, 0, 0]
        ways = [
            (p, net, node)
            for p, (cable, _, _) in enumerate(self.routers[r])
            for s, ports in enumerate(self.routers)
            if s != r and distances.get(s, 99) + 1 == distances.get(r)
            for k, net, node in ports
            if k == cable
        ]
        return [*self.cables[target], distances[r], *self.chance.choice(ways), self.chance.choice([0, 0, 1])]

    def other_case(self, names):
        """A router's spelling of a cable's zones, which is the cable's or another."""
        if self.chance.random() < 0.5:
            return names
        changed = [name.swapcase() if self.chance.random() < 0.3 else name for name in names]
        self.chance.shuffle(changed)
        return changed

    def lists(self):
        """What a router knows of the zones of each cable: first and last network, whether that is all, names."""
        return [[*ends, 1, self.other_case(names)] for ends, names in zip(self.cables, self.zones)]

    def spoil_lists(self, lists):
        """Changes one thing of a zone list, or takes the list out."""
        chance = self.chance
        known = chance.choice(lists)
        names = list(known[3])
        kind = chance.randrange(8)
        if kind == 0:
            known[2] = 0
        elif kind == 1 and len(lists) > 1:
            lists.remove(known)
            return
        elif kind == 2:
            end = chance.randrange(2)
            known[end] = max(0, known[end] + chance.choice([-1, 1]))
        elif kind == 3:
            known[:2] = chance.choice(self.cables)
        elif kind == 4 and names:
            del names[chance.randrange(len(names))]
        elif kind == 5 and names:
            names[chance.randrange(len(names))] = chance.choice(names).swapcase()
        elif kind == 6 and names:
            names[chance.randrange(len(names))] = chance.choice(ZONES)
        elif len(names) < self.most_zones:
            names.insert(chance.randint(0, len(names)), chance.choice([*ZONES, *names]).swapcase())
        known[3] = names

    def router(self, r, rows, lists):
        ports = [addressed(k, net, node, 16 * r + p) + self.mappings(k) for p, (k, net, node) in enumerate(self.routers[r])]
        lists = [struct.pack(">HHB", *known[:3]) + zone_list(known[3]) for known in sorted(lists, key=lambda known: known[0])]
        rows = [struct.pack(">HHBBHBB", *row) for row in rows]
        return b"".join(bytes([len(part)]) + b"".join(part) for part in (ports, rows, lists))

    def some_node(self, number):
        """A node, whose router and zone are perhaps not as they should be."""
        k = self.chance.randrange(len(self.cables))
        zone = self.chance.choice(self.zones[k])
        address = (self.within(k), 100 + number)
        near = [(net, node) for ports in self.routers for c, net, node in ports if c == k]
        router = self.chance.choice(near) if near else None
        if self.chance.random() < 0.2:
            zone, router = self.spoil_node(zone, router, address)
        return k, address, zone, router, self.names()

    def node(self, number):
        k, address, zone, router, names = self.nodes[number]
        out = addressed(k, *address, FIRST_NODE + number) + texts(zone)
        out += struct.pack(">BHB", 1, *router) if router else b"\0"
        named = b"".join(bytes([128 + e, e]) + texts(*name) for e, name in enumerate(names, 1))
        return out + bytes([len(names)]) + named + self.mappings(k)

    def mappings(self, cable):
        """What a port or a node on the cable knows, as an image of this version has it."""
        return b""

    def within(self, k):
        """A network of a cable."""
        return self.chance.randint(min(self.cables[k]), max(self.cables[k]))

    def node_count(self):
        return self.chance.randint(0, 4)

    def names(self):
        """The names of a node, each an object and a type."""
        return [(b"spool %d" % e, b"LaserWriter") for e in range(1, self.chance.randint(0, 3) + 1)]

    def spoil_node(self, zone, router, own):
        """The zone and the router of a node at an address, of which one is perhaps not as it should be."""
        chance = self.chance
        kind = chance.randrange(6)
        anywhere = [(net, node) for ports in self.routers for _, net, node in ports]
        if kind == 0:
            return zone.swapcase(), router
        if kind == 1:
            return chance.choice(ZONES), router
        if kind == 2:
            return zone, None
        if kind == 3 and anywhere:
            return zone, chance.choice(anywhere)
        if kind == 4 and router:
            return zone, chance.choice([(router[0], router[1] + 1), (max(0, router[0] - 1), router[1]), (0, router[1])])
        return zone, chance.choice([own, (own[0], own[1] - 1), (0, 0)])

    def spoil(self, rows):
        """Changes one number of a table, or takes a row out."""
        chance = self.chance
        kind = chance.randrange(8)
        table = chance.choice(rows) if rows else []
        if kind == 0:
            k = chance.randrange(len(self.cables))
            ends = list(self.cables[k])
            ends[chance.randrange(2)] = chance.choice([0, 1, ends[0], ends[1], ends[0] + 1, 65279, 65280])
            self.cables[k] = tuple(ends)
        elif kind == 1:
            names = chance.choice(self.zones)
            doubled = chance.choice(names).swapcase()
            # An image has no count for a 256th zone.
            del names[254:]
            names.append(doubled)
        elif kind == 2 and rows:
            ports = chance.choice(self.routers)
            p = chance.randrange(len(ports))
            cable, net, node = ports[p]
            ports[p] = (cable, net + chance.choice([0, 0, 1]), chance.choice([0, 1, 2, 253, 254, node]))
        elif kind == 3 and table:
            del table[chance.randrange(len(table))]
        elif table:
            row = chance.choice(table)
            place = chance.choice([1, 2, 2, 2, 3, 4, 5, 5, 6])
            limit = [65535, 65535, 31, 1, 65535, 255, 3][place]
            row[place] = min(limit, max(0, row[place] + chance.choice([-1, 1, 1, 2, 14])))

    def image(self):
        ways = [self.distances(k) for k in range(len(self.cables))]
        rows = [[self.row(r, k, ways[k]) for k in range(len(self.cables))] for r in range(len(self.routers))]
        for _ in range(self.chance.choice([0, 0, 0, 1, 1, 2]) if self.spoiled else 0):
            self.spoil(rows)
        lists = [self.lists() for _ in self.routers]
        for _ in range(self.chance.choice([0, 1, 1, 2]) if lists and self.spoiled else 0):
            self.spoil_lists(self.chance.choice(lists))
        self.nodes = [self.some_node(number) for number in range(self.node_count())]
        out = [b"ATIM", bytes([self.version, len(self.cables)])]
        out += [struct.pack(">HH", *ends) + zone_list(names) for ends, names in zip(self.cables, self.zones)]
        out.append(bytes([len(self.routers)]))
        out += [self.router(r, rows[r], lists[r]) for r in range(len(self.routers))]
        out.append(bytes([len(self.nodes)]))
        out += [self.node(number) for number in range(len(self.nodes))]
        return b"".join(out)


class InVersion2:
    """What makes the image of an internet one of version 2: ports and nodes know none, some or all of the stations of their
    cables."""

    version = 2
    most_zones = 255
    share = None

    def mappings(self, cable):
        chance = self.chance
        if self.share is None:
            self.share = chance.choice((0, 0.5, 1))
        known = {address: station for address, station in self.stations(cable) if chance.random() < self.share}
        if self.spoiled and chance.random() < 0.03:
            self.spoil_mappings(known, cable)
        order = sorted(known)
        if self.spoiled and chance.random() < 0.01:
            chance.shuffle(order)
        spelled = [struct.pack(">HB", *address) + hardware(known[address]) for address in order]
        return struct.pack(">H", len(spelled)) + b"".join(spelled)

    def stations(self, cable):
        """The ports and the nodes on a cable, each as its address and its number as a station."""
        ports = [(k, (net, node), 16 * r + p) for r, ports in enumerate(self.routers) for p, (k, net, node) in enumerate(ports)]
        nodes = [(k, address, FIRST_NODE + number) for number, (k, address, *_) in enumerate(self.nodes)]
        return [(address, station) for k, address, station in ports + nodes if k == cable]

    def spoil_mappings(self, known, cable):
        """Adds a mapping, mostly a false one: another's hardware address or nobody's, another's address or nobody's, or the
        right pair of a station that is perhaps on another cable."""
        chance = self.chance
        everywhere = [station for k in range(len(self.cables)) for station in self.stations(k)]
        if not everywhere:
            return
        address, station = chance.choice(self.stations(cable) or everywhere)
        another = chance.choice(everywhere)
        kind = chance.randrange(5)
        if kind == 0:
            known[address] = another[1]
        elif kind == 1:
            known[address] = chance.randrange(65536)
        elif kind == 2:
            known[another[0]] = station
        elif kind == 3:
            known[self.within(cable), chance.randint(1, 253)] = station
        else:
            known[another[0]] = another[1]


class MadeInVersion2(InVersion2, Made):
    """An internet made by chance, whose image is of version 2."""


def changed(chance, image):
    """The image with one change."""
    image = bytearray(image)
    at, other = chance.randrange(len(image)), chance.randrange(len(image))
    size = chance.randint(1, 12)
    kind = chance.randrange(7)
    if kind == 0:
        del image[at:]
    elif kind == 1:
        image[at] = chance.randrange(256)
    elif kind == 2:
        image[at] = (image[at] + chance.choice([-1, 1])) % 256
    elif kind == 3:
        image[at:at] = bytes([chance.randrange(256)])
    elif kind == 4:
        del image[at : at + chance.randint(1, 11)]
    elif kind == 5:
        image[at : at + size] = image[other : other + size]
    else:
        at, other = min(at, other), max(at, other)
        size = min(size, other - at, len(image) - other)
        image[at : at + size], image[other : other + size] = image[other : other + size], image[at : at + size]
    return bytes(image)
