"""Captures of what the ports of a router hear, made by chance: frames, the many ways to spell a capture, and its faults."""
import struct
import tomllib
from typing import NamedTuple

from captures import SNAP
from frames_model import INTERFACE, MAGIC, MOST_BACK, MOST_BLOCK, PACKET, SECTION, STATISTICS
from internets import texts
from packet_making import MAKERS, Chance
from packet_reading import checksum
from payloads import Payloads

TICK = 200_000  # microseconds
ALL = bytes.fromhex("090007FFFFFF")
GROUP = bytes.fromhex("0900070000")
COMMENT, NAME, RESOLUTION, OFFSET = 1, 2, 9, 14  # options
SIZED = {PACKET: 20, STATISTICS: 12, INTERFACE: 8, SECTION: 16}  # bytes of the fields of blocks


class Port(NamedTuple):
    cable: int  # cables count from 0
    hardware: bytes
    address: tuple  # the first one that it tries


class Shot(NamedTuple):
    """A frame on a cable; without bytes it is a heartbeat."""
    time: int  # in microseconds
    cable: int
    frame: bytes | None
    lost: bool


class Known:
    """What an internet file says, as `payloads.Payloads` looks at it, and the ports of its routers."""

    def __init__(self, chance, text):
        top = tomllib.loads(text.decode())
        self.chance = chance
        self.ticks = top["ticks"]
        self.cables = [tuple(cable["range"]) for cable in top["cable"]]
        self.zones = [[zone.encode()[:32] for zone in cable["zones"]] for cable in top["cable"]]
        self.ports = [[self.port(port) for port in router["port"]] for router in top.get("router", [])]
        self.routers = [[(port.cable, *port.address) for port in ports] for ports in self.ports]
        self.nodes = [(*self.port(node)[::2], node["zone"].encode(), None, []) for node in top.get("node", [])]

    def port(self, written):
        k = written["cable"] - 1
        first, *_ = [*written["try"], f"{self.cables[k][0]}.1"]
        return Port(k, bytes.fromhex(written["hardware"]), tuple(int(part) for part in first.split(".")))

    def within(self, k):
        return self.chance.randint(*self.cables[k])


def framed(kind, data, target, source):
    """A frame as long as it says."""
    body = SNAP[kind] + data
    return target + source + struct.pack(">H", len(body)) + body


def datagram(chance, target, source, sockets, kind, data):
    """A datagram with few or many hops, and a checksum or none."""
    front = struct.pack(">HHBBBBB", target[0], source[0], target[1], source[1], *sockets, kind)
    total = chance.choice([0, 0, 0, checksum(front + data), checksum(front + data), chance.randrange(65536)])
    size = 13 + len(data) + 1024 * chance.choice([0, 0, 0, 1, 3, 14, 15])
    return struct.pack(">HH", size, total) + front + data


def routing_data(source, first, last):
    """What stands in front of the rows of a packet of routing data."""
    return struct.pack(">HBB", source[0], 8, source[1]) + struct.pack(">HBHB", first, 128, last, 0x82)


def aarp(function, hardware, source, other, target):
    """An AARP packet of a station with a hardware address and an address, about another."""
    ends = hardware + struct.pack(">BHB", 0, *source) + other + struct.pack(">BHB", 0, *target)
    return bytes.fromhex("0001809B0604") + struct.pack(">H", function) + ends


class Neighbours:
    """Stations beside a router's ports, and what they say: what is for the router, and what isn't."""

    def __init__(self, chance, known, ports):
        self.chance, self.known, self.ports = chance, known, ports
        self.payloads = Payloads(chance, known)
        self.stations = [[self.station(port) for _ in range(3)] for port in ports]
        self.told = [1]  # networks of which somebody told
        self.contested = chance.choice([0, 0, 0.05, 0.3])  # how often somebody has the port's own address
        self.kinds = [self.asks, self.asks, self.resolves, self.resolves, self.routes, self.zones, self.requests, self.anything,
                      self.passed]

    def station(self, port):
        chance = self.chance
        return chance.choice([b"\0", b"\2"]) + chance.randbytes(5), (self.known.within(port.cable), chance.randint(1, 253))

    def says(self, p):
        """A frame that one of the stations beside a port says, in a packet of one of the kinds."""
        frame = self.chance.choice(self.kinds)(p, *self.chance.choice(self.stations[p]))
        return changed(self.chance, frame) if self.chance.random() < 0.08 else frame

    def to(self, p, usual):
        """Whom a frame is for: mostly the port, or all."""
        others = [self.ports[p].hardware, ALL, GROUP + b"\5", bytes.fromhex("FFFFFFFFFFFF"), bytes.fromhex("020000000707")]
        return usual if self.chance.random() < 0.8 else self.chance.choice(others)

    def some_station(self):
        return self.chance.choice(self.chance.choice(self.stations))[1]

    def address(self, p):
        """An address that somebody may have, or nobody."""
        chance = self.chance
        port, other = self.ports[p], chance.choice(self.ports)
        net = chance.choice([*self.told[-9:], self.known.within(port.cable)])
        station = self.some_station()
        return chance.choice([port.address, port.address, other.address, station, (0, 255), (port.address[0], 255), (port.address[0], 0),
                              (0, 0), (net, 7), (net, 0), (net, 255), (net, chance.randrange(256))])

    def sends(self, p, hardware, source, target, sockets, kind, data):
        data = datagram(self.chance, target, source, sockets, kind, data[:586])
        usual = ALL if target[1] == 255 and target[0] in (0, self.ports[p].address[0]) else self.ports[p].hardware
        return framed("ddp", data, self.to(p, usual), hardware)

    def asks(self, p, hardware, address):
        """What a station may ask a router, or another one by way of it."""
        target = self.address(p)
        own, socket, kind, data = self.chance.choice(self.payloads.kinds)(address, target)
        return self.sends(p, hardware, address, target, (socket, own), kind, data)

    def passed(self, p, hardware, address):
        """A datagram for somebody behind a router or beside a port."""
        chance = self.chance
        stations = [station[1] for near in self.stations for station in near]
        target = chance.choice([(chance.choice(self.told), chance.choice([0, 9, 255])), *stations])
        return self.sends(p, hardware, address, target, (128, 129), 99, chance.randbytes(chance.choice([0, 1, 30, 586])))

    def resolves(self, p, hardware, address):
        """An AARP packet: mostly who the station is, or a question for the port's address."""
        chance = self.chance
        function = chance.choice([1, 2, 2, 2, 3, 3, 0, 4] if chance.random() < 0.2 else [1, 2, 2, 3])
        source = address if chance.random() < 0.8 else self.some_station()
        if chance.random() < self.contested:
            source = self.ports[p].address
        target = source if function == 3 else self.ports[p].address if chance.random() < 0.7 else self.address(p)
        own = self.ports[p].hardware
        return framed("aarp", aarp(function, hardware, source, own, target), self.to(p, ALL if function == 3 else own), hardware)

    def some_network(self):
        chance = self.chance
        ours = chance.choice(chance.choice(self.known.cables))
        return chance.choice([ours, chance.choice(self.told), chance.randint(1, 65279), chance.randrange(65536)])

    def row(self):
        """A row of routing data: a range, or seldom one network alone. One that begins in a range of the router's is that range, for
        the twin asks for no zones of another one."""
        chance, first = self.chance, self.some_network()
        last = chance.choice([first, min(first + chance.randrange(9), 65535), chance.choice(chance.choice(self.known.cables))])
        for port in self.ports:
            if self.known.cables[port.cable][0] <= first <= self.known.cables[port.cable][1]:
                first, last = self.known.cables[port.cable]
        self.told.append(first)
        distance = chance.choice([0, 0, 1, 2, 3, 13, 14, 15, 30, 31])
        if first == last and chance.random() < 0.5:
            return struct.pack(">HB", first, distance)
        return struct.pack(">HBHB", first, 128 + distance, last, chance.choice([0x82] * 9 + [0]))

    def routes(self, p, hardware, address):
        """Routing data, mostly of the port's own range."""
        chance = self.chance
        first, last = self.known.cables[self.ports[p].cable]
        if chance.random() < 0.1:
            first, last = chance.choice([*self.known.cables, (first, last + 1), (first + 1, last), (1, 65279)])
        source = address if chance.random() < 0.9 else self.address(p)
        rows = b"".join(self.row() for _ in range(chance.choice([0, 1, 1, 2, 3, 3, 90])))
        data = routing_data(source, first, last) + rows
        if chance.random() < 0.05:
            data = data[:chance.randrange(len(data))]
        return self.sends(p, hardware, address, (0, 255), (1, 1), 1, data)

    def zones(self, p, hardware, address):
        """An answer to a question for zones of networks of which somebody told."""
        chance = self.chance
        function = chance.choice([2, 2, 8])
        names = [chance.choice([b"Red", b"red", b"Far", b"Zone %d" % chance.randrange(30)]) for _ in range(chance.choice([1, 1, 2, 5]))]
        net = chance.choice(self.told)
        entries = b"".join(struct.pack(">H", net if function == 8 else chance.choice(self.told)) + texts(name) for name in names)
        count = len(names) + chance.choice([0, 0, 0, 1])
        return self.sends(p, hardware, address, self.ports[p].address, (6, 6), 6, bytes([function, count]) + entries)

    def requests(self, p, hardware, address):
        """A question for routing data."""
        chance = self.chance
        data = bytes([chance.choice([1, 1, 2, 2, 3, 3, 0, 4])]) + chance.choice([b"", b"", b"", b"\0"])
        return self.sends(p, hardware, address, self.address(p), (chance.choice([1] * 9 + [2]), chance.choice([1, 140, 253])), 5, data)

    def anything(self, p, hardware, address):
        """A packet with any values in its fields."""
        name = self.chance.choice(list(MAKERS))
        data = MAKERS[name](Chance(self.chance.randrange(2**32)))
        if name in ("datagram", "echo", "AARP"):
            return framed("aarp" if name == "AARP" else "ddp", data, self.to(p, self.ports[p].hardware), hardware)
        socket, kind = {"RTMP": (1, 1), "ATP": (6, 3), "NBP": (2, 2), "ZIP": (6, 6)}[name]
        return self.sends(p, hardware, address, self.ports[p].address, (socket, self.chance.choice([1, 2, 6, 252])), kind, data)

    def burst(self, p):
        """More at once than a router has room for: rows, mappings, requests for addresses, or datagrams that wait for one."""
        chance, (hardware, source), kind = self.chance, self.stations[p][0], self.chance.randrange(4)
        first, last = self.known.cables[self.ports[p].cable]
        base, size = chance.randint(1, 60_000), chance.choice([1, 2, 7])
        for part in range(3 if kind == 0 else 0):
            starts = [base + size * k for k in range(90 * part, 90 * part + 90)]
            rows = b"".join(struct.pack(">HBHB", start, 129, start + size - 1, 0x82) for start in starts)
            yield self.sends(p, hardware, source, (0, 255), (1, 1), 1, routing_data(source, first, last) + rows)
        every = [(first + k // 253, 1 + k % 253) for k in range(min(520, 253 * (last - first + 1)))]
        if kind == 1:
            for address in every:
                yield self.response(p, chance.randbytes(6), address)
        targets = every[:chance.choice([100, 140, 520])] if kind == 2 else [chance.choice(every)] * chance.choice([15, 16, 17, 40])
        for target in targets if kind > 1 else []:
            yield self.sends(p, hardware, source, target, (128, 129), 99, chance.randbytes(4))

    def known_to(self, p):
        """Frames by which a port learns its stations' hardware addresses."""
        return [self.response(p, *station) for station in self.stations[p]]

    def response(self, p, hardware, address):
        """By it a port learns the hardware address of a station."""
        port = self.ports[p]
        return framed("aarp", aarp(2, hardware, address, port.hardware, port.address), port.hardware, hardware)


def changed(chance, frame):
    """The frame with another byte, another length, an end that is cut off or padding."""
    frame = bytearray(frame)
    kind = chance.randrange(5)
    if kind == 0:
        frame[chance.randrange(len(frame))] = chance.randrange(256)
    elif kind == 1:
        frame[12:14] = struct.pack(">H", chance.choice([0, 7, 8, 1500, 1501, 65535, len(frame) - 14 + chance.randint(-2, 2)]))
    elif kind == 2:
        del frame[chance.randrange(len(frame)):]
    elif kind == 3:
        frame += chance.randbytes(chance.choice([1, 2, 30, 1000]))
    else:
        frame[12:14] = struct.pack(">H", min(1500, len(frame) - 10))
        frame += bytes(4)
    return bytes(frame)


def said(chance, known, ports, last):
    """Shots of stations beside a router's ports up to a tick; the router knows some of them when it begins to hear."""
    near = Neighbours(chance, known, ports)
    start, often = chance.choice([0, 12, 75, 75, 75]), chance.choice([0.1, 0.6, 1])
    shots = []
    for p, port in enumerate(ports):
        if chance.random() < 0.5:
            shots.append(Shot(TICK + 1, port.cable, near.routes(p, *near.stations[p][0]), False))
        if chance.random() < 0.8:
            shots += [Shot((start + 12) * TICK, port.cable, frame, False) for frame in near.known_to(p)]
        if chance.random() < 0.25:
            shots += [Shot((start + chance.randrange(12, 60)) * TICK + 5, port.cable, frame, False) for frame in near.burst(p)]
    for tick in range(start, last + 1):
        for number in range(chance.choice([1, 2, 5, 12]) if chance.random() < often else 0):
            p = chance.randrange(len(ports))
            shots.append(Shot(tick * TICK + number * chance.choice([0, 1, 999]), ports[p].cable, near.says(p), chance.random() < 0.02))
    return shots


def with_heartbeats(shots, last):
    """The shots in the order of their times, with a heartbeat at the beginning of each tick."""
    beats = [Shot(tick * TICK, 0, None, False) for tick in range(last + 1)]
    return sorted([*beats, *shots], key=lambda shot: (shot.time, shot.frame is not None))


def other_times(chance, shots):
    """The shots with times that go back or jump ahead, heartbeats that are lost, and now and then another beginning."""
    shift, made, clock = chance.choice([0, 0, 199_999, 1_700_000_000_000_000]), [], 0
    at = sorted(chance.randrange(len(shots)) for _ in range(chance.choice([0, 1, 2, 4])))
    for number, shot in enumerate(shots):
        for _ in range(at.count(number)):
            bound = clock - shot.time - shift - MOST_BACK
            shift += chance.choice([-1, -TICK, -70 * TICK, 3, TICK, 90 * TICK, 450 * TICK, 10**12, *[bound - 1, bound, bound + 1] * 2])
        if shot.frame is not None or chance.random() < 0.95:
            time = max(0, shot.time + shift)
            clock = time if clock - time > MOST_BACK else max(clock, time)
            made.append(shot._replace(time=time))
    return made


class Spelled:
    """A capture that is written block by block, plainly or in one of the many ways that there are."""

    def __init__(self, chance, names, plain, back=True):
        self.chance, self.plain = chance, plain
        self.back = back  # whether times may have offsets below 0
        self.names = names  # for each cable, those that its interfaces may have
        self.data, self.order, self.interfaces = bytearray(), ">", []
        self.seldom = 0 if plain else chance.choice([0, 0.02, 0.1])
        self.begin()

    def number(self, form, *values):
        return struct.pack(self.order + form, *values)

    def block(self, kind, body):
        size = self.number("I", 12 + len(body) + -len(body) % 4)
        self.data += self.number("I", kind) + size + body + bytes(-len(body) % 4) + size

    def option(self, code, value):
        return self.number("HH", code, len(value)) + value + bytes(-len(value) % 4)

    def options(self, *own):
        """These options, and now and then another, by which the block may become a long one."""
        chance, made = self.chance, [self.option(code, value) for code, value in own]
        if chance.random() < self.seldom:
            other = self.option(chance.choice([1, 3, 4, 77]), chance.randbytes(chance.choice([0, 5, 300, 2500])))
            made.insert(chance.randrange(len(made) + 1), other)
        end = self.option(0, b"") if made and chance.random() < 0.8 else b""
        return b"".join(made) + end + (self.option(1, b"lost") if end and chance.random() < self.seldom else b"")

    def begin(self):
        """A section and its interfaces."""
        chance = self.chance
        self.order = ">" if self.plain else chance.choice("><")
        self.interfaces = []
        version = (1, 0) if self.plain else (1, chance.choice([0, 0, 2, 65535]))
        self.block(SECTION, self.number("IHHq", MAGIC, *version, chance.choice([-1, 0]) if not self.plain else -1) + self.options())
        for cable in range(len(self.names)):
            self.interface(cable)
        for _ in range(0 if self.plain else chance.choice([0, 0, 2, 256 - len(self.interfaces)])):
            self.interface(chance.randrange(len(self.names)))

    def interface(self, cable):
        chance = self.chance
        name = self.names[cable][0]
        link, resolution, offset, own = 1, 6, 0, []
        if not self.plain:
            name = chance.choice(self.names[cable]) if chance.random() < 0.25 else name
            link = chance.choice([1] * 12 + [0, 113, 257])
            resolution = chance.choice([6, 6, 6, 9, 3, 0, 7, 12, 128, 128 + 10, 128 + 20, 128 + 30])
            offset = chance.choice([0, 0, 0, 1, 40, 1_000_000, *[-1, -7] * self.back])
        if resolution != 6 or chance.random() < self.seldom:
            own.append((RESOLUTION, bytes([resolution])))
        if offset:
            own.append((OFFSET, self.number("q", offset)))
        if chance.random() < self.seldom:
            own.append((NAME, chance.choice(chance.choice(self.names))))
        if name:
            own.append((NAME, name))
        if chance.random() < self.seldom:
            own.append(chance.choice([(RESOLUTION, b""), (RESOLUTION, b"\t\t"), (OFFSET, b"\0\0\0\1"), (2988, b"vendor")]))
        self.interfaces.append((cable, resolution, offset))
        self.block(INTERFACE, self.number("HHI", link, 0, 65535) + self.options(*own))

    def time(self, index, time):
        """A time in the units of an interface, rounded up where these are smaller than microseconds."""
        _, resolution, offset = self.interfaces[index]
        base, power = (2, resolution - 128) if resolution > 127 else (10, resolution)
        units = max(0, -(-(time - 10**6 * offset) * base**power // 10**6))
        return self.number("II", *divmod(min(units, 2**64 - 1), 2**32))

    def on(self, cable):
        """The number of an interface of a cable."""
        return self.chance.choice([number for number, of in enumerate(self.interfaces) if of[0] == cable])

    def packet(self, shot):
        chance, frame, index = self.chance, shot.frame, self.on(shot.cable)
        lacking = chance.choice([1, 40]) if chance.random() < self.seldom else 0
        front = self.number("I", index) + self.time(index, shot.time) + self.number("II", len(frame), len(frame) + lacking)
        text = b"lost" if chance.random() >= self.seldom else chance.choice([b"Lost", b"lost ", b"los"])
        comment = [(COMMENT, text)] if shot.lost else []
        body = front + frame + bytes(-len(frame) % 4)
        room = chance.choice([-4, 0, 4]) + MOST_BLOCK - len(body) - 16
        if room >= 0 and chance.random() < self.seldom:
            return self.block(PACKET, body + self.option(COMMENT, b"\n" * room))
        self.block(PACKET, body + self.options(*comment))

    def heartbeat(self, shot):
        index = 0 if self.plain else self.chance.randrange(len(self.interfaces))
        self.block(STATISTICS, self.number("I", index) + self.time(index, shot.time) + self.options())

    def between(self):
        """What may come between two blocks: another section, another interface, a block of a kind that isn't looked at."""
        chance = self.chance
        kind = chance.randrange(8)
        if kind == 0:
            self.begin()
        elif kind == 1 and len(self.interfaces) < 256:
            self.interface(chance.randrange(len(self.names)))
        else:
            size = chance.choice([0, 4, 100, MOST_BLOCK - 12, MOST_BLOCK - 8, 9000])
            self.block(chance.choice([2, 3, 4, 9, 10, 77, 0x0BAD, 0x80000001]), bytes(size))

    def write(self, shots):
        for shot in shots:
            if self.chance.random() < self.seldom:
                self.between()
            (self.heartbeat if shot.frame is None else self.packet)(shot)

    def fault(self):
        """A block that is refused, or one that isn't whole."""
        chance = self.chance
        kind = chance.choice([0, 1, 2, 3, 4, 5, 5, 5, 6, 7, 8])
        body = self.number("IIIII", 0, 0, chance.choice([0, 2**31]), 60, 60) + bytes(60)
        start = len(self.data)
        if kind == 0:
            self.block(chance.choice([STATISTICS, PACKET]), self.number("I", len(self.interfaces)) + body[4:])
        elif kind == 1:
            of = chance.choice(list(SIZED))
            self.block(of, self.number("IHHq", MAGIC, 1, 0, -1)[:chance.randrange(0, SIZED[of], 4)])
        elif kind == 2:
            self.block(SECTION, self.number("IHHq", MAGIC, chance.choice([0, 2, 256]), 0, -1))
        elif kind == 3:
            self.block(PACKET, body[:12] + self.number("II", chance.choice([61, 64, 65, 2**32 - 1]), 60) + body[20:])
        elif kind == 4:
            while len(self.interfaces) <= 256:
                self.interface(0)
        elif kind == 5:
            self.block(chance.choice([STATISTICS, PACKET, 77]), body + bytes(chance.choice([0, 4000])))
            self.data[-4:] = self.number("I", chance.choice([0, 12, len(self.data) - start + 4]))
        elif kind == 6:
            of = chance.choice([STATISTICS, 77, SECTION])
            self.data += self.number("II", of, chance.choice([0, 8, 25, 13, 11])) + chance.randbytes(40)
        elif kind == 7:
            self.block(SECTION, self.number("IHHq", MAGIC ^ 1, 1, 0, -1))
        else:
            self.block(PACKET, body)
            del self.data[chance.randrange(start, len(self.data)):]
        if chance.random() < 0.3:
            self.begin()


def bent(chance, data):
    """The capture with some bytes changed, and seldom with some more or fewer."""
    data = bytearray(data)
    for _ in range(chance.choice([1, 3, 10, 30])):
        at = chance.randrange(len(data))
        kind = chance.randrange(100)
        if kind == 0:
            del data[at:at + chance.choice([1, 4])]
        elif kind == 1:
            data[at:at] = chance.randbytes(chance.choice([1, 4]))
        else:
            data[at] = chance.randrange(256) if kind < 50 else data[at] ^ 1 << chance.randrange(8)
    return bytes(data)
