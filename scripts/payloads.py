"""Data of datagrams, made by chance: packets of the protocols that routers and nodes answer, whole and spoiled."""
import struct

from internets import ZONES, texts

NAMES = [(b"lab", b"LaserWriter"), (b"LAB", b"ImageWriter"), (b"abba", b"Server"), (b"abcba", b"AFPServer"), (b"a:b", b"c@d"),
         (b"Mac \x8e", b"Mac\x80"), (b"x" * 32, b"y" * 32), (b"=x", b"a=b"), (b"two words", b"AFPServer")]
PATTERNS = [b"=", b"\xc5", b"ab\xc5ba", b"\xc5Writer", b"Laser\xc5", b"A\xc5", b"\xc5\xc5", b"==", b"*", b"L\xc5R\xc5r"]


class Payloads:
    """What stations of an internet may say to one another: each call that a kind names gives source socket, socket, type and
    data, for the addresses of the asker and of the target."""

    def __init__(self, chance, internet):
        self.chance = chance
        self.internet = internet
        self.zones = [name for names in internet.zones for name in names]
        self.nodes = {address: (zone, names) for _, address, zone, _, names in internet.nodes}
        self.ports = [(net, node) for ports in internet.routers for _, net, node in ports]
        self.asked = [self.echo, self.echo, self.names, self.names, self.names, self.zones_of, self.zones_of, self.zone_page,
                      self.zone_page]
        self.kinds = [*self.asked, self.routes, self.noise, self.noise]
        self.used = []

    def socket(self, usual):
        """The usual number of a socket or a type, and now and then another."""
        return usual if self.chance.random() < 0.95 else self.chance.choice([0, 1, 2, 3, 4, 5, 6, 7, 128, 252, 253, 255])

    def own_socket(self, usual):
        return usual if self.chance.random() < 0.3 else self.chance.choice([128, 129, 252, 253, 254, 1, 2, 4, 6, 0, 255])

    def spoiled(self, data):
        """The data, or now and then what is left of them or more than they were."""
        chance = self.chance
        kind = chance.randrange(20)
        if kind == 0:
            return data[: chance.randrange(len(data) + 1)]
        if kind == 1:
            return data + chance.randbytes(chance.randint(1, 9))
        if kind == 2 and data:
            data = bytearray(data)
            data[chance.randrange(len(data))] = chance.randrange(256)
        return bytes(data)

    def echo(self, asker, target):
        chance = self.chance
        function = chance.choice([b"\1"] * 8 + [b"\2", b"\0", b""])
        data = chance.randbytes(chance.choice([0, 1, 4, 4, 4, 30, 584, 585, 586])) if function else b""
        return self.own_socket(128), self.socket(4), self.socket(4), function + data

    def pattern(self):
        chance = self.chance
        return self.mixed(chance.choice(PATTERNS if chance.random() < 0.5 else chance.choice(NAMES)))

    def mixed(self, name):
        """The name in its case or the other."""
        return name.swapcase() if self.chance.random() < 0.3 else name

    def zone(self):
        """A zone, mostly one that a cable has, perhaps in another case."""
        chance = self.chance
        kind = chance.randrange(10)
        if kind < 7:
            return self.mixed(chance.choice(self.zones))
        if kind == 7:
            return chance.choice([b"*", b""])
        return chance.choice([b"Nowhere", b"=", b"Re\xc5", b"a@b", b"** ", b"\x7f", b"z" * 32, *ZONES])

    def where(self, asker):
        """Where an answer shall go: mostly to the asker."""
        chance = self.chance
        if chance.random() < 0.7:
            return asker
        net = chance.choice([*self.ports, *self.nodes, asker])[0]
        return chance.choice([(net, 255), (net, 0), (0, 255), (0, 0), (net, 250), *self.ports, *self.nodes])

    def wanted(self, target):
        """Patterns for an object and a type, and a zone: where a node is asked, mostly ones that it answers."""
        chance = self.chance
        if target not in self.nodes or chance.random() < 0.2:
            return self.pattern(), self.pattern(), self.zone()
        zone, names = self.nodes[target]
        known = chance.choice(names or NAMES)
        object_, kind = (chance.choice([b"=", self.pattern(), self.mixed(name), self.mixed(name)]) for name in known)
        return object_, kind, chance.choice([self.mixed(zone), self.mixed(zone), b"*", b""])

    def names(self, asker, target):
        """A packet for names: routers answer broadcast and forward requests to themselves, and nodes lookups."""
        chance = self.chance
        functions = [2, 2, 2, 2, 1, 3] if target in self.nodes else [1, 1, 1, 2, 2, 4, 4, 4, 3, 0, 5]
        function = chance.choice(functions)
        count = chance.choice([1] * 15 + [0, 2])
        tuples = b"".join(
            struct.pack(">HBBB", *self.where(asker), self.own_socket(253), chance.choice([0, 0, 1])) + texts(*self.wanted(target))
            for _ in range(count)
        )
        data = bytes([16 * function + count, chance.randrange(256)]) + tuples
        return self.own_socket(253), self.socket(2), self.socket(2), self.spoiled(data)

    def network(self):
        """A network, mostly one of a cable."""
        chance = self.chance
        k = chance.randrange(len(self.internet.cables))
        return chance.choice([*self.internet.cables[k], *(self.internet.within(k) for _ in range(3)), chance.randrange(65536)])

    def zones_of(self, asker, target):
        """A packet of ZIP: a query, a question about the cable, or an answer that nobody asked for."""
        chance = self.chance
        kind = chance.randrange(12)
        if kind < 5:
            count = chance.choice([0, 1, 1, 2, 3, 15, 16, 17, 20])
            data = bytes([1, count]) + b"".join(struct.pack(">H", self.network()) for _ in range(count))
        elif kind < 9:
            data = b"\5" + chance.choice([b"\0" * 5, chance.randbytes(5)]) + texts(self.zone())
        elif kind == 9:
            data = b"\2\1" + struct.pack(">H", self.network()) + texts(self.zone())
        elif kind == 10:
            data = b"\x08\1" + struct.pack(">H", self.network()) + texts(self.zone())
        else:
            data = chance.randbytes(chance.randint(0, 20))
        return self.own_socket(6), self.socket(6), self.socket(6), self.spoiled(data)

    def zone_page(self, asker, target):
        """A packet of ATP: mostly a request for a list of zones, and often of a transaction that was used before."""
        chance = self.chance
        control = chance.choice([0x40] * 3 + [0x60] * 6 + [0xC0, 0xC0, 0x90, 0x00]) | chance.choice([0, 0, 0, 1, 4, 7, 0x08])
        index = chance.choice([0, 1, 1, 2, 3, 17, 60, 65535])
        user = struct.pack(">BBH", chance.choice([7, 8, 8, 9, 9, 6, 0]), chance.choice([0, 0, 1]), index)
        data = bytes([control, chance.choice([1, 1, 1, 0, 2, 255])]) + struct.pack(">H", self.transaction_id()) + user
        own = chance.choice([252, 252, 252, 252, 128, 6])
        return own, self.socket(chance.choice([6, 6, 6, 6, 252])), self.socket(3), self.spoiled(data)

    def transaction_id(self):
        """Any number of 16 bits, and more often one that was used before."""
        chance = self.chance
        if self.used and chance.random() < 0.7:
            return chance.choice(self.used)
        self.used.append(chance.choice([0, 1, 255, 256, 65535] + [chance.randrange(65536)] * 5))
        return self.used[-1]

    def routes(self, asker, target):
        """What a router says of ranges, which frozen stations don't believe."""
        chance = self.chance
        first, last = chance.choice(self.internet.cables)
        net, node = chance.choice([*self.ports, asker])
        data = struct.pack(">HBB", net, 8, node) + struct.pack(">HBHB", first, 0x80, last, 0x82)
        return self.own_socket(1), self.socket(1), self.socket(1), self.spoiled(data)

    def noise(self, asker, target):
        chance = self.chance
        size = chance.choice([0, 0, 1, 2, 8, 13, 100, 585, 586, 586, 587, 600, chance.randint(0, 586)])
        kind = chance.choice([1, 2, 3, 4, 6, 128, 0, 255, 22])
        return chance.randrange(256), chance.choice([1, 2, 4, 6, 128, 252, 253, 0, 255]), kind, chance.randbytes(size)
