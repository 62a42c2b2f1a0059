"""Images made by chance, of internets that pass the audit or don't, and with any values that the format lets fields have."""
from image_model import MOST_MAPPINGS, MOST_ZONES, Fault, Image, Node, Reader, Router, verdict
from internets import InVersion2, Made
from tables_model import MOST_ENTRIES, MOST_NAMES, MOST_PORTS, written

LETTERS = bytes(range(0x20, 0x7F))
ZONES = [b"Red", b"red", b"Blue", b"**", b" ", b"~", b'"', b"\\", b'\\"e', b"#", b"it's", b"{hex = 41}", b"a" * 32]
ENTITIES = [b"lab", b"LaserWriter", b"*", b"==", b"=x", b"\x8et\xe9", b"\0", b"\xff" * 32, b"a" * 32, b"\n", b"\x7f", b"\x1f",
            b'"', b"\\u0041", b"\xc4\xc6", "\u00e9".encode()]
NETWORKS = [0, 1, 2, 10, 19, 20, 255, 256, 65278, 65279, 65280, 65534, 65535]


class Anything:
    """An image whose fields have any values that the format lets them have, and whose lists are short, but for one that is
    now and then at its limit. In a rich one no list is empty, but for mappings in version 1."""

    def __init__(self, chance, version, rich=False):
        self.chance, self.version, self.rich = chance, version, rich
        self.full = chance.choice(["cable", "router", "port", "row", "list", "node", "name", "mapping", "zone"])
        if rich or chance.random() < 0.95:
            self.full = None

    def image(self):
        cables = self.many("cable", MOST_ENTRIES, self.cable)
        self.cables = len(cables)
        routers = self.many("router", MOST_ENTRIES, self.router)
        nodes = self.many("node", MOST_ENTRIES, self.node) if cables else []
        return Image(self.version, cables, routers, nodes)

    # ---- Values

    def count(self, kind, most):
        """How many entries a list of a kind has."""
        if kind == self.full:
            self.full = None
            return most
        return self.chance.choice([1, 1, 2, 3] if self.rich else [0, 1, 1, 2, 2, 3, 5])

    def many(self, kind, most, item):
        return [item() for _ in range(self.count(kind, most))]

    def rising(self, kind, most, key):
        """As many different keys, in their order."""
        count, keys = self.count(kind, most), set()
        while len(keys) < count:
            keys.add(key())
        return sorted(keys)

    def network(self):
        return self.chance.choice(NETWORKS) if self.chance.random() < 0.4 else self.chance.randrange(65536)

    def address(self):
        return self.network(), self.chance.choice([0, 1, 7, 253, 254, 255, self.chance.randrange(256)])

    def hardware(self):
        """Any six bytes; often ones that look made up."""
        if self.chance.random() < 0.7:
            return bytes([2, 0, self.chance.randrange(3), *self.chance.randbytes(3)])
        return self.chance.randbytes(6)

    def zone(self):
        if self.chance.random() < 0.7:
            return self.chance.choice(ZONES)
        name = bytes(self.chance.choices(LETTERS, k=self.chance.randint(1, 32)))
        return name if name != b"*" else b"A"

    def entity(self):
        if self.chance.random() < 0.7:
            return self.chance.choice(ENTITIES)
        name = self.chance.randbytes(self.chance.randint(1, 32)).replace(b"\xc5", b"\x81")
        return name if name != b"=" else b"A"

    # ---- Entries

    def zones(self):
        return self.many("zone", MOST_ZONES[self.version], self.zone)

    def cable(self):
        return self.network(), self.network(), self.zones()

    def mappings(self):
        if self.version == 1:
            return []
        return [(address, self.hardware()) for address in self.rising("mapping", MOST_MAPPINGS, self.address)]

    def station(self):
        return self.chance.randrange(self.cables), self.address(), self.hardware()

    def router(self):
        ports = self.many("port", MOST_PORTS, lambda: (*self.station(), self.mappings())) if self.cables else []
        rows = [self.row(first, len(ports)) for first in self.rising("row", MOST_ENTRIES, self.network)] if ports else []
        lists = [self.zone_list(first) for first in self.rising("list", MOST_ENTRIES, self.network)]
        return Router(ports, rows, lists)

    def row(self, first, ports):
        distance = self.chance.choice([0, 1, 14, 15, 31])
        following = self.chance.choice([(0, 0), self.address()])
        return first, self.network(), distance, self.chance.randrange(ports), following, self.chance.randrange(4)

    def zone_list(self, first):
        return first, self.network(), self.chance.randrange(2), self.zones()

    def node(self):
        router = self.address() if self.rich or self.chance.random() < 0.6 else None
        return Node(*self.station(), self.zone(), router, self.names(), self.mappings())

    def names(self):
        enumerators = self.rising("name", MOST_NAMES, lambda: self.chance.choice([1, 2, 255, self.chance.randint(1, 255)]))
        return [(self.chance.choice([1, 2, 128, 254]), number, self.entity(), self.entity()) for number in enumerators]


class Named(Made):
    """An internet whose nodes have names with any bytes."""

    def names(self):
        return [(self.chance.choice(ENTITIES), self.chance.choice(ENTITIES)) for _ in range(self.chance.randint(0, 3))]


class NamedInVersion2(InVersion2, Named):
    """The same, whose image is of version 2."""


class Sound(Named):
    """An internet in which nothing is spoiled."""

    spoiled = False

    def spoil_node(self, zone, router, own):
        return zone, router


class SoundInVersion2(InVersion2, Sound):
    """The same, whose image is of version 2."""


def is_image(data):
    try:
        Reader(data).image()
    except Fault:
        return False
    return True


def spoiled_image(chance, version):
    """The bytes of an image of which the audit says no."""
    while True:
        if chance.random() < 0.5:
            data = written(Anything(chance, version).image())
        else:
            data = (NamedInVersion2 if version == 2 else Named)(chance).image()
        if is_image(data) and verdict(data).startswith("no: "):
            return data


def some_image(chance, number):
    """The bytes of an image; of four numbers, each version has two, and of these one is spoiled."""
    version = 1 + number % 2
    if number // 2 % 2:
        return spoiled_image(chance, version)
    return (SoundInVersion2 if version == 2 else Sound)(chance).image()
