#!/usr/bin/env python3
"""Tables files, as docs/FORMATS.md says: the image that a text says, or its first fault, read apart from the crates.

usage: scripts/tables_model.py [FILE]

Prints the image's bytes. Where the file, or standard input if none is given, is at fault, it prints the part and the number
of the first fault on standard error, as in `Cable, 1`, and the status is 2.
"""
import itertools
import re
import struct
import sys
import tomllib

sys.dont_write_bytecode = True  # the modules beside this script leave no files there
from image_model import MOST_MAPPINGS, MOST_ZONES, Image, Node, Router

MOST_ENTRIES = 200  # cables, routers, nodes, and a router's rows and lists
MOST_PORTS = 16
MOST_NAMES = 32
LONGEST_NAME = 32
PARTS = {"cable": "Cable", "router": "Router", "node": "Node"}
STATES = ["Good", "Suspect", "Bad", "Last"]
NO_ADDRESS = "0.0"


class BadFile(Exception):
    """The part and the number of a file's first fault."""

    def __init__(self, part, number):
        super().__init__(f"{part}, {number}")
        self.part, self.number = part, number


class Bad(Exception):
    """An entry is at fault."""


def need(holds):
    if not holds:
        raise Bad


# ---- Values


def number(value, low, high):
    """A TOML integer within bounds. A boolean is none, although Python has it as one."""
    need(type(value) is int and low <= value <= high)
    return value


def text(value):
    need(type(value) is str)
    return value


def boolean(value):
    need(type(value) is bool)
    return value


def table(value, required, optional=()):
    """A table that has all of the required keys, and no others but optional ones."""
    need(type(value) is dict and set(required) <= set(value) <= {*required, *optional})
    return value


def many(value, most, item):
    """A list of at most so many items."""
    need(type(value) is list and len(value) <= most)
    return [item(entry) for entry in value]


def rising(items, key):
    """Items whose keys rise strictly."""
    keys = [key(item) for item in items]
    need(all(before < after for before, after in zip(keys, keys[1:])))
    return items


def digits(value, count):
    """The bytes of a text of hexadecimal digits, as many as the pattern of the count says."""
    need(re.fullmatch(f"([0-9A-Fa-f]{{2}}){count}", text(value), re.ASCII))
    return bytes.fromhex(value)


def address(value):
    """Network and node, in decimal digits without signs and leading zeros."""
    found = re.fullmatch(r"(0|[1-9][0-9]{0,4})\.(0|[1-9][0-9]{0,2})", text(value), re.ASCII)
    need(found)
    return number(int(found[1]), 0, 65535), number(int(found[2]), 0, 255)


def hardware(value):
    return digits(value, "{6}")


def network_range(value):
    """The first and the last network, in any order."""
    ends = many(value, 2, lambda network: number(network, 0, 65535))
    need(len(ends) == 2)
    return tuple(ends)


def spelled(value):
    """The bytes that a text of printable ASCII says, or those in hexadecimal digits."""
    if type(value) is dict:
        return digits(table(value, ["hex"])["hex"], "*")
    name = text(value).encode()
    need(is_printable(name))
    return name


def is_printable(name):
    return all(0x20 <= byte <= 0x7E for byte in name)


def named(value, is_good):
    """The bytes of a name, of which an image has 1 to 32."""
    name = spelled(value)
    need(1 <= len(name) <= LONGEST_NAME and is_good(name))
    return name


def zone(value):
    return named(value, lambda name: name != b"*" and is_printable(name))


def entity(value):
    """An object or a type."""
    return named(value, lambda name: name != b"=" and 0xC5 not in name)


# ---- Entries


class Reader:
    """Reads the entries of a file of a version: all cables, then the routers, then the nodes."""

    def __init__(self, version):
        self.image = Image(version, [], [], [])

    def zones(self, value):
        return many(value, MOST_ZONES[self.image.version], zone)

    def cable_number(self, value):
        """The index of a cable that is counted from 1."""
        return number(value, 1, len(self.image.cables)) - 1

    def mappings(self, value):
        """The mappings of a port or a node; in version 1 there are none."""
        most = 0 if self.image.version == 1 else MOST_MAPPINGS
        return rising(many(value.get("mapping", []), most, self.mapping), lambda mapping: mapping[0])

    def mapping(self, value):
        value = table(value, ["address", "hardware"])
        return address(value["address"]), hardware(value["hardware"])

    def cable(self, value):
        value = table(value, ["range", "zones"])
        self.image.cables.append((*network_range(value["range"]), self.zones(value["zones"])))

    def router(self, value):
        value = table(value, [], ["port", "row", "list"])
        ports = many(value.get("port", []), MOST_PORTS, self.port)
        rows = many(value.get("row", []), MOST_ENTRIES, lambda row: self.row(row, len(ports)))
        lists = many(value["list"], MOST_ENTRIES, self.zone_list) if "list" in value else self.lists_of_cables()
        self.image.routers.append(Router(ports, rising(rows, first_network), rising(lists, first_network)))

    def port(self, value):
        value = table(value, ["cable", "address"], ["hardware", "mapping"])
        return self.station(value)

    def station(self, value):
        """The cable of a port or a node, its address, its hardware address if it is given, and its mappings."""
        given = hardware(value["hardware"]) if "hardware" in value else None
        return self.cable_number(value["cable"]), address(value["address"]), given, self.mappings(value)

    def row(self, value, ports):
        value = table(value, ["range", "distance", "port"], ["next", "state"])
        state = text(value.get("state", "Good"))
        need(state in STATES)
        distance, port = number(value["distance"], 0, 31), number(value["port"], 1, ports) - 1
        return *network_range(value["range"]), distance, port, address(value.get("next", NO_ADDRESS)), STATES.index(state)

    def zone_list(self, value):
        value = table(value, ["range", "zones"], ["complete"])
        return *network_range(value["range"]), boolean(value.get("complete", True)), self.zones(value["zones"])

    def lists_of_cables(self):
        """The lists of a router without the key: of each cable whose first network is above those of all cables before it."""
        lists, highest = [], -1
        for first, last, zones in self.image.cables:
            if first > highest:
                lists.append((first, last, True, zones))
                highest = first
        return lists

    def node(self, value):
        value = table(value, ["cable", "address", "zone"], ["hardware", "router", "name", "mapping"])
        cable, own, given, mappings = self.station(value)
        router = address(value["router"]) if "router" in value else None
        names = rising(many(value.get("name", []), MOST_NAMES, self.name), lambda name: name[1])
        self.image.nodes.append(Node(cable, own, given, zone(value["zone"]), router, names, mappings))

    def name(self, value):
        value = table(value, ["object", "type", "socket", "enumerator"])
        socket, enumerator = number(value["socket"], 1, 254), number(value["enumerator"], 1, 255)
        return socket, enumerator, entity(value["object"]), entity(value["type"])


def first_network(part):
    """Of a row or a zone list."""
    return part[0]


# ---- Hardware addresses that are made up


def least_mark(image):
    """The least number that in no hardware address given follows the byte 02."""
    given = [port[2] for router in image.routers for port in router.ports] + [node.hardware for node in image.nodes]
    taken = {one[:3] for one in given if one}
    return next(mark for mark in itertools.count() if struct.pack(">BH", 2, mark) not in taken)


def make_up_hardware(image):
    """Gives each port and node without a hardware address one of its own."""
    mark = least_mark(image)
    for r, router in enumerate(image.routers, 1):
        for p, (cable, own, given, mappings) in enumerate(router.ports, 1):
            router.ports[p - 1] = cable, own, given or struct.pack(">BHBBB", 2, mark, 0, r, p), mappings
    for k, node in enumerate(image.nodes, 1):
        node.hardware = node.hardware or struct.pack(">BHBBB", 2, mark, 1, k, 0)


# ---- Files


def document(data):
    """The top of a TOML document, whose integers have 64 bits."""
    try:
        top = tomllib.loads(data.decode())
    except ValueError:  # no UTF-8, no TOML, or more digits than Python reads
        raise BadFile("Text", 0) from None
    if not has_64_bits(top):
        raise BadFile("Text", 0)
    return top


def has_64_bits(value):
    """Whether all integers in a value do."""
    if type(value) is int:
        return -(2**63) <= value < 2**63
    inner = value.values() if type(value) is dict else value if type(value) is list else []
    return all(has_64_bits(one) for one in inner)


def version_of(top):
    """The version at the top, which has no unknown keys and whose lists are lists."""
    try:
        table(top, [], ["version", *PARTS])
        need(all(type(top.get(key, [])) is list for key in PARTS))
        return number(top.get("version", 1), 1, 2)
    except Bad:
        raise BadFile("Top", 0) from None


def image_of(data):
    """The image that a text says."""
    top = document(data)
    reader = Reader(version_of(top))
    for key, part in PARTS.items():
        for index, value in enumerate(top.get(key, []), 1):
            try:
                need(index <= MOST_ENTRIES)
                getattr(reader, key)(value)
            except Bad:
                raise BadFile(part, index) from None
    make_up_hardware(reader.image)
    return reader.image


def read(data):
    """The bytes of the image that a text says."""
    return written(image_of(data))


# ---- The bytes of an image


def written(image):
    """The bytes of an image: the one spelling that its format has for it."""
    mapped = mappings_written if image.version == 2 else lambda mappings: b""
    cables = counted(struct.pack(">HH", *ends) + zones_written(zones) for *ends, zones in image.cables)
    routers = counted(router_written(router, mapped) for router in image.routers)
    nodes = counted(node_written(node, mapped) for node in image.nodes)
    return b"ATIM" + bytes([image.version]) + cables + routers + nodes


def counted(parts, size=1):
    """Parts after their count, of one byte or more."""
    parts = list(parts)
    return len(parts).to_bytes(size, "big") + b"".join(parts)


def name_written(name):
    return bytes([len(name)]) + name


def zones_written(zones):
    return counted(name_written(name) for name in zones)


def address_written(own):
    return struct.pack(">HB", *own)


def mappings_written(mappings):
    return counted((address_written(own) + given for own, given in mappings), 2)


def router_written(router, mapped):
    ports = counted(bytes([cable]) + address_written(own) + given + mapped(mappings) for cable, own, given, mappings in router.ports)
    rows = counted(struct.pack(">HHBB", *way) + address_written(following) + bytes([state]) for *way, following, state in router.rows)
    lists = counted(struct.pack(">HHB", *ends, complete) + zones_written(zones) for *ends, complete, zones in router.lists)
    return ports + rows + lists


def node_written(node, mapped):
    out = bytes([node.cable]) + address_written(node.address) + node.hardware + name_written(node.zone)
    out += b"\1" + address_written(node.router) if node.router else b"\0"
    names = counted(bytes(numbers) + name_written(own) + name_written(kind) for *numbers, own, kind in node.names)
    return out + names + mapped(node.mappings)


def main():
    try:
        with open(sys.argv[1], "rb") if sys.argv[1:] else sys.stdin.buffer as file:
            image = read(file.read())
    except BadFile as fault:
        print(fault, file=sys.stderr)
        return 2
    sys.stdout.buffer.write(image)
    return 0


if __name__ == "__main__":
    sys.exit(main())
