"""Internet files, as docs/man/atalk-internet.5 says: what is at fault in a text, read apart from the crates."""
import re
import tomllib

LAST_NETWORK = 65279
KINDS = {"cable": "Cable", "router": "Router", "node": "Node", "lose": "Lose", "action": "Action"}
LIMITED = {"cable", "router", "node"}
SENDS = {"at", "node", "do", "to", "socket", "source", "type", "hex"}
LOOKS_UP = {"at", "node", "do", "id", "object", "type", "zone"}


class Fault(Exception):
    """The part and the index that a refusal names."""

    def __init__(self, part, index):
        super().__init__(f"bad file: {part} {index}")


class Bad(Exception):
    """An entry is at fault."""


def need(holds):
    if not holds:
        raise Bad


def number(value, low, high):
    need(type(value) is int and low <= value <= high)
    return value


def text(value, low, high):
    need(type(value) is str)
    data = value.encode()
    need(low <= len(data) <= high)
    return data


def many(value, low, high, item):
    need(type(value) is list and low <= len(value) <= high)
    return [item(entry) for entry in value]


def table(value, keys, optional=frozenset()):
    need(type(value) is dict and set(keys) <= set(value) <= set(keys) | set(optional))
    return value


def zone(value):
    data = text(value, 1, 32)
    need(data != b"*" and all(0x20 <= byte <= 0x7E for byte in data))
    return data


def entity(value):
    data = text(value, 1, 32)
    need(data != b"=" and 0xC5 not in data)
    return data


def address(value):
    need(type(value) is str)
    found = re.fullmatch(r"(0|[1-9][0-9]{0,4})\.(0|[1-9][0-9]{0,2})", value, re.ASCII)
    need(found)
    net, node = int(found[1]), int(found[2])
    need(net <= 65535 and node <= 255)
    return net, node


class Reader:
    """Reads the entries of a file; those of one kind after the other."""

    def __init__(self, top):
        self.ticks = top["ticks"]
        self.cables, self.nodes = [], []

    def cable(self, value):
        value = table(value, {"range", "zones"})
        first, last = many(value["range"], 2, 2, lambda net: number(net, 1, LAST_NETWORK))
        need(first <= last)
        many(value["zones"], 1, 255, zone)
        self.cables.append((first, last))

    def seat(self, value):
        """The cable of a port or a node, with its hardware address and its addresses to try."""
        first, last = self.cables[number(value["cable"], 1, len(self.cables)) - 1]
        need(type(value["hardware"]) is str and re.fullmatch("[0-9A-Fa-f]{12}", value["hardware"], re.ASCII))
        for net, node in many(value["try"], 0, 16, address):
            need(first <= net <= last and 1 <= node <= 253)
        return first, last

    def router(self, value):
        value = table(value, {"port"})
        ranges = many(value["port"], 1, 16, lambda port: self.seat(table(port, {"cable", "hardware", "try"})))
        for k, (first, last) in enumerate(ranges):
            need(all(b < first or last < a for a, b in ranges[:k]))

    def name(self, value):
        value = table(value, {"object", "type", "socket"})
        number(value["socket"], 1, 254)
        return entity(value["object"]).upper(), entity(value["type"]).upper()

    def node(self, value):
        value = table(value, {"cable", "hardware", "try", "zone"}, {"name"})
        self.seat(value)
        zone(value["zone"])
        names = many(value.get("name", []), 0, 32, self.name)
        need(len(set(names)) == len(names))
        self.nodes.append(value)

    def lose(self, value):
        value = table(value, {"cable", "first", "last"})
        number(value["cable"], 1, len(self.cables))
        number(value["last"], number(value["first"], 1, self.ticks), self.ticks)

    def action(self, value):
        need(type(value) is dict and value.get("do") in ("send", "lookup"))
        sends = value["do"] == "send"
        value = table(value, SENDS if sends else LOOKS_UP)
        number(value["at"], 1, self.ticks)
        number(value["node"], 1, len(self.nodes))
        if sends:
            address(value["to"])
            for key in ("socket", "source", "type"):
                number(value[key], 0, 255)
            need(type(value["hex"]) is str and re.fullmatch("([0-9A-Fa-f]{2})*", value["hex"], re.ASCII))
            return
        number(value["id"], 0, 65535)
        text(value["object"], 1, 32)
        text(value["type"], 1, 32)
        text(value["zone"], 0, 32)


def read(data):
    """Raises the first fault of a text, if it has one."""
    try:
        top = tomllib.loads(data.decode())
    except (UnicodeDecodeError, tomllib.TOMLDecodeError):
        raise Fault("Text", 0) from None
    if not set(top) <= {"ticks", *KINDS} or type(top.get("ticks")) is not int or not 1 <= top["ticks"] <= 100_000:
        raise Fault("Top", 0)
    if any(type(top.get(kind, [])) is not list for kind in KINDS):
        raise Fault("Top", 0)
    reader = Reader(top)
    for kind, part in KINDS.items():
        for index, value in enumerate(top.get(kind, []), 1):
            try:
                need(kind not in LIMITED or index <= 200)
                getattr(reader, kind)(value)
            except Bad:
                raise Fault(part, index) from None


def answer(data):
    """What reading the text answers."""
    try:
        read(data)
    except Fault as fault:
        return str(fault)
    return "a plan"
