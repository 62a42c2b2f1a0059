"""The tables of a file that says an image: with every key, or with some of those left out that may be."""
from tables_model import NO_ADDRESS, STATES, is_printable

MAY_BE_LEFT_OUT = {
    "top": {"version", "cable", "router", "node"}, "router": {"port", "row", "list"}, "port": {"hardware", "mapping"},
    "row": {"next", "state"}, "list": {"complete"}, "node": {"hardware", "router", "name", "mapping"},
}
USUAL = {"version": 1, "next": NO_ADDRESS, "state": "Good", "complete": True}  # what a key says that is left out; a list is empty


def name_value(name):
    """A text where it can be one, else hexadecimal digits."""
    return name.decode() if is_printable(name) else {"hex": name.hex()}


def address_text(address):
    return f"{address[0]}.{address[1]}"


def station(cable, address, hardware):
    return {"cable": cable + 1, "address": address_text(address), "hardware": hardware.hex().upper()}


def mapping_tables(mappings):
    return [{"address": address_text(address), "hardware": hardware.hex()} for address, hardware in mappings]


def cable_table(first, last, zones):
    return {"range": [first, last], "zones": [name_value(zone) for zone in zones]}


def row_table(first, last, distance, port, following, state):
    way = {"distance": distance, "port": port + 1, "next": address_text(following)}
    return {"range": [first, last], **way, "state": STATES[state]}


def list_table(first, last, complete, zones):
    return {**cable_table(first, last, zones), "complete": bool(complete)}


def router_table(router):
    ports = [{**station(*seat), "mapping": mapping_tables(mappings)} for *seat, mappings in router.ports]
    return {"port": ports, "row": [row_table(*row) for row in router.rows], "list": [list_table(*known) for known in router.lists]}


def name_table(socket, enumerator, own, kind):
    return {"object": name_value(own), "type": name_value(kind), "socket": socket, "enumerator": enumerator}


def node_table(node):
    out = {**station(node.cable, node.address, node.hardware), "zone": name_value(node.zone)}
    if node.router:
        out["router"] = address_text(node.router)
    return {**out, "name": [name_table(*name) for name in node.names], "mapping": mapping_tables(node.mappings)}


def tables_of(image):
    """The top of a file that says the image, with every key."""
    cables = [cable_table(*cable) for cable in image.cables]
    routers, nodes = [router_table(router) for router in image.routers], [node_table(node) for node in image.nodes]
    return {"version": image.version, "cable": cables, "router": routers, "node": nodes}


class Shorter:
    """Leaves out keys by chance, of those that may be; nothing that makes the file one at fault."""

    def __init__(self, chance):
        self.chance = chance
        self.share = chance.choice([0.3, 0.7, 1])
        self.hardware = chance.choice([0, 0.3, 0.5, 1])

    def leaves_out(self, kind, key, value):
        if key not in MAY_BE_LEFT_OUT.get(kind, ()):
            return False
        if key == "hardware":
            return self.chance.random() < self.hardware
        if key == "list":
            return self.chance.random() < 0.6
        if value == USUAL.get(key, []):
            return self.chance.random() < self.share
        # Without its text or boolean an entry says something else, and lists and numbers are meant by others.
        return isinstance(value, (str, bool)) and self.chance.random() < 0.1

    def table(self, kind, table):
        """What is left of a table of a kind, which is the name of the list that it stands in."""
        kept = {key: value for key, value in table.items() if not self.leaves_out(kind, key, value)}
        return {key: self.tables(key, value) for key, value in kept.items()}

    def tables(self, kind, value):
        if isinstance(value, list) and all(isinstance(one, dict) for one in value):
            return [self.table(kind, one) for one in value]
        return value
