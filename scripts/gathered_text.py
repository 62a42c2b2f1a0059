"""The tables file of what was gathered: docs/FORMATS.md, "The tables file"."""

MOST_ZONES = 64  # of a cable in version 1
PRINTABLE = range(0x20, 0x7F)
FIRST_ENUMERATOR, LAST_ENUMERATOR = 1, 255


def name_text(name):
    """A name: a text, or, where it isn't printable ASCII, its bytes."""
    if all(byte in PRINTABLE for byte in name):
        return quoted(name.decode())
    return f'{{hex = "{name.hex().upper()}"}}'


def quoted(text):
    return '"' + text.replace("\\", "\\\\").replace('"', '\\"') + '"'


def zone_text(zone):
    """A zone; letters that aren't ASCII, which no zone of a tables file has, are question marks."""
    return quoted("".join(chr(byte) if byte in PRINTABLE else "?" for byte in zone))


def zones_text(zones):
    return "[" + ", ".join(zone_text(zone) for zone in zones) + "]"


def range_text(range_):
    return f"[{range_.first}, {range_.last}]"


def mapping_text(mapping):
    if not mapping:
        return ""
    pairs = [f'{{address = "{address}", hardware = "{hardware}"}}' for address, hardware in sorted(mapping.items())]
    return "mapping = [" + ", ".join(pairs) + "]"


def inline(*parts):
    return "{" + ", ".join(part for part in parts if part) + "}"


def remark_lines(remarks, indent=""):
    return [f"{indent}# {remark}" for remark in remarks]


def entries(key, items, text):
    """A list, each entry on a line of its own, after its remarks."""
    lines = [f"{key} = ["]
    for item in items:
        lines += remark_lines(item.remarks, "    ")
        lines.append(f"    {text(item)},")
    return [*lines, "]"]


class Text:
    """Writes a tables file, with mappings if these are asked for."""

    def __init__(self, tables, nodes, has_mappings):
        self.tables, self.nodes, self.has_mappings = tables, nodes, has_mappings

    def mapping(self, owner):
        return mapping_text(owner.mapping) if self.has_mappings else ""

    def port(self, port):
        hardware = f'hardware = "{port.hardware}"' if port.hardware else ""
        return inline(f"cable = {self.tables.place(port.cable) + 1}", f'address = "{port.address}"', hardware, self.mapping(port))

    @staticmethod
    def row(row):
        next_ = f'next = "{row.next}"' if row.next.net else ""
        state = f'state = "{row.state}"' if row.state != "Good" else ""
        return inline(f"range = {range_text(row.range)}", f"distance = {row.distance}", f"port = {row.port}", next_, state)

    @staticmethod
    def zone_list(it):
        complete = "" if it.complete else "complete = false"
        return inline(f"range = {range_text(it.range)}", complete, f"zones = {zones_text(it.zones)}")

    @staticmethod
    def cable(cable):
        return ["", f"[[cable]] # {cable.name}", *remark_lines(cable.remarks), f"range = {range_text(cable.range)}",
                f"zones = {zones_text(cable.zones)}"]

    def router(self, router):
        lines = ["", "[[router]]", *remark_lines(router.remarks), *entries("port", router.ports, self.port),
                 *entries("row", router.rows, self.row)]
        if router.lists is not None:
            lines += entries("list", router.lists, self.zone_list)
        return lines

    def node(self, node):
        lines = ["", "[[node]]", *remark_lines(node.remarks), f"cable = {self.tables.place(node.cable) + 1}",
                 f'address = "{node.address}"', f'hardware = "{node.hardware}"', f"zone = {zone_text(node.zone)}"]
        if node.router:
            lines.append(f'router = "{node.router}"')
        if self.mapping(node):
            lines.append(self.mapping(node))
        if node.names:
            lines += names_lines(node.names)
        return lines

    def whole(self, remarks):
        lines = remark_lines(remarks)
        lists = [it.zones for it in self.tables.cables + [it for router in self.tables.routers for it in router.lists or []]]
        if self.has_mappings or any(len(zones) > MOST_ZONES for zones in lists):
            lines.append("version = 2")
        for cable in self.tables.cables:
            lines += self.cable(cable)
        for router in self.tables.routers:
            lines += self.router(router)
        for node in self.nodes:
            lines += self.node(node)
        return "\n".join(lines).lstrip("\n") + "\n"


def names_lines(names):
    """A node's names. Their enumerators rise in a tables file; on a real cable each socket may count its own, and then they are
    counted anew here."""
    names = sorted(names, key=lambda it: it.enumerator)
    numbers = [it.enumerator for it in names]
    if len(set(numbers)) < len(numbers) or min(numbers) < FIRST_ENUMERATOR or max(numbers) > LAST_ENUMERATOR:
        numbers = range(FIRST_ENUMERATOR, len(names) + 1)
    lines = [inline(f"object = {name_text(it.object)}", f"type = {name_text(it.type)}", f"socket = {it.socket}",
                    f"enumerator = {number}") for it, number in zip(names, numbers)]
    return ["name = [", *(f"    {line}," for line in lines), "]"]
