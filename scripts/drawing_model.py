"""What a drawing of an image has to show, computed apart from the crates, and what Graphviz reads in one."""
import collections
import json
import re

from settled_model import settling

# A shape that Graphviz reads: its name, the lines of its label, and its colour.
Shape = collections.namedtuple("Shape", "name lines color")
# An edge that Graphviz reads: the names of its ends, the lines of its label, its colour, and whether it is an arrow.
Edge = collections.namedtuple("Edge", "tail head lines color arrow")
Drawing = collections.namedtuple("Drawing", "title shapes edges")

RED, BLUE, ORANGE = "red", "blue", "darkorange"


def spelled(address):
    return "%d.%d" % address


def shown(text):
    """A text, with a question mark for each byte that isn't printable."""
    return "".join(chr(byte) if 0x20 <= byte <= 0x7E else "?" for byte in text)


class Mark:
    """The place of a verdict line that says no, or the first row that may change after a yes; and the line that its label ends with."""

    def __init__(self, image, verdict):
        told = re.fullmatch(r"no: (C\d+) (cable|router|node) (\d+)(?: (\w+) (\d+))?", verdict)
        changes = verdict.startswith("yes:") and re.fullmatch(r"settled: no router (\d+) row (\d+)", settling(image))
        self.place = self.line = self.color = None
        if changes:
            self.place, self.line, self.color = ("router", int(changes[1])), f"may change: row {changes[2]}", ORANGE
        if told:
            self.color = RED
            rule, what, number, part, index = told.groups()
            if what == "router" and part == "port":
                self.place, self.line = ("port", int(number), int(index)), rule
            elif what == "router":
                self.place, self.line = ("router", int(number)), f"{rule} {part} {index}"
            else:
                self.place, self.line = (what, int(number)), rule

    def of(self, *place):
        """The further lines of a place's label, and its colour."""
        return ([self.line], self.color) if place == self.place else ([], None)


def hand(image, router, network):
    """What a router does with a datagram to a network: the shape and the address to which it sends it; None if it has no route."""
    for first, last, _, p, following, state in router.rows:
        if state > 1 or not first <= network <= last:
            continue
        cable = router.ports[p][0]
        if following == (0, 0):
            return f"c{cable + 1}", None
        for s, other in enumerate(image.routers, 1):
            if any(port[:2] == (cable, following) for port in other.ports):
                return f"r{s}", following
        return None
    return None


class Expected:
    """The drawing of an image with this verdict line, for a network if there is one."""

    def __init__(self, image, verdict, network):
        self.image, self.mark, self.network = image, Mark(image, verdict), network
        self.shapes, self.edges = [], []
        self.cables()
        for r, router in enumerate(image.routers, 1):
            self.router(r, router)
        self.nodes()
        self.arrows()
        title = [verdict] if network is None else [verdict, f"to {network}"]
        self.drawing = Drawing(title, sorted(self.shapes), sorted(self.edges, key=repr))

    def shape(self, letter, what, number, lines):
        last, color = self.mark.of(what, number)
        self.shapes.append(Shape(f"{letter}{number}", [f"{what} {number}", *lines, *last], color))

    def edge(self, tail, head, lines=(), color=None, arrow=False):
        self.edges.append(Edge(tail, head, list(lines) or [""], color, arrow))

    def cables(self):
        for k, (first, last, zones) in enumerate(self.image.cables, 1):
            self.shape("c", "cable", k, [f"{first}-{last}", *map(shown, zones)])

    def router(self, r, router):
        lost = self.network is not None and hand(self.image, router, self.network) is None
        self.shape("r", "router", r, ["no route"] if lost else [])
        for p, port in enumerate(router.ports, 1):
            last, color = self.mark.of("port", r, p)
            self.edge(f"r{r}", f"c{port[0] + 1}", [spelled(port[1]), *last], color)

    def nodes(self):
        for k, node in enumerate(self.image.nodes, 1):
            names = [f"{shown(name[2])}:{shown(name[3])}" for name in node.names]
            self.shape("n", "node", k, [spelled(node.address), shown(node.zone), *names])
            self.edge(f"n{k}", f"c{node.cable + 1}")

    def arrows(self):
        if self.network is None:
            return
        for r, router in enumerate(self.image.routers, 1):
            way = hand(self.image, router, self.network)
            if way:
                self.edge(f"r{r}", way[0], [spelled(way[1])] if way[1] else [], BLUE, True)


def lines_of(label):
    """The lines of a label as Graphviz keeps it, where a backslash escapes the next character."""
    lines, escaped = [""], False
    for character in label:
        if escaped and character == "n":
            lines.append("")
        elif escaped or character != "\\":
            lines[-1] += character
        escaped = not escaped and character == "\\"
    return lines


def color_of(part):
    """The colour of a part, and of the text of its label, which are the same if the label has a text."""
    color, text = part.get("color"), part.get("fontcolor")
    return color if color == text or not part.get("label") else (color, text)


def read(text):
    """The drawing that Graphviz read, as it says in JSON."""
    graph = json.loads(text)
    objects, edges = graph.get("objects", []), graph.get("edges", [])
    names = {part["_gvid"]: part["name"] for part in objects}
    shapes = [Shape(part["name"], lines_of(part["label"]), color_of(part)) for part in objects]
    ends = [
        Edge(names[part["tail"]], names[part["head"]], lines_of(part.get("label", "")), color_of(part), part["dir"] == "forward")
        for part in edges
    ]
    return Drawing(lines_of(graph["label"]), sorted(shapes), sorted(ends, key=repr))


def differences(drawing, expected):
    """What a drawing shows and shouldn't, and what it should and doesn't."""
    if drawing.title != expected.title:
        yield f"its label is {drawing.title}, not {expected.title}"
    for field in ("shapes", "edges"):
        ours, wanted = (collections.Counter(map(repr, getattr(it, field))) for it in (drawing, expected))
        for part in ours - wanted:
            yield f"shows {part}"
        for part in wanted - ours:
            yield f"doesn't show {part}"
