"""Internet files made by chance, with something at fault, or at the bound where it just isn't."""
import random

from internet_texts import Plainly, Raw, Twice, Variously
from internets import changed
from made_plays import Plan

OTHER_TYPES = [7, "7", True, [7], ["x"], [{}], {}, Raw("1.0"), Raw("1979-05-27"), Raw("9223372036854775808")]
ZONES = ["", "a" * 32, "a" * 33, "*", "**", " ", "~", "\x1f", "\x7f", "\u00e9", "A\nB"]
PATTERNS = ["a" * 32, "a" * 33, "", "=", "==", "\u0142", "x\u0142", "\u00e9", "\u00e9" * 16, "\u00e9" * 16 + "a", "\0"]
BYTES = [0, 255, 256, -1, 257, 65536, 4294967296]
ADDRESSES = ["0.0", "65535.255", "65536.0", "1.256", "01.1", "1.01", "00.1", "1.00", "1", "1.", ".1", "1.1.1", "", "-1.1", "+1.1", "1. 1",
             " 1.1", "1.1 ", "1,1", "0x1.1", "1.-1", "\uff11.1", "999999999999999999999.1"]
HARDWARE = ["0" * 11, "0" * 13, "0" * 12, "02000000000g", "02:00:00:00:00:01", "", " 20000000001", "AbCdEf012345", "0x0000000001",
            "\uff10" * 12, "+20000000001", "02000000000\u00e9"]
DIGITS = ["", "0", "00", "0g", "0x00", "00 ", " 00", "AbcD", "+0", "00" * 586, "00" * 587, "00" * 1000, "\u00e9\u00e9"]
UNKNOWN = ["extra", "Cable", "cables", "names", "ticks", "cable", "zone", "try", "to", "id", "", "a b", "\u00e9"]
SNIPPETS = ["[cable]", "[[cable]", "[[cable", "[[]]", "[[cable.a.b]]", "[[ticks]]", "[[router.port]]", "[[node.name]]", "[[extra]]",
            "= 1", "key", "a =", "a = 1 b = 2", "a.b = 1", "ticks.a = 1", "a = 'x", 'a = "x', 'a = "\\q"', 'a = "\\ud800"', "a = '''x",
            "a = [1, 2", "a = [1,, 2]", "a = {b = 1,}", "a = {b = 1", "a = 01", "a = 1_", "a = _1", "a = 1__0", "a = 0x", "a = 0xg",
            "a = 1e5", "a = +", "a = truer", "a = '\x01'", "# \x01", "# \x7f", "# a\rb", "a = 1\r", "\x00", "a = \"\t\"", "\"\" = 1",
            "a = 2024-02-30", "\u00e9 = 1", "a = 1 # so", "cable = 1", "router = {}", "node = \"x\"", "lose = [1]", "action = [[]]",
            "cable = []"]


class Rich(Plan):
    """A small internet with at least one of everything."""

    def __init__(self, chance):
        super().__init__(chance)
        for key in ["router", "lose"]:
            self.top.setdefault(key, [])
        if not self.top["lose"]:
            self.top["lose"] = [self.lose()]

    def some_ranges(self):
        return super().some_ranges()[:4]

    def joins(self):
        return super().joins() or [[0]]

    def node_count(self):
        return self.chance.choice([2, 3])

    def names(self):
        return super().names() or [{"object": "lab", "type": "LaserWriter", "socket": 129}]

    def lose(self):
        return {**super().lose(), "first": 1, "last": self.ticks}

    def actions(self):
        return [self.send(self.ticks, 0, self.target(0)), self.lookup(1, 1), *super().actions()[:3]]


def numbered(name, count):
    """So many tables of a list of names."""
    return [{"object": f"{name} {k}", "type": "x", "socket": 128} for k in range(count)]


def near(count):
    """Numbers around the bounds of one that counts from 1."""
    return [0, 1, count, count + 1, -1, 256 + 1, 65536 + 1, 4294967296 + 1]


class Tables:
    """The tables of a file by kind, with the values that lie at the bounds of their keys."""

    def __init__(self, plan):
        self.plan, self.top = plan, plan.top
        actions = self.top["action"]
        self.kinds = {
            "top": [self.top], "cable": self.top["cable"], "router": self.top["router"],
            "port": [port for router in self.top["router"] for port in router["port"]], "node": self.top["node"],
            "name": [name for node in self.top["node"] for name in node.get("name", [])], "lose": self.top["lose"],
            "send": [action for action in actions if action["do"] == "send"],
            "lookup": [action for action in actions if action["do"] == "lookup"],
        }

    def bounds(self, kind, key, table):
        """Values at the bounds of a key, and just past them."""
        if kind == "name" and key == "socket":
            return [0, 1, 254, 255, -1]
        if kind == "send" and key == "type":
            return BYTES
        if kind == "top" and key != "ticks":
            return []  # the lists of the tables below
        if key in ("try", "port"):
            return self.tries(table) if key == "try" else self.ports(table)
        ticks = near(self.top["ticks"])
        return {
            "ticks": [0, -1, 1, self.top["ticks"] - 1, 100001], "range": self.ranges(), "zones": self.zones(),
            "cable": near(len(self.top["cable"])), "hardware": HARDWARE, "zone": ZONES, "object": PATTERNS, "type": PATTERNS,
            "name": self.names(), "first": ticks, "last": ticks, "at": ticks, "node": near(len(self.top["node"])), "to": ADDRESSES,
            "socket": BYTES, "source": BYTES, "id": [0, 65535, 65536, -1], "hex": DIGITS,
            "do": ["Send", "", "send ", "register", "look up"],
        }[key]

    def ranges(self):
        return [[0, 1], [1, 1], [65279, 65279], [65279, 65280], [2, 1], [1], [1, 2, 3], [], ["1", 2], [1, 65280], [-1, 5], [1, 65279],
                [1, 65537], [Raw("1.0"), 2]]

    def zones(self):
        return [[], *([f"Zone {k}" for k in range(count)] for count in (64, 65, 255, 256)), ["Red", 1], [["Red"]],
                *([zone] for zone in ZONES), *(["Red", zone] for zone in ZONES)]

    def ports(self, router):
        port = router["port"][0]
        return [[], [port, port], [port, 1], [[port]], [port, {}]]

    def names(self):
        lab = {"object": "lab", "type": "x", "socket": 1}
        return [numbered("name", 32), numbered("name", 33), [lab, {**lab, "socket": 2}], [lab, {**lab, "object": "LAB", "type": "X"}],
                [lab, {**lab, "object": "lAb"}, {**lab, "object": "l"}], [{**lab, "object": "\u00e9"}, {**lab, "object": "\u00c9"}],
                [lab, {**lab, "extra": 1}], [{**lab, "object": "m"}, {"object": "lab", "type": "x"}], [lab, 1]]

    def tries(self, seat):
        """Lists of addresses to try, on the cable that a station names."""
        first, last = self.top["cable"][seat["cable"] - 1]["range"]
        good = [f"{first}.{node}" for node in range(1, 18)]
        alone = [f"{first}.0", f"{first}.1", f"{last}.253", f"{last}.254", f"{last}.255", f"{first - 1}.1", f"{last + 1}.1", f"0{first}.1",
                 f"{first}.01", str(first), f"{first}.1.1", f"+{first}.1", f" {first}.1", first, Raw(f"{first}.1"), [good[0]]]
        return [[], good[:16], good, *([one] for one in alone), f"{first}.1", [good[0], f"{first}.254"], [good[0], good[0]]]


def faults():
    """Each thing that may be at fault: the kind of table, its key, and what is done with it, by its number."""
    any_file = Tables(Rich(random.Random("any file")))
    out = []
    for kind, tables in any_file.kinds.items():
        table = max(tables, key=len)
        out += [(kind, None, 0)] * 2
        for key in table:
            out += [(kind, key, number) for number in range(-2 - len(OTHER_TYPES), len(any_file.bounds(kind, key, table)))]
    return out


def spoil(chance, tables, fault):
    """Does to a table of a file what a fault says."""
    kind, key, number = fault
    having = [table for table in tables.kinds[kind] if key is None or key in table]
    if not having:
        return
    table = chance.choice(having)
    if key is None:
        table.setdefault(chance.choice(UNKNOWN), chance.choice([1, "x", []]))
    elif number == -1:
        del table[key]
    elif number == -2:
        table[key] = Twice([table[key], chance.choice([table[key], 1, "x"])])
    elif number < 0:
        table[key] = OTHER_TYPES[-3 - number]
    else:
        values = tables.bounds(kind, key, table)
        table[key] = values[number % len(values)]


def with_many(chance):
    """As many cables, routers or nodes as a file may have, or one more."""
    plan = Rich(chance)
    key, count = chance.choice(["cable", "router", "node"]), chance.choice([200, 201])
    entries = plan.top[key]
    spare = {"range": [600, 600], "zones": ["Red"]} if key == "cable" else entries[-1]
    plan.top[key] = [*entries, *[spare] * (count - len(entries))]
    plan.top["ticks"] = 1
    plan.top["action"] = plan.top["lose"] = []
    return Variously(chance).file(plan.top)


def with_ports(chance):
    """A router with as many ports as it may have, or one more."""
    count = chance.choice([16, 17])
    cables = [{"range": [10 * k, 10 * k + 9], "zones": ["Red"]} for k in range(1, count + 1)]
    ports = [{"cable": k, "hardware": f"0200000000{k:02X}", "try": []} for k in range(1, count + 1)]
    return Variously(chance).file({"ticks": 60, "cable": cables, "router": [{"port": ports}]})


def with_overlap(chance):
    """A router on two cables, whose ranges overlap, or just don't."""
    first, last = chance.choice([(19, 25), (20, 25), (1, 10), (1, 9), (12, 13), (1, 30), (10, 19), (10, 10), (19, 19), (20, 20)])
    ranges = [[10, 19], [first, last]]
    if chance.random() < 0.5:
        ranges.reverse()
    ports = [{"cable": k, "hardware": f"02000000000{k}", "try": []} for k in (1, 2)]
    cables = [{"range": ends, "zones": ["Red"]} for ends in ranges]
    return Variously(chance).file({"ticks": 20, "cable": cables, "router": [{"port": ports}]})


def with_ticks(chance):
    """As many ticks as a file may have, or one more, and one cable."""
    return Variously(chance).file({"ticks": chance.choice([100000, 100001]), "cable": [{"range": [1, 1], "zones": ["Red"]}]})


def with_snippet(chance):
    """A line or two put in at the end of a line, which mostly makes the text none."""
    lines = Plainly().file(Rich(chance).top).decode().split("\n")
    for _ in range(chance.choice([1, 1, 2])):
        lines.insert(chance.choice([0, len(lines), chance.randint(0, len(lines))]), chance.choice(SNIPPETS))
    return "\n".join(lines).encode("utf-8", "surrogatepass")


def with_bytes(chance):
    """The text with one or more changes of its bytes, often ones that are no UTF-8."""
    text = Variously(chance).file(Rich(chance).top)
    if chance.random() < 0.4:
        at = chance.randrange(len(text))
        bad = chance.choice([b"\xff", b"\xc5", b"\x80", b"\xc0\x80", b"\xed\xa0\x80", b"\xf4\x90\x80\x80", b"\xe2\x82"])
        return text[:at] + bad + text[at:]
    for _ in range(chance.choice([1, 1, 2, 5])):
        text = changed(chance, text) if text else text
    return text


FAULTS = faults()


def faulted(chance, number):
    """The file of a number: first each fault by itself, then several, and other things that may be wrong."""
    if number >= len(FAULTS):
        make = chance.choice([with_many, with_ports, with_overlap, with_ticks, *[with_snippet] * 4, *[with_bytes] * 4, *[None] * 4])
        if make:
            return make(chance)
    plan = Rich(chance)
    tables = Tables(plan)
    chosen = [FAULTS[number]] if number < len(FAULTS) else chance.sample(FAULTS, 2)
    for fault in chosen:
        try:
            spoil(chance, tables, fault)
        except (AttributeError, IndexError, KeyError, TypeError, ValueError):
            pass  # the second one isn't possible after the first one
    return Variously(chance).file(plan.top)
