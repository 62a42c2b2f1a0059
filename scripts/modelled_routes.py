"""Routing tables as docs/BEHAVIOUR.md has them, and pseudo-random calls with what they answer."""
import dataclasses
import struct

from case_sheets import Sheet, groups

AGES = {"good": "suspect", "suspect": "bad", "bad": "last", "last": "last"}
TITLE = "Printed by scripts/table_cases.py: pseudo-random calls, and what a plain map answers."
Span = tuple[int, int]


@dataclasses.dataclass(frozen=True)
class Row:
    distance: int
    port: int
    next: str
    state: str

    @property
    def is_direct(self) -> bool:
        return self.next == "0.0"

    @property
    def is_usable(self) -> bool:
        return self.state in ("good", "suspect")


def shown(span: Span, row: Row) -> str:
    way = f"distance {row.distance} port {row.port} next {row.next}"
    return f"{span[0]}-{span[1]} {way} {row.state}"


def overlap(one: Span, other: Span) -> bool:
    return one[0] <= other[1] and other[0] <= one[1]


def as_bytes(span: Span, distance: int) -> bytes:
    return struct.pack(">HBHB", span[0], 0x80 | distance, span[1], 0x82)


def address(text: str) -> bytes:
    """A router's address, its node of 8 bits."""
    net, node = text.split(".")
    return struct.pack(">HBB", int(net), 8, int(node))


class Routes:
    """A routing table: what is known of each range."""

    def __init__(self) -> None:
        self.rows: dict[Span, Row] = {}

    def listed(self) -> list[tuple[Span, Row]]:
        return sorted(self.rows.items())

    def load(self, given: list[tuple[Span, Row]]) -> list[str]:
        """Takes other rows, whose ranges have to rise and be disjoint, at most 200."""
        spans = [span for span, _ in given]
        if any(one[1] >= other[0] for one, other in zip(spans, spans[1:])):
            return ["bad range"]
        if len(given) > 200:
            return ["full"]
        self.rows = dict(given)
        return []

    def direct(self, span: Span, port: int) -> list[str]:
        """A port comes up."""
        left = {other: row for other, row in self.rows.items() if not overlap(span, other)}
        if len(left) >= 200:
            return ["full"]
        self.rows = left | {span: Row(0, port, "0.0", "good")}
        return []

    def hear(self, span: Span, distance: int, source: str, port: int) -> str:
        """A router says that a range is at a distance."""
        heard = Row(distance + 1, port, source, "good")
        row = self.rows.get(span)
        if row is None:
            if distance > 14 or any(overlap(span, other) for other in self.rows):
                return "ignored"
            if len(self.rows) >= 200:
                return "full"
            self.rows[span] = heard
            return "added"
        if row.is_direct:
            return "ignored"
        is_own = (row.next, row.port) == (source, port)
        if distance <= 14 and (is_own or not row.is_usable or row.distance >= distance + 1):
            self.rows[span] = heard
            return "changed"
        if is_own:
            self.rows[span] = dataclasses.replace(row, state="bad")
            return "changed"
        return "ignored"

    def age(self) -> list[Span]:
        """A period passes. The ranges whose rows go."""
        others = {span: row for span, row in self.rows.items() if not row.is_direct}
        gone = [span for span, row in others.items() if row.state == "last"]
        for span in gone:
            del self.rows[span]
        for span, row in self.rows.items():
            if not row.is_direct:
                self.rows[span] = dataclasses.replace(row, state=AGES[row.state])
        return gone

    def poison(self, router: str) -> None:
        """A router is gone."""
        for span, row in self.rows.items():
            if row.next == router and not row.is_direct:
                self.rows[span] = dataclasses.replace(row, state="bad")

    def usable(self, net: int) -> tuple[Span, Row] | None:
        for span, row in self.rows.items():
            if row.is_usable and span[0] <= net <= span[1]:
                return span, row
        return None

    def sent(self, number: int, port: int, own: Span, me: str) -> str:
        """The packet of a number, from 0: the own range, and 96 rows of other ports."""
        others = [(span, row) for span, row in self.listed() if row.port != port]
        part = others[96 * number : 96 * number + 96]
        if number and not part:
            return "none"
        tuples = [as_bytes(span, row.distance if row.is_usable else 31) for span, row in part]
        return address(me).hex().upper() + groups(as_bytes(own, 0) + b"".join(tuples), 6)


class RouteCases:
    """Calls of a routing table and of its copy."""

    def __init__(self, sheet: Sheet, step: int) -> None:
        self.sheet, self.chance, self.step = sheet, sheet.chance, step
        self.table, self.other = Routes(), Routes()

    def span(self) -> Span:
        """A range of 1, 11 or 21 networks, of which some are equal and some overlap."""
        start = 1 + self.step * self.chance.randrange(24)
        return start, start + self.chance.choice([0, 10, 10, 20])

    def source(self) -> str:
        return f"{self.chance.choice([20, 20, 21])}.{self.chance.choice([1, 2, 2, 3])}"

    def port(self) -> int:
        return self.chance.choice([0, 1, 1, 2])

    def distance(self) -> int:
        return self.chance.choice([0, 1, 2, 3, 5, 8, 13, 14, 14, 15, 16, 31])

    def hear(self) -> None:
        span, distance, source, port = self.span(), self.distance(), self.source(), self.port()
        if self.table.rows and self.chance.random() < 0.5:
            span, row = self.chance.choice(self.table.listed())
            if self.chance.random() < 0.6:
                source, port = row.next, row.port
        answer = self.table.hear(span, distance, source, port)
        command = f"route hear {span[0]}-{span[1]} distance {distance} from {source} port {port}"
        self.sheet.say(command, answer)

    def packet(self) -> None:
        """A packet, whose tuples are heard one by one; nonextended ones are passed over."""
        source, port = self.source(), self.port()
        said = [(self.span(), 0)]
        said += [(self.span(), self.distance()) for _ in range(self.chance.randrange(5))]
        words = [as_bytes(*each).hex().upper() for each in said]
        if self.chance.random() < 0.3:
            words.append("003705")
        router = address(source).hex().upper()
        self.sheet.say(f"route packet port {port} {router} {' '.join(words)}")
        for span, distance in said:
            self.table.hear(span, distance, source, port)

    def direct(self) -> None:
        span, port = self.span(), self.port()
        command = f"route direct {span[0]}-{span[1]} port {port}"
        self.sheet.say(command, *self.table.direct(span, port))

    def load(self) -> None:
        given = [(self.span(), self.row()) for _ in range(self.chance.randrange(7))]
        if self.chance.random() < 0.85:
            given.sort(key=lambda pair: pair[0])
        for pair in given:
            self.sheet.say(f"route row {shown(*pair)}")
        self.sheet.say("route load", *self.table.load(given))

    def row(self) -> Row:
        state = self.chance.choice(list(AGES))
        if self.chance.random() < 0.3:
            return Row(0, self.port(), "0.0", "good")
        return Row(self.chance.randrange(32), self.port(), self.source(), state)

    def copy(self) -> None:
        self.sheet.say("route copy")
        self.other.rows = dict(self.table.rows)

    def swap(self) -> None:
        self.sheet.say("route swap")
        self.table, self.other = self.other, self.table

    def age(self) -> None:
        self.sheet.say("route age")
        self.table.age()

    def poison(self) -> None:
        router = self.source()
        self.sheet.say(f"route poison {router}")
        self.table.poison(router)

    def read(self) -> None:
        """What the table answers where nothing changes."""
        rows = self.table.listed()
        net = self.chance.randrange(1, 24 * self.step + 30)
        found = self.table.usable(net)
        self.sheet.say(f"route for {net}", shown(*found) if found else "none")
        index = self.chance.randrange(len(rows) + 2)
        self.sheet.say(f"route at {index}", shown(*rows[index]) if index < len(rows) else "none")
        self.sheet.say("route count", str(len(rows)))
        port, number = self.port(), self.chance.choice([0, 0, 0, 1, 2, 3])
        sent = self.table.sent(number, port, (60000, 60009), "60000.9")
        self.sheet.say(f"route send {number} port {port} of 60000-60009 as 60000.9", sent)

    def changes(self) -> None:
        """What differs from the copy."""
        rows, others = self.table.listed(), self.other.listed()
        wanted = [f"now {shown(*pair)}" for pair in rows if pair not in others]
        wanted += [f"was {shown(*pair)}" for pair in others if pair not in rows]
        self.sheet.say("route changes", *wanted)

    def rows(self) -> None:
        self.sheet.say("route list", *([shown(*pair) for pair in self.table.listed()] or ["none"]))

    def call(self) -> None:
        """A call, and then the rows or another reading."""
        calls = [self.hear] * 16 + [self.packet, self.age] * 4 + [self.direct, self.poison] * 2
        self.chance.choice([*calls, self.load])()
        self.chance.choice([self.rows, self.read, self.read])()


def small_tables(sheet: Sheet) -> None:
    for number in range(24):
        sheet.case(f"Calls of a routing table, and its rows, number {number + 1}.", "tables")
        cases = RouteCases(sheet, sheet.chance.choice([10, 15, 25]))
        for _ in range(20):
            cases.call()
            if sheet.chance.random() < 0.2:
                sheet.chance.choice([cases.copy, cases.swap, cases.changes])()
        cases.rows()


def full_tables(sheet: Sheet) -> None:
    """Tables of about 200 rows, in which new ranges find no room."""
    for number in range(2):
        sheet.case(f"A table that is nearly full, number {number + 1}.", "tables")
        cases = RouteCases(sheet, 30)
        count = sheet.chance.choice([195, 198, 199, 200])
        first = Row(3, 1, "20.2", "good")
        sheet.say(f"route rows {count} by 100 from {shown((5001, 5010), first)}")
        sheet.say("route load")
        cases.table.load([((5001 + 100 * k, 5010 + 100 * k), first) for k in range(count)])
        cases.copy()
        for _ in range(8):
            sheet.chance.choice([cases.hear, cases.hear, cases.packet])()
            cases.changes()
        for _ in range(6):
            sheet.chance.choice([cases.direct, cases.hear])()
            cases.read()


def routes(seed: int) -> str:
    sheet = Sheet(TITLE, seed)
    small_tables(sheet)
    full_tables(sheet)
    return sheet.text()
