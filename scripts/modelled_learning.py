"""What a router learns and forgets, as docs/BEHAVIOUR.md has it, and pseudo-random packets."""
from case_sheets import Sheet
from modelled_routes import TITLE, RouteCases, Span, address, as_bytes
from modelled_zones import ZoneCases, entry

Entry = tuple[int, bytes]
# the cables of the router's ports
PORTS: list[Span] = [(10, 19), (20, 29)]


class LearningCases:
    """A router's two tables, and what it hears on two ports."""

    def __init__(self, sheet: Sheet) -> None:
        self.sheet, self.chance = sheet, sheet.chance
        self.routes, self.zones = RouteCases(sheet, 10), ZoneCases(sheet)

    def span(self) -> Span:
        start = 10 * self.chance.randrange(1, 9)
        return start, start + self.chance.choice([9, 9, 9, 9, 8, 14])

    def routing_data(self) -> None:
        """A packet of a neighbour, or of one that has another range or network than the cable."""
        port = self.chance.randrange(2)
        cable = PORTS[port]
        own = cable if self.chance.random() < 0.8 else self.span()
        router = f"{self.chance.randrange(cable[0] - 1, cable[1] + 2)}.{self.chance.choice([2, 3])}"
        count = self.chance.randrange(1, 4)
        said = [(self.span(), self.chance.choice([0, 1, 5, 14, 15, 31])) for _ in range(count)]
        said.insert(0, (own, 0))
        words = " ".join(as_bytes(*each).hex().upper() for each in said)
        command = f"learn routes port {port} on {cable[0]}-{cable[1]}"
        self.sheet.say(f"{command} {address(router).hex().upper()} {words}")
        if cable[0] <= int(router.split(".")[0]) <= cable[1] and own == cable:
            for span, distance in said:
                self.routes.table.hear(span, distance, router, port)

    def range_of(self, net: int) -> Span | None:
        """The range whose list a reply for a network is."""
        found = self.routes.table.usable(net)
        return found[0] if found and not found[1].is_direct else None

    def entries(self, nets: list[int]) -> list[Entry]:
        """Names of some of the networks, as many as a line of the file has room for."""
        zones = [zone for zone in self.zones.zones if len(zone) <= 12]
        count = self.chance.randrange(1, 5)
        return [(self.chance.choice(nets), self.chance.choice(zones)) for _ in range(count)]

    def nets(self) -> list[int]:
        """Some networks, most of them of usable rows."""
        rows = [span for span in self.routes.table.rows] or [(30, 39)]
        nets = [self.chance.randint(*self.chance.choice(rows)) for _ in range(2)]
        return [*nets, self.chance.randrange(1, 110)]

    def extended_reply(self) -> None:
        net = self.chance.choice(self.nets())
        entries = self.entries([net])
        total = self.chance.choice([0, 1, 2, 2, 3, 3, 65, 255])
        words = " ".join(entry(*each).hex().upper() for each in entries)
        self.sheet.say(f"learn zones 08{total:02X} {words}")
        span = self.range_of(net)
        for _, name in entries:
            if span:
                self.zones.table.add(span, total, name)

    def reply(self) -> None:
        """A reply of function 2: the names of each network are its whole list."""
        entries = self.entries(self.nets())
        words = " ".join(entry(*each).hex().upper() for each in entries)
        self.sheet.say(f"learn zones 02{self.chance.randrange(256):02X} {words}")
        for net in dict.fromkeys(net for net, _ in entries):
            span = self.range_of(net)
            if span:
                self.zones.table.set(span, [name for other, name in entries if other == net])

    def other_packet(self) -> None:
        """What is no reply teaches nothing."""
        others = ["0101 001E", "05 0000000000 03526564", "06 20 001E 0027 03526564 06 090007000038"]
        self.sheet.say(f"learn zones {self.chance.choice(others)}")

    def forget(self) -> None:
        """A period passes."""
        self.sheet.say("learn forget")
        for span in self.routes.table.age():
            self.zones.table.lists.pop(span, None)

    def queries(self) -> None:
        spans = self.zones.table.due(self.routes.table)
        self.sheet.say("zone due", *([str(span[0]) for span in spans] or ["none"]))
        asked = []
        for span in spans:
            row = self.routes.table.rows[span]
            if not row.is_direct:
                asked.append(f"{span[0]} from {row.next} by port {row.port}")
        self.sheet.say("learn queries", *(asked or ["none"]))

    def call(self) -> None:
        """Something that is heard or forgotten, and then what is known."""
        heard = [self.routing_data] * 4 + [self.extended_reply] * 4 + [self.reply] * 3
        rarely = [self.forget, self.other_packet, self.zones.set, self.zones.add]
        self.chance.choice([*heard, *rarely, self.routes.poison])()
        self.chance.choice([self.routes.rows, self.zones.lists, self.zones.lists, self.queries])()


def learning(seed: int) -> str:
    sheet = Sheet(TITLE, seed)
    for number in range(20):
        remark = f"What a router on 10-19 and 20-29 hears and forgets, number {number + 1}."
        sheet.case(remark, "tables")
        cases = LearningCases(sheet)
        for port, cable in enumerate(PORTS):
            sheet.say(f"route direct {cable[0]}-{cable[1]} port {port}")
            cases.routes.table.direct(cable, port)
        for _ in range(35):
            cases.call()
    return sheet.text()
