"""Choosers and mappers as docs/BEHAVIOUR.md has them, and pseudo-random calls."""
from collections import OrderedDict

from case_sheets import Sheet, data
from modelled_routes import TITLE, Span

OWN = "020000000005"
NOBODY = "000000000000"
Addr = tuple[int, int]


def shown(addr: Addr) -> str:
    return f"{addr[0]}.{addr[1]}"


class Mapper:
    """What a port knows of hardware addresses, and the datagrams that wait for one."""

    def __init__(self) -> None:
        self.known: OrderedDict[Addr, str] = OrderedDict()
        self.held: list[tuple[Addr, bytes]] = []
        self.asked: dict[Addr, int] = {}

    def learn(self, addr: Addr, hardware: str) -> None:
        self.known[addr] = hardware
        self.known.move_to_end(addr)
        if len(self.known) > 512:
            self.known.popitem(last=False)

    def out(self, place: int) -> str:
        """Takes out a datagram."""
        addr, payload = self.held.pop(place)
        asked = self.asked[addr]
        if not self.holds(addr):
            del self.asked[addr]
        return f"for {shown(addr)} asked {asked}:{data(payload)}"

    def hold(self, addr: Addr, payload: bytes) -> str:
        """A 17th datagram pushes the oldest out, after it took the count of its address."""
        asked = self.asked.get(addr, 1)
        out = self.out(0) if len(self.held) == 16 else "none"
        self.held.append((addr, payload))
        self.asked[addr] = asked
        return out

    def holds(self, addr: Addr) -> bool:
        return any(addr == other for other, _ in self.held)

    def release(self, addr: Addr) -> str:
        for place, (other, _) in enumerate(self.held):
            if other == addr:
                return self.out(place)
        return "none"

    def tick(self) -> list[str]:
        """Asks for each address once, in the order of its oldest datagram, ten times in all."""
        waiting = list(dict.fromkeys(addr for addr, _ in self.held))
        given_up = [addr for addr in waiting if self.asked[addr] == 10]
        again = [addr for addr in waiting if addr not in given_up]
        self.held = [pair for pair in self.held if pair[0] not in given_up]
        self.asked = {addr: self.asked[addr] + 1 for addr in again}
        lines = [f"ask {' '.join(map(shown, again))}"] if again else []
        lines += [f"give up {' '.join(map(shown, given_up))}"] if given_up else []
        return lines or ["none"]


class MapperCases:
    """Calls of a mapper."""

    def __init__(self, sheet: Sheet, ticks: int) -> None:
        self.sheet, self.chance, self.ticks, self.mapper = sheet, sheet.chance, ticks, Mapper()

    def addr(self) -> Addr:
        return self.chance.choice([10, 10, 11]), self.chance.randrange(1, 7)

    def hardware(self) -> str:
        return f"0200000000{self.chance.randrange(16):02X}"

    def learn(self) -> None:
        addr, hardware = self.addr(), self.hardware()
        self.sheet.say(f"learn {shown(addr)} {hardware}")
        self.mapper.learn(addr, hardware)

    def learn_each(self) -> None:
        """Mappings of many networks, so that others are forgotten."""
        first, node = self.chance.randrange(1, 60), self.chance.randrange(1, 4)
        last, hardware = first + self.chance.randrange(40, 200), self.hardware()
        self.sheet.say(f"learn-each {first}-{last} node {node} {hardware}")
        for net in range(first, last + 1):
            self.mapper.learn((net, node), hardware)

    def look(self) -> None:
        addr = self.chance.choice([self.addr(), (self.chance.randrange(1, 260), 1)])
        self.sheet.say(f"look {shown(addr)}", self.mapper.known.get(addr, "none"))

    def all(self) -> None:
        """All mappings, by rising address."""
        known = [f"{shown(addr)} {hardware}" for addr, hardware in sorted(self.mapper.known.items())]
        self.sheet.say("all", *(known or ["none"]))

    def hold(self) -> None:
        addr, size = self.addr(), self.chance.choice([0, 1, 1, 2, 13, 16, 43])
        payload = self.chance.randbytes(size) if size != 16 else b"\x5a" * 16
        words = payload.hex().upper()
        self.sheet.say(f"hold {shown(addr)} {words}", self.mapper.hold(addr, payload))

    def release(self) -> None:
        addr = self.addr()
        self.sheet.say(f"release {shown(addr)}", self.mapper.release(addr))
        self.sheet.say(f"holds {shown(addr)}", "yes" if self.mapper.holds(addr) else "no")

    def tick(self) -> None:
        self.sheet.say("tick", *self.mapper.tick())

    def call(self) -> None:
        calls = [self.hold] * 8 + [self.release] * 3 + [self.learn, self.look, self.look]
        self.chance.choice([*calls, self.learn_each] + [self.tick] * self.ticks)()


def mappers(seed: int) -> str:
    sheet = Sheet(TITLE, seed)
    for number in range(12):
        sheet.case(f"Calls of a port that holds datagrams, number {number + 1}.", "mapper")
        cases = MapperCases(sheet, [2, 6, 20][number % 3])
        for _ in range(70):
            cases.call()
        for _ in range(11):
            cases.tick()
        cases.all()
    return sheet.text()


class Chooser:
    """How a port chooses its address."""

    def __init__(self, cable: Span, tries: list[Addr]) -> None:
        self.cable, self.tries = cable, list(tries)
        self.addr = self.tries.pop(0) if self.tries else (cable[0], 1)
        self.probes, self.settled = 0, False

    def tick(self) -> str:
        """Ten probes, and then the address is settled."""
        if self.settled or self.probes == 10:
            self.settled = True
            return "none"
        self.probes += 1
        return f"probe {OWN} {shown(self.addr)} to {NOBODY} {shown(self.addr)}"

    def above(self) -> Addr:
        net, node = self.addr
        if node < 253:
            return net, node + 1
        return (net + 1 if net < self.cable[1] else self.cable[0]), 1

    def hear(self, kind: str, hardware: str, source: Addr, target: Addr) -> None:
        is_answer = kind == "response" and source == self.addr
        is_probe = kind == "probe" and target == self.addr and hardware != OWN
        if not self.settled and (is_answer or is_probe):
            self.addr = self.tries.pop(0) if self.tries else self.above()
            self.probes = 0

    def answer(self, kind: str, hardware: str, source: Addr, target: Addr) -> str:
        if not self.settled or kind == "response" or target != self.addr:
            return "none"
        return f"response {OWN} {shown(self.addr)} to {hardware} {shown(source)}"


class ChooserCases:
    """Calls of a chooser on the cable 10-12."""

    def __init__(self, sheet: Sheet, tries: list[Addr]) -> None:
        self.sheet, self.chance = sheet, sheet.chance
        self.chooser = Chooser((10, 12), tries)

    def packet(self) -> tuple[str, str, Addr, Addr]:
        """A packet, often about the address that is being tried."""
        kind = self.chance.choice(["request", "response", "probe"])
        near = [self.chooser.addr, self.chooser.addr, (10, self.chooser.addr[1]), (0, 0)]
        hardware = self.chance.choice([OWN, "020000000006", "030000000005"])
        return kind, hardware, self.chance.choice(near), self.chance.choice(near)

    def hear(self) -> None:
        kind, hardware, source, target = packet = self.packet()
        self.sheet.say(f"hear {kind} {hardware} {shown(source)} to {NOBODY} {shown(target)}")
        self.chooser.hear(*packet)

    def answer(self) -> None:
        kind, hardware, source, target = packet = self.packet()
        command = f"answer {kind} {hardware} {shown(source)} to {NOBODY} {shown(target)}"
        self.sheet.say(command, self.chooser.answer(*packet))

    def tick(self) -> None:
        self.sheet.say("tick", self.chooser.tick())

    def settled(self) -> None:
        wanted = shown(self.chooser.addr) if self.chooser.settled else "none"
        self.sheet.say("settled", wanted)

    def call(self) -> None:
        calls = [self.tick] * 14 + [self.hear, self.answer, self.settled]
        self.chance.choice(calls)()


def choosers(seed: int) -> str:
    sheet = Sheet(TITLE, seed)
    for number in range(16):
        nodes = [1, 2, 7, 252, 253]
        count = sheet.chance.randrange(4)
        tries = [(sheet.chance.randrange(10, 13), sheet.chance.choice(nodes)) for _ in range(count)]
        words = " ; ".join(map(shown, tries))
        remark = f"A port chooses its address on 10-12, number {number + 1}."
        sheet.case(remark, f"chooser 10-12 {OWN} tries {words}".rstrip())
        cases = ChooserCases(sheet, tries)
        for _ in range(60):
            cases.call()
    return sheet.text()
