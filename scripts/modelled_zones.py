"""Zone tables as docs/BEHAVIOUR.md has them, what a router answers, and pseudo-random calls."""
import dataclasses
import struct
from collections.abc import Callable, Sequence

from case_sheets import Sheet, each_once, folded, groups, quoted
from modelled_routes import TITLE, Routes, Span, overlap

ZONES = [b"Red", b"RED", b"Blue", b"blue", b"Green", b"Machine Room", b"A", b"a", b"Zone ~"]
ZONES += [b'Q"\\', b"x" * 32]
# a list has at most so many zones
MOST_ZONES = 255


def group(zone: bytes) -> int:
    """The group of a zone: a rotating sum of its capital letters, modulo 253."""
    total = 0
    for byte in zone.upper():
        total = (total + byte) & 0xFFFF
        total = (total << 1 | total >> 15) & 0xFFFF
    return (total or 0xFFFF) % 253


def after_length(text: bytes) -> bytes:
    return bytes([len(text)]) + text


def entry(net: int, name: bytes) -> bytes:
    return net.to_bytes(2, "big") + after_length(name)


def fitting(texts: Sequence[bytes], room: int) -> int:
    """How many of the texts, from the first one on, fit into this room."""
    count = 0
    while count < len(texts) and len(texts[count]) <= room:
        room -= len(texts[count])
        count += 1
    return count


@dataclasses.dataclass
class List:
    """How many zones a range has, and those that have come."""

    total: int
    names: list[bytes]

    @property
    def is_complete(self) -> bool:
        return len(self.names) == self.total

    def has(self, zone: bytes) -> bool:
        return folded(zone) in map(folded, self.names)


class Zones:
    """A zone table: what is known of each range."""

    def __init__(self) -> None:
        self.lists: dict[Span, List] = {}

    def copy(self) -> "Zones":
        other = Zones()
        for span, known in self.lists.items():
            other.lists[span] = List(known.total, list(known.names))
        return other

    def refusal(self, span: Span, count: int) -> list[str]:
        if any(overlap(span, other) and span != other for other in self.lists):
            return ["bad range"]
        if count > MOST_ZONES or (span not in self.lists and len(self.lists) >= 200):
            return ["full"]
        return []

    def set(self, span: Span, names: Sequence[bytes]) -> list[str]:
        refusal = self.refusal(span, len(names))
        if not refusal:
            once = each_once(names)
            self.lists[span] = List(len(once), once)
        return refusal

    def add(self, span: Span, total: int, name: bytes) -> list[str]:
        refusal = self.refusal(span, total)
        if not refusal:
            known = self.lists.get(span)
            if known is None or known.total != total:
                known = self.lists[span] = List(total, [])
            if not known.is_complete and not known.has(name):
                known.names.append(name)
        return refusal

    def append(self, span: Span, least: int, names: Sequence[bytes]) -> list[str]:
        """A list above all others, with a least number of zones."""
        if span[0] <= max((other[1] for other in self.lists), default=0):
            return ["bad range"]
        if least > MOST_ZONES or len(names) > MOST_ZONES or len(self.lists) >= 200:
            return ["full"]
        once = each_once(names)
        self.lists[span] = List(max(least, len(once)), once)
        return []

    def listed(self) -> list[tuple[Span, List]]:
        return sorted(self.lists.items(), key=lambda pair: pair[0])

    def of(self, net: int) -> List | None:
        for span, known in self.lists.items():
            if span[0] <= net <= span[1]:
                return known
        return None

    def cables(self, zone: bytes) -> list[Span]:
        return [span for span, known in self.listed() if known.has(zone)]

    def all(self) -> list[bytes]:
        complete = [known for _, known in self.listed() if known.is_complete]
        return each_once([name for known in complete for name in known.names])

    def due(self, routes: Routes) -> list[Span]:
        """The ranges of usable rows without a complete list."""
        known = {span for span, known in self.lists.items() if known.is_complete}
        return [span for span, row in routes.listed() if row.is_usable and span not in known]

    def replies(self, nets: Sequence[int]) -> list[str]:
        """The replies to a query: as many names in each as fit."""
        replies = []
        for net in nets[:16]:
            known = self.of(net)
            left = [entry(net, name) for name in known.names] if known and known.is_complete else []
            while left and known:
                count = fitting(left, 584)
                replies.append(f"08{known.total:02X}{groups(b''.join(left[:count]))}")
                left = left[count:]
        return replies or ["none"]


def page(start: int, names: Sequence[bytes]) -> str:
    """A page of names from an index on."""
    left = [after_length(name) for name in names[max(start, 1) - 1 :]]
    count = fitting(left, 578)
    return shown_page(count == len(left), left[:count])


def shown_page(is_last: bool, texts: Sequence[bytes]) -> str:
    count = len(texts)
    last = "last" if is_last else "not last"
    return f"{last}, {count} names: {is_last:02X}00{count:04X}{groups(b''.join(texts))}"


def answer(zones: Zones, function: int, start: int, local: Sequence[bytes]) -> str:
    """The page that a node gets: its default zone, all zones, or those of its cable."""
    if function == 7:
        made = shown_page(not local, [after_length(name) for name in local[:1]])
    elif function in (8, 9):
        made = page(start, zones.all() if function == 8 else local)
    else:
        return "none"
    return f"function {function} from {start}: {made}"


def info(asked: bytes, span: Span, names: Sequence[bytes]) -> str:
    """The answer to a node that asks for a zone."""
    if not names:
        return "none"
    found = next((name for name in names if folded(name) == folded(asked)), None)
    flags = (0 if found else 0x80) | (0x20 if len(names) == 1 else 0)
    address = bytes([9, 0, 7, 0, 0, group(found or names[0])])
    body = struct.pack(">HH", *span) + after_length(asked) + after_length(address)
    return f"06{flags:02X}" + groups(body + (b"" if found else after_length(names[0])))


def expand(zones: Zones, zone: bytes, ports: Sequence[Span]) -> list[str]:
    """What a router with these ports asks for a zone."""
    asks = []
    for span in zones.cables(zone):
        if span in ports:
            asks.append(f"lookup by port {ports.index(span)}")
        else:
            asks.append(f"request forwarded to {span[0]}")
    return asks or ["none"]


def shown(span: Span) -> str:
    return f"{span[0]}-{span[1]}"


def yes_or_no(holds: bool | None) -> str:
    return "yes" if holds else "no"


def each_quoted(names: Sequence[bytes]) -> list[str]:
    return list(map(quoted, names)) or ["none"]


def listed_words(names: Sequence[bytes]) -> str:
    return " ; ".join(map(quoted, names))


class ZoneCases:
    """Calls of a zone table and of its copy."""

    def __init__(self, sheet: Sheet, zones: Sequence[bytes] = ZONES) -> None:
        self.sheet, self.chance, self.zones = sheet, sheet.chance, zones
        self.table, self.other = Zones(), Zones()

    def span(self) -> Span:
        start = 10 * self.chance.randrange(1, 14)
        return start, start + self.chance.choice([9, 9, 9, 0, 14])

    def known_span(self) -> Span:
        if self.table.lists and self.chance.random() < 0.6:
            return self.chance.choice(list(self.table.lists))
        return self.span()

    def names(self, most: int) -> list[bytes]:
        return [self.chance.choice(self.zones) for _ in range(self.chance.randrange(most + 1))]

    def net(self) -> int:
        return self.chance.randrange(5, 160)

    def set(self) -> None:
        span, names = self.known_span(), self.names(4)
        command = f"zone set {shown(span)} {listed_words(names)}"
        self.sheet.say(command, *self.table.set(span, names))

    def add(self) -> None:
        span, total = self.known_span(), self.chance.choice([0, 1, 2, 2, 3, 3, 4, 65, 255])
        if span in self.table.lists and self.chance.random() < 0.7:
            total = self.table.lists[span].total
        name = self.chance.choice(self.zones)
        command = f"zone add {shown(span)} of {total} {quoted(name)}"
        self.sheet.say(command, *self.table.add(span, total, name))

    def append(self) -> None:
        span, names = self.span(), self.names(3)
        least = self.chance.choice([0, 0, 1, 3, 65, 255])
        command = f"zone append {shown(span)} least {least} {listed_words(names)}"
        self.sheet.say(command, *self.table.append(span, least, names))

    def remove(self) -> None:
        span = self.known_span()
        self.sheet.say(f"zone remove {shown(span)}")
        self.table.lists.pop(span, None)

    def copy(self) -> None:
        self.sheet.say("zone copy")
        self.other = self.table.copy()

    def swap(self) -> None:
        self.sheet.say("zone swap")
        self.table, self.other = self.other, self.table

    def lists(self) -> None:
        """All lists, as they are."""
        wanted = []
        for span, known in self.table.listed():
            state = "complete" if known.is_complete else "incomplete"
            wanted.append(" ".join([shown(span), state, *map(quoted, known.names)]))
        self.sheet.say("zone list", *(wanted or ["none"]))

    def read(self) -> None:
        """What is known of a network, and of a zone."""
        net, zone = self.net(), self.chance.choice(self.zones)
        known = self.table.of(net)
        self.sheet.say(f"zone complete {net}", yes_or_no(known and known.is_complete))
        self.sheet.say(f"zone has {net} {quoted(zone)}", yes_or_no(known and known.has(zone)))
        self.sheet.say(f"zone names {net}", *each_quoted(known.names if known else []))
        cables = " ".join(map(shown, self.table.cables(zone)))
        self.sheet.say(f"zone cables {quoted(zone)}", cables or "none")

    def read_all(self) -> None:
        self.sheet.say("zone all", *each_quoted(self.table.all()))
        self.sheet.say("zone count", str(len(self.table.lists)))
        index = self.chance.randrange(len(self.table.lists) + 2)
        spans = [shown(span) for span, _ in self.table.listed()]
        self.sheet.say(f"zone at {index}", spans[index] if index < len(spans) else "none")

    def query(self) -> None:
        nets = [self.net() for _ in range(self.chance.choice([0, 1, 2, 5, 16, 17, 20]))]
        words = " ".join(f"{net:04X}" for net in nets)
        self.sheet.say(f"zone query 01 {len(nets):02X} {words}", *self.table.replies(nets))

    def asked(self) -> None:
        """A question about a cable."""
        asked = self.chance.choice([*self.zones, b"", b"*", b"=", b"\xc5", b"Re"])
        span, names = self.span(), each_once(self.names(3))
        command = f"zone info {quoted(asked)} on {shown(span)} of {listed_words(names)}"
        self.sheet.say(command, info(asked, span, names))

    def paged(self) -> None:
        start, names = self.chance.choice([0, 1, 1, 2, 3, 9, 65535]), each_once(self.names(5))
        function = self.chance.choice([6, 7, 7, 8, 8, 8, 9, 9, 10])
        user = f"{function:02X}{self.chance.choice([0, 0, 255]):02X}{start:04X}"
        wanted = answer(self.table, function, start, names)
        self.sheet.say(f"zone answer {user} of {listed_words(names)}", wanted)

    def expanded(self) -> None:
        zone = self.chance.choice([*self.zones, b"*", b"", b"=\xc5"])
        spans = list(self.table.lists) or [self.span()]
        ports = [self.chance.choice([*spans, self.span()]) for _ in range(self.chance.randrange(4))]
        command = f"zone expand {quoted(zone)} ports {' ; '.join(map(shown, ports))}"
        self.sheet.say(command, *expand(self.table, zone, ports))

    def call(self) -> None:
        """A call that may change the table, and a reading."""
        changes: list[Callable[[], None]] = [self.set] * 2 + [self.add] * 4
        self.chance.choice([*changes, self.append, self.remove, self.copy, self.swap])()
        readings = [self.lists, self.lists, self.read, self.read_all, self.query, self.asked]
        self.chance.choice([*readings, self.paged, self.expanded])()


def long_names(count: int) -> list[bytes]:
    """Names of 2 to 32 bytes."""
    return [(b"%02d" % k + b"abcdefghijklmnopqrstuvwxyz0123"[: k * 7 % 31])[:32] for k in range(count)]


def long_lists(sheet: Sheet) -> None:
    """Lists of up to 255 names, in as many replies and pages as they need."""
    zones = long_names(260)
    for number in range(6):
        sheet.case(f"A list of many names of all lengths, number {number + 1}.", "tables")
        cases = ZoneCases(sheet, zones)
        names = sheet.chance.sample(zones, sheet.chance.choice([40, 64, 65, 255]))
        for name in names:
            sheet.say(f"zone add 20-29 of {len(names)} {quoted(name)}")
            cases.table.add((20, 29), len(names), name)
        sheet.say("zone query 01 01 0017", *cases.table.replies([23]))
        for start in [0, 1, *sheet.chance.sample(range(2, 258), 4)]:
            sheet.say(f"zone answer 0800{start:04X} of", answer(cases.table, 8, start, []))


def zones(seed: int) -> str:
    sheet = Sheet(TITLE, seed)
    for number in range(26):
        sheet.case(f"Calls of a zone table, and what it knows, number {number + 1}.", "tables")
        cases = ZoneCases(sheet)
        for _ in range(40):
            cases.call()
    long_lists(sheet)
    return sheet.text()
