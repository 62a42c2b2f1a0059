"""The names of a node as docs/BEHAVIOUR.md has them, and pseudo-random calls."""
from case_sheets import Sheet, folded, quoted
from modelled_routes import TITLE

TEXTS = [b"lab", b"LAB", b"LaserWriter", b"laserwriter", b"Lab 2", b"aba", b"abba"]
TEXTS += [b"\xe1", b"\xc1"]
NO_NAMES = [b"", b"=", b"\xc5", b"L\xc5", b"a\xc5b"]
PATTERNS = [b"=", b"L\xc5", b"\xc5R", b"ab\xc5ba", b"\xc5", b"a\xc5\xc5", b"=\xc5", b"\xc5 2"]
PATTERNS += [b"", b"=="]
Pair = tuple[bytes, bytes]


def may_be_named(text: bytes) -> bool:
    return 1 <= len(text) <= 32 and b"\xc5" not in text and text != b"="


def matches(pattern: bytes, name: bytes) -> bool:
    """The first C5 of a pattern stands for any bytes; = alone stands for all of them."""
    if pattern == b"=":
        return True
    before, wildcard, after = folded(pattern).partition(b"\xc5")
    text = folded(name)
    if not wildcard:
        return text == before
    rest = text[len(before) :]
    return text.startswith(before) and len(after) <= len(rest) and rest.endswith(after)


def words(pair: Pair) -> str:
    return f"{quoted(pair[0])}:{quoted(pair[1])}"


class Names:
    """The names of a node, by their enumerators."""

    def __init__(self) -> None:
        self.names: dict[int, tuple[Pair, int]] = {}

    def register(self, pair: Pair, socket: int) -> str:
        if not all(map(may_be_named, pair)):
            return "bad name"
        folds = [tuple(map(folded, other)) for other, _ in self.names.values()]
        if tuple(map(folded, pair)) in folds:
            return "bad field Taken"
        if len(self.names) == 32:
            return "full"
        enumerator = next(number for number in range(1, 256) if number not in self.names)
        self.names[enumerator] = (pair, socket)
        return str(enumerator)

    def listed(self) -> list[tuple[int, Pair, int]]:
        return [(number, *self.names[number]) for number in sorted(self.names)]


class NameCases:
    """Calls of the names of a node and of their copy."""

    def __init__(self, sheet: Sheet) -> None:
        self.sheet, self.chance = sheet, sheet.chance
        self.names, self.other = Names(), Names()

    def text(self) -> bytes:
        many = [b"Name %d" % self.chance.randrange(9)]
        return self.chance.choice([*TEXTS, *many * 5, self.chance.choice(NO_NAMES)])

    def register(self) -> None:
        pair, socket = (self.text(), self.text()), self.chance.choice([1, 129, 254])
        command = f"register {words(pair)} socket {socket}"
        self.sheet.say(command, self.names.register(pair, socket))

    def remove(self) -> None:
        number = self.chance.randrange(0, 36)
        is_there = self.names.names.pop(number, None) is not None
        self.sheet.say(f"remove {number}", *([] if is_there else ["no such Name"]))

    def answer(self) -> None:
        object_, kind = self.chance.choice(PATTERNS + TEXTS), self.chance.choice(PATTERNS + TEXTS)
        wanted = []
        for number, pair, socket in self.names.listed():
            if matches(object_, pair[0]) and matches(kind, pair[1]):
                wanted.append(f'{words(pair)}@"" at 0.0 socket {socket} enumerator {number}')
        self.sheet.say(f"answer {words((object_, kind))}", *(wanted or ["none"]))

    def list(self) -> None:
        lines = []
        for number, pair, socket in self.names.listed():
            lines.append(f"{words(pair)} socket {socket} enumerator {number}")
        self.sheet.say("list", *(lines or ["none"]))

    def copy(self) -> None:
        self.sheet.say("copy")
        self.other.names = dict(self.names.names)

    def swap(self) -> None:
        self.sheet.say("swap")
        self.names, self.other = self.other, self.names

    def call(self) -> None:
        calls = [self.register] * 8 + [self.remove] * 2 + [self.answer] * 2 + [self.list]
        self.chance.choice(calls)()


def names(seed: int) -> str:
    sheet = Sheet(TITLE, seed)
    for number in range(10):
        sheet.case(f"Calls of the names of a node, number {number + 1}.", "names")
        cases = NameCases(sheet)
        for _ in range(70):
            cases.call()
        cases.copy()
        for _ in range(20):
            cases.call()
        cases.list()
        cases.swap()
        cases.list()
    return sheet.text()
