"""Requesters and responders as docs/BEHAVIOUR.md has them, and pseudo-random calls."""
import dataclasses

from case_sheets import Sheet, data
from modelled_routes import TITLE

NO_TRANSACTION = "no such Transaction"
KEPT = [150, 300, 600, 1200, 2400, 2400, 2400, 2400]
SOCKETS = ["10.1 socket 6", "10.1 socket 6", "10.1 socket 6", "10.1 socket 7", "20.1 socket 6"]
Part = tuple[bytes, bytes]


def packet(control: int, part: int, number: int, user: bytes, payload: bytes) -> str:
    head = f"{control:02X} {part:02X} {number:04X} {user.hex().upper()}"
    return head + data(payload)


def given(payload: bytes) -> str:
    return f" {payload.hex().upper()}" if payload else ""


@dataclasses.dataclass
class Transaction:
    """What was asked, the parts that came, and when the request is sent again."""

    socket: str
    asked_for: int
    control: int
    user: bytes
    payload: bytes
    every: int
    tries: int
    count: int
    came: dict[int, Part] = dataclasses.field(default_factory=dict)
    due: bool = True
    wait: int = 0
    failed: bool = False

    @property
    def missing(self) -> int:
        """The parts that are missing, as a bitmap."""
        return sum(1 << part for part in range(self.count) if part not in self.came)

    @property
    def waits(self) -> bool:
        return not self.failed and self.missing != 0

    def copy(self) -> "Transaction":
        return dataclasses.replace(self, came=dict(self.came))

    def tick(self) -> None:
        if not self.waits or self.due:
            return
        self.wait -= 1
        if self.wait == 0:
            self.due = self.tries > 0
            self.failed = not self.due


class Requester:
    """The transactions that are open, by their numbers."""

    def __init__(self, first: int) -> None:
        self.next, self.open = first, dict[int, Transaction]()

    def copy(self) -> "Requester":
        other = Requester(self.next)
        other.open = {number: asked.copy() for number, asked in self.open.items()}
        return other

    def begin(self, asked: Transaction) -> str:
        if len(asked.payload) > 578:
            return "too long"
        if len(self.open) == 32:
            return "full"
        while self.next in self.open:
            self.next = (self.next + 1) % 65536
        number, self.next = self.next, (self.next + 1) % 65536
        self.open[number] = asked
        return str(number)

    def due(self) -> list[int]:
        return sorted(number for number, asked in self.open.items() if asked.waits and asked.due)

    def request(self, number: int) -> str:
        if number not in self.due():
            return NO_TRANSACTION
        asked = self.open[number]
        asked.due, asked.wait, asked.tries = False, asked.every, asked.tries - 1
        return packet(asked.control, asked.missing, number, asked.user, asked.payload)

    def hear(self, socket: str, control: int, part: int, number: int, brought: Part) -> str:
        """A response counts from whom was asked, for a part that was asked for. The release."""
        asked = self.open.get(number)
        if asked is None or not asked.waits or socket != asked.socket:
            return "none"
        if control >> 6 != 2 or part >= asked.asked_for:
            return "none"
        if part < asked.count:
            asked.came.setdefault(part, brought)
        if control & 0x10 and part < asked.count:
            asked.count = part + 1
        if control & 0x08 and asked.waits and asked.tries:
            asked.due = True
        is_over = not asked.waits and asked.control & 0x20
        return packet(0xC0, 0, number, bytes(4), b"") if is_over else "none"

    def result(self, number: int) -> list[str]:
        asked = self.open.get(number)
        if asked is None:
            return [NO_TRANSACTION]
        if asked.waits:
            return ["waiting"]
        del self.open[number]
        if asked.failed:
            return ["failed"]
        parts = [asked.came[part] for part in range(asked.count)]
        lines = [user.hex().upper() + data(payload) for user, payload in parts]
        return [f"complete, {len(parts)} parts", *lines]


class RequesterCases:
    """Calls of a requester and of its copy."""

    def __init__(self, sheet: Sheet, first: int) -> None:
        self.sheet, self.chance = sheet, sheet.chance
        self.requester, self.other = Requester(first), Requester(first)

    def number(self) -> int:
        """A number, mostly of a transaction that is open."""
        if self.requester.open and self.chance.random() < 0.9:
            return self.chance.choice(list(self.requester.open))
        return self.chance.choice([0, 1, 256, 65535])

    def begin(self) -> None:
        parts, once = self.chance.choice([1, 2, 3, 3, 4, 8]), self.chance.random() < 0.5
        release, every = self.chance.randrange(8), self.chance.choice([1, 2, 3, 5])
        tries, user = self.chance.choice([1, 2, 3, 255]), self.chance.randbytes(4)
        payload = self.chance.choice([b"", b"hi", b"\x07" * 578, b"\x07" * 579])
        control = 0x60 + release if once else 0x40
        socket = self.chance.choice(SOCKETS)
        asked = Transaction(socket, parts, control, user, payload, every, tries, parts)
        kind = f"parts {parts} once {'yes' if once else 'no'} release {release}"
        times = f"user {user.hex().upper()} every {every} tries {tries}"
        command = f"begin to {socket} {kind} {times} data{data(payload)}"
        self.sheet.say(command, self.requester.begin(asked))

    def due(self) -> None:
        numbers = self.requester.due()
        self.sheet.say("due", str(numbers[0]) if numbers else "none")

    def request(self) -> None:
        numbers = self.requester.due()
        number = numbers[0] if numbers and self.chance.random() < 0.8 else self.number()
        self.sheet.say(f"request {number}", self.requester.request(number))

    def hear(self) -> None:
        number = self.number()
        asked = self.requester.open.get(number)
        socket = self.chance.choice(SOCKETS)
        if asked and self.chance.random() < 0.9:
            socket = asked.socket
        control = self.chance.choice([0x80] * 6 + [0x90, 0x88, 0x98, 0x87, 0x40, 0xC0])
        part = self.chance.randrange(4) if self.chance.random() < 0.9 else self.chance.randrange(8)
        brought = self.chance.randbytes(4), self.chance.randbytes(self.chance.choice([0, 1, 2]))
        command = f"hear {socket} {packet(control, part, number, *brought)}"
        self.sheet.say(command, self.requester.hear(socket, control, part, number, brought))

    def tick(self) -> None:
        count = self.chance.choice([1, 1, 1, 2, 3])
        self.sheet.say(f"tick {count}")
        for asked in self.requester.open.values():
            for _ in range(count):
                asked.tick()

    def result(self) -> None:
        number = self.number()
        self.sheet.say(f"result {number}", *self.requester.result(number))

    def copy(self) -> None:
        self.sheet.say("copy")
        self.other = self.requester.copy()

    def swap(self) -> None:
        self.sheet.say("swap")
        self.requester, self.other = self.other, self.requester

    def call(self, begins: int) -> None:
        calls = [self.hear] * 8 + [self.request] * 3 + [self.tick, self.result, self.due] * 2
        self.chance.choice(calls + [self.begin] * begins)()
        if self.chance.random() < 0.04:
            self.chance.choice([self.copy, self.copy, self.swap])()


@dataclasses.dataclass
class Request:
    """A request: which parts it asks for, and the answer that is kept for some time."""

    once: bool
    asked: int
    release: int
    kept: list[Part] | None = None
    left: int = 0


class Responder:
    """Requests by the socket and the number of their askers."""

    def __init__(self) -> None:
        self.requests: dict[tuple[str, int], Request] = {}

    def copy(self) -> "Responder":
        other = Responder()
        other.requests = {key: dataclasses.replace(kept) for key, kept in self.requests.items()}
        return other

    def hear(self, socket: str, control: int, part: int, number: int) -> str:
        key = (socket, number)
        if control >> 6 == 3:
            self.requests.pop(key, None)
        if control >> 6 != 1:
            return "nothing"
        if key in self.requests:
            request = self.requests[key]
            request.left = request.release
            return "wait" if request.kept is None else "again"
        once = bool(control & 0x20)
        if sum(other.once == once for other in self.requests.values()) == 64:
            return "full"
        self.requests[key] = Request(once, part, KEPT[control & 7])
        return "ask"

    def respond(self, socket: str, number: int, parts: list[Part]) -> list[str]:
        request = self.requests.get((socket, number))
        if request is None or request.kept is not None:
            return [NO_TRANSACTION]
        if len(parts) > 8 or any(len(payload) > 578 for _, payload in parts):
            return ["too long"]
        if request.once:
            request.kept, request.left = parts, request.release
        else:
            del self.requests[socket, number]
        return sent(number, request.asked, parts)

    def parts(self, socket: str, number: int, bitmap: int) -> list[str]:
        request = self.requests.get((socket, number))
        if request is None or request.kept is None:
            return [NO_TRANSACTION]
        return sent(number, bitmap, request.kept)

    def tick(self, count: int) -> None:
        """Kept answers whose time is over go."""
        for key, request in list(self.requests.items()):
            request.left -= count if request.kept is not None else 0
            if request.kept is not None and request.left <= 0:
                del self.requests[key]

    def reply(self, socket: str, heard: tuple[int, int, int], parts: list[Part]) -> list[str]:
        """What is sent where the user's answer is at hand."""
        control, bitmap, number = heard
        if len(parts) > 8 or any(len(payload) > 578 for _, payload in parts):
            return ["too long"]
        todo = self.hear(socket, control, bitmap, number)
        if todo == "ask":
            return self.respond(socket, number, parts)
        return self.parts(socket, number, bitmap) if todo == "again" else ["none"]


def sent(number: int, bitmap: int, parts: list[Part]) -> list[str]:
    """The packets of the parts that a bitmap asks for; the last part of all is the end."""
    packets = []
    for index, part in enumerate(parts):
        if bitmap >> index & 1:
            control = 0x90 if index + 1 == len(parts) else 0x80
            packets.append(packet(control, index, number, *part))
    return packets or ["none"]


class ResponderCases:
    """Calls of a responder and of its copy."""

    def __init__(self, sheet: Sheet, numbers: int) -> None:
        self.sheet, self.chance, self.numbers = sheet, sheet.chance, numbers
        self.responder, self.other = Responder(), Responder()

    def key(self) -> tuple[str, int]:
        if self.responder.requests and self.chance.random() < 20 / (20 + self.numbers):
            return self.chance.choice(list(self.responder.requests))
        return self.chance.choice(SOCKETS), self.chance.randrange(self.numbers)

    def control(self) -> int:
        return self.chance.choice([0x60, 0x60, 0x61, 0x64, 0x67, 0x40, 0x40, 0xC0, 0x90])

    def bitmap(self) -> int:
        return self.chance.choice([1, 1, 3, 2, 7, 0xFE, 0xFF, 0])

    def answer(self) -> list[Part]:
        count = self.chance.choice([1, 1, 2, 3, 4])
        payloads = [self.chance.randbytes(self.chance.randrange(3)) for _ in range(count)]
        return [(bytes([0, 0, 0, part]), payload) for part, payload in enumerate(payloads)]

    def words(self, parts: list[Part]) -> str:
        each = (f"{user.hex().upper()} {payload.hex().upper() or '-'}" for user, payload in parts)
        return " ; ".join(each)

    def hear(self) -> None:
        (socket, number), control, bitmap = self.key(), self.control(), self.bitmap()
        part = bitmap if control != 0x90 else bitmap % 8
        command = f"hear {socket} {packet(control, part, number, bytes(4), b'')}"
        self.sheet.say(command, self.responder.hear(socket, control, part, number))

    def respond(self) -> None:
        (socket, number), parts = self.key(), self.answer()
        command = f"respond {socket} id {number} {self.words(parts)}"
        self.sheet.say(command, *self.responder.respond(socket, number, parts))

    def parts(self) -> None:
        (socket, number), bitmap = self.key(), self.bitmap()
        command = f"parts {socket} id {number} bitmap {bitmap:02X}"
        self.sheet.say(command, *self.responder.parts(socket, number, bitmap))

    def reply(self) -> None:
        (socket, number), control, bitmap = self.key(), self.control(), self.bitmap()
        parts, part = self.answer(), bitmap if control != 0x90 else bitmap % 8
        heard = packet(control, part, number, bytes(4), b"")
        wanted = self.responder.reply(socket, (control, part, number), parts)
        self.sheet.say(f"reply {socket} {self.words(parts)} / {heard}", *wanted)

    def forget(self) -> None:
        socket, number = self.key()
        self.sheet.say(f"forget {socket} id {number}")
        self.responder.requests.pop((socket, number), None)

    def tick(self) -> None:
        count = self.chance.choice([1, 20, 149, 150, 151])
        self.sheet.say(f"tick {count}")
        self.responder.tick(count)

    def copy(self) -> None:
        self.sheet.say("copy")
        self.other = self.responder.copy()

    def swap(self) -> None:
        self.sheet.say("swap")
        self.responder, self.other = self.other, self.responder

    def call(self, hears: int) -> None:
        calls = [self.hear] * hears + [self.respond] * 3 + [self.parts] * 2 + [self.reply] * 2
        self.chance.choice([*calls, self.tick, self.forget])()
        if self.chance.random() < 0.02:
            self.chance.choice([self.copy, self.copy, self.swap])()


def transactions(seed: int) -> str:
    sheet = Sheet(TITLE, seed)
    for number in range(12):
        first = [1, 65530, 255][number % 3]
        remark = f"Calls of a requester whose first number is {first}, number {number + 1}."
        sheet.case(remark, f"requester first {first}")
        requester = RequesterCases(sheet, first)
        for _ in range(90):
            requester.call([3, 3, 25][number % 3])
    for number in range(10):
        sheet.case(f"Calls of a responder, number {number + 1}.", "responder")
        responder = ResponderCases(sheet, [4, 30, 400][number % 3])
        for _ in range([90, 90, 400][number % 3]):
            responder.call([8, 8, 60][number % 3])
    return sheet.text()
