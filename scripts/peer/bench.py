"""The bench: cables, routers and guests, the loop that carries frames between them, and the lines of the checks."""
import os
import selectors
import time
from typing import Callable, Optional

from peer import pcapng
from peer.asker import Answered, Question
from peer.frames import Frame
from peer.guest import Failure, Guest
from peer.router import Router
from peer.wires import Cable, Plug, Shot

HEARTBEAT = 0.2  # seconds
AGAIN = 0.005  # seconds until a full socket is tried again
LOOK = 0.05  # seconds between two looks at what is waited for


class Bench:
    """What was put on its cables is kept in `shots`, and in the file all.pcapng of its folder. Sockets lie in `scratch`, as their names
    may not be long."""

    def __init__(self, program: str, built: str, folder: str, scratch: str):
        self.program, self.built, self.folder, self.scratch = program, built, folder, scratch
        self.cables = [Cable(number, self.record) for number in range(1, 5)]
        self.shots: list[Shot] = []
        self.routers: list[Router] = []
        self.guests: list[Guest] = []
        self.questions: list[Question] = []
        self.asked = 0
        self.ready = selectors.DefaultSelector()
        self.next_beat = time.monotonic()
        self.capture = open(os.path.join(folder, "all.pcapng"), "wb")
        self.capture.write(pcapng.section() + b"".join(pcapng.interface(f"cable {cable.number}") for cable in self.cables))
        self.passed = self.failed = 0

    def check(self, name: str, is_so: bool, found="") -> None:
        """The line of a check; if it failed, with what was found."""
        self.passed += bool(is_so)
        self.failed += not is_so
        print(f"PASS {name}" if is_so else f"FAIL {name}: {found!r}", flush=True)

    def record(self, shot: Shot) -> None:
        self.shots.append(shot)
        self.capture.write(pcapng.packet(shot.cable - 1, shot.time, shot.data))

    def shots_of(self, cable: int, sender: str, start: int = 0) -> list[Shot]:
        """What somebody has put on a cable, since a number of shots."""
        return [shot for shot in self.shots[start:] if shot.cable == cable and shot.sender == sender]

    def frames(self, start: int, cable: int, sender: str) -> list[Frame]:
        return [shot.frame for shot in self.shots_of(cable, sender, start)]

    def heard(self, start: int, cable: int, sender: str, test: Callable[[Frame], bool], seconds: float) -> Optional[Frame]:
        """The first frame of somebody on a cable that passes a test, if it comes in time."""
        return self.wait(lambda: next((frame for frame in self.frames(start, cable, sender) if test(frame)), None), seconds)

    def start_router(self, name: str, text: str, cables: list[tuple[int, int]]) -> Router:
        """A router of a file: for each port, the number of its cable in the file and of that of the bench."""
        router = Router(name, self.program, text, [(number, self.cables[place - 1]) for number, place in cables], self.folder)
        self.routers.append(router)
        self.ready.register(router.run.stdout, selectors.EVENT_READ, router)
        return router

    def start_guest(self, name: str, cables: list[int], card: str) -> Guest:
        """A guest with one card for each of these cables."""
        plugs = []
        for number, place in enumerate(cables):
            # the guest's letter and the card's number
            hardware = f"02:50:45:45:{ord(name[0]):02x}:{number:02x}"
            plugs.append(Plug(f"{name}{number}", self.cables[place - 1], self.scratch, hardware))
        guest = Guest(name, plugs, card, self.built, self.folder, self.wait)
        self.guests.append(guest)
        for source, what in [(guest.run.stdout, guest), *((plug.socket, plug) for plug in plugs)]:
            self.ready.register(source, selectors.EVENT_READ, what)
        return guest

    def end_guest(self, guest: Guest) -> None:
        for source in (guest.run.stdout, *(plug.socket for plug in guest.plugs)):
            if source.fileno() in self.ready.get_map():
                self.ready.unregister(source)
        guest.end()
        self.guests.remove(guest)

    def ask(self, questions: list[tuple[int, list[str]]], seconds: float) -> list[Answered]:
        """Asks all of these at once, each a cable and the words of the question."""
        for place, words in questions:
            self.asked += 1
            question = Question(f"q{self.asked}", self.program, self.cables[place - 1], self.folder, self.scratch, words)
            self.questions.append(question)
            self.ready.register(question.plug.socket, selectors.EVENT_READ, question.plug)
        self.wait(lambda: all(question.run.poll() is not None for question in self.questions), seconds)
        return self.end_questions()

    def end_questions(self) -> list[Answered]:
        for question in self.questions:
            self.ready.unregister(question.plug.socket)
        answers = [question.end() for question in self.questions]
        self.questions.clear()
        return answers

    def beat(self) -> None:
        """A heartbeat to each router. One that is late isn't made up for: the times count."""
        if time.monotonic() >= self.next_beat:
            for router in self.routers:
                if router.run.poll() is not None:
                    raise Failure(f"{router.name} ended with status {router.run.returncode}: {router.said()[-3:]}")
                router.beat()
            self.next_beat = max(self.next_beat + HEARTBEAT, time.monotonic())

    def step(self, until: float) -> None:
        """Carries what comes until the next heartbeat, or this time."""
        plugs = [plug for guest in self.guests for plug in guest.plugs] + [question.plug for question in self.questions]
        is_full = any(plug.waiting for plug in plugs) or any(router.untold for router in self.routers)
        wait = min(self.next_beat, until) - time.monotonic()
        for key, _ in self.ready.select(max(0, min(wait, AGAIN) if is_full else wait)):
            if key.data.pump() is False:
                self.ready.unregister(key.fileobj)
        for other in (*plugs, *self.routers):
            other.flush()
        self.beat()

    def run(self, seconds: float) -> None:
        end = time.monotonic() + seconds
        while time.monotonic() < end:
            self.step(end)

    def wait(self, test: Callable, seconds: float):
        """What the test gives, once that is something; else what it gives after so many seconds."""
        end = time.monotonic() + seconds
        while True:
            found = test()
            if found or time.monotonic() >= end:
                return found
            self.step(min(end, time.monotonic() + LOOK))

    def end_router(self, router: Router):
        self.routers.remove(router)
        if router.run.stdout.fileno() in self.ready.get_map():
            self.ready.unregister(router.run.stdout)
        return router.end()

    def close(self) -> None:
        self.end_questions()
        for guest in list(self.guests):
            self.end_guest(guest)
        for router in self.routers:
            router.kill()
        self.capture.close()
