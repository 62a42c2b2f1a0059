"""A router that the program runs, joined to cables: what it hears and its heartbeats go in as pcapng, what it puts comes out."""
import os
import shlex
import subprocess
from typing import NamedTuple, Optional

from peer import pcapng
from peer.wires import Cable, now

LEAST_FRAME = 60  # an Ethernet frame without its checksum; the program writes frames unpadded


class Ending(NamedTuple):
    """How a run ended, and whether the program writes the same again of what it has heard."""

    status: int
    again: bool


class Port:
    """A port of the router, plugged into a cable."""

    def __init__(self, router: "Router", number: int, cable: Cable):
        self.name, self.router, self.number, self.cable = router.name, router, number, cable
        cable.plugged.append(self)

    def hear(self, data: bytes) -> None:
        self.router.tell(pcapng.packet(self.number, now(), data))


class Router:
    """Router 1 of an internet file. The cables are named as the program does it, and the last one by --cable."""

    def __init__(self, name: str, program: str, text: str, cables: list[tuple[int, Cable]], folder: str):
        self.name, self.folder = name, folder
        self.file, self.image = (os.path.join(folder, f"{name}.{kind}") for kind in ("toml", "image"))
        with open(self.file, "w", encoding="ascii") as file:
            file.write(text)
        last = cables[-1][0]
        self.words = [*shlex.split(program), "route", self.file, "--router", "1", "--cable", f"{last}=peers"]
        self.heard, self.written = (open(os.path.join(folder, f"{name}.{kind}.pcapng"), "wb") for kind in ("heard", "put"))
        self.log = open(os.path.join(folder, f"{name}.log"), "w+", encoding="ascii")
        self.run = subprocess.Popen([*self.words, "--image", self.image, "--log"], stdin=subprocess.PIPE, stdout=subprocess.PIPE,
                                    stderr=self.log, bufsize=0)
        os.set_blocking(self.run.stdin.fileno(), False)
        os.set_blocking(self.run.stdout.fileno(), False)
        self.reader, self.untold = pcapng.Reader(), b""
        self.names: list[str] = []
        self.beats, self.answers, self.slowest = 0, 0, 0
        self.ports = [Port(self, number, cable) for number, (_, cable) in enumerate(cables)]
        self.by_name = {f"cable {number}": port for (number, _), port in zip(cables, self.ports)}
        self.tell(pcapng.section())
        for number, _ in cables:
            self.tell(pcapng.interface("peers" if number == last else f"cable {number}"))

    def tell(self, data: bytes) -> None:
        self.heard.write(data)
        self.untold += data
        self.flush()

    def flush(self) -> None:
        try:
            while self.untold:
                self.untold = self.untold[os.write(self.run.stdin.fileno(), self.untold) :]
        except BlockingIOError:
            return
        except BrokenPipeError:
            self.untold = b""

    def beat(self) -> None:
        self.beats += 1
        self.tell(pcapng.heartbeat(now()))

    def pump(self) -> bool:
        """Puts on its cables what the router has written. False: it writes no more."""
        try:
            data = os.read(self.run.stdout.fileno(), 65536)
        except BlockingIOError:
            return True
        self.written.write(data)
        for kind, body in self.reader.feed(data):
            if kind == pcapng.INTERFACE:
                self.names.append(pcapng.name_of(body))
            elif kind == pcapng.STATISTICS:
                self.answers += 1
                self.slowest = max(self.slowest, now() - pcapng.time_of(body))
            elif kind == pcapng.PACKET:
                number, frame = pcapng.packet_of(body)
                port = self.by_name[self.names[number].split(",")[0]]
                port.cable.put(frame.ljust(LEAST_FRAME, b"\0"), port)
        return bool(data)

    def said(self) -> list[str]:
        """The lines of its log so far."""
        with open(self.log.name, encoding="ascii") as file:
            return file.read().splitlines()

    def end(self) -> Optional[Ending]:
        """Ends its input. None: it doesn't end within a minute."""
        for port in self.ports:
            port.cable.plugged.remove(port)
        os.set_blocking(self.run.stdin.fileno(), True)
        os.set_blocking(self.run.stdout.fileno(), True)
        self.flush()
        try:
            rest, _ = self.run.communicate(timeout=60)
        except subprocess.TimeoutExpired:
            self.run.kill()
            return None
        self.written.write(rest)
        self.heard.close()
        self.written.close()
        with open(self.heard.name, "rb") as heard, open(self.written.name, "rb") as written:
            again = subprocess.run(self.words, stdin=heard, capture_output=True, check=False)
            return Ending(self.run.returncode, again.stdout == written.read())

    def kill(self) -> None:
        if self.run.poll() is None:
            self.run.kill()
            self.run.wait()
