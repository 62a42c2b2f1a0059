"""Cables that carry frames between what is plugged into them, and the plug of a guest's card."""
import os
import socket
import time
from typing import Callable, NamedTuple

from peer.frames import Frame, frame_of

MOST_WAITING = 256  # frames of a plug; a card that takes none loses the oldest


class Shot(NamedTuple):
    """A frame that somebody put on a cable."""

    time: int
    cable: int
    sender: str
    data: bytes

    @property
    def frame(self) -> Frame:
        return frame_of(self.data)


def now() -> int:
    """The time in microseconds, which never goes back."""
    return time.monotonic_ns() // 1000


class Cable:
    """Carries each frame to all that is plugged in but its sender, and tells `record` of it."""

    def __init__(self, number: int, record: Callable[[Shot], None]):
        self.number = number
        self.record = record
        self.plugged = []

    def put(self, data: bytes, sender) -> None:
        self.record(Shot(now(), self.number, sender.name, data))
        for other in self.plugged:
            if other is not sender:
                other.hear(data)


class Plug:
    """A card of a guest: a pair of unix datagram sockets, as QEMU's `-netdev dgram` wants them."""

    def __init__(self, name: str, cable: Cable, folder: str, hardware: str):
        self.name, self.cable, self.hardware = name, cable, hardware
        self.ours, self.theirs = (os.path.join(folder, f"{name}.{side}") for side in ("ours", "card"))
        self.socket = socket.socket(socket.AF_UNIX, socket.SOCK_DGRAM)
        self.socket.bind(self.ours)
        self.socket.setblocking(False)
        self.waiting = []
        self.is_up = False
        cable.plugged.append(self)

    def netdev(self, identity: str) -> str:
        return f"dgram,id={identity},local.type=unix,local.path={self.theirs},remote.type=unix,remote.path={self.ours}"

    def hear(self, data: bytes) -> None:
        """A card that isn't up would keep old frames, and take them once it is."""
        if self.is_up:
            self.waiting.append(data)
            del self.waiting[:-MOST_WAITING]
            self.flush()

    def flush(self) -> None:
        """QEMU's socket holds few datagrams, and nothing tells when it has room again: the loop tries once more."""
        while self.waiting:
            try:
                self.socket.sendto(self.waiting[0], self.theirs)
            except (BlockingIOError, ConnectionRefusedError, FileNotFoundError):
                return
            self.waiting.pop(0)

    def pump(self) -> None:
        """Puts on the cable what the card has sent."""
        while True:
            try:
                data = self.socket.recv(2048)
            except BlockingIOError:
                return
            self.cable.put(data, self)

    def close(self) -> None:
        self.is_up = False
        self.cable.plugged.remove(self)
        self.socket.close()
