"""A guest in QEMU: a machine with Linux's AppleTalk, which is told by lines what to do (peer.c)."""
import os
import re
import subprocess
from typing import Callable, NamedTuple, Optional

from peer.wires import Plug

MEGABYTES = 160
# without randomness in where the kernel lies, and without what takes an emulated processor long at the start
KERNEL_WORDS = "console=ttyS0 quiet nokaslr panic=-1 mitigations=off no_timer_check cryptomgr.notests apparmor=0 audit=0"
SERIAL_LINE = 16  # bytes that it holds
ANSWER = re.compile(r"@\d+ (\w+) (ok|failed) ?(.*)")
PRINTED = re.compile(r"@\d+ \| (.*)")


class Failure(Exception):
    """A guest doesn't do what the checks need."""


class Answer(NamedTuple):
    """Whether a guest did what it was told, the rest of its answer, and what a command of the shell printed."""

    done: bool
    rest: str
    printed: list[str]


class Guest:
    """One that was started; `wait(test, seconds)` carries frames until the test gives something."""

    def __init__(self, name: str, plugs: list[Plug], card: str, built: str, folder: str, wait: Callable):
        self.name, self.plugs, self.wait = name, plugs, wait
        words = ["qemu-system-x86_64", "-M", "pc", "-accel", "tcg,thread=single", "-m", str(MEGABYTES), "-nodefaults", "-no-reboot",
                 "-display", "none", "-kernel", f"{built}/vmlinuz", "-initrd", f"{built}/initramfs.cpio.gz", "-append", KERNEL_WORDS,
                 "-serial", "stdio"]
        for number, plug in enumerate(plugs):
            words += ["-netdev", plug.netdev(f"n{number}"), "-device", f"{card},netdev=n{number},mac={plug.hardware},romfile="]
        errors = open(os.path.join(folder, f"{name}.qemu.log"), "w", encoding="utf-8")
        self.run = subprocess.Popen(words, stdin=subprocess.PIPE, stdout=subprocess.PIPE, stderr=errors, bufsize=0)
        os.set_blocking(self.run.stdout.fileno(), False)
        self.log = open(os.path.join(folder, f"{name}.log"), "w", encoding="latin-1")
        self.rest, self.lines = b"", []

    def pump(self) -> bool:
        """Keeps the lines that the guest has said. False: it says no more."""
        try:
            data = os.read(self.run.stdout.fileno(), 65536)
        except BlockingIOError:
            return True
        *whole, self.rest = (self.rest + data).split(b"\n")
        for line in whole:
            text = line.decode("latin-1").strip("\r")
            self.lines.append(text)
            self.log.write(text + "\n")
        self.log.flush()
        return bool(data)

    def booted(self, seconds: float) -> None:
        if not self.wait(lambda: any(re.match(r"@\d+ ready", line) for line in self.lines), seconds):
            raise Failure(f"guest {self.name} doesn't start within {seconds} seconds")

    def say(self, line: str) -> None:
        data = (line + "\n").encode("ascii")
        for k in range(0, len(data), SERIAL_LINE):
            self.run.stdin.write(data[k : k + SERIAL_LINE])

    def begin(self, line: str) -> Callable[[], Optional[Answer]]:
        """Tells it a line; what is returned gives its answer once that came."""
        start, name = len(self.lines), line.split()[0]

        def answer() -> Optional[Answer]:
            for place, text in enumerate(self.lines[start:], start):
                found = ANSWER.match(text)
                if found and found[1] == name:
                    printed = (PRINTED.match(said) for said in self.lines[start:place])
                    return Answer(found[2] == "ok", found[3], [said[1] for said in printed if said])
            return None

        self.say(line)
        return answer

    def try_to(self, line: str, seconds: float = 30) -> Answer:
        found = self.wait(self.begin(line), seconds)
        if not found:
            raise Failure(f"guest {self.name} doesn't answer: {line}")
        return found

    def ask(self, line: str) -> str:
        """The rest of its answer, if it did what the line says."""
        found = self.try_to(line)
        if not found.done:
            raise Failure(f"guest {self.name}: {line}: {found.rest}")
        return found.rest

    def begin_shell(self, command: str, seconds: int = 40) -> Callable[[], Optional[Answer]]:
        """Begins a command of the shell, which is ended after so many seconds."""
        return self.begin(f"sh timeout {seconds} {command} 2>&1")

    def shell(self, command: str) -> list[str]:
        """The lines that a command prints, on standard error too."""
        found = self.wait(self.begin_shell(command), 60)
        if not found:
            raise Failure(f"guest {self.name} doesn't end: {command}")
        return found.printed

    def heard(self, start: int) -> list[str]:
        """The datagrams that its sockets heard since a number of lines, as peer.c prints them, without the time."""
        return [line.split(" ", 1)[1] for line in self.lines[start:] if re.match(r"@\d+ heard", line)]

    def up(self, number: int) -> None:
        """A card comes up, and the cable's frames come to it from now on."""
        self.ask(f"up eth{number}")
        self.plugs[number].is_up = True

    def end(self) -> None:
        for plug in self.plugs:
            if plug in plug.cable.plugged:
                plug.close()
        if self.run.poll() is None:
            self.run.kill()
        self.run.wait()
        self.log.close()
