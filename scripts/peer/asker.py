"""Questions that `carry --ask` asks on a cable: its link is a card of QEMU, as those of the guests are."""
import os
import shlex
import subprocess
from typing import NamedTuple

from peer.wires import Cable, Plug

CARRY = os.path.realpath(os.path.join(os.path.dirname(os.path.realpath(__file__)), "..", "..", "carrier", "carry"))


class Answered(NamedTuple):
    """How a question ended, and the lines that were printed. No status: it didn't end."""

    status: int | None
    lines: list[str]


class Question:
    """One that was asked."""

    def __init__(self, name: str, program: str, cable: Cable, folder: str, scratch: str, words: list[str]):
        self.plug = Plug(name, cable, scratch, "")
        self.plug.is_up = True
        self.said, self.errors = (open(os.path.join(folder, f"{name}.{kind}"), "w+", encoding="utf-8") for kind in ("said", "log"))
        link = f"qemu:unix:{self.plug.theirs}:{self.plug.ours}"
        self.run = subprocess.Popen([CARRY, "--ask", link, "--atalk", self.one_word(program, scratch), *words],
                                    stdout=self.said, stderr=self.errors)

    def one_word(self, program: str, scratch: str) -> str:
        """A program that is this one, which may have words of its own."""
        path = os.path.join(scratch, "atalk")
        if not os.path.exists(path):
            words = shlex.split(program)
            with open(path, "w", encoding="utf-8") as file:
                file.write(f"#!/bin/sh\nexec {shlex.join([os.path.realpath(words[0]), *words[1:]])} \"$@\"\n")
            os.chmod(path, 0o755)
        return path

    def end(self) -> Answered:
        status = self.run.poll()
        if status is None:
            self.run.kill()
            self.run.wait()
        self.plug.close()
        self.errors.close()
        self.said.seek(0)
        with self.said:
            return Answered(status, self.said.read().splitlines())
