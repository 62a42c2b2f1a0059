"""Case files as they are written: cases, commands, and the lines that are wanted of each."""
import random
from collections.abc import Sequence


class Sheet:
    """A case file that is being written."""

    def __init__(self, title: str, seed: int) -> None:
        self.lines: list[str] = [f"# {title}"]
        self.chance = random.Random(seed)

    def case(self, remark: str, subject: str) -> None:
        """Begins a case, whose first command says what it is about."""
        self.lines += ["", f"# {remark}", subject]

    def say(self, command: str, *wanted: str) -> None:
        """A command, and the lines that it answers."""
        self.lines.append(command.rstrip())
        self.lines += [f"> {line}" for line in wanted]

    def text(self) -> str:
        return "\n".join(self.lines) + "\n"


def quoted(text: bytes) -> str:
    """A text in quotation marks; a byte that isn't printable is a backslash and two digits."""
    plain = (chr(b) if 0x20 <= b <= 0x7E and b not in b'"\\' else f"\\{b:02X}" for b in text)
    return '"' + "".join(plain) + '"'


def groups(data: bytes, size: int = 42) -> str:
    """The bytes in groups, 42 bytes a line."""
    lines = []
    for begin in range(0, len(data), 42):
        line = data[begin : begin + 42]
        parts = [line[k : k + size].hex().upper() for k in range(0, len(line), size)]
        lines.append(" ".join(["", *parts]))
    return "\n> ..".join(lines)


def data(payload: bytes) -> str:
    """Data, of which 16 equal bytes or more are a byte and a count."""
    if len(payload) >= 16 and len(set(payload)) == 1:
        return f" {payload[0]:02X}*{len(payload)}"
    return groups(payload)


def folded(text: bytes) -> bytes:
    """A text in which letters are small: two that differ in case alone become one."""
    return bytes(b + 32 if 0x41 <= b <= 0x5A else b for b in text)


def each_once(names: Sequence[bytes]) -> list[bytes]:
    """The names, each once in any case, in their first spelling."""
    found: dict[bytes, bytes] = {}
    for name in names:
        found.setdefault(folded(name), name)
    return list(found.values())
