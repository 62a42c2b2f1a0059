"""What reading the bytes of a packet gives, by docs/FORMATS.md: the lines that packet_cases answers."""
from collections.abc import Callable


class Refused(Exception):
    """The first fault of a packet, as an error's text."""


class Input:
    """Bytes that are read from left to right."""

    def __init__(self, data: bytes) -> None:
        self.data = data
        self.place = 0

    def left(self) -> int:
        return len(self.data) - self.place

    def take(self, count: int) -> bytes:
        if self.left() < count:
            raise Refused("truncated")
        self.place += count
        return self.data[self.place - count : self.place]

    def number(self, size: int) -> int:
        return int.from_bytes(self.take(size), "big")

    def address(self) -> str:
        return f"{self.number(2)}.{self.number(1)}"

    def text(self, least: int) -> bytes:
        """A text after its length, which is judged before the bytes that it counts are looked for."""
        length = self.number(1)
        if not least <= length <= 32:
            raise Refused("bad field NameLength")
        return self.take(length)

    def name(self) -> bytes:
        """A zone's name after its length."""
        name = self.text(1)
        if not is_zone_name(name):
            raise Refused("bad name")
        return name


def is_zone_name(text: bytes) -> bool:
    return 1 <= len(text) <= 32 and all(0x20 <= byte <= 0x7E for byte in text) and text != b"*"


def checksum(data: bytes) -> int:
    """Each byte is added modulo 65,536, and the sum is rotated left by one bit; 0 is given as FFFF."""
    total = 0
    for byte in data:
        total = (total + byte) % 65536
        total = (total * 2 + total // 32768) % 65536
    return total or 0xFFFF


def group(name: bytes) -> int:
    return checksum(name.upper()) % 253


def quoted(text: bytes) -> str:
    """A text as cases have it: a byte that isn't printable is a backslash and two digits."""
    plain = [chr(byte) if 0x20 <= byte <= 0x7E and byte not in b'"\\' else f"\\{byte:02X}" for byte in text]
    return '"' + "".join(plain) + '"'


def words_of(data: bytes) -> list[tuple[str, bool]]:
    """The bytes as words, each with whether it is a count: eight and more equal bytes are `00*8`."""
    words: list[tuple[str, bool]] = []
    place = 0
    while place < len(data):
        end = place
        while end < len(data) and data[end] == data[place]:
            end += 1
        count = end - place
        word = f"{data[place]:02X}"
        words.append((f"{word}*{count}", True) if count >= 8 else (word * count, False))
        place = end
    return words


def hex_lines(data: bytes) -> list[str]:
    """The bytes in lines: a new one begins where the last one has more than 90 columns."""
    lines, after_count = [""], False
    for word, is_count in words_of(data):
        if len(lines[-1]) > 90:
            lines.append("")
        elif lines[-1] and (is_count or after_count):
            lines[-1] += " "
        lines[-1] += word
        after_count = is_count
    return lines if data else ["-"]


def labelled(label: str, lines: list[str]) -> list[str]:
    return [f"{label} {lines[0]}", *lines[1:]]


def datagram_in(data: bytes) -> bytes:
    """The datagram at the front of the bytes, without padding."""
    if len(data) < 13:
        raise Refused("truncated")
    length = int.from_bytes(data[:2], "big") % 1024
    if not 13 <= length <= 599:
        raise Refused("bad length")
    if len(data) < length:
        raise Refused("truncated")
    return data[:length]


def read_datagram(data: bytes) -> list[str]:
    whole = datagram_in(data)
    field, kind = int.from_bytes(whole[2:4], "big"), whole[12]
    target, source = [int.from_bytes(whole[place : place + 2], "big") for place in (4, 6)]
    hops = whole[0] // 4 % 16
    good = field in (0, checksum(whole[4:]))
    return [
        f"length {len(whole)} hops {hops} checksum {field:04X} type {kind}",
        f"from {source}.{whole[9]} socket {whole[11]} to {target}.{whole[8]} socket {whole[10]}",
        *labelled("data", hex_lines(whole[13:])),
        "good checksum" if good else "bad checksum",
    ]


def read_echo(data: bytes) -> list[str]:
    whole = datagram_in(data)
    if whole[12] == 4 and whole[10] == 4 and whole[13:14] == b"\x01":
        return hex_lines(b"\x02" + whole[14:])
    return ["no reply"]


def read_aarp(data: bytes) -> list[str]:
    packet = Input(data)
    if len(data) < 28:
        raise Refused("truncated")
    for value, field in [(0x0001, "HardwareType"), (0x809B, "ProtocolType"), (0x0604, "Lengths")]:
        if packet.number(2) != value:
            raise Refused(f"bad field {field}")
    function = packet.number(2)
    if function not in (1, 2, 3):
        raise Refused("bad field Function")
    ends = []
    for _ in ("sender", "receiver"):
        hardware = packet.take(6).hex().upper()
        packet.take(1)
        ends.append(f"{hardware} {packet.address()}")
    return [f"{['request', 'response', 'probe'][function - 1]} from {ends[0]} to {ends[1]}"]


def tuple_line(packet: Input, is_first: bool) -> str | None:
    """A tuple of routing data: its range and distance, or nothing where it isn't extended."""
    start, third = packet.number(2), packet.number(1)
    if third < 0x80:
        if is_first:
            raise Refused("bad field Version")
        return None
    end, last = packet.number(2), packet.number(1)
    if is_first and (third % 32 != 0 or last != 0x82):
        raise Refused("bad field Version")
    if not 1 <= start <= end <= 0xFEFF:
        raise Refused("bad range")
    return f"{start}-{end} distance {third % 32}"


def read_rtmp(data: bytes) -> list[str]:
    packet = Input(data)
    if len(data) < 4:
        raise Refused("truncated")
    network = packet.number(2)
    if packet.number(1) != 8:
        raise Refused("bad field IdLength")
    node = packet.number(1)
    lines: list[str] = []
    while packet.left() > 0:
        line = tuple_line(packet, not lines)
        lines += [line] if line else []
    if not lines:
        raise Refused("truncated")
    own = lines[0].split()[0]
    return [f"router {network}.{node} on {own}", *lines]


def yes(holds: bool) -> str:
    return "yes" if holds else "no"


def read_atp(data: bytes) -> list[str]:
    if len(data) < 8:
        raise Refused("truncated")
    if len(data) > 586:
        raise Refused("bad length")
    control, part = data[0], data[1]
    kind = control // 64
    if kind == 0:
        raise Refused("bad field Control")
    if kind == 2 and part > 7:
        raise Refused("bad field Sequence")
    once, end, status = [yes(bool(control & bit)) for bit in (0x20, 0x10, 0x08)]
    minutes = [0.5, 1, 2, 4, 8][min(control % 8, 4)]
    return [
        f"control {control:02X} part {part:02X} ID {int.from_bytes(data[2:4], 'big')} user {data[4:8].hex().upper()}",
        f"request {yes(kind == 1)}, response {yes(kind == 2)}, release {yes(kind == 3)}",
        f"exactly once {once}, end {end}, status {status}, kept {int(minutes * 300)} ticks",
        *labelled("data", hex_lines(data[8:])),
    ]


def read_nbp(data: bytes) -> list[str]:
    packet = Input(data)
    if len(data) < 2:
        raise Refused("truncated")
    function, count = divmod(packet.number(1), 16)
    if not 1 <= function <= 4:
        raise Refused("bad field Function")
    if count != 1 and not (function == 3 and count >= 1):
        raise Refused("bad field Count")
    word = ["broadcast-request", "lookup", "reply", "forward-request"][function - 1]
    lines = [f"{word} ID {packet.number(1)}"]
    for _ in range(count):
        lines.append(f"{packet.address()} socket {packet.number(1)} enumerator {packet.number(1)}")
        for name, least in [("object", 1), ("type", 1), ("zone", 0)]:
            lines.append(f"{name} {quoted(packet.text(least))}")
    return lines


def entry_lines(packet: Input, one_network: bool) -> list[str]:
    lines: list[str] = []
    first = -1
    while packet.left() > 0:
        network = packet.number(2)
        if one_network and first not in (-1, network):
            raise Refused("bad field Network")
        first = network
        lines.append(f"network {network} zone {quoted(packet.name())}")
    return lines


def query(packet: Input) -> list[str]:
    count = packet.number(1)
    return ["query", *[f"network {packet.number(2)}" for _ in range(count)]]


def reply(packet: Input) -> list[str]:
    count = packet.number(1)
    return [f"reply count {count}", *entry_lines(packet, False)]


def get_net_info(packet: Input) -> list[str]:
    unused = packet.take(5).hex().upper()
    return [f"GetNetInfo unused {unused}", f"zone {quoted(packet.text(0))}"]


def net_info_reply(packet: Input) -> list[str]:
    flags, start, end = packet.number(1), packet.number(2), packet.number(2)
    zone = packet.text(0)
    if packet.number(1) != 6:
        raise Refused("bad field Lengths")
    address = packet.take(6).hex().upper()
    default = f"default zone {quoted(packet.name())}" if flags & 0x80 else "no default zone"
    first = f"GetNetInfo-reply flags {flags:02X} from {start} to {end}"
    return [first, f"zone {quoted(zone)}", f"group {address}", default]


def extended_reply(packet: Input) -> list[str]:
    total = packet.number(1)
    lines = entry_lines(packet, True)
    if not lines:
        raise Refused("truncated")
    return [f"extended-reply total {total}", *lines]


ZIP_FUNCTIONS: dict[int, Callable[[Input], list[str]]] = {
    1: query, 2: reply, 5: get_net_info, 6: net_info_reply, 8: extended_reply,
}


def read_zip(data: bytes) -> list[str]:
    packet = Input(data)
    if len(data) < 2:
        raise Refused("truncated")
    function = packet.number(1)
    if function not in ZIP_FUNCTIONS:
        raise Refused("bad field Function")
    return ZIP_FUNCTIONS[function](packet)


READERS: dict[str, Callable[[bytes], list[str]]] = {
    "datagram": read_datagram, "echo": read_echo, "AARP": read_aarp, "RTMP": read_rtmp, "ATP": read_atp,
    "NBP": read_nbp, "ZIP": read_zip,
}


def reading(protocol: str, data: bytes) -> list[str]:
    """The lines that reading the bytes gives; a refusal is one line."""
    try:
        return READERS[protocol](data)
    except Refused as refused:
        return [str(refused)]
