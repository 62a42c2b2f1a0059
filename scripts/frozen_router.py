"""What a router whose tables stay puts out for a datagram, by docs/BEHAVIOUR.md and docs/FORMATS.md alone.

station_cases.py prints cases of it.
"""
from __future__ import annotations

from dataclasses import dataclass, field
from typing import Optional

Addr = tuple[int, int]

EVERY_NODE = 255


@dataclass
class Port:
    start: int
    end: int
    own: Optional[Addr]


@dataclass
class Row:
    start: int
    end: int
    distance: int
    port: int
    next: Addr
    state: str


@dataclass
class ZoneList:
    start: int
    end: int
    total: int
    names: list[bytes]
    is_set: bool

    def is_complete(self) -> bool:
        return self.is_set or len(self.names) == self.total


@dataclass
class Datagram:
    hops: int
    target: Addr
    source: Addr
    target_socket: int
    source_socket: int
    kind: int
    data: bytes
    sum: int = 0


@dataclass
class Router:
    ports: list[Port]
    rows: list[Row]
    lists: list[ZoneList]
    kept: dict[tuple[Addr, int, int], bytes] = field(default_factory=dict)


# ---- Bytes


def sum_of(data: bytes) -> int:
    """The checksum: add each byte, turn left by one bit; 0 is FFFF."""
    value = 0
    for byte in data:
        value = (value + byte) & 0xFFFF
        value = ((value << 1) | (value >> 15)) & 0xFFFF
    return value or 0xFFFF


def group_of(zone: bytes) -> int:
    return sum_of(zone.upper()) % 253


def net(number: int) -> bytes:
    return number.to_bytes(2, "big")


def text(data: bytes) -> bytes:
    return bytes([len(data)]) + data


def summed_part(d: Datagram) -> bytes:
    nodes = bytes([d.target[1], d.source[1], d.target_socket, d.source_socket, d.kind])
    return net(d.target[0]) + net(d.source[0]) + nodes + d.data


def bytes_of(d: Datagram) -> bytes:
    return net((d.hops << 10) | (13 + len(d.data))) + net(d.sum) + summed_part(d)


def line_of(head: str, packet: bytes) -> list[str]:
    """The lines of an output: the header's fields, then the data, if it is long on lines of 48 bytes."""
    ends = [0, 2, 4, 6, 8, 9, 10, 11, 12, 13]
    words = [packet[a:b].hex().upper() for a, b in zip(ends, ends[1:])]
    data = packet[13:]
    first = " ".join([head] + words)
    if len(data) <= 24:
        return [first + (" " + data.hex().upper() if data else "")]
    return [first] + ["  " + data[k:k + 48].hex().upper() for k in range(0, len(data), 48)]


# ---- Tables


def row_for(router: Router, number: int) -> Optional[Row]:
    for row in router.rows:
        if row.start <= number <= row.end and row.state in ("good", "suspect"):
            return row
    return None


def is_direct(row: Row) -> bool:
    return row.next == (0, 0)


def list_at(router: Router, number: int) -> Optional[ZoneList]:
    for zones in router.lists:
        if zones.start <= number <= zones.end:
            return zones
    return None


def names_at(router: Router, number: int) -> list[bytes]:
    zones = list_at(router, number)
    return zones.names if zones else []


def has(names: list[bytes], zone: bytes) -> bool:
    return zone.upper() in [name.upper() for name in names]


def all_zones(router: Router) -> list[bytes]:
    found: list[bytes] = []
    for zones in router.lists:
        for name in zones.names if zones.is_complete() else []:
            if not has(found, name):
                found.append(name)
    return found


def is_zone(zone: bytes) -> bool:
    return 1 <= len(zone) <= 32 and zone != b"*" and all(0x20 <= byte <= 0x7E for byte in zone)


# ---- Ways


def address(target: Addr) -> str:
    return f"to {target[0]}.{target[1]}"


def straight(target: Addr) -> str:
    return "to all" if target[1] == EVERY_NODE else address(target)


def is_own(router: Router, target: Addr) -> bool:
    return any(port.own == target for port in router.ports)


def reply_line(router: Router, ended: int, d: Datagram, data: bytes) -> list[str]:
    """A reply: from the socket asked, with the address of the port where the datagram ended."""
    target, own = d.source, router.ports[ended].own
    row = row_for(router, target[0])
    if target[0] == 0 or target[1] == 0 or is_own(router, target) or row is None or own is None:
        return []
    to = straight(target) if is_direct(row) else address(row.next)
    return made(row.port, to, own, target, d, data, d.source_socket, d.target_socket)


def made(port: int, to: str, source: Addr, target: Addr, asked: Datagram, data: bytes, target_socket: int,
         source_socket: int) -> list[str]:
    """A datagram of the router's own, with a checksum where the one that asked has one."""
    d = Datagram(0, target, source, target_socket, source_socket, asked.kind, data)
    if asked.sum:
        d.sum = sum_of(summed_part(d))
    return line_of(f"made port {port} {to}", bytes_of(d))


# ---- Where a datagram goes


def course(router: Router, port: int, link: str, d: Datagram) -> tuple[list[str], Optional[tuple[int, bool]]]:
    """What becomes of the datagram itself, and the port where it ended, with whether it is the router's own."""
    target, packet = d.target, bytes_of(d)
    onward = bytes_of(Datagram(**{**d.__dict__, "hops": d.hops + 1})) if d.hops < 15 else b""
    if link == "own" and (target[0] == 0 or target == router.ports[port].own):
        return [], (port, True)
    if link == "all":
        return [], (port, False) if target[1] == EVERY_NODE else None
    if link != "own":
        return [], None
    row = row_for(router, target[0])
    if row is None:
        return line_of("dropped no route", packet), None
    here = is_direct(row)
    if here and (target[1] == 0 or target == router.ports[row.port].own):
        return line_of(f"kept port {row.port}", packet), (row.port, True)
    if d.hops == 15:
        return line_of("dropped hop limit", packet), None
    if here:
        ending = (row.port, False) if target[1] == EVERY_NODE else None
        return line_of(f"passed port {row.port} {straight(target)}", onward), ending
    return line_of(f"passed port {row.port} {address(row.next)}", onward), None


# ---- What is made of one that ended


def lookup_line(router: Router, q: int, d: Datagram, packet: bytes, zone: bytes) -> list[str]:
    own = router.ports[q].own
    if own is None:
        return []
    return made(q, f"to group {group_of(zone)}", own, (0, EVERY_NODE), d, b"\x21" + packet, 2, 2)


def forward_line(router: Router, start: int, d: Datagram, packet: bytes) -> list[str]:
    row = row_for(router, start)
    if row is None or router.ports[row.port].own is None:
        return []
    to = f"to {start}.0" if is_direct(row) else address(row.next)
    return made(row.port, to, router.ports[row.port].own, (start, 0), d, b"\x41" + packet, 2, 2)


def names_lines(router: Router, d: Datagram) -> list[str]:
    """A broadcast request asks each cable of its zone; a forward request is looked up on its network's cable."""
    objects = 8 + d.data[7]
    kinds = objects + 1 + d.data[objects]
    zone = d.data[kinds + 1:kinds + 1 + d.data[kinds]]
    packet = d.data[1:kinds + 1 + len(zone)]
    if not is_zone(zone):
        return []
    if d.data[0] == 0x41:
        held = [q for q, port in enumerate(router.ports) if port.start <= d.target[0] <= port.end]
        return lookup_line(router, held[0], d, packet, zone) if held else []
    lines: list[str] = []
    for zones in router.lists if d.data[0] == 0x11 else []:
        if has(zones.names, zone):
            same = [q for q, p in enumerate(router.ports) if (p.start, p.end) == (zones.start, zones.end)]
            lines += (lookup_line(router, same[0], d, packet, zone) if same
                      else forward_line(router, zones.start, d, packet))
    return lines


def query_lines(router: Router, ended: int, d: Datagram) -> list[str]:
    """Extended replies for the first 16 networks, with as many names each as fit into 586 bytes."""
    lines: list[str] = []
    for k in range(min(16, d.data[1])):
        number = int.from_bytes(d.data[2 + 2 * k:4 + 2 * k], "big")
        zones = list_at(router, number)
        if zones is None or not zones.is_complete() or not zones.names:
            continue
        head, body = bytes([8, len(zones.names)]), b""
        for name in zones.names:
            entry = net(number) + text(name)
            if len(head + body + entry) > 586:
                lines += reply_line(router, ended, d, head + body)
                body = b""
            body += entry
        lines += reply_line(router, ended, d, head + body)
    return lines


def info_lines(router: Router, ended: int, d: Datagram) -> list[str]:
    """What a node learns of the cable on which its question ended, by that cable alone."""
    port, zone = router.ports[ended], d.data[7:7 + d.data[6]]
    names = names_at(router, port.start)
    is_near = port.start <= d.source[0] <= port.end
    if not names or port.own is None or is_near and (d.source[1] == 0 or is_own(router, d.source)):
        return []
    is_listed = has(names, zone)
    flags = (0 if is_listed else 0x80) | (0x20 if len(names) == 1 else 0)
    group = group_of(zone if is_listed else names[0])
    data = bytes([6, flags]) + net(port.start) + net(port.end) + text(zone) + bytes([6, 9, 0, 7, 0, 0, group])
    data += b"" if is_listed else text(names[0])
    target = d.source if is_near else (0, EVERY_NODE)
    return made(ended, straight(target), port.own, target, d, data, d.source_socket, 6)


def page(names: list[bytes], start: int) -> bytes:
    """User bytes and names of a page that begins with the name of an index from 1."""
    left = names[max(start, 1) - 1:]
    taken: list[bytes] = []
    while len(taken) < len(left) and len(b"".join(map(text, left[:len(taken) + 1]))) <= 578:
        taken.append(left[len(taken)])
    return bytes([int(len(taken) == len(left)), 0]) + net(len(taken)) + b"".join(map(text, taken))


def list_page(router: Router, d: Datagram) -> bytes:
    function, start = d.data[4], int.from_bytes(d.data[6:8], "big")
    if function == 8:
        return page(all_zones(router), start)
    local = names_at(router, d.source[0])
    if function == 9 or not local:
        return page(local, start)
    return bytes([0, 0]) + net(1) + text(local[0])


def transaction_lines(router: Router, ended: int, d: Datagram) -> list[str]:
    """The page that a request asks for, or the one that is kept for its asker, socket and ID."""
    control, number = d.data[0], int.from_bytes(d.data[2:4], "big")
    key = (d.source, d.source_socket, number)
    if control >> 6 == 3:
        router.kept.pop(key, None)
    if control >> 6 != 1 or d.data[4] not in (7, 8, 9):
        return []
    answer = router.kept.get(key) or list_page(router, d)
    if control & 0x20 and key not in router.kept:
        router.kept[key] = answer
    if not d.data[1] & 1:
        return []
    return reply_line(router, ended, d, bytes([0x90, 0]) + net(number) + answer)


def handled(router: Router, ended: int, own: bool, d: Datagram) -> list[str]:
    if d.sum not in (0, sum_of(summed_part(d))):
        return []
    to = (d.kind, d.target_socket)
    if to == (4, 4) and d.data[:1] == b"\x01":
        return reply_line(router, ended, d, b"\x02" + d.data[1:])
    if to == (2, 2) and own:
        return names_lines(router, d)
    if to == (6, 6) and d.data[0] == 1:
        return query_lines(router, ended, d)
    if to == (6, 6) and d.data[0] == 5:
        return info_lines(router, ended, d)
    if to == (3, 6):
        return transaction_lines(router, ended, d)
    return []


def heard(router: Router, port: int, link: str, d: Datagram) -> list[str]:
    fate, ending = course(router, port, link, d)
    lines = fate + (handled(router, ending[0], ending[1], d) if ending else [])
    return lines or ["nothing"]
