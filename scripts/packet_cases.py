#!/usr/bin/env python3
"""Prints cases of packets made by chance, with what docs/FORMATS.md says of them, for crates/packet_cases.

    scripts/packet_cases.py > crates/packet_cases/data/model.case

The chance is the same each time.
"""
from packet_making import MAKERS, Chance, counted
from packet_reading import checksum, group, hex_lines, is_zone_name, labelled, quoted, reading

ROUNDS = 24
EXAMPLES = [
    ("datagram", "0812 83F2 001E 000A 05 07 04 80 04 0170696E67"),
    ("echo", "000F 0000 001E 000A 05 07 04 80 04 0170"),
    ("AARP", "0001 809B 0604 0003 020000000005 00 000A 07 000000000000 00 000A 07"),
    ("RTMP", "000A 08 01 000A 80 0013 82 0000 05 001E 81 0027 82"),
    ("ATP", "90 00 0001 08000001 6869"),
    ("NBP", "31 01 001E 05 81 01 03 6C6162 01 70 02 4131"),
    ("ZIP", "01 02 001E 0014"),
    ("ZIP", "02 01 001E 04 426C7565 0014 01 52"),
    ("ZIP", "05 0000000000 03 726564"),
    ("ZIP", "06 A0 000A 0013 01 2A 06 090007000038 03 526564"),
    ("ZIP", "08 02 0014 01 52 0014 02 4231"),
]
SEED = 1990


def wanted(lines: list[str]) -> list[str]:
    return [f"> {line}" for line in lines]


def given(protocol: str, data: bytes) -> list[str]:
    """The commands that read these bytes, in lines that aren't too long, and what they answer."""
    pieces = [data[:50], *[data[place : place + 50] for place in range(50, len(data), 50)]]
    lines = [f"{protocol} {' '.join(hex_lines(pieces[0]))}" if data else protocol, *wanted(reading(protocol, pieces[0]))]
    for piece in pieces[1:]:
        lines.append(f"more {' '.join(hex_lines(piece))}")
    if len(pieces) > 1:
        lines += ["read", *wanted(reading(protocol, data))]
    return lines


def with_bytes(protocol: str, data: bytes, changes: dict[int, int]) -> list[str]:
    """The packet with other bytes at some places."""
    changed = bytearray(data)
    for place, byte in changes.items():
        changed[place] = byte
    words = " ".join(f"{place} {byte:02X}" for place, byte in changes.items())
    return [f"with {words}", *wanted(reading(protocol, bytes(changed)))]


def faults(chance: Chance, protocol: str, data: bytes) -> list[str]:
    """Other bytes at one place and at two, mostly before the data; some of them leave the packet valid."""
    lines: list[str] = []
    front = min(len(data), 28)
    for count in [1, 1, 1, 1, 1, 2, 2, 3]:
        places = sorted(chance.sample(range(front), min(count, front)))
        near = {place: (data[place] + chance.choice([-1, 1, 128])) % 256 for place in places}
        lines += with_bytes(protocol, data, near if chance.random() < 0.5 else {place: chance.byte() for place in places})
    return lines


def cut(protocol: str, data: bytes, length: int) -> list[str]:
    return [f"with cut {length}", *wanted(reading(protocol, data[:length]))]


def cuts(protocol: str, data: bytes) -> list[str]:
    """The packet cut at each length."""
    lines = ["cuts"]
    for length in range(len(data)):
        lines += wanted(labelled(str(length), reading(protocol, data[:length])))
    return lines


def packet_case(chance: Chance, protocol: str, number: int) -> list[str]:
    data = MAKERS[protocol](chance)
    lines = [f"# {protocol} by chance, {number}: the packet, with other bytes, cut, and with bytes after it."]
    lines += given(protocol, data)
    lines += faults(chance, protocol, data)
    if len(data) <= 48 and number % 3 == 0:
        lines += cuts(protocol, data)
    else:
        for length in sorted({chance.randrange(len(data)) for _ in range(4)} | {len(data) - 1}):
            lines += cut(protocol, data, length)
    more = chance.choice([b"\x00", b"\xFF\xFF", b"\x00\x01\x01\x41"])
    return lines + [f"with then {more.hex().upper()}", *wanted(reading(protocol, data + more))]


def each_place_case(protocol: str, digits: str) -> list[str]:
    """An example with other bytes at each place, one at a time: at the bounds of a byte, and beside what is there."""
    data = bytes.fromhex(digits)
    lines = [f"# {protocol}, an example with other bytes at each place.", *given(protocol, data)]
    for place, old in enumerate(data):
        for byte in sorted({0, 1, (old - 1) % 256, (old + 1) % 256, old ^ 0x80, old ^ 0x40, 0x20, 0x21, 0xFF} - {old}):
            lines += with_bytes(protocol, data, {place: byte})
    return lines


def written(data: bytes) -> list[str]:
    return wanted([*hex_lines(data), f"length {len(data)}, room {len(data)}"])


def end(chance: Chance) -> tuple[int, int, int]:
    return chance.network(), chance.byte(), chance.byte()


def written_datagram(chance: Chance) -> list[str]:
    (source, node, socket), (target, to_node, to_socket) = end(chance), end(chance)
    kind, summed, data = chance.byte(), chance.random() < 0.5, chance.some(40)
    body = target.to_bytes(2, "big") + source.to_bytes(2, "big") + bytes([to_node, node, to_socket, socket, kind]) + data
    field = checksum(body) if summed else 0
    ends = f"from {source}.{node} socket {socket} to {target}.{to_node} socket {to_socket}"
    command = f"write datagram summed {'yes' if summed else 'no'} {ends} type {kind} data"
    words = " ".join(hex_lines(data)) if data else ""
    made = (13 + len(data)).to_bytes(2, "big") + field.to_bytes(2, "big") + body
    return [f"{command} {words}".strip(), *written(made)]


def written_aarp(chance: Chance) -> list[str]:
    function = chance.choice([1, 2, 3])
    words, made = [["request", "response", "probe"][function - 1]], bytes.fromhex("0001809B060400") + bytes([function])
    for word in ["from", "to"]:
        hardware, network, node = chance.randbytes(6), chance.network(), chance.byte()
        words.append(f"{word} {hardware.hex().upper()} {network}.{node}")
        made += hardware + b"\x00" + network.to_bytes(2, "big") + bytes([node])
    return [f"write AARP {' '.join(words)}", *wanted(hex_lines(made))]


def written_atp(chance: Chance) -> list[str]:
    control, part, number, user, data = chance.byte(), chance.byte(), chance.network(), chance.randbytes(4), chance.some(30)
    words = " ".join(hex_lines(data)) if data else ""
    command = f"write ATP control {control:02X} part {part:02X} ID {number} user {user.hex().upper()} data {words}"
    return [command.strip(), *written(bytes([control, part]) + number.to_bytes(2, "big") + user + data)]


def written_nbp(chance: Chance) -> list[str]:
    function, number, (network, node, socket), enumerator = chance.randrange(1, 5), chance.byte(), end(chance), chance.byte()
    texts = [chance.text(0)[:8] for _ in range(3)]
    word = ["broadcast-request", "lookup", "reply", "forward-request"][function - 1]
    parts = " ".join(f"{name} {quoted(text)}" for name, text in zip(["object", "type", "zone"], texts))
    made = bytes([function * 16 + 1, number]) + network.to_bytes(2, "big") + bytes([node, socket, enumerator])
    made += b"".join(counted(text) for text in texts)
    if len(parts) > 70:
        parts = parts.replace("object ", "").replace(" type ", " ").replace(" zone ", " ")
    return [f"write NBP {word} {number} {network}.{node} {socket} {enumerator} {parts}", *written(made)]


def written_zip(chance: Chance) -> list[str]:
    networks = [chance.network() for _ in range(chance.choice([0, 1, 2, 9]))]
    query = bytes([1, len(networks)]) + b"".join(network.to_bytes(2, "big") for network in networks)
    asked = chance.text(0)
    question = b"\x05" + bytes(5) + counted(asked)
    first = f"write query {' '.join(map(str, networks))}".strip()
    return [first, *written(query), f"write GetNetInfo {quoted(asked)}", *written(question)]


WRITERS = [written_datagram, written_aarp, written_atp, written_nbp, written_zip]


def net_info(asked: bytes, start: int, end_: int, zones: list[bytes]) -> bytes:
    """The reply to GetNetInfo on a cable with these zones."""
    found = [zone for zone in zones if zone.lower() == asked.lower()] if is_zone_name(asked) else []
    zone = found[0] if found else zones[0]
    flags = (0 if found else 0x80) + (0x20 if len(zones) == 1 else 0)
    front = bytes([6, flags]) + start.to_bytes(2, "big") + end_.to_bytes(2, "big") + counted(asked)
    return front + bytes.fromhex("060900070000") + bytes([group(zone)]) + (b"" if found else counted(zones[0]))


def page(start: int, zones: list[bytes]) -> list[str]:
    """The names from an index on that fit into 578 bytes."""
    left, data, count = zones[max(start, 1) - 1 :], b"", 0
    for name in left:
        if len(data) + 1 + len(name) > 578:
            break
        data, count = data + counted(name), count + 1
    last = count == len(left)
    user = bytes([1 if last else 0, 0]) + count.to_bytes(2, "big")
    first = f"last {'yes' if last else 'no'} names {count} length {len(data)} user {user.hex().upper()}"
    return wanted([first, *labelled("data", hex_lines(data))])


def zones_case(chance: Chance, number: int) -> list[str]:
    """What is written of the zones of a cable."""
    zones = [chance.name() for _ in range(chance.choice([1, 1, 2, 3, 6, 30]))]
    lines = [f"# Zones by chance, {number}: replies to GetNetInfo, extended replies and pages."]
    lines += [f"zones {quoted(zone)}" for zone in zones]
    start, end_ = chance.range()
    for _ in range(3):
        asked = chance.choice([chance.choice(zones).swapcase(), chance.choice(zones), chance.text(0)])
        lines += [f"write GetNetInfo-reply {start}-{end_} zone {quoted(asked)}", *written(net_info(asked, start, end_, zones))]
    network, total = chance.network(), chance.byte()
    reply = bytes([8, total]) + b"".join(network.to_bytes(2, "big") + counted(zone) for zone in zones)
    fits = written(reply) if len(reply) <= 586 else wanted(["too long"])
    lines += [f"write extended-reply {network} total {total}", *fits]
    for index in [0, 1, 2, len(zones), len(zones) + 1, chance.network()]:
        lines += [f"write page from {index}", *page(index, zones)]
    return lines


def matches(pattern: bytes, name: bytes) -> bool:
    """`=` matches every name; the first byte C5 matches any bytes; the case of ASCII letters is ignored."""
    if pattern == b"=":
        return True
    before, wildcard, after = pattern.lower().partition(b"\xC5")
    name = name.lower()
    if not wildcard:
        return before == name
    return len(before) + len(after) <= len(name) and name.startswith(before) and name.endswith(after)


def patterns_case(chance: Chance, number: int) -> list[str]:
    """Short texts of few letters, so that many of them match."""
    lines = [f"# Patterns by chance, {number}."]
    for _ in range(24):
        letters = chance.choice([b"aA", b"aAb", b"aB=\xC5", b"a\xC5\xE5", b"ab\xC1\xE1[{"])
        name = bytes(chance.choice(letters) for _ in range(chance.randrange(5)))
        pattern = bytes(chance.choice(letters + b"\xC5") for _ in range(chance.randrange(5)))
        lines += [f"pattern {quoted(pattern)} on {quoted(name)}", *wanted(["yes" if matches(pattern, name) else "no"])]
    return lines


def values_case(chance: Chance, number: int) -> list[str]:
    """Names and their groups, checksums, and what two ranges have in common."""
    lines = [f"# Names, checksums and ranges by chance, {number}."]
    for _ in range(6):
        text = chance.text(0)
        name = f"{quoted(text)} prints {text.decode('latin-1')} group {group(text)}" if is_zone_name(text) else "bad name"
        lines += [f"name {quoted(text)}", *wanted([name])]
        data = chance.some(60)
        lines += [f"checksum {' '.join(hex_lines(data)) if data else ''}".strip(), *wanted([f"{checksum(data):04X}"])]
        (a, b), (c, d), network = chance.range(), chance.range(), chance.network()
        overlap = "yes" if max(a, c) <= min(b, d) else "no"
        lines += [f"range {a}-{b} overlaps {c}-{d}", *wanted([overlap])]
        lines += [f"range {a}-{b} holds {network}", *wanted(["yes" if a <= network <= b else "no"])]
    return lines


def main() -> None:
    chance = Chance(SEED)
    print("# Packets made by chance, as scripts/packet_cases.py prints them with what docs/FORMATS.md says of each.")
    for protocol, digits in EXAMPLES:
        print("", *each_place_case(protocol, digits), sep="\n")
    for number in range(1, ROUNDS + 1):
        for protocol in MAKERS:
            print("", *packet_case(chance, protocol, number), sep="\n")
        print("", f"# Packets written by chance, {number}.", *[line for write in WRITERS for line in write(chance)], sep="\n")
        for case in [zones_case, patterns_case, values_case]:
            print("", *case(chance, number), sep="\n")


if __name__ == "__main__":
    main()
