#!/usr/bin/env python3
"""Prints cases of routers whose tables stay, for crates/station_cases/data/model.case.

The tables and the datagrams are pseudo-random, with the same numbers in every run; frozen_router.py works out what the
router puts out.

usage: scripts/station_cases.py > crates/station_cases/data/model.case
"""
from __future__ import annotations

import random

from frozen_router import Addr, Datagram, Port, Router, Row, ZoneList, bytes_of, has, heard, net, sum_of, summed_part, text

CASES = 150
FRAMES = 26
ZONES = [b"Red", b"Blue", b"BLUE", b"red", b"Zed", b"Two words", b"~" * 32, b"=", b"A"]
STATES = ["good", "good", "good", "suspect", "bad", "last"]
NODES = [0, 1, 1, 2, 7, 9, 253, 254, 255, 255]


def some_zones(chance: random.Random) -> list[bytes]:
    """Up to four zones, and rarely forty long ones, none of them twice without case."""
    names: list[bytes] = []
    for zone in chance.sample(ZONES, chance.choice([0, 1, 1, 2, 3, 4])):
        if not has(names, zone):
            names.append(zone)
    if chance.random() < 0.05:
        names += [b"%02d" % k + b"z" * chance.randint(0, 30) for k in range(40)]
    return names


def some_list(chance: random.Random, start: int, end: int) -> ZoneList:
    names = some_zones(chance)
    if names and chance.random() < 0.3:
        return ZoneList(start, end, len(names) + chance.choice([0, 0, 1, 2]), names, False)
    return ZoneList(start, end, len(names), names, True)


def some_router(chance: random.Random) -> Router:
    """One to four ports, their rows, rows by neighbours, and lists of most ranges."""
    starts = sorted(chance.sample(range(1, 90), chance.randint(2, 9)))
    ranges = [(10 * s, 10 * s + chance.choice([0, 1, 4, 9])) for s in starts]
    chance.shuffle(ranges)
    own = ranges[:min(len(ranges) - 1, chance.randint(1, 4))]
    router = Router([], [], [])
    for start, end in own:
        addr = (chance.randint(start, end), chance.choice([1, 2, 9, 253]))
        router.ports.append(Port(start, end, addr if chance.random() < 0.85 else None))
    for start, end in sorted(ranges):
        if (start, end) in own:
            row = Row(start, end, 0, own.index((start, end)), (0, 0), chance.choice(["good"] * 9 + STATES))
        else:
            port = chance.randrange(len(own))
            there = (chance.randint(*own[port]), chance.choice([2, 3, 200]))
            row = Row(start, end, chance.randint(1, 15), port, there, chance.choice(STATES))
        if chance.random() < 0.92:
            router.rows.append(row)
        if chance.random() < 0.85:
            router.lists.append(some_list(chance, start, end))
    return router


def quoted(names: list[bytes]) -> str:
    return "; ".join(f'"{name.decode()}"' for name in names)


def plan_lines(router: Router) -> list[str]:
    lines = []
    for k, p in enumerate(router.ports):
        own = f"own {p.own[0]}.{p.own[1]}" if p.own else "tries"
        lines.append(f"port {p.start}-{p.end} hardware 0200000000{k + 1:02X} {own}")
    for r in router.rows:
        lines.append(f"row {r.start}-{r.end} distance {r.distance} port {r.port} next {r.next[0]}.{r.next[1]} {r.state}")
    for z in router.lists:
        word = "complete" if z.is_set and len(z.names) < 5 else f"of {z.total}"
        for k in range(0, max(1, len(z.names)), 3 if word != "complete" else 5):
            names = z.names[k:k + (3 if word != "complete" else 5)]
            lines.append(f"list {z.start}-{z.end} {word} {quoted(names)}".rstrip())
    return lines + ["begin router"]


# ---- Datagrams


def some_address(chance: random.Random, router: Router, share: float = 0.1) -> Addr:
    ports = [port.own for port in router.ports if port.own]
    if ports and chance.random() < share:
        return chance.choice(ports)
    spans = [(row.start, row.end) for row in router.rows] + [(port.start, port.end) for port in router.ports]
    start, end = chance.choice(spans)
    number = chance.choice([start, end, chance.randint(start, end), start - 1, end + 1, 0])
    return number, chance.choice(NODES)


def names_packet(chance: random.Random) -> bytes:
    zone = chance.choice(ZONES[:6] + [b"*", b"", b"\xc5", b"Green"])
    asker = net(chance.randint(0, 900)) + bytes([chance.choice(NODES), 253, 0])
    head = bytes([chance.choice([0x11, 0x11, 0x11, 0x41, 0x41, 0x21, 0x31]), chance.randrange(256)])
    return head + asker + text(b"=") + text(chance.choice([b"=", b"LaserWriter"])) + text(zone)


def zip_packet(chance: random.Random, router: Router) -> bytes:
    if chance.random() < 0.5:
        return bytes([5, 0, 0, 0, 0, 0]) + text(chance.choice(ZONES + [b"", b"*", b"Green"]))
    count = chance.choice([1, 2, 3, 16, 17, 20]) if chance.random() < 0.2 else chance.randint(1, 3)
    numbers = [some_address(chance, router)[0] for _ in range(count)]
    return bytes([1, count]) + b"".join(map(net, numbers))


def list_packet(chance: random.Random) -> bytes:
    control = chance.choice([0x40, 0x40, 0x60, 0x60, 0x61, 0xC0])
    function = chance.choice([7, 8, 8, 9, 9, 6])
    start = chance.choice([0, 1, 1, 2, 3, 18, 40, 65535])
    return bytes([control, chance.choice([1, 1, 1, 0xFF, 2])]) + net(chance.randint(1, 2)) + bytes([function, 0]) + net(start)


def some_datagram(chance: random.Random, router: Router) -> Datagram:
    hops = chance.choice([0, 0, 1, 7, 13, 14, 15])
    target, source = some_address(chance, router, 0.5), some_address(chance, router)
    service = chance.choice(["echo", "names", "names", "zones", "zones", "lists", "other"])
    if service == "other":
        kind, socket = chance.choice([1, 3, 4, 5, 9, 255]), chance.choice([0, 1, 2, 5, 128])
        d = Datagram(hops, target, source, socket, 128, kind, bytes([1]) * chance.choice([0, 1, 24, 25]))
    else:
        kind, socket = {"echo": (4, 4), "names": (2, 2), "zones": (6, 6), "lists": (3, 6)}[service]
        data = {"echo": lambda: bytes([chance.choice([1, 1, 1, 2, 0])]) + b"ping"[:chance.randint(0, 4)],
                "names": lambda: names_packet(chance), "zones": lambda: zip_packet(chance, router),
                "lists": lambda: list_packet(chance)}[service]()
        d = Datagram(hops, target, source, socket, chance.choice([socket, 128, 253]), kind, data)
    right = sum_of(summed_part(d))
    d.sum = chance.choice([0, 0, 0, right, right, right ^ 0x0100])
    return d


def frame_lines(chance: random.Random, port: int, link: str, d: Datagram) -> list[str]:
    """The frame by its fields, or in hexadecimal digits with padding after it; long data comes before it."""
    packet, head = bytes_of(d), f"hears port {port} {link}"
    if chance.random() < 0.3 and len(d.data) < 40:
        ends = ((0, 2), (2, 4), (4, 6), (6, 8), (8, 13), (13, 999))
        words = [packet[a:b].hex().upper() for a, b in ends if packet[a:b]]
        return [" ".join([head] + words) + chance.choice(["", " 55AA"])]
    right = sum_of(summed_part(d))
    word = "no" if d.sum == 0 else "yes" if d.sum == right else f"{d.sum:04X}"
    data = d.data.hex().upper() or "-"
    line = (f"{head} datagram from {d.source[0]}.{d.source[1]} {d.source_socket} "
            f"to {d.target[0]}.{d.target[1]} {d.target_socket} type {d.kind} hops {d.hops} sum {word} data ")
    return [line + data] if len(d.data) < 20 else [f"bytes {data}", line + "-"]


def main() -> None:
    chance = random.Random(1990)
    print("# Routers whose tables stay, by chance. Printed by scripts/station_cases.py; what they put out is worked out there")
    print("# from docs/BEHAVIOUR.md, without the program.")
    for number in range(1, CASES + 1):
        router = some_router(chance)
        print(f"\n# Router {number} of the model.")
        print("\n".join(plan_lines(router)))
        for _ in range(FRAMES):
            port, link = chance.randrange(len(router.ports)), chance.choice(["own"] * 7 + ["all"] * 3 + ["group 56"])
            d = some_datagram(chance, router)
            if link == "all" and chance.random() < 0.7:
                d.target = (chance.choice([0, d.target[0]]), 255)
                d.sum = sum_of(summed_part(d)) if d.sum else 0
            print("\n".join(frame_lines(chance, port, link, d)))
            print("\n".join("> " + line for line in heard(router, port, link, d)))


if __name__ == "__main__":
    main()
