#!/usr/bin/env python3
"""A capture of a cable on which a station asks, with the answers that it gets.

usage: scripts/asked_captures.py zones|echo|names|routes|survey|silent > CAPTURE

The cable is 10-19, its router is 10.130, and the interface is called c. The station has the hardware address 02004E560001, so that
its address is 10.2: give CAPTURE to `atalk ask QUESTION.. --cable c --hardware 02004E560001`. The answers come in time for questions
that are numbered from 1.
"""
import struct
import sys

sys.dont_write_bytecode = True  # the modules beside this script leave no files there
from frames_model import INTERFACE, MAGIC, PACKET, SECTION, STATISTICS
from made_streams import ALL, NAME, TICK, aarp, framed, routing_data

OWN, OWN_HW = (10, 2), bytes.fromhex("02004E560001")
ROUTER, ROUTER_HW = (10, 130), bytes.fromhex("02004E56000A")
FAR = (20, 7)
ASKING, ROUTING, NAMES, ECHO, ZONES = 251, 1, 2, 4, 6
START = 14  # the tick in which the station may have asked its first question


def block(kind, body):
    body += bytes(-len(body) % 4)
    size = struct.pack(">I", 12 + len(body))
    return struct.pack(">I", kind) + size + body + size


def stamp(time):
    return struct.pack(">II", time >> 32, time % 2**32)


def head():
    """A section, and the interface c."""
    named = struct.pack(">HH", NAME, 1) + b"c\0\0\0" + bytes(4)
    return block(SECTION, struct.pack(">IHHq", MAGIC, 1, 0, -1)) + block(INTERFACE, struct.pack(">HHI", 1, 0, 0) + named)


def beat(time):
    return block(STATISTICS, struct.pack(">I", 0) + stamp(time))


def packet(time, frame):
    return block(PACKET, struct.pack(">I", 0) + stamp(time) + struct.pack(">II", len(frame), len(frame)) + frame)


def datagram(target, source, sockets, kind, data):
    front = struct.pack(">HHBBBBB", target[0], source[0], target[1], source[1], *sockets, kind)
    return struct.pack(">HH", 13 + len(data), 0) + front + data


def to_own(source, socket, kind, data):
    """A frame of the router with an answer to the station."""
    return framed("ddp", datagram(OWN, source, (ASKING, socket), kind, data), OWN_HW, ROUTER_HW)


def rows():
    """Routing data with the ranges of three cables."""
    further = struct.pack(">HBHB", 20, 129, 25, 0x82) + struct.pack(">HBHB", 30, 130, 30, 0x82)
    return routing_data(ROUTER, 10, 19) + further


def broadcast():
    return framed("ddp", datagram((0, 255), ROUTER, (ROUTING, ROUTING), 1, rows()), ALL, ROUTER_HW)


def resolved():
    """The router's answer to the question for its hardware address."""
    return framed("aarp", aarp(2, ROUTER_HW, ROUTER, OWN_HW, OWN), OWN_HW, ROUTER_HW)


def listed(number, last, names):
    """The answer to a request for a list of zones."""
    user = struct.pack(">BBH", last, 0, len(names))
    data = b"".join(bytes([len(name)]) + name for name in names)
    return to_own(ROUTER, ZONES, 3, struct.pack(">BBH", 0x90, 0, number) + user + data)


def echo(source, number):
    return to_own(source, ECHO, 4, struct.pack(">BH", 2, number))


def named(number, *tuples):
    """The answer to a lookup: who has names, and the names."""
    data = b"".join(
        struct.pack(">HBBB", *FAR, socket, enumerator) + b"".join(bytes([len(text)]) + text for text in texts)
        for socket, enumerator, texts in tuples
    )
    return to_own(FAR, NAMES, 2, struct.pack(">BB", 0x30 + len(tuples), number % 256) + data)


def answers(question):
    """The answers, each with the tick in which it comes."""
    match question:
        case "zones":
            return [(START, listed(1, 0, [b"Blue", b"Left\\Right"])), (START + 1, listed(2, 1, [b"Red", b"blue"]))]
        case "echo":
            return [(START + 1, echo(FAR, 1)), (START + 1, echo(FAR, 1)), (START + 2, echo(FAR, 2))]
        case "names":
            lab = (129, 1, (b"lab", b"LaserWriter", b"*"))
            return [
                (START, listed(1, 1, [b"Blue"])),
                (START + 3, named(3, lab)),
                (START + 4, named(3, lab, (130, 2, (b"Caf\x8e", b"LaserWriter", b"Blue")))),
            ]
        case "routes" | "survey":
            return [(START, to_own(ROUTER, ROUTING, 1, rows()))]
        case _:
            return []


def capture(question, ticks):
    timed = [(tick * TICK, None) for tick in range(ticks)]
    timed += [(tick * TICK + 5, broadcast()) for tick in range(1, ticks, 50)]
    timed += [((START - 1) * TICK + 7, resolved())]
    timed += [(tick * TICK + 1234 + 100 * number, frame) for number, (tick, frame) in enumerate(answers(question))]
    made = [beat(time) if frame is None else packet(time, frame) for time, frame in sorted(timed, key=lambda it: it[0])]
    return head() + b"".join(made)


if __name__ == "__main__":
    if len(sys.argv) != 2:
        sys.exit(__doc__)
    sys.stdout.buffer.write(capture(sys.argv[1], 1200 if sys.argv[1] == "survey" else 200))
