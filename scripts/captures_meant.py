"""The capture that a transcript stands for: an interface for each cable, and a packet for each frame that was put on one."""
import itertools
import re
import tomllib
from typing import NamedTuple

from captures_read import Capture, Packet
from image_model import Reader
from internet_texts import Plainly

PUT = re.compile(r"put (\d+) cable (\d+) (\d+) to (all|group \d+|[0-9A-F]{12}) ([0-9A-F]+)")
LOST = re.compile(r"lost (\d+)")
AARP = bytes.fromhex("0001809B")  # as a datagram it would be 1 byte long
ALL = bytes.fromhex("090007FFFFFF")
GROUP = bytes.fromhex("0900070000")
TICK = 200000  # microseconds


class Put(NamedTuple):
    stamp: int
    cable: int  # cables and stations count from 1
    station: int
    target: bytes
    data: bytes


class Lost(NamedTuple):
    stamp: int


class Cabling(NamedTuple):
    """The ranges of cables, and the hardware address of each station on each cable, by their numbers."""
    ranges: list
    hardware: dict


def cabling(ranges, stations):
    """Stations are the lists of their ports, each a cable's number and a hardware address."""
    hardware = {}
    for number, ports in enumerate(stations, 1):
        for cable, address in ports:
            hardware.setdefault((number, cable), address)
    return Cabling(ranges, hardware)


def cabling_of_file(text):
    top = tomllib.loads(text.decode())
    stations = [router["port"] for router in top.get("router", [])] + [[node] for node in top.get("node", [])]
    return cabling([cable["range"] for cable in top["cable"]],
                   [[(port["cable"], bytes.fromhex(port["hardware"])) for port in ports] for ports in stations])


def cabling_of_image(data):
    image = Reader(data).image()
    routers = [[(cable + 1, hardware) for cable, _, hardware, _ in router.ports] for router in image.routers]
    return cabling([cable[:2] for cable in image.cables], routers + [[(node.cable + 1, node.hardware)] for node in image.nodes])


def target(who):
    """The hardware address that a frame goes to."""
    if who == "all":
        return ALL
    return GROUP + bytes([int(who.split(" ")[1])]) if who.startswith("group ") else bytes.fromhex(who)


def entries_of(transcript):
    """The frames that a transcript puts on cables, and the stamps of those that were lost, in its order."""
    out = []
    for line in transcript.decode().splitlines():
        if line.startswith("put "):
            put = PUT.fullmatch(line)
            out.append(Put(*(int(put[k]) for k in (1, 2, 3)), target(put[4]), bytes.fromhex(put[5])))
        elif line.startswith("lost "):
            out.append(Lost(int(LOST.fullmatch(line)[1])))
    return out


def packets_of(tick, entries, hardware):
    """The packets of what happened in one tick."""
    lost = {entry.stamp for entry in entries if isinstance(entry, Lost)}
    puts = [entry for entry in entries if isinstance(entry, Put)]
    return [Packet(put.cable - 1, tick * TICK + number, put.target, hardware[put.station, put.cable],
                   "aarp" if put.data.startswith(AARP) else "ddp", put.data, "lost" if put.stamp in lost else "")
            for number, put in enumerate(puts)]


def capture_of(wires, entries, ticks):
    """The capture of entries, each with its tick."""
    capture = Capture([f"cable {number}, {first}-{last}" for number, (first, last) in enumerate(wires.ranges, 1)], [])
    for tick, group in itertools.groupby(zip(ticks, entries), key=lambda pair: pair[0]):
        capture.packets.extend(packets_of(tick, [entry for _, entry in group], wires.hardware))
    return capture


# ---- The ticks of a play's entries


def shortened(text, ticks):
    """The internet file without what comes after so many ticks. Its play is the beginning of the whole play."""
    top = tomllib.loads(text.decode())
    top["ticks"] = ticks
    top["action"] = [action for action in top.get("action", []) if action["at"] <= ticks]
    top["lose"] = [{**loss, "last": min(loss["last"], ticks)} for loss in top.get("lose", []) if loss["first"] <= ticks]
    return Plainly().file({key: value for key, value in top.items() if value != []})


def last_tick(text):
    return tomllib.loads(text.decode())["ticks"]


def ticks_of(count_by, last, total, guessed):
    """The tick of each of the entries in all, of which `count_by` says how many there are by the end of a tick; ticks in which
    there are perhaps some are looked at first."""
    counts = {0: 0, last: total}
    points = {0, last, *(point for tick in guessed for point in (tick - 1, tick) if 0 < point < last)}

    def count(tick):
        if tick not in counts:
            counts[tick] = count_by(tick)
        return counts[tick]

    def between(first, last):
        """The ticks of what happened after the first tick."""
        number = count(last) - count(first)
        if number == 0 or last - first == 1:
            return [last] * number
        middle = (first + last) // 2
        return between(first, middle) + between(middle, last)

    return [tick for first, last in itertools.pairwise(sorted(points)) for tick in between(first, last)]
