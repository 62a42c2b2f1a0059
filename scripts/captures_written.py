"""Captures as Wireshark's programs write them, and the same with the other byte order."""
import struct
import subprocess
import tempfile

from frames_model import INTERFACE, MAGIC, PACKET, SECTION, STATISTICS

SIMPLE, NAMES, DECRYPTION, CUSTOM = 3, 4, 10, (0x0BAD, 0x40000BAD)
# The fields of two bytes and of four at the front of a block's contents; what follows a packet's data are options.
FRONTS = {INTERFACE: "HHI", PACKET: "IIIII", STATISTICS: "III", SIMPLE: "I", DECRYPTION: "II"}
# Options whose value is one number, by block and code: an interface's offset; an interface's speed; a packet's flags and its count of
# drops; the two counts of statistics, and their times, of two numbers each.
NUMBERS = {(INTERFACE, 14): "q", (INTERFACE, 8): "Q", (PACKET, 2): "I", (PACKET, 4): "Q", (STATISTICS, 2): "II", (STATISTICS, 3): "II"}
NUMBERS |= {(STATISTICS, code): "Q" for code in range(4, 9)}


def turned(order, form, data):
    """Numbers in the other byte order."""
    other = "<" if order == ">" else ">"
    return struct.pack(other + form, *struct.unpack(order + form, data))


def turned_options(order, kind, data):
    made = b""
    while len(data) >= 4:
        code, size = struct.unpack(order + "HH", data[:4])
        value, data = data[4:4 + size], data[4 + size + -size % 4:]
        form = NUMBERS.get((kind, code), "")
        if form and struct.calcsize(order + form) == size:
            value = turned(order, form, value)
        made += turned(order, "HH", struct.pack(order + "HH", code, size)) + value + bytes(-size % 4)
    return made


def turned_names(order, data):
    """The records of a block of names: each has a type, a length and so many bytes. Options follow the one with the number 0."""
    made = b""
    while len(data) >= 4:
        kind, size = struct.unpack(order + "HH", data[:4])
        made += turned(order, "HH", data[:4]) + data[4:4 + size + -size % 4]
        data = data[4 + size + -size % 4:]
        if kind == 0:
            break
    return made + turned_options(order, NAMES, data)


def turned_body(order, kind, body):
    if kind == SECTION:
        return turned(order, "IHHq", body[:16]) + turned_options(order, kind, body[16:])
    if kind == NAMES:
        return turned_names(order, body)
    if kind in CUSTOM:
        return turned(order, "I", body[:4]) + body[4:]
    form = FRONTS[kind]
    size = struct.calcsize(order + form)
    front, rest = body[:size], body[size:]
    kept = 0
    if kind in (PACKET, DECRYPTION):
        captured = struct.unpack(order + form, front)[3 if kind == PACKET else 1]
        kept = captured + -captured % 4
    elif kind == SIMPLE:
        kept = len(rest)
    return turned(order, form, front) + rest[:kept] + turned_options(order, kind, rest[kept:])


def swapped(data):
    """The capture with the other byte order in each of its sections. It has to be whole."""
    made, order = b"", ""
    while data:
        if data[:4] == struct.pack(">I", SECTION):
            order = ">" if data[8:12] == struct.pack(">I", MAGIC) else "<"
        kind, size = struct.unpack(order + "II", data[:8])
        ends = turned(order, "I", struct.pack(order + "I", size))
        made += turned(order, "I", data[:4]) + ends + turned_body(order, kind, data[8:size - 4]) + ends
        data = data[size:]
    return made


def ran(words):
    subprocess.run(words, check=True, stdout=subprocess.DEVNULL, stderr=subprocess.DEVNULL, timeout=120)


def edited(dice, source, target):
    """What editcap makes of a capture: shorter packets, other times, comments, Wireshark's own format in between."""
    words = ["editcap"]
    for chosen in dice.sample((["-s", str(dice.choice((40, 100)))], ["-t", str(dice.choice((-3.25, 0.000001, 1_000_000)))],
                               ["-a", "1:lost"], ["-a", "2:seen"], ["--capture-comment", "an evening"], ["-C", "4", "-L"]),
                              dice.randrange(4)):
        words += chosen
    ran([*words, source, target])


def joined(dice, sources, target):
    """What mergecap makes of captures: in the order of their times or one after the other, with interfaces of their own or not."""
    words = ["mergecap", "-w", target, "-I", dice.choice(("none", "all"))]
    ran([*words, *(["-a"] if dice.random() < 0.3 else []), *sources])


def nanoseconds(source, target):
    """The capture by way of tcpdump's format with nanoseconds, which has one interface."""
    ran(["editcap", "-F", "nsecpcap", source, target + ".pcap"])
    ran(["editcap", "-F", "pcapng", target + ".pcap", target])


def picked(dice, source, target):
    """What tshark writes: the packets that a filter passes, or each with its names."""
    ran(["tshark", "-r", source, "-w", target, *dice.choice((["-Y", "frame.len > 60"], ["-Y", "ddp"], ["-N", "m"], []))])


def rewritten(dice, captures):
    """One of the captures, or several together, as some of Wireshark's programs write them, one after the other."""
    with tempfile.TemporaryDirectory() as room:
        given = []
        for number, data in enumerate(captures):
            given.append(f"{room}/{number}.pcapng")
            with open(given[-1], "wb") as it:
                it.write(data)
        at = given[0]
        for step in range(dice.choice((1, 1, 2, 3))):
            made = f"{room}/made-{step}.pcapng"
            how = dice.choice((edited, edited, joined, nanoseconds, picked))
            try:
                if how is joined:
                    joined(dice, [at, *given[1:]], made)
                elif how is nanoseconds:
                    nanoseconds(at, made)
                else:
                    how(dice, at, made)
            except subprocess.CalledProcessError:
                continue  # as where packets of two link types would go into one capture of one
            at = made
        with open(at, "rb") as it:
            return it.read()
