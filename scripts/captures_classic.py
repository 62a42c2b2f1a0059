"""Classic captures: made by chance, with the other byte order, and as editcap and tcpdump write them."""
import struct
import subprocess

from captures_written import ran, turned

MAGICS = (0xA1B2C3D4, 0xA1B23C4D)  # in microseconds, in nanoseconds
HEADER, FIELDS = "IHHIIII", "IIII"


def is_classic(data):
    return len(data) >= 4 and any(struct.unpack(order + "I", data[:4])[0] in MAGICS for order in "><")


def swapped_classic(data):
    """The capture with the other byte order. It has to be whole."""
    order = next(it for it in "><" if struct.unpack(it + "I", data[:4])[0] in MAGICS)
    made, at = turned(order, HEADER, data[:24]), 24
    while at < len(data):
        fields = data[at:at + 16]
        end = at + 16 + struct.unpack(order + FIELDS, fields)[2]
        made += turned(order, FIELDS, fields) + data[at + 16:end]
        at = end
    return made


def record(dice, order, alike, nanos, data):
    """A record of these bytes; one that Wireshark reads alike has a fraction below a second, and captured no more than there was."""
    fraction = dice.randrange(10**9 if nanos else 10**6)
    captured, size = len(data), len(data) + dice.choice((0,) * 9 + (7,))
    if not alike and dice.random() < 0.1:
        fraction, size = dice.choice((fraction, dice.randrange(2**32))), dice.choice((0, max(len(data) - 1, 0), 2**32 - 1))
    if not alike and dice.random() < 0.01:
        captured = dice.choice((dice.randrange(4000), 2**32 - 17, 2**32 - 16, dice.randrange(2**32)))
    return struct.pack(order + FIELDS, dice.choice((0, 0, 1_700_000_000, dice.randrange(2**32))), fraction, captured, size) + data


def made_classic(dice, packets, alike=False):
    """A capture of these packets, in one of the four forms."""
    order, magic = dice.choice("><"), dice.choice(MAGICS)
    link = dice.choice((1, 1, 1, 113) if alike else (1, 1, 1, 1, 0, 113, 0x10000, 0x10001, 0x54000001))
    version = dice.choice(((2, 3), (2, 5), (1, 4), (4, 2))) if not alike and dice.random() < 0.03 else (2, 4)
    zone, limit = (0, 262_144) if alike else (dice.randrange(2**32), dice.choice((0, 96, 65_535)))
    made = struct.pack(order + HEADER, magic, *version, zone, 0, limit, link)
    return made + b"".join(record(dice, order, alike, magic == MAGICS[1], it) for it in packets)


def written_classic(dice, source, target):
    """The capture as a classic one that editcap or tcpdump writes; it must have one link type. Whether that went well."""
    words = dice.choice((["editcap", "-F", "pcap", source, target], ["editcap", "-F", "nsecpcap", source, target],
                         ["tcpdump", "-r", source, "-w", target],
                         ["tcpdump", "--nano", "-r", source, "-w", target]))
    try:
        ran(words)
    except subprocess.CalledProcessError:
        return False
    return True
