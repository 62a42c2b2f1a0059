"""Where Wireshark's library reads a capture otherwise than docs/FORMATS.md has it read: each class is one rule of one of the two.

A class says why one of them reads on where the other stops, or, of a packet that both told, why its time or its length differs. It is
found from the capture's bytes and from the error's text alone. The rules of Wireshark are those of version 4.0, wiretap/pcapng.c,
libpcap.c and pcap-common.c.
"""
import collections
import struct

from frames_model import (DECIMALS, FIELDS, HEADER, INTERFACE, MAGIC, MOST_BLOCK, MOST_INTERFACES, MOST_TIME, PACKET, SECTION, STATISTICS,
                          classic_form, frame_in)
from frames_model import options as whole_options

RECORD, FRONT = "record", "header"  # in place of the type of a block, in a classic capture
# Blocks of which FORMATS reads the lengths alone and Wireshark the contents: packets in two older forms, names, journals, secrets,
# custom blocks, and events of sysdig. Of those that TOLD has it makes packets.
SIMPLE, OLD, NAMES, JOURNAL, SECRETS, CUSTOM, EVENTS = 3, 2, 4, 9, 10, (0x0BAD, 0x40000BAD), (0x204, 0x216, 0x221)
TOLD = (SIMPLE, OLD, JOURNAL, *CUSTOM, *EVENTS)
SKIPPED = (*TOLD, NAMES, SECRETS)
CONTENTS = "the contents of a block of which we read the lengths alone"
# Link types with a header of their own in front of each packet, which Wireshark takes off: its length, None where it varies
HEADERS = {123: 4, 139: 4, 144: 16, 177: 16, 196: 5, 197: None, 201: 4, 204: 1, 209: 5, 245: 2, 254: 4}
SHORT = -12  # Wireshark's number of the error that the input ends within what it reads
FORMS, VARIANTS = ("pcapng", "pcap", "nsecpcap"), ("rh6_1pcap", "nokiapcap")
MOST_RECORD = 262_144  # of a longer packet Wireshark reads no more
TRIED = 3  # records by which Wireshark guesses what variant of the classic format it has

Block = collections.namedtuple("Block", "at order kind size")
# A link type, the resolution and the offset of its times as each of them reads these, and why they aren't the same
Interface = collections.namedtuple("Interface", "link ours theirs why")


class Apart(Exception):
    """They differ, and no class says why."""


def number(order, data, at):
    return struct.unpack(order + "I", data[at:at + 4])[0] if len(data) >= at + 4 else 0


def blocks_of(data):
    """The blocks or records up to the first that isn't whole or has a bad length, and this one."""
    form = classic_form(data) if len(data) >= 12 else None
    yield from records_of(form[0], data) if form else pcapng_blocks(data)


def records_of(order, data):
    yield Block(0, order, FRONT, HEADER)
    at = HEADER
    while len(data) - at >= 12:
        size = FIELDS + number(order, data, at + 8)
        yield Block(at, order, RECORD, size)
        at += size


def pcapng_blocks(data):
    order, at = None, 0
    while len(data) - at >= 12:
        kind = number(">", data, at)
        if kind == SECTION:
            order = next((it for it in "><" if number(it, data, at + 8) == MAGIC), None)
        if order is None:
            yield Block(at, ">", kind, 0)
            return
        block = Block(at, order, number(order, data, at), number(order, data, at + 4))
        yield block
        if block.size < 12 or block.size % 4:
            return
        at += block.size


def word_of(block):
    """The first word of a block's line, where it has one, and `packet` for that of a frame too."""
    if block.kind in (PACKET, RECORD):
        return "passed" if block.size > MOST_BLOCK else "packet"
    if block.kind == STATISTICS:
        return "heartbeat" if block.size <= MOST_BLOCK else None
    return {FRONT: "classic", SECTION: "section", INTERFACE: "interface"}.get(block.kind)


def ours(data, lines, blocks):
    """The line of each packet by where its block begins, and where reading ended."""
    packets, at = {}, iter(it for it in blocks if word_of(it))
    for line in lines[:-1]:
        word, block = line.split(" ")[0], next(at, None)
        if block is None or word.replace("frame", "packet") != word_of(block):
            raise Apart(f"a line of no block: {line[:40]}")
        if block.kind in (PACKET, RECORD):
            packets[block.at] = line
    whole = [it for it in blocks if it.at + it.size <= len(data)]
    stop = whole[-1].at + whole[-1].size if whole else 0
    if lines[-1] != "end":
        count = int(lines[-1].split(" ")[1])
        stop = blocks[count - 1].at if count <= len(blocks) else len(data)
    if any(it.at < stop for it in at):
        raise Apart("a block without a line")
    return packets, stop


def first_option(given, code, size, default):
    return next((value for it, value in given if it == code and len(value) == size), default)


def interface_of(block, data):
    """An interface, as each of them reads it: of an option that comes twice we take the last one, and Wireshark the first; of a long
    block we read the first bytes alone."""
    body = data[block.at + 8:block.at + block.size - 4]
    read = data[block.at + 8:block.at + min(block.size - 4, MOST_BLOCK)] if block.size > MOST_BLOCK else body
    link = struct.unpack(block.order + "H", body[:2])[0]
    pairs = []
    for given in (list(whole_options(block.order, read[8:]))[::-1], list(whole_options(block.order, body[8:]))):
        offset = struct.unpack(block.order + "q", first_option(given, 14, 8, bytes(8)))[0]
        pairs.append((first_option(given, 9, 1, b"\6")[0], offset))
    why = "an option after the first 2,048 bytes of an interface" if block.size > MOST_BLOCK else "an option of an interface that comes twice"
    return Interface(link, *pairs, [] if pairs[0] == pairs[1] else [why])


def wrapped(value, bits):
    """A number as one of so many bits with a sign."""
    return (value + 2**(bits - 1)) % 2**bits - 2**(bits - 1)


def exact(units, resolution, offset):
    """The time in microseconds, by FORMATS."""
    power = resolution & 127
    time = units * 10**6 // (2**power if resolution > 127 else 10**power) + 10**6 * offset
    return min(max(time, 0), MOST_TIME)


def computed(units, resolution, offset):
    """The time in nanoseconds, in Wireshark's numbers of 64 bits."""
    power = resolution & 127
    per = 2**64 - 1
    if resolution > 127 and power < 64:
        per = 2**power
    elif resolution < 128 and power < 20:
        per = 10**power
    return wrapped(wrapped(units // per, 64) + offset, 64) * 10**9 + wrapped(units % per * 10**9 % 2**64 // per, 32)


def packet_time(block, data, interface):
    """What each of them makes of a packet's time, and the classes that say why it differs."""
    units = number(block.order, data, block.at + 12) * 2**32 + number(block.order, data, block.at + 16)
    resolution, offset = interface.theirs
    power, classes = resolution & 127, list(interface.why)
    if power > 34 or resolution < 128 and power > 10:
        classes.append("units finer than 64 bits have nanoseconds of")
    if not -2**63 <= units // (2**power if resolution > 127 else 10**power) + offset < 2**63 or resolution in (0, 128) and units >= 2**63:
        classes.append("more seconds than 63 bits have")
    return exact(units, *interface.ours), computed(units, *interface.theirs), classes


def record_time(block, data):
    seconds, fraction = (number(block.order, data, block.at + it) for it in (0, 4))
    nanos = fraction * 10**(9 - DECIMALS[number(block.order, data, 0)])
    classes = ["a fraction of more than 2,147,483,647 nanoseconds"] if nanos >= 2**31 else []
    return (seconds * 10**9 + nanos) // 1000, seconds * 10**9 + wrapped(nanos % 2**32, 32), classes


def told_apart(block, data, line, packet, interface):
    """The classes by which a packet differs that both told."""
    word, index, time, *_ = line.split(" ")
    if packet.record or (packet.interface or 0) != int(index):
        raise Apart(f"interface {index}, and {packet.interface}")
    mine, theirs, classes = record_time(block, data) if block.kind == RECORD else packet_time(block, data, interface)
    nanos = packet.seconds * 10**9 + packet.nanos
    told = min(max(nanos // 1000, 0), MOST_TIME)
    if int(time) != mine:
        raise Apart(f"time {time}, which is {mine} by docs/FORMATS.md; {nanos} nanoseconds")
    if nanos != theirs or told != mine and not classes:
        raise Apart(f"time {time}, and {nanos} nanoseconds, which are {theirs} by Wireshark's numbers")
    return (classes if told != mine else []) + data_apart(word, line.split(" ", 4)[4], packet, interface)


def data_apart(word, rest, packet, interface):
    """The same of its bytes: of a packet that holds a frame, what is in the frame is told, and of another all bytes."""
    told = rest if word == "frame" else rest.split(" ")[1]
    if interface.link == 1:
        if told != (frame_in(bytes.fromhex(packet.data)) if word == "frame" else packet.data):
            raise Apart(f"bytes {told[:60]}, and {packet.data[:60]}")
        return []
    size = len(told) // 2
    if size == packet.size:
        return []
    if HEADERS.get(interface.link, 0) not in (None, size - packet.size):
        raise Apart(f"length {size}, and {packet.size}, of link type {interface.link}")
    return ["a header of the link type in front of the packet"]


def options_fault(block, data):
    """What Wireshark says of the options of a block, and by which rule; nothing where it reads them."""
    front = {SECTION: 16, INTERFACE: 8, STATISTICS: 12, PACKET: 20}[block.kind]
    rest = data[block.at + 8 + front:block.at + block.size - 4]
    if block.kind == PACKET:
        captured = number(block.order, data, block.at + 20)
        rest = rest[captured + -captured % 4:]
    while rest:
        code, size = struct.unpack(block.order + "HH", rest[:4])
        value, rest = rest[4:4 + size], rest[4:]
        if size + -size % 4 > len(rest):
            return f"pcapng: Not enough data to handle option of length {size}", "an option that isn't whole"
        if code == 0:
            return None
        said = option_fault(block.kind, code, size, value)
        if said:
            return "pcapng: " + said, "an option of a length that Wireshark refuses"
        rest = rest[size + -size % 4:]
    return None


def option_fault(kind, code, size, value):
    if code in (2988, 2989, 19372, 19373) and size < 4:
        return f"option length ({size}) too small for custom option"
    if kind == INTERFACE and code == 11 and size < 1:
        return f"packet block verdict option length {size} is < 1"
    if kind != PACKET:
        return None
    for it, name, wanted in ((2, "flags", 4), (4, "drop count", 8), (5, "packet id", 8), (6, "queue", 4)):
        if code == it and size != wanted:
            return f"packet block {name} option length {size} is not {wanted}"
    if code == 7 and size < 1:
        return f"packet block verdict option length {size} is < 1"
    if code == 7 and value[0] in (1, 2) and size != 9:
        return f"packet block {('TC', 'XDP')[value[0] - 1]} verdict option length {size} is != 9"
    return None


def they_stop(block, data, text, interfaces):
    """The class by which Wireshark stops at a block that dump_frames reads or skips; nothing where there is none."""
    if block.kind in SKIPPED:
        return CONTENTS
    if block.kind in (PACKET, RECORD) and block.size > MOST_BLOCK:
        return "the fields, packet or options of a block that is passed over"
    if block.kind == SECTION and text in (f"pcapng: unknown SHB version 1.{it}" for it in minor_of(block, data)):
        return "a section of version 1.N, N neither 0 nor 2"
    if block.kind in (SECTION, INTERFACE, STATISTICS, PACKET):
        fault = options_fault(block, data)
        if fault and fault[0] == text:
            return fault[1]
    if block.kind == FRONT:
        return header_stops(block, data, text)
    if block.kind in (PACKET, RECORD) and "too small to have" in text:
        index = 0 if block.kind == RECORD else number(block.order, data, block.at + 8)
        if index < len(interfaces) and interfaces[index].link in HEADERS:
            return "a packet that is shorter than its link type's header"
    return None


def minor_of(block, data):
    minor = struct.unpack(block.order + "H", data[block.at + 14:block.at + 16])[0]
    return [] if minor in (0, 2) else [minor]


def header_stops(block, data, text):
    """The same of the header of a classic capture."""
    link = number(block.order, data, 20)
    if link & 0x03FF0000 and text == f"pcap: network type reserved field not zero (0x{link & 0x03FF0000:08x})":
        return "a classic header with bits set that Wireshark keeps free"
    if text == f"pcap: network type {link} unknown or unsupported":
        return "a classic header of a link type that Wireshark doesn't know"
    return None


def we_stop(block, data, interfaces):
    """The class by which dump_frames stops at a block that Wireshark reads; nothing where there is none."""
    last = number(block.order, data, block.at + block.size - 4)
    if block.kind == FRONT:
        return "a classic header of another version than 2.4" if data[4:8] != struct.pack(block.order + "HH", 2, 4) else None
    if block.size % 4:
        return "a length that isn't a multiple of four, which Wireshark rounds up"
    if last != block.size and last + -last % 4 == block.size:
        return "a second length that isn't a multiple of four, which Wireshark rounds up"
    if block.kind == STATISTICS and number(block.order, data, block.at + 8) >= len(interfaces):
        return "statistics of an interface that isn't there"
    if block.kind == INTERFACE and len(interfaces) == MOST_INTERFACES:
        return "an interface after 256 of its section"
    return None


def is_doubted(data, order, limit):
    """Whether Wireshark finds something odd in the first records of a classic capture, in microseconds."""
    at = HEADER
    for _ in range(TRIED):
        if at == len(data):
            return False
        if len(data) - at < FIELDS:
            return True
        _, fraction, captured, size = struct.unpack(order + "IIII", data[at:at + FIELDS])
        at += FIELDS + captured
        if fraction >= 10**6 or captured > min(MOST_RECORD, limit, size) or size > 2**27 or at > len(data):
            return True
    return False


def is_variant(data, form):
    """Whether Wireshark takes a classic capture for one of a variant, for what it finds in the first records."""
    order, decimals = classic_form(data) or ("", 0)
    return decimals == 6 and form in VARIANTS and is_doubted(data, order, number(order, data, 16))


def front_of(blocks):
    """The blocks that Wireshark reads before it takes a capture as opened."""
    for place, block in enumerate(blocks):
        if place and block.kind != INTERFACE:
            return
        yield block


def known(data, blocks, upto):
    """The interfaces of the section in which a block begins."""
    interfaces = []
    for block in blocks:
        if block.at >= upto:
            break
        if block.kind == SECTION:
            interfaces = []
        elif block.kind == INTERFACE:
            interfaces.append(interface_of(block, data))
        elif block.kind == FRONT:
            interfaces = [Interface(number(block.order, data, 20) % 2**16, None, None, [])]
    return interfaces


def apart(data, lines, packets, end):
    """How many packets both told, and the classes by which the lines of dump_frames differ from what Wireshark's library told."""
    blocks = list(blocks_of(data))
    mine, stop = ours(data, lines, blocks)
    at = {it.at: it for it in blocks}
    if end.form not in (*FORMS, "-"):
        if stop and not is_variant(data, end.form):
            raise Apart(f"format {end.form}")
        return 0, ["a classic capture with an odd record, which Wireshark takes for a variant's" if stop else "bytes that are another format's"]
    classes, compared = [], 0
    until = min(stop, end.at) if end.form != "-" else 0
    theirs = {it.at: it for it in packets}
    interfaces = []
    for block in blocks:
        if block.at >= until:
            break
        if block.kind in (SECTION, FRONT, INTERFACE):
            interfaces = (interfaces if block.kind == INTERFACE else []) + known(data, [block], until)
        line, packet = mine.get(block.at), theirs.pop(block.at, None)
        if line is None and packet is None:
            continue
        if line is None and block.kind in TOLD:
            classes.append("a packet in a block of which we read the lengths alone")
        elif line is None or packet is None:
            raise Apart(f"a packet at {block.at} that one of them tells")
        elif line != "passed over":
            index = 0 if block.kind == RECORD else number(block.order, data, block.at + 8)
            classes += told_apart(block, data, line, packet, interfaces[index])
            compared += 1
    if any(it < until for it in theirs):
        raise Apart(f"a packet of no block at {min(theirs)}")
    if stop == end.at:
        return compared, classes + ends_apart(at.get(stop), len(data) - stop, lines[-1] == "end", end.error in (0, SHORT))
    return compared, classes + stops_apart(data, blocks, at, stop, end)


def ends_apart(block, left, ours_ended, theirs_ended):
    """The class by which, at one block of which so many bytes are left, the one takes these for the end and the other for a fault."""
    if ours_ended == theirs_ended:
        return []
    if theirs_ended and block and block.kind in SKIPPED:
        return [CONTENTS]
    if left < max(block.size if block else 0, 12):
        return ["the end of the capture in a block that has a fault too"]
    raise Apart(f"an end of {('Wireshark', 'dump_frames')[ours_ended]} alone")


def stops_apart(data, blocks, at, stop, end):
    """The class by which one of them stops before the other, if it does."""
    if end.form == "-":
        front = list(front_of(blocks))
        for block in front:
            name = they_stop(block, data, end.text, known(data, blocks, block.at)) if block.at < stop else None
            if name:
                return [name]
        after = front[-1].at + front[-1].size if front else 0
        if stop in (0, *(it.at for it in front)) or stop == after and len(data) - after < 12:
            return []
        raise Apart(f"stops at {stop}, and isn't opened: {end.text}")
    first = min(stop, end.at)
    block, interfaces = at.get(first), known(data, blocks, first)
    name = None
    if block:
        name = they_stop(block, data, end.text, interfaces) if end.at < stop else we_stop(block, data, interfaces)
    if name is None:
        raise Apart(f"stops at {stop} of {len(data)}, and at {end.at}: {end.error} {end.text}")
    return [name]
