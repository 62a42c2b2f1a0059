"""What a capture says block by block, by docs/FORMATS.md ("Captures that are read"), as the lines of crates/dump_frames."""
import struct

SECTION, INTERFACE, STATISTICS, PACKET = 0x0A0D0D0A, 1, 5, 6  # types of blocks
MAGIC = 0x1A2B3C4D
MOST_BLOCK = 2_048  # of a longer block no more is looked at
# The magic numbers of classic captures, and the decimals of a second that their times have
DECIMALS = {0xA1B2C3D4: 6, 0xA1B23C4D: 9}
HEADER, FIELDS = 24, 16  # bytes of a classic capture's header, and of a record in front of its data
MOST_INTERFACES = 256
MOST_TIME = 2**64 - 1
TICK, MOST_BACK, MOST_TICKS = 200_000, 10_000_000, 400
SNAP = {bytes.fromhex("080007809B"): "ddp", bytes.fromhex("00000080F3"): "aarp"}


class Bad(Exception):
    """A block is refused."""


class Short(Exception):
    """A block is too short for its fields."""


def fields(order, form, data):
    """The numbers at the front, and what follows."""
    size = struct.calcsize(order + form)
    if len(data) < size:
        raise Bad
    return (*struct.unpack(order + form, data[:size]), data[size:])


def options(order, data):
    """The options up to their end, or to one that isn't whole."""
    while len(data) >= 4:
        code, size = struct.unpack(order + "HH", data[:4])
        if code == 0 or len(data) < 4 + size:
            return
        yield code, data[4:4 + size]
        data = data[4 + size + -size % 4:]


def micros(units, resolution, offset):
    """The time of so many units, in microseconds."""
    power = resolution & 127
    time = units * 10**6 // (2**power if resolution > 127 else 10**power)
    return min(max(time + 10**6 * offset, 0), MOST_TIME)


class Reader:
    def __init__(self):
        self.order, self.interfaces, self.clock = "", [], None

    def head(self, data):
        kind = struct.unpack(">I", data[:4])[0]
        if kind == SECTION:
            orders = [it for it in "><" if struct.unpack(it + "I", data[8:12])[0] == MAGIC]
            if not orders:
                raise Bad
            order = orders[0]
        elif self.order:
            order = self.order
        else:
            raise Bad
        kind, size = struct.unpack(order + "II", data[:8])
        if size < 12 or size % 4:
            raise Bad
        return order, kind, size

    def ticks(self, time):
        last = time if self.clock is None or self.clock - time > MOST_BACK else self.clock
        self.clock = max(last, time)
        return min(max(time // TICK - last // TICK, 0), MOST_TICKS)

    def interface(self, order, body):
        link, _, _, rest = fields(order, "HHI", body)
        name, resolution, offset = None, 6, 0
        for code, value in options(order, rest):
            if code == 2:
                name = value
            elif code == 9 and len(value) == 1:
                resolution = value[0]
            elif code == 14 and len(value) == 8:
                offset = struct.unpack(order + "q", value)[0]
        if len(self.interfaces) == MOST_INTERFACES:
            raise Bad
        self.interfaces.append((link == 1, resolution, offset))
        shown = "" if name is None else " " + (name.decode() if all(0x20 <= it < 0x7F for it in name) else name.hex().upper())
        return f"interface {len(self.interfaces) - 1} {'ethernet' if link == 1 else 'other'} {resolution} {offset % 2**64}{shown}"

    def time(self, index, high, low):
        if index >= len(self.interfaces):
            raise Bad
        _, resolution, offset = self.interfaces[index]
        return micros(high * 2**32 + low, resolution, offset)

    def packet(self, order, body):
        index, high, low, captured, size, rest = fields(order, "IIIII", body)
        time = self.time(index, high, low)
        if captured > len(rest):
            raise Bad
        data, rest = rest[:captured], rest[captured:]
        lost = any(it == (1, b"lost") for it in options(order, rest[-captured % 4:]))
        return self.seen(index, time, captured >= size, lost, data)

    def seen(self, index, time, whole, lost, data):
        """The line of a packet."""
        at = f"{index} {time} {self.ticks(time)}"
        if not self.interfaces[index][0]:
            why = "other"
        elif not whole:
            why = "part"
        elif lost:
            why = "lost"
        else:
            frame = frame_in(data)
            if " " in frame:
                return f"frame {at} {frame}"
            why = frame
        return f"packet {at} {why} {data.hex().upper()}"

    def block(self, order, kind, size, data):
        """The line of a block, or none; of a long block the first bytes are there."""
        short = size <= MOST_BLOCK
        if short and struct.unpack(order + "I", data[-4:])[0] != size:
            raise Bad
        body = data[8:-4] if short else data[8:]
        if kind == SECTION:
            _, major, _, _, _ = fields(order, "IHHQ", body)
            if major != 1:
                raise Bad
            self.order, self.interfaces = order, []
            return "section"
        if kind == INTERFACE:
            return self.interface(order, body)
        if kind == PACKET:
            return self.packet(order, body) if short else "passed over"
        if kind == STATISTICS and short:
            index, high, low, _ = fields(order, "III", body)
            time = self.time(index, high, low)
            return f"heartbeat {index} {time} {self.ticks(time)}"
        return None


def who(target):
    if target == bytes.fromhex("090007FFFFFF"):
        return "all"
    if target[:5] == bytes.fromhex("0900070000") and target[5] < 253:
        return f"group {target[5]}"
    return target.hex().upper()


def frame_in(data):
    """A frame's source, target, kind and packet, or one word that says why it is none."""
    if len(data) < 14:
        return "cut"
    size = int.from_bytes(data[12:14], "big")
    if not 8 <= size <= 1500:
        return "length"
    if len(data) < 17:
        return "cut"
    if data[14:17] != b"\xAA\xAA\x03":
        return "header"
    if len(data) < 22:
        return "cut"
    kind = SNAP.get(data[17:22])
    if kind is None:
        return "protocol"
    if len(data) < 14 + size:
        return "cut"
    return f"{data[6:12].hex().upper()} {who(data[:6])} {kind} {data[22:14 + size].hex().upper()}"


def classic_form(data):
    """The order of bytes of a classic capture, and the decimals of its times; nothing where it is none."""
    for order in "><":
        decimals = DECIMALS.get(struct.unpack(order + "I", data[:4])[0])
        if decimals:
            return order, decimals
    return None


def classic_lines(order, decimals, data):
    """The lines of a classic capture, and the exit status: a header, and records up to the end of the input."""
    if len(data) < HEADER:
        return ["end"], 0
    major, minor, _, _, _, link = struct.unpack(order + "HHIIII", data[4:HEADER])
    if (major, minor) != (2, 4):
        return ["refused 1"], 1
    reader, at, blocks = Reader(), HEADER, 1
    ethernet = link % 2**16 == 1
    reader.interfaces = [(ethernet, decimals, 0)]
    lines = [f"classic {'ethernet' if ethernet else 'other'} {decimals} 0"]
    while len(data) - at >= 12:
        captured = struct.unpack(order + "I", data[at + 8:at + 12])[0]
        if FIELDS + captured >= 2**32:
            return [*lines, f"refused {blocks + 1}"], 1
        end = at + FIELDS + captured
        long = FIELDS + captured > MOST_BLOCK
        if len(data) < (at + FIELDS if long else end):
            break
        blocks += 1
        seconds, fraction, _, size = struct.unpack(order + "IIII", data[at:at + FIELDS])
        time = (seconds * 10**9 + fraction * 10**(9 - decimals)) // 1000
        lines.append("passed over" if long else reader.seen(0, time, captured >= size, False, data[at + FIELDS:end]))
        if len(data) < end:
            break
        at = end
    return [*lines, "end"], 0


def lines_of(data):
    """The lines of a capture, and the exit status."""
    form = classic_form(data) if len(data) >= 12 else None
    return classic_lines(*form, data) if form else pcapng_lines(data)


def pcapng_lines(data):
    """The same of one in pcapng."""
    reader, lines, blocks = Reader(), [], 0
    try:
        while len(data) >= 12:
            order, kind, size = reader.head(data)
            if len(data) < min(size, MOST_BLOCK):
                break
            line = reader.block(order, kind, size, data[:min(size, MOST_BLOCK)])
            blocks += size > MOST_BLOCK
            if line is not None:
                lines.append(line)
            if len(data) < size:
                break
            if size > MOST_BLOCK:
                blocks -= 1
                if struct.unpack(order + "I", data[size - 4:size])[0] != size:
                    raise Bad
            blocks += 1
            data = data[size:]
    except Bad:
        return [*lines, f"refused {blocks + 1}"], 1
    return [*lines, "end"], 0
