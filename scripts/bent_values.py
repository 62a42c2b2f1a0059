"""Values of the keys of a tables file: at the bounds, just past them, and of other kinds."""
from internet_texts import Raw

KEYS = {
    "top": ["version", "cable", "router", "node"],
    "cable": ["range", "zones"],
    "router": ["port", "row", "list"],
    "port": ["cable", "address", "hardware", "mapping"],
    "row": ["range", "distance", "port", "next", "state"],
    "list": ["range", "zones", "complete"],
    "node": ["cable", "address", "hardware", "zone", "router", "name", "mapping"],
    "name": ["object", "type", "socket", "enumerator"],
    "mapping": ["address", "hardware"],
    "hex": ["hex"],
}
LISTS = {
    "top": ["cable", "router", "node"], "router": ["port", "row", "list"], "port": ["mapping"], "node": ["name", "mapping"],
    "cable": ["zones"], "list": ["zones"],
}
OTHER_KINDS = [7, "7", True, False, [7], ["x"], [{}], {}, {"hex": "41"}, Raw("1.0"), Raw("1e0"), Raw("nan"), Raw("1979-05-27"),
               Raw("07:32:00"), Raw("9223372036854775807"), Raw("9223372036854775808"), Raw("-9223372036854775808"),
               Raw("-9223372036854775809"), Raw("0x7FFFFFFFFFFFFFFF"), Raw("0xFFFFFFFFFFFFFFFF"), [Raw("9223372036854775808")],
               Raw("1" + "0" * 30)]
UNKNOWN = ["extra", "Cable", "cables", "Hex", "hex", "ticks", "version", "cable", "router", "zone", "zones", "next", "names", "mapping",
           "", "a b", "\u00e9"]
RANGES = [[0, 0], [65535, 65535], [65535, 0], [65536, 1], [1, 65536], [-1, 1], [1, -1], [2, 1], [1], [1, 2, 3], [], ["1", 2], [[1], 2],
          [True, 2], [1, False], [Raw("1.0"), 2], [Raw("65537"), Raw("65537")], "1-2"]
ADDRESSES = ["0.0", "65535.255", "65536.0", "1.256", "01.1", "1.01", "00.1", "1.00", "1", "1.", ".1", "1.1.1", "", "-1.1", "+1.1", "1. 1",
             " 1.1", "1.1 ", "1,1", "0x1.1", "1.-1", "\uff11.1", "99999.1", "1.999", "999999999999999999999.1", Raw("1.1"), "1_0.1"]
HARDWARE = ["0" * 10, "0" * 11, "0" * 12, "0" * 13, "0" * 14, "F" * 12, "AbCdEf012345", "02000000000g", "02:00:00:00:00:01", "",
            "0x0000000001", " 20000000001", "02000000000 ", "\uff10" * 12, "+20000000001", "02000000000\u00e9", "020000000001",
            "020001000000", "02FFFF000000"]
DIGITS = ["", "4", "41", "8E6", "8E61", "8e6A", "C5", "c5", "41C541", "2A", "3D", "3D3D", "2A2A", "7E", "7F", "1F", "20", "00", "FF",
          "41" * 32, "41" * 33, "00" * 32, "00" * 33, "4g", "0x41", " 41", "41 ", "4 1", "+41", "\uff14\uff11", "\u00e9\u00e9", True, 41]
SPELLINGS = ["", "a" * 32, "a" * 33, "*", "**", "=", "==", " ", "~", "\x1f", "\x7f", "\t", "\u00e9", "\u0145", "\u20ac", "\U0001f600",
             "A\nB", "Red\udcff", "\udcc5", '"', "\\", "'", "#", {}, {"hex": "41", "text": "A"}, {"text": "A"}, {"Hex": "41"},
             {"hex": {"hex": "41"}}, {"hex": ["41"]}, ["Red"], *({"hex": digits} for digits in DIGITS)]
STATES = ["Good", "Suspect", "Bad", "Last", "good", "GOOD", "", "Good ", "Worst", 0, {"hex": "42"}]
NUMBERS = {
    "version": [0, 1, 2, 3, -1, 257, 4294967297], "distance": [0, 31, 32, -1, 255, 256], "socket": [0, 1, 254, 255, 256, -1, 257],
    "enumerator": [0, 1, 255, 256, -1, 257],
}


def near(count):
    """Numbers around the bounds of one that counts from 1."""
    return [0, 1, count, count + 1, -1, 256 + 1, 65536 + 1, 4294967296 + 1]


def zone_lists():
    counts = (64, 65, 255, 256, 257)
    return [[], *([f"Zone {k}" for k in range(count)] for count in counts), ["Red", "Red"], ["Red", 1], ["Red", ["x"]], "Red",
            *([name] for name in SPELLINGS), *(["Red", name] for name in SPELLINGS[:12])]


def lists(entries):
    """What may stand in the place of a list of tables."""
    first = entries[0] if entries else {}
    return [[], [1], [[first]], [*entries, {}], [{}, *entries], [*entries, "x"], [*entries, entries], first]


def bounds(kind, key, table, cables, ports):
    """Values of a key of a table of a kind, at its bounds and just past them, in a file with so many cables, of which the router
    that a row stands in has so many ports."""
    if key in LISTS.get(kind, []) and key != "zones":
        return lists(table.get(key, []))
    if kind == "row" and key == "port":
        return near(ports)
    return {
        **NUMBERS, "range": RANGES, "zones": zone_lists(), "cable": near(cables), "address": ADDRESSES, "next": ADDRESSES,
        "router": ADDRESSES, "hardware": HARDWARE, "state": STATES, "complete": [True, False, 0, 1, "true", "", Raw("1.0")],
        "zone": SPELLINGS, "object": SPELLINGS, "type": SPELLINGS, "hex": DIGITS,
    }[key]
