"""Tables files made by chance that are bent once or twice, so that most have something at fault.

What TOML 1.1 allows and TOML 1.0 doesn't is avoided, so readers of either answer the same.
"""
import collections
import functools
import random
import re
import tomllib

from bent_values import KEYS, LISTS, OTHER_KINDS, UNKNOWN, bounds
from internet_texts import Plainly, Twice, Variously
from made_images import Anything
from short_tables import Shorter, tables_of
from tables_model import written

SNIPPETS = ["[cable]", "[[cable]", "[[cable", "[[]]", "[[cable.a.b]]", "[[version]]", "[[router.port]]", "[[node.name]]", "[[extra]]",
            "= 1", "key", "a =", "a = 1 b = 2", "a.b = 1", "version.a = 1", "a = 'x", 'a = "x', 'a = "\\q"', 'a = "\\ud800"', "a = '''x",
            "a = [1, 2", "a = [1,, 2]", "a = {b = 1", "a = 01", "a = 1_", "a = _1", "a = 1__0", "a = 0x", "a = 0xg", "a = 1e5", "a = +",
            "a = truer", "a = '\x01'", "# \x01", "# \x7f", "# a\rb", "a = 1\r", "\x00", 'a = "\t"', '"" = 1', "a = 2024-02-30",
            "\u00e9 = 1", "a = 1 # so", "# \u00e9 [[cable]]", "", "cable = 1", "router = {}", 'node = "x"', "cable = []", "list = []",
            "list = 1", "version = 1", "a = 9223372036854775807", "a = 9223372036854775808",
            "a = [[1, {b = -9223372036854775809}]]", "range = [1, 1]"]
BAD_UTF8 = [b"\xff", b"\xc5", b"\x80", b"\xc0\x80", b"\xed\xa0\x80", b"\xf4\x90\x80\x80", b"\xe2\x82", b"\x8e"]
ONLY_TOML_1_1 = re.compile(rb"\\[ex]|,\s*}|{\s*\n")
LIMITS = {"cable": [200], "router": [200], "node": [200], "port": [16], "row": [200], "list": [200], "name": [32], "mapping": [512],
          "zones": [64, 255]}


# ---- Bends of tables


def tables_by_kind(top):
    """The tables of a file by kind: the name of the list that they stand in, or `hex`, or `top`."""
    out = collections.defaultdict(list)

    def collect(kind, table):
        if isinstance(table, dict):
            out["hex" if "hex" in table else kind].append(table)
            for key, value in table.items():
                for inner in value if isinstance(value, list) else [value]:
                    collect(key, inner)

    collect("top", top)
    return out


def some_table(chance, top, kind, key=None):
    """A table of a kind that has a key, if there is one."""
    having = [table for table in tables_by_kind(top)[kind] if key is None or key in table]
    return chance.choice(having) if having else {}


def leave_out(kind, key, chance, top):
    some_table(chance, top, kind, key).pop(key, None)


def give_twice(kind, key, chance, top):
    table = some_table(chance, top, kind, key)
    if table:
        table[key] = Twice([table[key], chance.choice([table[key], 1, "x"])])


def rename(kind, key, chance, top):
    table = some_table(chance, top, kind, key)
    if table:
        other = chance.choice([key.upper(), key.title(), key + "s", key[:-1], "a" + key, key + "-"])
        table[other] = table.pop(key)


def add_unknown(kind, key, chance, top):
    some_table(chance, top, kind).setdefault(key, chance.choice([1, "x", [], "1.1"]))


def set_other_kind(kind, key, chance, top):
    chance.choice(tables_by_kind(top)[kind])[key] = chance.choice(OTHER_KINDS)


def set_bound(kind, key, number, chance, top):
    """Gives a key the value of a number, of those at its bounds."""
    table = chance.choice(tables_by_kind(top)[kind])
    values = bounds(kind, key, table, len(top["cable"]), ports_beside(top, table))
    table[key] = values[number % len(values)]


def ports_beside(top, row):
    """How many ports the router has that a row stands in."""
    routers = [router for router in top.get("router", []) if any(one is row for one in router.get("row", []))]
    return len(routers[0]["port"]) if routers else 0


def rearrange(kind, key, how, chance, top):
    """Has an entry of a list twice, or entries in another order."""
    entries = some_table(chance, top, kind, key).get(key, [])
    if not entries:
        return
    at = chance.randrange(len(entries))
    if how == "twice":
        entries.insert(at, entries[at])
    elif how == "twice, apart":
        entries.append(entries[at])
    elif how == "exchanged":
        entries[at - 1], entries[at] = entries[at], entries[at - 1]
    elif how == "reversed":
        entries.reverse()
    else:
        del entries[at]


def plain_entry(key, number):
    """An entry of a list, of which those before it have lower numbers."""
    ends, address = [number, number], f"{number}.1"
    return {
        "cable": {"range": ends, "zones": ["Red"]}, "router": {}, "node": {"cable": 1, "address": address, "zone": "Red"},
        "port": {"cable": 1, "address": address}, "row": {"range": ends, "distance": 0, "port": 1}, "list": {"range": ends, "zones": []},
        "name": {"object": "lab", "type": "x", "socket": 1, "enumerator": number}, "zones": f"Zone {number}",
        "mapping": {"address": address, "hardware": "020000000001"},
    }[key]


def fill(kind, key, count, chance, top):
    """Gives a list so many entries."""
    table = chance.choice(tables_by_kind(top)[kind])
    if key in ("cable", "router", "node"):
        table[key] = [*table[key], *(plain_entry(key, 1) for _ in range(count - len(table[key])))]
    else:
        table[key] = [plain_entry(key, number) for number in range(1, count + 1)]


def overrun(key, chance, top):
    """Gives a list at the top more entries than it may have, one of them no table, before or past the limit."""
    fill("top", key, 203, chance, top)
    top[key][chance.randrange(190, 203)] = 7


def set_other_version(kind, chance, top):
    """Changes the version, and takes out all mappings but those of tables of a kind: version 1 has none."""
    top["version"] = 3 - top.get("version", 1)
    for other in {"port", "node"} - {kind}:
        for table in tables_by_kind(top)[other]:
            table.pop("mapping", None)


def bends_of_key(kind, key):
    bends = [leave_out, give_twice, rename, *[set_other_kind] * 8]
    numbers = range(len(bounds(kind, key, {}, 0, 0)))
    return [functools.partial(bend, kind, key) for bend in bends] + [functools.partial(set_bound, kind, key, number) for number in numbers]


def bends_of_list(kind, key):
    ways = [functools.partial(rearrange, kind, key, how) for how in ("twice", "twice, apart", "exchanged", "reversed", "out")]
    return ways + [functools.partial(fill, kind, key, limit + more) for limit in LIMITS[key] for more in (0, 1)]


def table_bends():
    """All bends of tables, in any order, which is the same each time."""
    out = [functools.partial(add_unknown, kind, key) for kind in KEYS for key in UNKNOWN]
    out += [bend for kind, keys in KEYS.items() for key in keys for bend in bends_of_key(kind, key)]
    out += [bend for kind, keys in LISTS.items() for key in keys for bend in bends_of_list(kind, key)]
    out += [functools.partial(overrun, key) for key in LISTS["top"]] * 4
    out += [functools.partial(set_other_version, kind) for kind in ("port", "node", "neither")] * 6
    random.Random(0).shuffle(out)
    return out


# ---- Bends of texts


def put_snippet(chance, text):
    """A line put in, which mostly makes the text none."""
    lines = text.split(b"\n")
    lines.insert(chance.choice([0, len(lines), chance.randint(0, len(lines))]), chance.choice(SNIPPETS).encode("utf-8", "surrogatepass"))
    return b"\n".join(lines)


def put_bad_utf8(chance, text):
    at = chance.randint(0, len(text))
    return text[:at] + chance.choice(BAD_UTF8) + text[at:]


def cut(chance, text):
    return text[: chance.randint(0, len(text))]


def take_letter(chance, text):
    at = chance.randrange(len(text))
    return text[:at] + text[at + 1 :]


def change_letter(chance, text):
    """Another letter in the place of one, but no line feed in an inline table, which TOML 1.1 allows."""
    at = chance.randrange(len(text))
    return text[:at] + bytes([chance.choice(b'0123456789afzAG.,-+_ ="\'[]{}#\\\x00\x1f\x7f')]) + text[at + 1 :]


def change_lines(chance, text):
    """A line out, or twice, or exchanged with another."""
    lines = text.split(b"\n")
    at, other = chance.randrange(len(lines)), chance.randrange(len(lines))
    kind = chance.randrange(3)
    if kind == 0:
        del lines[at]
    elif kind == 1:
        lines.insert(other, lines[at])
    else:
        lines[at], lines[other] = lines[other], lines[at]
    return b"\n".join(lines)


TEXT_BENDS = [put_snippet, put_snippet, put_bad_utf8, cut, take_letter, change_letter, change_letter, change_lines, change_lines]


# ---- Files


def whole_top(chance, show, version):
    """The tables of a file without fault: of what is printed of an image, or of a shorter file."""
    image = Anything(chance, version, rich=True).image()
    if chance.random() < 0.5:
        return tomllib.loads(show(written(image)).decode())
    return Shorter(chance).table("top", tables_of(image))


def whole_text(chance, show, version):
    """The text of such a file, an inline table within a line."""
    image = Anything(chance, version, rich=chance.random() < 0.5).image()
    if chance.random() < 0.7:
        return show(written(image))
    return Plainly().file(Shorter(chance).table("top", tables_of(image)))


def bent_text(chance, show):
    while True:
        text = whole_text(chance, show, chance.choice([1, 2]))
        for _ in range(chance.choice([1, 1, 1, 2])):
            text = chance.choice(TEXT_BENDS)(chance, text) if text else text
        if not ONLY_TOML_1_1.search(text):
            return text


def bent_file(chance, number, show):
    """The file of a number, where SHOW prints the file of an image: first each bend of a table by itself, then two of them, and
    between them files whose text is bent, and now and then none that is."""
    if number % 4 == 0:
        return bent_text(chance, show)
    once = number - number // 4 - 1
    bends = [BENDS[once]] if once < len(BENDS) else chance.sample(BENDS, chance.choice([0, 1, 2, 2, 2]))
    mapped = any("mapping" in bend.args for bend in bends)
    top = whole_top(chance, show, 2 if mapped else chance.choice([1, 2]))
    for bend in bends:
        try:
            bend(chance, top)
        except (AttributeError, IndexError, KeyError, TypeError, ValueError):
            pass  # the second one isn't possible after the first one
    return chance.choice([Plainly(), Variously(chance)]).file(top)


BENDS = table_bends()
