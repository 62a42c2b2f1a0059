#!/usr/bin/env python3
"""Prints cases of internet files whose faults a model says that stands apart from the crates (scripts/file_model.py).

usage: scripts/file_cases.py > crates/program_cases/data/model-files.case

Each case is a small file with at least one of everything, and that file with one value, key or entry changed at a time. All
depends on a fixed seed.
"""
import random

from file_model import answer

FILES = 40
CHANGES = 30
NUMBERS = [0, 1, 2, 3, 4, 253, 254, 255, 256, 120, 121, 65279, 65280, 65535, 65536, 4294967296, -1]
ADDRESSES = ["0.0", "65535.255", "65536.0", "1.256", "01.1", "1.01", "1", "1.", ".1", "", "-1.1", "10.7", "19.253", "19.254", "20.1", "9.1", "10.0"]
TEXTS = ["", "a", "*", "=", "**", "=x", "a" * 32, "a" * 33, " ", "~", "\\u00e9", "\\u00e9" * 16, "\\u00e9" * 17, "Red", "\\u0142"]
HEXES = ["", "0", "00", "0g", "aFFa09", "00 ", "0x00"]
HARDWARE = ["0" * 12, "0" * 11, "0" * 13, "aBcDeF012345", "02000000000g", ""]
OTHERS = ["1.0", "true", "[]", "{}", "[1]", "'x'", "1979-05-27"]


def quoted(text):
    return f'"{text}"'


class File:
    """A file as lists of [key, value] for each entry; values are TOML."""

    def __init__(self, chance):
        self.chance = chance
        first = chance.choice([1, 10, 65270])
        self.entries = [["", [["ticks", "120"]]]]
        self.entries += [["cable", [["range", f"[{first + 10 * k}, {first + 10 * k + 9}]" if first < 60000 or k == 0 else f"[{k}, {k}]"],
                                    ["zones", chance.choice(['["Red"]', '["Red", "Blue"]', '["~"]'])]]] for k in range(2)]
        self.entries.append(["router", [["port", self.ports(first)]]])
        self.entries.append(["node", [["cable", "1"], ["hardware", '"020000000005"'], ["try", f'["{first}.7"]'], ["zone", '"Red"']]])
        self.entries.append(["node.name", [["object", '"lab"'], ["type", '"LaserWriter"'], ["socket", "129"]]])
        self.entries.append(["lose", [["cable", "2"], ["first", "7"], ["last", "9"]]])
        self.entries.append(["action", [["at", "110"], ["node", "1"], ["do", '"send"'], ["to", '"30.5"'], ["socket", "4"], ["source", "128"],
                                        ["type", "4"], ["hex", '"0170"']]])
        self.entries.append(["action", [["at", "9"], ["node", "1"], ["do", '"lookup"'], ["id", "513"], ["object", '"="'], ["type", '"="'],
                                        ["zone", '"*"']]])

    def ports(self, first):
        second = '{cable = 2, hardware = "020000000002", try = []}'
        return f'[{{cable = 1, hardware = "020000000001", try = ["{first}.1"]}}' + self.chance.choice(["]", f", {second}]"])

    def text(self):
        lines = []
        for name, keys in self.entries:
            if name:
                lines.append(f"[[{name}]]")
            lines += [f"{key} = {value}" for key, value in keys]
        return "".join(line + "\n" for line in lines)


def other_value(chance, key):
    """A value that may or may not be one of the key's."""
    if chance.random() < 0.15:
        return chance.choice(OTHERS)
    if key in ("ticks", "cable", "first", "last", "at", "node", "socket", "source", "id"):
        return str(chance.choice(NUMBERS))
    if key == "range":
        return f"[{chance.choice(NUMBERS)}, {chance.choice(NUMBERS)}]"
    if key == "zones":
        return "[" + ", ".join(quoted(chance.choice(TEXTS)) for _ in range(chance.randint(0, 2))) + "]"
    if key == "try":
        return "[" + ", ".join(quoted(chance.choice(ADDRESSES)) for _ in range(chance.choice([0, 1, 1, 1, 2]))) + "]"
    if key == "port":
        ports = [f"{{cable = {chance.randint(0, 3)}, hardware = {quoted(chance.choice(HARDWARE))}, try = []}}" for _ in range(chance.randint(0, 2))]
        return "[" + ", ".join(ports) + "]"
    if key == "to":
        return quoted(chance.choice(ADDRESSES))
    if key == "hex":
        return quoted(chance.choice(HEXES))
    if key == "hardware":
        return quoted(chance.choice(HARDWARE))
    if key == "do":
        return quoted(chance.choice(["send", "lookup", "Send", ""]))
    if key == "type" and chance.random() < 0.5:
        return str(chance.choice(NUMBERS))
    return quoted(chance.choice(TEXTS))


def change(chance, file):
    """Changes one value, takes a key or an entry out, or adds one; says the command that does it to the text."""
    old = file.text()
    name, keys = chance.choice([entry for entry in file.entries if entry[1]])
    kind = chance.random()
    if kind < 0.75:
        pair = chance.choice(keys)
        pair[1] = other_value(chance, pair[0])
    elif kind < 0.85:
        keys.remove(chance.choice(keys))
    elif kind < 0.92:
        keys.append([chance.choice(["extra", "cable", "zone", "id", "hex", "to", "name"]), "1"])
    elif name:
        file.entries.append([name, [list(pair) for pair in keys]])
    return file.text() != old


def bars(text):
    for line in text.splitlines():
        print(f"| {line}" if line else "|")


def main():
    print("# Internet files and their faults, which a model says that was written from the manual page.\n")
    for number in range(FILES):
        for step in range(CHANGES):
            chance = random.Random(f"file cases {number} {step}")
            file = File(chance)
            if step and not change(chance, file):
                continue
            if step and chance.random() < 0.3:
                change(chance, file)
            print(f"# File {number + 1}, change {step}.")
            bars(file.text())
            print("read")
            print(">", answer(file.text().encode()))
            print()


if __name__ == "__main__":
    main()
