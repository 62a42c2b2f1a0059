#!/usr/bin/env python3
"""Prints cases of images whose verdicts a model says that stands apart from the crates (scripts/image_model.py).

usage: scripts/image_cases.py > crates/image_cases/data/model.case

First the three-cable internet with each byte changed to a few other values, then internets made by chance, each whole and
with changes; and then the same in version 2. All depends on a fixed seed.
"""
import os
import random

from image_model import verdict
from internets import Made, MadeInVersion2

TOP = os.path.dirname(os.path.dirname(os.path.abspath(__file__)))
INTERNETS = 60
CHANGES = 12


def hexed(data):
    return data.hex().upper()


def base(data):
    """The bytes of an image, as commands of at most 40 bytes."""
    for at in range(0, len(data), 40):
        print("bytes", hexed(data[at:at + 40]))


def answers(data, edits):
    """A command with changes, and the verdict of the changed bytes."""
    changed = bytearray(data)
    for at, byte in edits:
        changed[at] = byte
    print("audit", *(f"with {at} {byte:02X}" for at, byte in edits))
    print(">", verdict(bytes(changed)))


def each_byte(title, example):
    print("#", title)
    with open(os.path.join(TOP, "examples", example), "rb") as file:
        data = file.read()
    base(data)
    for at, byte in enumerate(data):
        for other in sorted({(byte + 1) % 256, (byte - 1) % 256, 0, 255, byte ^ 0x20, byte ^ 0x80} - {byte}):
            answers(data, [(at, other)])
    print()


def by_chance(title, made, chance):
    data = made(chance).image()
    while len(data) > 3000:
        data = made(chance).image()
    print("#", title)
    base(data)
    print("audit")
    print(">", verdict(data))
    for _ in range(CHANGES):
        edits = []
        for _ in range(chance.choice([1, 1, 1, 2])):
            at = chance.randrange(len(data))
            edits.append((at, chance.choice([(data[at] + 1) % 256, (data[at] - 1) % 256, data[at] ^ 0x20, chance.randrange(256)])))
        answers(data, edits)
    print()


def main():
    print("# Verdicts that a model says, written from docs/FORMATS.md and docs/RULES.md.\n")
    each_byte("Each byte of the three-cable internet is one more, one less, 0, 255, and another letter or a far number.",
              "three-cables.image")
    for number in range(1, INTERNETS + 1):
        by_chance(f"Internet {number} made by chance, and changes of it.", Made, random.Random(f"image cases {number}"))
    each_byte("The same of the three-cable internet in version 2, where each station knows one neighbour.", "three-cables-2.image")
    for number in range(1, INTERNETS + 1):
        by_chance(f"Internet {number} of version 2 made by chance, and changes of it.", MadeInVersion2,
                  random.Random(f"image cases of version 2 {number}"))


if __name__ == "__main__":
    main()
