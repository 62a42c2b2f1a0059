"""Captures for tshark: Ethernet frames with SNAP headers, and what tshark says of them."""
import struct
import subprocess

SNAP = {"ddp": bytes.fromhex("AAAA03080007809B"), "aarp": bytes.fromhex("AAAA0300000080F3")}
SHORTEST = 60  # bytes of an Ethernet frame, without its checksum


def frame(kind, data, target, source):
    """An Ethernet frame with a length, a SNAP header and these bytes, padded where it is short."""
    body = SNAP[kind] + data
    return (target + source + struct.pack(">H", len(body)) + body).ljust(SHORTEST, b"\0")


def write_capture(path, frames):
    """Writes a capture of frames, each with its time in seconds."""
    with open(path, "wb") as file:
        file.write(struct.pack("<IHHiIII", 0xA1B2C3D4, 2, 4, 0, 0, 65535, 1))
        for time, data in frames:
            file.write(struct.pack("<IIII", int(time), round(time % 1 * 1000000), len(data), len(data)) + data)


def told(path, *words):
    """What tshark says of the capture."""
    return subprocess.run(["tshark", "-r", path, *words], check=True, capture_output=True, text=True).stdout
