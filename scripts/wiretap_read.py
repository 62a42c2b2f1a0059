"""Captures as tshark's library reads them, many at a time, by read_wiretap.c."""
import collections
import os
import subprocess

HERE = os.path.dirname(os.path.realpath(__file__))

# A packet that the library tells: where its block or record begins; the kind of record, 0 for a packet of a network; its interface, or
# None; its time, two numbers that may have a sign each, or None; how many bytes were captured, and these in hexadecimal digits.
Packet = collections.namedtuple("Packet", "at record interface seconds nanos size data")
# How reading ended: with the number and text of an error or with 0, at which block or record, -1 where the capture wasn't opened; and the
# format that it was taken for.
End = collections.namedtuple("End", "error at form text")
FIELDS = ("frame.interface_id", "frame.time_epoch", "frame.cap_len")


def built(folder):
    """The path of the reader, which is compiled into the folder."""
    told = subprocess.run(["pkg-config", "--cflags", "--libs", "glib-2.0", "wireshark"], check=True, capture_output=True, text=True)
    path = os.path.join(folder, "read_wiretap")
    subprocess.run(["cc", "-O2", "-o", path, os.path.join(HERE, "read_wiretap.c"), *told.stdout.split(), "-lwiretap"], check=True)
    return path


def packet_of(line):
    at, record, interface, seconds, nanos, size, data = line.split(" ")
    seconds = None if seconds == "-" else int(seconds)
    return Packet(int(at), int(record), None if interface == "-" else int(interface), seconds, int(nanos), int(size), "" if data == "-" else data)


def read_all(reader, names):
    """The packets of each of these files, and how reading ended."""
    ran = subprocess.run([reader], input="".join(it + "\n" for it in names), capture_output=True, text=True, errors="replace", check=True)
    packets, told = [], []
    for line in ran.stdout.splitlines():
        word, rest = line.split(" ", 1)
        if word == "packet":
            packets.append(packet_of(rest))
        else:
            error, at, form, text = rest.split(" ", 3)
            told.append((packets, End(int(error), int(at), form, text)))
            packets = []
    return told


def tshark_told(name):
    """What tshark tells of the packets of a file, and whether it ends with an error."""
    words = ["tshark", "-n", "-r", name, "-T", "fields", *(it for field in FIELDS for it in ("-e", field))]
    ran = subprocess.run(words, capture_output=True, text=True, timeout=120)
    return [it.split("\t") for it in ran.stdout.splitlines()], ran.returncode != 0


def tshark_tells(packets, end):
    """The same by what the library told: where a packet has no time, tshark may say anything."""
    return [["" if it.interface is None else str(it.interface), epoch(it), str(it.size)] for it in packets], end.error != 0


def epoch(packet):
    """A packet's time as tshark writes it, each number without its sign."""
    if packet.seconds is None:
        return None
    sign = "-" if packet.seconds < 0 or packet.nanos < 0 else ""
    return f"{sign}{abs(packet.seconds)}.{abs(packet.nanos):09}"


def is_as_tshark(name, packets, end):
    """Whether tshark tells the same of a file as the library did."""
    (told, failed), (wanted, fails) = tshark_told(name), tshark_tells(packets, end)
    for found, it in zip(told, wanted):
        if it[1] is None:
            found[1] = None
    return (told, failed) == (wanted, fails)
