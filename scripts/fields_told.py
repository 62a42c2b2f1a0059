"""What tshark says of the packets of a capture, and where that differs from what it should say."""
import collections
import itertools
import subprocess
from typing import NamedTuple
from xml.etree import ElementTree

from packet_fields import meant

FRAME = ("frame.interface_name", "frame.time_epoch", "frame.comment", "frame.protocols", "eth.dst", "eth.src")
WRAPPED = "fake-field-wrapper"  # what tshark puts data into
WRONG = ("_ws.malformed", "_ws.expert")
TOO_SHORT = ["[Malformed Packet: ZIP]", "Expert Info (Error/Malformed): Malformed Packet (Exception occurred)"]
INNER = ("aarp", "ddp", "rtmp", "nbp", "atp", "zip", WRAPPED)  # protocols whose fields are compared


class Told(NamedTuple):
    frame: dict  # the fields of FRAME
    fields: list  # (name, what is shown, bytes in hexadecimal digits) of each field of the protocols within
    faults: list  # what is malformed, and what else an expert has to say


class Unread(Exception):
    """tshark doesn't read a capture."""


def told_of(path):
    """What tshark says of each packet of a capture."""
    command, packets = ["tshark", "-n", "-r", path, "-T", "pdml"], []
    with subprocess.Popen(command, stdout=subprocess.PIPE, stderr=subprocess.DEVNULL) as running:
        try:
            for _, element in ElementTree.iterparse(running.stdout):
                if element.tag == "packet":
                    packets.append(told(element))
                    element.clear()
        except ElementTree.ParseError as fault:
            raise Unread(f"what tshark says ends early, or is no XML: {fault}") from fault
    if running.returncode != 0:
        raise Unread(f"tshark ends with {running.returncode}")
    return packets


def told(packet):
    frame, fields, faults = {}, [], []
    for proto in packet.iterfind("proto"):
        name = proto.get("name")
        if name in ("frame", "eth", "pkt_comment"):
            frame.update((it.get("name"), it.get("show")) for it in proto.iter("field") if it.get("name") in FRAME)
        if name in INNER:
            fields += [seen for it in proto.iter("field") if (seen := shown(it))]
        if name != "pkt_comment":
            faults += [it.get("showname") for it in (proto, *proto.iter("field")) if it.get("name") in WRONG]
    return Told(frame, fields, faults)


def shown(field):
    """A field that stands in the packet: none that is hidden, made up by tshark, or only holds others together."""
    name = field.get("name")
    if field.get("hide") == "yes" or field.get("size") == "0" or "." not in name or name.startswith("_ws"):
        return None
    return name, field.get("show"), field.get("value")


def value_of(shown, raw, like):
    """A field's value, a number or bytes as it should be."""
    return int(shown, 0) if isinstance(like, int) else bytes.fromhex(raw)


def frame_of(capture, packet):
    """What should be told of a packet's frame."""
    return {"frame.interface_name": capture.interfaces[packet.interface], "frame.comment": packet.comment or None,
            "frame.time_epoch": f"{packet.time // 1000000}.{packet.time % 1000000:06}000",
            "eth.dst": packet.target.hex(":"), "eth.src": packet.source.hex(":")}


def differences(told, wanted, frame):
    """Where what tshark says of a packet differs from what it should."""
    seen, faults = told.fields, told.faults
    if wanted.is_known:
        frame["frame.protocols"] = ":".join(wanted.protocols)
    else:
        seen, faults = seen[:len(wanted.fields)], []
    out = [f"{name} is {told.frame.get(name)}, not {value}" for name, value in frame.items() if told.frame.get(name) != value]
    if not (wanted.is_part and faults == TOO_SHORT):
        out += faults
    for ours, right in itertools.zip_longest(seen, wanted.fields):
        if ours is None or right is None or ours[0] != right[0]:
            return [*out, f"a field is {ours}, not {right}"]
        value = value_of(*ours[1:], right[1])
        if value != right[1]:
            out.append(f"{right[0]} is {value}, not {right[1]}")
    return out


def read_alike(path, capture):
    """Where tshark reads the packets of a capture otherwise than they should be; and of which protocols packets were compared in
    full, and how many."""
    out, counts, told, asked = [], collections.Counter(), told_of(path), {}
    for number, (said, packet) in enumerate(zip(told, capture.packets), 1):
        wanted = meant(packet.kind, packet.data, asked)
        counts[wanted.protocols[-1] if wanted.is_known else "others"] += 1
        out += [f"packet {number}, by tshark: {it}" for it in differences(said, wanted, frame_of(capture, packet))]
    if len(told) != len(capture.packets):
        out.append(f"tshark reads {len(told)} packets, not {len(capture.packets)}")
    return out, counts
