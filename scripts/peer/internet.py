"""The internet of the checks: the router has cables 1 and 2, and a guest's atalkd routes between 2 and 3."""
from typing import NamedTuple

from peer.frames import Addr


class Range(NamedTuple):
    first: int
    last: int
    zones: tuple[str, ...]


EVERYWHERE = "Everywhere"
# more names than fit into one packet
ROOMS = tuple(f"Room {number:02} of the north wing" for number in range(1, 31))
CABLES = {
    1: Range(10, 19, ("Red", EVERYWHERE, *ROOMS)),
    2: Range(20, 29, ("Green", EVERYWHERE)),
    3: Range(30, 39, ("Blue", EVERYWHERE)),
}
# the router's ports, by cable
ADDRS = {1: Addr(10, 1), 2: Addr(20, 1)}
HARDWARE = {1: bytes.fromhex("020000000001"), 2: bytes.fromhex("020000000002")}
# a router whose file has another range for cable 3 than atalkd, and a cable of its own
OTHER_CABLES = {1: Range(30, 38, ("Blue",)), 2: Range(50, 59, ("Far",))}
OTHER_ADDRS = {1: Addr(30, 200), 2: Addr(50, 200)}
OTHER_HARDWARE = {1: bytes.fromhex("020000000003"), 2: bytes.fromhex("020000000004")}


def text(cables: dict[int, Range], addrs: dict[int, Addr], hardware: dict[int, bytes]) -> str:
    """An internet file with one router."""
    lines = ["ticks = 1"]
    for cable in cables.values():
        zones = ", ".join(f'"{zone}"' for zone in cable.zones)
        lines += ["[[cable]]", f"range = [{cable.first}, {cable.last}]", f"zones = [{zones}]"]
    lines.append("[[router]]")
    for number, address in addrs.items():
        lines += ["[[router.port]]", f"cable = {number}", f'hardware = "{hardware[number].hex()}"', f'try = ["{address}"]']
    return "\n".join(lines) + "\n"
