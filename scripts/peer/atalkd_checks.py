"""What guests with atalkd and its tools do over the router: one on each of its cables, and one behind the atalkd of the second."""
import re
from typing import Callable, NamedTuple

from peer import asked_checks, internet
from peer.bench import Bench
from peer.frames import ALL, Addr, Distance, Frame, addr, broadcast_request, distances_of, net_info_of, objects_of
from peer.guest import Answer, Failure, Guest
from peer.internet import ADDRS, CABLES, EVERYWHERE
from peer.wires import now

STARTS = 90  # seconds; atalkd takes thirty for each try without an answer
LEARNS = 60  # for routes and zones: routing data goes out each ten seconds, and queries too
GOES = 100  # until nothing is left of a router that died
THIRD = CABLES[3]
FAR_RANGE = (THIRD.first, THIRD.last)
ALL_ZONES = sorted({zone for cable in CABLES.values() for zone in cable.zones})
# one card on its cable, or a router that knows its first cable by the router here, and seeds the third one
SINGLE = ["eth0 -phase 2"]
BETWEEN = [*SINGLE, f"eth1 -seed -phase 2 -net {THIRD.first}-{THIRD.last} -addr {THIRD.first}.1 "
           + " ".join(f"-zone {zone}" for zone in THIRD.zones)]


class Peers(NamedTuple):
    """Guests with atalkd on cable 1, on cables 2 and 3, and on cable 3."""

    near: Guest
    between: Guest
    far: Guest


def together(bench: Bench, guests: list[Guest], command: str, seconds: float) -> list[Answer]:
    """A command of the shell in all of these guests at once."""
    begun = [(guest, guest.begin_shell(command, int(seconds))) for guest in guests]
    answers = []
    for guest, answer in begun:
        found = bench.wait(answer, seconds + 20)
        if not found:
            raise Failure(f"guest {guest.name} doesn't end: {command}")
        answers.append(found)
    return answers


def start_guests(bench: Bench, seconds: float) -> Peers:
    """Both kinds of cards: virtio's frames are as long as they are, those of e1000 are padded."""
    peers = Peers(bench.start_guest("a", [1], "virtio-net-pci"), bench.start_guest("b", [2, 3], "e1000"),
                  bench.start_guest("c", [3], "virtio-net-pci"))
    for guest in peers:
        guest.booted(seconds)
        for number, _ in enumerate(guest.plugs):
            guest.up(number)
    return peers


def start_atalkd(bench: Bench, guests: list[Guest]) -> None:
    """It puts itself into the background once it knows its cables. It adds to its file what it has learnt, so that is written anew."""
    for guest in guests:
        lines = BETWEEN if len(guest.plugs) == 2 else SINGLE
        guest.shell("sh -c '(" + "; ".join(f"echo {line}" for line in lines) + ") > /etc/atalkd.conf'")
    for guest, answer in zip(guests, together(bench, guests, "atalkd > /tmp/atalkd.log", STARTS)):
        if not answer.done:
            raise Failure(f"guest {guest.name}: atalkd: {guest.shell('cat /tmp/atalkd.log')}")


def of_type(frames: list[Frame], kind: int) -> list[Frame]:
    return [frame for frame in frames if frame.datagram is not None and frame.datagram.kind == kind]


def told(bench: Bench, cable: int, start: int = 0) -> list[Distance]:
    """What the router's last routing data on a cable tells, since a number of shots."""
    found = [frame for frame in of_type(bench.frames(start, cable, "router"), 1) if frame.datagram.target == (0, 255)]
    return distances_of(found[-1].datagram.data) if found else []


def routes_of(guest: Guest) -> dict[int, Addr]:
    """The next routers by network, as the kernel has them. Numbers are hexadecimal there."""
    routes = {}
    for line in guest.shell("cat /proc/net/atalk/route"):
        found = re.match(r"(\w{4}):00 +(\w{4}):(\w\w) +3 ", line)
        if found:
            routes[int(found[1], 16)] = Addr(int(found[2], 16), int(found[3], 16))
    return routes


def finds_cable(bench: Bench, peers: Peers) -> None:
    for guest, cable in zip(peers, CABLES.values()):
        got = addr(guest.ask("get eth0"))
        bench.check(f"atalkd of guest {guest.name} takes an address of {cable.first}-{cable.last}",
                    cable.first <= got.net <= cable.last, str(got))
    answers = of_type(bench.frames(0, 1, "router"), 6)
    asked = [frame for frame in of_type(bench.frames(0, 1, "a0"), 6) if frame.datagram.source.net >= 65280]
    infos = [net_info_of(frame.datagram.data) for frame in answers if frame.target == ALL]
    bench.check("atalkd asks by GetNetInfo from the startup range, and is answered by a broadcast",
                asked and infos and infos[-1].default == CABLES[1].zones[0], (asked, infos))


def learns_routes(bench: Bench, peers: Peers) -> None:
    for guest, by, ranges in [(peers.near, ADDRS[1], (2, 3)), (peers.between, ADDRS[2], (1,))]:
        wanted = {net: by for number in ranges for net in range(CABLES[number].first, CABLES[number].last + 1)}
        bench.check(f"atalkd of guest {guest.name} learns routes by the router", routes_of(guest) == wanted, routes_of(guest))
    routes = routes_of(peers.far)
    bench.check("the guest behind atalkd learns routes to the router's cables",
                all(net in routes for number in (1, 2) for net in range(CABLES[number].first, CABLES[number].last + 1)), routes)
    bench.check("the router learns a route from atalkd, and tells of it on cable 1",
                told(bench, 1) == [(10, 19, 0), (20, 29, 0), (*FAR_RANGE, 1)], told(bench, 1))
    bench.check("and not on the cable of this atalkd", told(bench, 2) == [(20, 29, 0), (10, 19, 0)], told(bench, 2))


def learns_zones(bench: Bench) -> None:
    ours, theirs = of_type(bench.frames(0, 2, "router"), 6), of_type(bench.frames(0, 2, "b0"), 6)
    # a query has the number of its networks, and then these; replies of function 2 and 8 begin with their number of zones
    asked = [frame for frame in theirs if frame.datagram.data[0] == 1 and bytes([0, CABLES[1].first]) in frame.datagram.data[2:]]
    replies = [frame for frame in ours if frame.datagram.data[:2] == bytes([8, len(CABLES[1].zones)])]
    bench.check("atalkd asks the router for zones, and is answered in several packets", asked and len(replies) > 1, (theirs, ours))
    asked = [frame for frame in ours if frame.datagram.data == bytes([1, 1, 0, THIRD.first])]
    replies = [frame for frame in theirs if frame.datagram.data[0] in (2, 8)]
    bench.check("the router asks atalkd for zones, and is answered", asked and replies, (ours, theirs))


def lists_zones(bench: Bench, peers: Peers) -> None:
    """getzones asks the guest's own atalkd, or the router that it is given."""
    for guest, cable in zip(peers, CABLES.values()):
        found = sorted(guest.shell("getzones"))
        bench.check(f"getzones of guest {guest.name}: all zones", found == ALL_ZONES, found)
        by_router = [guest.shell(f"getzones {option} {ADDRS[1]}") for option in ("", "-l", "-m")]
        # the second guest asks from its card on the third cable
        own = CABLES[1] if guest is peers.near else THIRD
        bench.check(f"getzones of the router by guest {guest.name}: all zones", sorted(by_router[0]) == ALL_ZONES, by_router[0])
        bench.check(f"getzones -l of the router by guest {guest.name}: its cable's", sorted(by_router[1]) == sorted(own.zones),
                    by_router[1])
        bench.check(f"getzones -m of the router by guest {guest.name}: its own", by_router[2] == [own.zones[0]], by_router[2])


def echoes(bench: Bench, guest: Guest, target: Addr) -> bool:
    return any("3 packets sent, 3 packets received" in line for line in guest.shell(f"aecho -c 3 {target}"))


def echoed(bench: Bench, peers: Peers) -> None:
    near, between, far = (addr(guest.ask("get eth0")) for guest in peers)
    for what, guest, target in [
        ("the router", peers.near, ADDRS[1]), ("the router's other port", peers.near, ADDRS[2]),
        ("a guest through the router", peers.near, between), ("a guest through the router and atalkd", peers.near, far),
        ("a guest through atalkd and the router", peers.far, near), ("the router through atalkd", peers.far, ADDRS[1]),
    ]:
        bench.check(f"aecho of {what}: three of three come back", echoes(bench, guest, target), str(target))


def registers(bench: Bench, peers: Peers) -> None:
    """Each guest has a name in the zone of its cable, and one in the zone of all three."""
    for guest in peers:
        guest.shell(f"nbprgstr -p 130 {guest.name}-own:Peer")
        guest.shell(f"nbprgstr -p 131 {guest.name}-all:Peer@{EVERYWHERE}")


def looks_up(bench: Bench, peers: Peers) -> None:
    """nbplkup of each guest in each zone. In its own zone atalkd also tells the guest of its names in others."""
    for zone, wanted in [("Red", "a-own"), ("Green", "b-own"), ("Blue", "c-own"), (EVERYWHERE, "a-all b-all c-all"), ("*", None)]:
        answers = together(bench, list(peers), f"nbplkup =:Peer@{zone}", 30)
        for guest, answer in zip(peers, answers):
            found = {match[1] for match in (re.match(r" *(\S+):Peer +\d+\.\d+:\d+", line) for line in answer.printed) if match}
            is_right = found == set(wanted.split()) if wanted else f"{guest.name}-own" in found
            bench.check(f"nbplkup of guest {guest.name} in zone {zone}", is_right, answer.printed)


def asks_for_names(bench: Bench, guest: Guest) -> None:
    """A broadcast request, as Macintoshes send it; atalkd asks each network itself."""
    guest.ask("open 141")
    line = len(guest.lines)
    asked = broadcast_request(addr(guest.ask("get eth0")), 141, "Peer", EVERYWHERE)
    guest.ask(f"send 141 {ADDRS[1]} 2 2 {asked.hex()}")
    bench.run(3)
    replies = [bytes.fromhex(text.rsplit(" ", 1)[1]) for text in guest.heard(line)]
    found = {name for reply in replies for name in objects_of(reply)}
    bench.check("a broadcast request for a zone of three cables is answered from each of them", found == {"a-all", "b-all", "c-all"}, found)


def asks_for_routes(bench: Bench, peers: Peers) -> None:
    """Route data requests of a neighbour, whose own route goes to it without split horizon alone."""
    guest, own = peers.between, [(20, 29, 0), (10, 19, 0)]
    guest.ask("open 140")
    for function, wanted in [(2, own), (3, [*own, (*FAR_RANGE, 1)])]:
        line = len(guest.lines)
        guest.ask(f"send 140 {ADDRS[2]} 1 5 {function:02X}")
        bench.wait(lambda: guest.heard(line), 5)
        heard = [text.rsplit(" ", 1)[1] for text in guest.heard(line)]
        found = [sorted(distances_of(bytes.fromhex(text))) for text in heard]
        bench.check(f"atalkd's neighbour is told {'all' if function == 3 else 'its'} routes (function {function})",
                    found == [sorted(wanted)], found)


def other_range(bench: Bench, during: Callable[[], None]) -> None:
    """A second router, whose file has another range for the third cable; what takes long is done meanwhile."""
    text = internet.text(internet.OTHER_CABLES, internet.OTHER_ADDRS, internet.OTHER_HARDWARE)
    start = len(bench.shots)
    router = bench.start_router("other", text, [(1, 3), (2, 4)])
    during()
    bench.wait(lambda: of_type(bench.frames(start, 4, "other"), 1), 30)
    heard = [distances_of(frame.datagram.data)[0] for frame in of_type(bench.frames(start, 3, "b1"), 1)]
    put = bench.frames(start, 3, "other")
    bench.check("a port that hears of another range from atalkd doesn't start", heard and heard[0] == (*FAR_RANGE, 0) and not put,
                (heard, put))
    bench.check("the other port of this router does", of_type(bench.frames(start, 4, "other"), 1), bench.frames(start, 4, "other"))
    ports = sorted(line.split(": ")[1] for line in router.said() if ": port " in line)
    bench.check("its log tells of both", ports == ["port 1 does not start", "port 2 is 50.200"], router.said())
    ending = bench.end_router(router)
    bench.check("its run ends with status 0", ending and ending.status == 0, ending)


def dies(bench: Bench, peers: Peers) -> None:
    """The atalkd between dies without a word: its routes are told as bad, and go, and its zones with them."""
    start, begun = len(bench.shots), now()
    peers.between.shell("sh -c 'kill -9 $(pidof atalkd)'")
    bad = bench.wait(lambda: (*FAR_RANGE, 31) in told(bench, 1, start), GOES)
    bench.check("atalkd dies: the router tells that its route is bad", bad, told(bench, 1, start))
    gone = bench.wait(lambda: told(bench, 1, start) == [(10, 19, 0), (20, 29, 0)], GOES)
    seconds = (now() - begun) / 1e6
    bench.check(f"within {GOES} seconds it is gone", gone and seconds <= GOES, (seconds, told(bench, 1, start)))
    zones = peers.near.shell(f"getzones {ADDRS[1]}")
    bench.check("and so is its zone", EVERYWHERE in zones and "Blue" not in zones, zones)


def returns(bench: Bench, peers: Peers) -> None:
    """The router learns all of it again."""
    start_atalkd(bench, [peers.between])
    start = len(bench.shots)
    route = bench.wait(lambda: (*FAR_RANGE, 1) in told(bench, 1, start), LEARNS)
    bench.check("atalkd returns: so does its route", route, told(bench, 1, start))
    bench.run(11)
    zones = peers.near.shell(f"getzones {ADDRS[1]}")
    bench.check("and its zone", sorted(zones) == ALL_ZONES, zones)
    bench.check("aecho through both goes again", echoes(bench, peers.near, addr(peers.far.ask("get eth0"))))


def run(bench: Bench, boot: float) -> None:
    peers = start_guests(bench, boot)
    start_atalkd(bench, [peers.near, peers.between])
    start_atalkd(bench, [peers.far])
    bench.wait(lambda: (*FAR_RANGE, 1) in told(bench, 1), LEARNS)
    # zones are asked for with the routing data, and by atalkd ten seconds later
    bench.run(21)
    finds_cable(bench, peers)
    learns_routes(bench, peers)
    learns_zones(bench)
    lists_zones(bench, peers)
    echoed(bench, peers)
    asks_for_routes(bench, peers)

    def names():
        registers(bench, peers)
        looks_up(bench, peers)
        asks_for_names(bench, peers.near)
        asked_checks.run(bench, peers)

    other_range(bench, names)
    dies(bench, peers)
    returns(bench, peers)
