"""What a station with Linux's AppleTalk and nothing above it does, and what the router answers it."""
from peer import internet
from peer.bench import Bench
from peer.frames import ALL, PROBE, REQUEST, RESPONSE, Addr, Frame, get_net_info, net_info_of
from peer.guest import Guest

LISTENS = 12  # seconds that a port listens before its first probe
PROBES = 10
ROUTER, FAR = internet.ADDRS[1], internet.ADDRS[2]
CABLE = internet.CABLES[1]
GROUP = "09:00:07:FF:FF:FF"
STATION = Addr(10, 2)  # the address after the router's, which Linux tries next
# routing data of the router's two ports: its address, and the range
NEAR_RANGE = "000A0801" + "000A80001382"
FAR_RANGE = "00140801" + "001480001D82"
ALL_RANGES = NEAR_RANGE + FAR_RANGE[8:]


def is_probe(frame: Frame) -> bool:
    return frame.resolution is not None and frame.resolution.function == PROBE


def is_resolution(function: int, source: Addr, target: Addr):
    """The test of an AARP packet from one address about another."""
    wanted = function, source, target
    return lambda frame: frame.resolution is not None and (frame.resolution.function, *frame.resolution[2:]) == wanted


def is_of_type(kind: int):
    return lambda frame: frame.datagram is not None and frame.datagram.kind == kind


def put_by_router(bench: Bench, start: int, test, seconds: float = 5):
    return bench.heard(start, 1, "router", test, seconds)


def router_settles(bench: Bench, begun: int) -> None:
    """The router takes its addresses; it was started at this time."""
    bench.wait(lambda: any(is_of_type(1)(frame) for frame in bench.frames(0, 2, "router")), 40)
    for cable in (1, 2):
        probes = [shot for shot in bench.shots_of(cable, "router") if is_probe(shot.frame)]
        first = (probes[0].time - begun) / 1e6 if probes else 0
        bench.check(f"the router listens for {LISTENS} seconds, and then probes {PROBES} times, on cable {cable}",
                    len(probes) == PROBES and abs(first - LISTENS) < 1, (len(probes), first))


def startup_range(bench: Bench, guest: Guest) -> None:
    """A station that doesn't know its cable asks from the startup range."""
    got = guest.ask("addr eth0 65280 77 65280 65534")
    guest.ask("open 6")
    start, line = len(bench.shots), len(guest.lines)
    # Linux says that it failed, since it couldn't hear its own broadcast; others did
    guest.try_to(f"send 6 65280.255 6 6 {get_net_info('').hex()}")
    frame = put_by_router(bench, start, is_of_type(6))
    info = frame and net_info_of(frame.datagram.data)
    bench.check("GetNetInfo from the startup range is answered by a broadcast, with the range and the default zone",
                got == "65280.77" and info and frame.target == ALL and frame.datagram.target == (0, 255)
                and (info.first, info.last, info.default) == (CABLE.first, CABLE.last, CABLE.zones[0]), (got, frame))
    bench.wait(lambda: guest.heard(line), 3)
    bench.check("the guest hears this answer", any(text.startswith(f"heard 6 from {ROUTER}:6 type 6 06") for text in guest.heard(line)),
                guest.heard(line))
    guest.ask("close 6")
    guest.ask("del eth0")


def takes_address(bench: Bench, guest: Guest) -> None:
    """A station that tries the router's address is refused it."""
    start = len(bench.shots)
    got = guest.ask(f"addr eth0 {ROUTER.net} {ROUTER.node} {CABLE.first} {CABLE.last}")
    bench.check("a guest that probes for the router's address takes the next one", got == str(STATION), got)
    probes = [frame for frame in bench.frames(start, 1, "k0") if is_probe(frame)]
    refused = [frame for frame in bench.frames(start, 1, "router") if is_resolution(RESPONSE, ROUTER, ROUTER)(frame)]
    bench.check("the router answers its one probe for that, to the guest alone",
                [frame.resolution.target for frame in probes].count(ROUTER) == 1 and len(refused) == 1
                and refused[0].target == probes[0].source, (probes, refused))


def resolves(bench: Bench, guest: Guest) -> None:
    """The first datagrams between the two, for which both ask who has the other's address."""
    guest.ask("open 4")
    start, line = len(bench.shots), len(guest.lines)
    guest.ask(f"send 4 {ROUTER} 4 4 0170696E67")
    bench.wait(lambda: guest.heard(line), 5)
    bench.check("the router echoes", guest.heard(line) == [f"heard 4 from {ROUTER}:4 type 4 0270696E67"], guest.heard(line))
    ours, theirs = bench.frames(start, 1, "router"), bench.frames(start, 1, "k0")
    bench.check("the guest asks who has the router's address, and is answered",
                any(map(is_resolution(REQUEST, STATION, ROUTER), theirs)) and any(map(is_resolution(RESPONSE, ROUTER, STATION), ours)),
                (ours, theirs))
    bench.check("the router asks who has the guest's address, and is answered",
                any(map(is_resolution(REQUEST, ROUTER, STATION), ours)) and any(map(is_resolution(RESPONSE, STATION, ROUTER), theirs)),
                (ours, theirs))
    guest.ask(f"route {FAR.net} {ROUTER}")
    line = len(guest.lines)
    guest.ask(f"send 4 {FAR} 4 4 01666172")
    bench.wait(lambda: guest.heard(line), 5)
    bench.check("the router echoes at the address of its other port", guest.heard(line) == [f"heard 4 from {FAR}:4 type 4 02666172"],
                guest.heard(line))


def asks_about_cable(bench: Bench, guest: Guest) -> None:
    """GetNetInfo from an address of the cable, by a broadcast and straight."""
    guest.ask("open 6")
    start = len(bench.shots)
    guest.try_to(f"send 6 {STATION.net}.255 6 6 {get_net_info('everywhere').hex()}")
    frame = put_by_router(bench, start, is_of_type(6))
    info = frame and net_info_of(frame.datagram.data)
    bench.check("GetNetInfo by a broadcast from the cable is answered to the guest alone, with its zone",
                info and frame.datagram.target == STATION and (info.flags, info.zone) == (0, "everywhere"), frame)
    start = len(bench.shots)
    guest.ask(f"send 6 {ROUTER} 6 6 {get_net_info('Nowhere').hex()}")
    frame = put_by_router(bench, start, is_of_type(6))
    info = frame and net_info_of(frame.datagram.data)
    bench.check("GetNetInfo straight to the router, for a zone that isn't there: the default zone",
                info and (info.flags, info.zone, info.default) == (0x80, "Nowhere", CABLE.zones[0]), frame)
    guest.ask("close 6")


def asks_for_routes(bench: Bench, guest: Guest) -> None:
    """Requests for routing data."""
    guest.ask("open 140")
    for what, target, function, answer in [
        ("a request for routing data", ROUTER, 1, NEAR_RANGE), ("the same by a broadcast", Addr(ROUTER.net, 255), 1, NEAR_RANGE),
        # Linux puts nothing for node 0 of its own cable
        ("the same to node 0 of the other cable", Addr(FAR.net, 0), 1, FAR_RANGE),
        ("a request for its routes", ROUTER, 2, ALL_RANGES), ("a request for all routes", ROUTER, 3, ALL_RANGES),
    ]:
        line, source = len(guest.lines), FAR if answer is FAR_RANGE else ROUTER
        guest.try_to(f"send 140 {target} 1 5 {function:02X}")
        bench.wait(lambda: guest.heard(line), 3)
        bench.check(f"{what} (function {function}) is answered", guest.heard(line) == [f"heard 140 from {source}:1 type 1 {answer}"],
                    guest.heard(line))


def changes_card(bench: Bench, guest: Guest) -> None:
    """Another card takes the guest's address; the router has sent to the old one before."""
    guest.ask("del eth0")
    guest.up(1)
    guest.ask(f"group eth1 {GROUP}")
    start, line = len(bench.shots), len(guest.lines)
    got = guest.ask(f"addr eth1 {STATION.net} {STATION.node} {CABLE.first} {CABLE.last}")
    guest.ask(f"send 4 {ROUTER} 4 4 016E6577")
    bench.wait(lambda: guest.heard(line), 5)
    bench.check("another card takes the guest's address, and hears the router's echo",
                got == str(STATION) and guest.heard(line) == [f"heard 4 from {ROUTER}:4 type 4 026E6577"], (got, guest.heard(line)))
    to_old = [frame for frame in bench.frames(start, 1, "router") if frame.target.hex() == guest.plugs[0].hardware.replace(":", "")]
    bench.check("nothing more goes to the old card", not to_old, to_old)


def run(bench: Bench, guest: Guest) -> None:
    guest.up(0)
    # without atalkd Linux doesn't listen to what is for all
    guest.ask(f"group eth0 {GROUP}")
    startup_range(bench, guest)
    takes_address(bench, guest)
    resolves(bench, guest)
    asks_about_cable(bench, guest)
    asks_for_routes(bench, guest)
    changes_card(bench, guest)
