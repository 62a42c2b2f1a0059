"""What guests with atalkd answer to `carry --ask`, beside what the tools of another guest print. The names are there already."""
import re

from peer.asker import Answered
from peer.bench import Bench
from peer.frames import addr
from peer.guest import Guest
from peer.internet import ADDRS, CABLES, EVERYWHERE

FIRST, THIRD = 1, 3  # the cables from which is asked: the router is on the first, and atalkd alone on the third
SECONDS = 90  # that all may take at once


def found_by(guest: Guest, zone: str) -> set[tuple[str, str]]:
    """The names and their addresses with sockets, as nbplkup of a guest prints them."""
    lines = [re.match(r" *(\S+):Peer +(\d+\.\d+:\d+)", line) for line in guest.shell(f"nbplkup =:Peer@{zone}")]
    return {(line[1], line[2]) for line in lines if line}


def named_in(answer: Answered, zone: str) -> set[tuple[str, str]]:
    lines = [re.fullmatch(rf"(\S+):Peer@{zone} (\d+\.\d+) (\d+)", line) for line in answer.lines]
    return {(line[1], f"{line[2]}:{line[3]}") if line else ("another line", "") for line in lines}


def names(bench: Bench, peers) -> None:
    """In its own zone atalkd also tells the guest of its names in others: so a guest of another zone is compared with."""
    by = {"Red": peers.far, "Green": peers.near, "Blue": peers.near, EVERYWHERE: peers.far}
    places = [(place, zone) for place in (FIRST, THIRD) for zone in by]
    answers = bench.ask([(place, ["names", f"=:Peer@{zone}"]) for place, zone in places], SECONDS)
    wanted = {zone: found_by(guest, zone) for zone, guest in by.items()}
    for (place, zone), answer in zip(places, answers):
        bench.check(f"names in zone {zone}, asked from cable {place}, are those of nbplkup",
                    wanted[zone] and named_in(answer, zone) == wanted[zone] and answer.status == 0, (answer, wanted[zone]))
    answers = bench.ask([(place, ["names", "=:Peer"]) for place in (FIRST, THIRD)], SECONDS)
    for place, zone, answer in zip((FIRST, THIRD), ("Red", "Blue"), answers):
        bench.check(f"names without a zone, asked from cable {place}, are those of its zone",
                    named_in(answer, zone) == wanted[zone] and answer.status == 0, (answer, wanted[zone]))


def zones(bench: Bench, peers, atalkd: str) -> None:
    """From the first cable the router is asked, and from the third one atalkd."""
    places = [(place, option) for place in (FIRST, THIRD) for option in ("", "--local", "--mine")]
    answers = bench.ask([(place, ["zones", *option.split()]) for place, option in places], SECONDS)
    for (place, option), answer in zip(places, answers):
        guest, router = (peers.near, str(ADDRS[1])) if place == FIRST else (peers.far, atalkd)
        wanted = guest.shell(f"getzones {option[1:3]} {router}")
        bench.check(f"{' '.join(['zones', *option.split()])}, asked from cable {place}, are those of getzones",
                    wanted and sorted(answer.lines) == sorted(wanted) and answer.status == 0, (answer, wanted))


def echoes(bench: Bench, peers, atalkd: str) -> None:
    targets = [str(addr(guest.ask("get eth0"))) for guest in peers] + [atalkd]
    places = [(place, target) for place in (FIRST, THIRD) for target in targets]
    answers = bench.ask([(place, ["echo", target, "--count", "3"]) for place, target in places], SECONDS)
    for (place, target), answer in zip(places, answers):
        # a guest doesn't hear what it sends to itself
        guest = next(it for it, own in zip(peers, targets) if own != target)
        by_tool = any("3 packets sent, 3 packets received" in line for line in guest.shell(f"aecho -c 3 {target}"))
        times = [re.fullmatch(rf"{re.escape(target)}: \d+\.\d{{3}} ms", line) for line in answer.lines]
        bench.check(f"echoes of {target}, asked from cable {place}: three come back, as to aecho",
                    by_tool and len(times) == 3 and all(times) and answer.status == 0, (answer, by_tool))


def routes(bench: Bench, atalkd: str) -> None:
    """netatalk has no tool for that, and its atalkd answers no request for its rows: that is told."""
    by_router, near, by_atalkd = bench.ask([(FIRST, ["routes"]), (THIRD, ["routes", str(ADDRS[2])]), (THIRD, ["routes", atalkd])], SECONDS)
    for what, answer, own in (("cable 1", by_router, 1), ("cable 3", near, 2)):
        wanted = [f"{cable.first}-{cable.last} {int(number == 3)} from {ADDRS[own]}" for number, cable in CABLES.items()]
        bench.check(f"the router's rows, asked from {what}", sorted(answer.lines) == sorted(wanted) and answer.status == 0, answer)
    silent = [f"{atalkd}: no answer to a request for its rows, or none that can be read"]
    bench.check("atalkd doesn't answer for its rows, and that is told", by_atalkd == (1, silent), by_atalkd)


def run(bench: Bench, peers) -> None:
    atalkd = str(addr(peers.between.ask("get eth1")))
    names(bench, peers)
    zones(bench, peers, atalkd)
    echoes(bench, peers, atalkd)
    routes(bench, atalkd)
