"""What the whole run has to show: how the router's run ended, and what tshark makes of all frames."""
import os
import subprocess

from peer.bench import Bench
from peer.frames import frame_of
from peer.router import Router

EXTENDED_REPLY = 8  # of ZIP
# what the router's log has to tell, among other lines and in this order
LOGGED = ["port 1 is 10.1", "route to 30-39 by port 2 and 2", "zones of 30-39 are complete", "route to 30-39 is bad",
          "route to 30-39 is gone", "route to 30-39 by port 2 and 2", "zones of 30-39 are complete"]


def is_part_of_reply(data: bytes) -> bool:
    """Whether a frame is an extended ZIP reply with fewer names than it tells: there are more packets of the same answer."""
    datagram = frame_of(data).datagram
    if datagram is None or datagram.kind != 6 or datagram.data[:1] != bytes([EXTENDED_REPLY]):
        return False
    at, names = 2, 0
    while at + 2 < len(datagram.data):
        at += 3 + datagram.data[at + 2]
        names += 1
    return at == len(datagram.data) and names < datagram.data[1]


def ends(bench: Bench, router: Router) -> None:
    ending = bench.end_router(router)
    bench.check("each heartbeat was answered", router.beats - router.answers <= 1, (router.beats, router.answers))
    bench.check("the router's run ends with status 0", ending and ending.status == 0, ending)
    bench.check("what it heard, told again, gives the same bytes", ending and ending.again, ending)
    rest = iter(router.said())
    bench.check("its log tells what came and went", all(any(wanted in line for line in rest) for wanted in LOGGED), router.said())
    bench.check("it has written its image", os.path.exists(router.image) and os.path.getsize(router.image) > 0)


def is_well_formed(bench: Bench) -> None:
    """tshark 4.0 reads as many names in an extended reply as the whole answer has, and calls the packet malformed for what it lacks."""
    bench.capture.flush()
    words = ["tshark", "-r", bench.capture.name, "-Y", "_ws.malformed or _ws.expert.severity >= 6291456", "-T", "fields",
             "-e", "frame.number", "-e", "_ws.expert.message"]
    done = subprocess.run(words, capture_output=True, check=False)
    told = [line.split("\t") for line in done.stdout.decode("utf-8", "replace").splitlines()]
    faults = [(number, message) for number, message in told if not is_part_of_reply(bench.shots[int(number) - 1].data)]
    frames = sum(frame_of(shot.data).datagram is not None or frame_of(shot.data).resolution is not None for shot in bench.shots)
    bench.check(f"tshark finds nothing malformed in {frames} frames, but {len(told) - len(faults)} parts of replies that it misreads",
                done.returncode == 0 and not faults, faults or done.stderr)


def run(bench: Bench, router: Router) -> None:
    ends(bench, router)
    is_well_formed(bench)
