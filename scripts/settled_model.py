#!/usr/bin/env python3
"""Tables that stay, as docs/RULES.md says: whether routing data can still change a row of an image, apart from the crates.

usage: scripts/settled_model.py              judges small internets, made by hand, whose answers stand beside them

A line tells each answer that is another one, and the last line how many internets there were; the status is 1 where one differs.
"""
import sys

sys.dont_write_bytecode = True  # the modules beside this script leave no files there
from image_model import Audit, Image, Router

GOOD, SUSPECT, BAD, LAST = range(4)
DIRECT = (0, 0)  # the next router of a row for a cable where the router has a port


def is_usable(row):
    return row[5] in (GOOD, SUSPECT)


def is_direct(row):
    return row[4] == DIRECT


def cables_of(router):
    return [port[0] for port in router.ports]


def way_out(router, row):
    """The cable that a row leaves by; none where its port doesn't exist."""
    return router.ports[row[3]][0] if row[3] < len(router.ports) else None


def offers(router, cable):
    """The range and the distance of each row that a router tells of on a cable: not of those that leave by it."""
    if cable not in cables_of(router):
        return []
    return [(row[:2], row[2]) for row in router.rows if is_usable(row) and way_out(router, row) != cable]


def nearest_offers(image):
    """How near each range is offered on each cable, by whichever router."""
    nearest = {}
    for router in image.routers:
        for cable in set(cables_of(router)):
            for ends, distance in offers(router, cable):
                nearest[cable, ends] = min(distance, nearest.get((cable, ends), distance))
    return nearest


def may_change(router, row, nearest):
    """Whether the row isn't usable, or its range is offered nearer by two or more."""
    if not is_usable(row):
        return True
    heard = [nearest[cable, row[:2]] for cable in cables_of(router) if (cable, row[:2]) in nearest]
    return not is_direct(row) and any(distance + 1 < row[2] for distance in heard)


def settling(image):
    """The line that says whether an image is settled, or which row of it may change first."""
    nearest = nearest_offers(image)
    for r, router in enumerate(image.routers, 1):
        for k, row in enumerate(router.rows, 1):
            if may_change(router, row, nearest):
                return f"settled: no router {r} row {k}"
    return "settled: yes"


def answer(image):
    """The lines of an audit with --settled, and its status."""
    lines = [Audit(image).line()]
    if lines[0].startswith("yes: "):
        lines.append(settling(image))
    return lines, 0 if lines[-1] == "settled: yes" else 1


# ---- Internets made by hand


def made(cables, *routers):
    """An image of so many cables, 10-19, 20-29 and so on. Each router has the numbers of its cables, and its further rows: the
    cable, the distance, the cable that leads there, the number of the next router, and the state if it isn't Good. A router has
    its number on each of its cables, as in 10.1 and 20.1."""
    image = Image(1, [(10 * k, 10 * k + 9, [b"Red"]) for k in range(1, cables + 1)], [], [])
    for number, (own, *further) in enumerate(routers, 1):
        ports = [(k - 1, (10 * k, number), bytes([2, 0, 0, 0, number, k]), []) for k in own]
        rows = [row(k, 0, place, DIRECT, GOOD) for place, k in enumerate(own)]
        for k, distance, by, following, *state in further:
            rows.append(row(k, distance, own.index(by), (10 * by, following), *(state or [GOOD])))
        image.routers.append(Router(ports, sorted(rows), [(*ends, True, zones) for *ends, zones in image.cables]))
    return image


def row(k, distance, port, following, state):
    return 10 * k, 10 * k + 9, distance, port, following, state


def ring(*far):
    """Four routers round four cables; the first one's way to the cable across is given."""
    return made(4, ([1, 2], (3, *far), (4, 1, 1, 4)), ([2, 3], (1, 1, 2, 1), (4, 1, 3, 3)),
                ([3, 4], (1, 1, 4, 4), (2, 1, 3, 2)), ([4, 1], (2, 1, 1, 1), (3, 1, 4, 3)))


def backbone(*far):
    """Three routers on the first cable, of which two are on further ones too; the third one's way to the cable that neither is on
    is given."""
    return made(4, ([1], (2, 1, 1, 2), (3, 2, 1, 2), (4, 1, 1, 3)), ([1, 2], (3, 1, 2, 4), (4, 1, 1, 3)),
                ([1, 4], (2, 1, 1, 2), (3, *far)), ([2, 3], (1, 1, 2, 2), (4, 1, 2, 5)), ([4, 2], (1, 1, 4, 3), (3, 1, 2, 4)))


def twins(following):
    """Two routers side by side, of which the first router takes this one."""
    return made(3, ([1, 2], (3, 1, 2, following)), ([2, 3], (1, 1, 2, 1)), ([2, 3], (1, 1, 2, 1)))


def long_ring(count, cable, turned):
    """As many routers as cables in a ring: to this cable these routers go by their first port, and all others the nearest way, as
    all do to the other cables."""
    routers = []
    for number in range(1, count + 1):
        own, rows = [number, number % count + 1], []
        for k in range(1, count + 1):
            on, back = (k - own[1]) % count, (own[0] - k) % count
            if k not in own and (back < on or k == cable and number in turned):
                rows.append((k, back, own[0], (number - 2) % count + 1))
            elif k not in own:
                rows.append((k, on, own[1], number % count + 1))
        routers.append((own, *rows))
    return made(count, *routers)


def offered(distance, state=GOOD, by=2):
    """A router has a row for the third cable at 9; the only other one on its cables has such a row too, at this distance, in this
    state and by this cable. The audit says no of it."""
    return made(4, ([1], (3, 9, 1, 7)), ([1, 2, 4], (3, distance, by, 7, state)))


def astray(image):
    """The same, where the row that is offered has a port that doesn't exist."""
    rows = image.routers[1].rows
    rows[2] = *rows[2][:3], 3, *rows[2][4:]
    return image


def without_next(image):
    """The same, where the row at 9 has no next router."""
    rows = image.routers[0].rows
    rows[1] = *rows[1][:4], DIRECT, rows[1][5]
    return image


YES, FIRST = "settled: yes", "settled: no router 1 row 3"
BY_HAND = [
    ("a ring, the long way round", ring(2, 1, 4), "yes", FIRST),
    ("the short way", ring(1, 2, 2), "yes", YES),
    ("the short way, Suspect", ring(1, 2, 2, SUSPECT), "yes", YES),
    ("the long way, Suspect", ring(2, 1, 4, SUSPECT), "yes", FIRST),
    ("the short way, Bad", ring(1, 2, 2, BAD), "no", FIRST),
    ("the short way, Last", ring(1, 2, 2, LAST), "no", FIRST),
    ("one of two routers side by side", twins(2), "yes", YES),
    ("the other one", twins(3), "yes", YES),
    ("a way of the same length by another cable", backbone(2, 4, 5), "yes", YES),
    ("the other one of these", backbone(2, 1, 2), "yes", YES),
    ("a ring of 5, where both ways are as far", long_ring(5, 4, [1]), "yes", YES),
    ("a ring of 6, the way that is longer by one", long_ring(6, 4, [1]), "yes", "settled: no router 1 row 4"),
    ("a ring of 6, the shorter way", long_ring(6, 5, [1]), "yes", YES),
    ("a ring of 15, where both ways are as far", long_ring(15, 9, [1]), "yes", YES),
    ("a ring of 14, nearly all of it", long_ring(14, 3, range(1, 15)), "yes", FIRST),
    ("a ring of 7, the last router's longer way", long_ring(7, 3, [6, 7]), "yes", "settled: no router 7 row 3"),
    ("a router alone on a cable", made(1, ([1],)), "yes", YES),
    ("no router", made(1), "yes", YES),
    ("offered nearer by one", offered(8), "no", YES),
    ("offered nearer by two", offered(7), "no", "settled: no router 1 row 2"),
    ("offered by a Suspect row", offered(7, SUSPECT), "no", "settled: no router 1 row 2"),
    ("a Bad row isn't offered, and may change", offered(7, BAD), "no", "settled: no router 2 row 3"),
    ("a row isn't offered on the cable that it leaves by", offered(7, GOOD, 1), "no", YES),
    ("a row whose port doesn't exist leaves by no cable", astray(offered(7, GOOD, 1)), "no", "settled: no router 1 row 2"),
    ("a direct row stays", without_next(offered(7)), "no", YES),
    ("out of reach, distance 31", offered(31), "no", YES),
]


def main():
    differ = 0
    for what, image, said, wanted in BY_HAND:
        line, found = Audit(image).line(), settling(image)
        if (line[: len(said)], found) != (said, wanted):
            differ += 1
            print(f"{what}: {line}, {found}; not {said}, {wanted}")
    print(f"{len(BY_HAND)} internets, {differ} differ")
    return 1 if differ else 0


if __name__ == "__main__":
    sys.exit(main())
