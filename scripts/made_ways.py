"""Internets made by chance with several ways to their cables, whose rows go the shortest ways, or longer ones round."""
import collections

from internets import InVersion2, Made
from made_images import is_image, spoiled_image

OUT_OF_REACH = 31  # the distance with which a router tells of a row that isn't usable
BAD, LAST = 2, 3


class Ways(Made):
    """An internet with more than one way to most of its cables. To a share of the cables some routers go a longer way; where the
    share is 0, each row goes a shortest one. The audit passes where nothing is spoiled, unless a way has too many routers."""

    def __init__(self, chance, share, spoiled):
        self.share, self.spoiled = share, spoiled
        super().__init__(chance)
        cables = [{k for k, _, _ in ports} for ports in self.routers]
        self.near = [[s for s, there in enumerate(cables) if s != r and here & there] for r, here in enumerate(cables)]

    # ---- which routers there are

    def cable_count(self):
        return self.chance.choice([2, 3, 4, 4, 5, 5, 6, 6, 7, 8, 9, 11, 14, 20])

    def some_routers(self, count):
        joins = self.chance.choice([self.ring, self.ring, self.backbone, self.twins, self.loops])(count)
        for join in joins:
            self.chance.shuffle(join)
        self.chance.shuffle(joins)
        return [[(k, self.within(k), node) for k in join] for node, join in enumerate(joins, 1)]

    def ring(self, count):
        """All cables in a ring, or but for a few that hang on it."""
        round_ = count - self.chance.choice([0, 0, 1, 2]) if count > 5 else count
        return [[k, (k + 1) % round_] for k in range(round_)] + [[self.chance.randrange(k), k] for k in range(round_, count)]

    def backbone(self, count):
        """A cable that most routers are on, so that many a way leaves by it to another router there."""
        joins = [[0, k] for k in range(1, count) for _ in range(self.chance.choice([1, 1, 2]))]
        return joins + [self.chance.sample(range(count), 2) for _ in range(count // 2)]

    def twins(self, count):
        """A tree in which two routers often stand side by side."""
        return [[before, k] for k in range(1, count) for before in [self.chance.randrange(k)] for _ in range(self.chance.choice([1, 2]))]

    def loops(self, count):
        """A tree, and further routers across it."""
        tree = [[self.chance.randrange(k), k] for k in range(1, count)]
        return tree + [self.chance.sample(range(count), min(count, self.chance.randint(2, 3))) for _ in range(count // 2)]

    # ---- which ways their rows go

    def distances(self, target):
        if self.chance.random() >= self.share:
            return super().distances(target)
        return self.chance.choice([self.one_round, self.one_round, self.by_chance])(target)

    def on_cable(self, target):
        """The routers on a cable, at distance 0."""
        return {r: 0 for r, ports in enumerate(self.routers) if any(k == target for k, _, _ in ports)}

    def spread(self, found, without=None):
        """Adds those routers, but for one, that are reached from the ones that were found, each by as few routers as are needed."""
        waiting = collections.deque(found)
        while waiting:
            r = waiting.popleft()
            for s in self.near[r]:
                if s not in found and s != without:
                    found[s] = found[r] + 1
                    waiting.append(s)
        return found

    def one_round(self, target):
        """One router goes by the neighbour that is farthest without it; those who go by that router go the longer way too."""
        found = self.on_cable(target)
        far = [r for r in range(len(self.routers)) if r not in found]
        if not far:
            return found
        r = self.chance.choice(far)
        found = self.spread(found, without=r)
        found[r] = 1 + max(found[s] for s in self.near[r] if s in found)
        return self.spread(found)

    def by_chance(self, target):
        """Each router goes by a neighbour that was found before it, any or the last one."""
        found = self.on_cable(target)
        deep = self.chance.choice([0, 0.5, 1])
        steps = [(r, s) for r in found for s in self.near[r]]
        while steps:
            r, s = steps.pop(-1 if self.chance.random() < deep else self.chance.randrange(len(steps)))
            if s not in found:
                found[s] = found[r] + 1
                steps += [(s, t) for t in self.near[s]]
        return found

    # ---- what is wrong

    def spoil_node(self, zone, router, own):
        return super().spoil_node(zone, router, own) if self.spoiled else (zone, router)

    def spoil(self, rows):
        """Has a row out of reach or not usable, or spoils something else."""
        table = self.chance.choice(rows) if rows else []
        kind = self.chance.randrange(4)
        if table and kind == 0:
            self.chance.choice(table)[2] = OUT_OF_REACH
        elif table and kind == 1:
            self.chance.choice(table)[6] = self.chance.choice([BAD, LAST])
        else:
            super().spoil(rows)


class WaysInVersion2(InVersion2, Ways):
    """The same, whose image is of version 2."""


def image_with_ways(chance, number):
    """The bytes of an image, of version 1 for even numbers, else 2: six in ten pass the audit, and of these four in ten have a row
    that goes a longer way than it could."""
    version = 1 + number % 2
    kind = chance.random()
    if kind < 0.04:
        return spoiled_image(chance, version)
    spoiled = kind < 0.4
    share = chance.choice([0.2, 0.5, 1]) if chance.random() < 0.55 else 0
    while True:
        data = (WaysInVersion2 if version == 2 else Ways)(chance, share, spoiled).image()
        if is_image(data):
            return data
