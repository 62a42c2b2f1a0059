"""Internet files made by chance, in which nothing is at fault."""
import itertools

from internet_texts import Variously
from payloads import Payloads

ZONES = ["Red", "Blue", "red", "BLUE", "Machine Room", "a" * 32, "~", "Green", " x ", "0", '"quoted"', "back\\slash", "it's"]
NAMES = [("lab", "LaserWriter"), ("LAB", "ImageWriter"), ("abba", "Server"), ("abcba", "AFPServer"), ("a:b", "c@d"), ("x" * 32, "y" * 32),
         ("Mac \u00e9", "Mac\u00f1"), ("=x", "a=b"), ("two words", "AFPServer"), ("\t", "\u65e5\u672c"), ("tab\there", "\u0001")]
PATTERNS = ["=", "\u0140", "ab\u0141", "\u0142Writer", "Laser\u0150", "==", "*", "LaserWriter", "afpserver", "\u00e5", "lab"]
HERE = (0, 255)


def written(address):
    return f"{address[0]}.{address[1]}"


class Plan:
    """An internet made by chance, as its file has it, and as far as it is known what comes of it.

    The attributes `cables`, `zones`, `routers` and `nodes` are those of `internets.Made`: ranges, lists of names, lists of (cable,
    network, node), and (cable, address, zone, router, names). An address there is the first one that its station tries.
    """

    def __init__(self, chance):
        self.chance = chance
        self.used = set()
        self.numbers = itertools.count(1)
        self.ticks = chance.choice([chance.randint(1, 40), *[chance.randint(60, 130)] * 2, *[chance.randint(130, 450)] * 5,
                                    chance.randint(450, 900)])
        self.cables = self.some_ranges()
        self.texts = [self.some_zones() for _ in self.cables]
        self.zones = [[zone.encode() for zone in zones] for zones in self.texts]
        self.routers = []
        self.nodes = []
        self.top = {"ticks": self.ticks, "cable": [{"range": list(ends), "zones": zones} for ends, zones in zip(self.cables, self.texts)]}
        self.top["router"] = [{"port": self.ports(join)} for join in self.joins()]
        self.top["node"] = [self.node() for _ in range(self.node_count())]
        self.payloads = Payloads(chance, self)
        self.top["lose"] = [self.lose() for _ in range(chance.choice([0, 0, 0, 1, 1, 2, 4]))]
        self.top["action"] = self.actions()
        for key in list(self.top):
            if self.top[key] == [] and chance.random() < 0.8:
                del self.top[key]

    def file(self):
        return Variously(self.chance).file(self.top)

    # ---- cables

    def some_ranges(self):
        """Ranges by chance, in any order: apart, next to one another, and now and then overlapping, or at the bounds."""
        chance = self.chance
        count = chance.choice([1, 2, 3, 3, 4, 5, 6, 7, 9, 12])
        starts = sorted(chance.sample(range(1, 600), count))
        ends = [chance.choice([a, b - 1, chance.randint(a, b - 1), min(a + 1, b - 1)]) for a, b in zip(starts, starts[1:] + [650])]
        ranges = list(zip(starts, ends))
        if chance.random() < 0.1:
            ranges[chance.randrange(count)] = chance.choice([(65279, 65279), (65000, 65279), (1, 1), (640, 65279)])
        if chance.random() < 0.03:
            ranges[chance.randrange(count)] = chance.choice(ranges)
        if chance.random() < 0.1:
            chance.shuffle(ranges)
        return ranges

    def some_zones(self):
        """Names of which no two are alike, but seldom two are."""
        chance = self.chance
        if chance.random() < 0.04:
            return [f"Zone {number}" for number in range(chance.choice([17, 64, 65, chance.randint(66, 254), 255]))]
        names = {}
        for name in chance.sample(ZONES, chance.randint(1, 4)):
            if chance.random() < 0.02 or name.upper() not in map(str.upper, names):
                names[name] = None
        return list(names)

    def within(self, k):
        return self.chance.randint(*self.cables[k])

    # ---- routers

    def joins(self):
        """The cables of each router: a line, a ring, a tree, a tree with loops, or some of them at random."""
        chance, count = self.chance, len(self.cables)
        kind = chance.random()
        if kind < 0.2:
            joins = [[k - 1, k] for k in range(1, count)]
        elif kind < 0.4:
            joins = [[k, (k + 1) % count] for k in range(count if count > 2 else count - 1)]
        else:
            joins = [[chance.randrange(k), k] for k in range(1, count)]
        if kind > 0.7:
            joins += [chance.sample(range(count), min(count, chance.randint(1, 5))) for _ in range(chance.randint(1, 3))]
        if kind > 0.93:
            joins = chance.sample(joins, chance.randint(0, len(joins)))
        for join in joins:
            chance.shuffle(join)
        return [apart for join in joins if (apart := self.apart(join))]

    def apart(self, join):
        """Those of the cables whose ranges don't overlap an earlier one's."""
        kept = []
        for k in join:
            first, last = self.cables[k]
            if all(last < self.cables[c][0] or self.cables[c][1] < first for c in kept):
                kept.append(k)
        return kept

    def ports(self, join):
        seats = [self.seat(k) for k in join]
        self.routers.append([(k, *address) for k, (_, address) in zip(join, seats)])
        return [seat for seat, _ in seats]

    # ---- stations

    def hardware(self):
        """Mostly an address that nobody has; seldom another's, one of a group, or one with an odd first byte."""
        chance, number = self.chance, next(self.numbers)
        if number > 1 and chance.random() < 0.015:
            number = chance.randrange(1, number)
        text = f"02000000{number:04X}" if chance.random() < 0.99 else chance.choice(
            ["090007FFFFFF", "090007000005", "030000000001", "000000000000", "FFFFFFFFFFFF"])
        return text if chance.random() < 0.9 else text.lower()

    def tries(self, k):
        """Addresses to try, and the first of these that a port will have, if nobody objects."""
        chance = self.chance
        kind = chance.random()
        if kind < 0.06:
            return [], (self.cables[k][0], 1)
        net, node = self.within(k), chance.choice([1, 2, 3, 7, 20, 100, 253, *[chance.randint(1, 253)] * 6])
        if kind < 0.9:
            while (net, node) in self.used:
                net, node = self.within(k), chance.randint(1, 253)
        elif self.used and kind < 0.95:
            taken = [used for used in sorted(self.used) if self.cables[k][0] <= used[0] <= self.cables[k][1]]
            net, node = chance.choice(taken or [(net, node)])
        more = [(self.within(k), chance.randint(1, 253)) for _ in range(chance.choice([0, 0, 0, 0, 1, 2, 15]))]
        return [(net, node), *more], (net, node)

    def seat(self, k):
        tries, first = self.tries(k)
        self.used.add(first)
        return {"cable": k + 1, "hardware": self.hardware(), "try": [written(address) for address in tries]}, first

    def node_count(self):
        return self.chance.choice([0, 1, 1, 2, 2, 3, 4, 6, 8, 10])

    def node(self):
        chance = self.chance
        k = chance.randrange(len(self.cables))
        seat, address = self.seat(k)
        zone = chance.choice(self.texts[k])
        if chance.random() < 0.2:
            zone = chance.choice([zone.swapcase(), chance.choice(ZONES), "Nowhere", "z" * 32])
        names = self.names()
        known = [tuple(part.encode() for part in (name["object"], name["type"])) for name in names]
        near = [(net, node) for ports in self.routers for cable, net, node in ports if cable == k]
        self.nodes.append((k, address, zone.encode(), near[0] if near else None, known))
        node = {**seat, "zone": zone}
        if names or chance.random() < 0.1:
            node["name"] = names
        return node

    def names(self):
        """Names that a node can register one after the other."""
        chance = self.chance
        if chance.random() < 0.02:
            pairs = [(f"name {number}", "Crowd") for number in range(32)]
        else:
            pairs = chance.sample(NAMES, chance.choice([0, 0, 1, 1, 2, 3, 6]))
        return [{"object": name, "type": kind, "socket": chance.choice([1, 2, 128, 129, 253, 254])} for name, kind in pairs]

    # ---- what happens

    def tick(self):
        """A tick, more often one in which something else happens too."""
        chance = self.chance
        near = chance.choice([1, 11, 16, 21, 50, 51, 100, 150, 200, 250, 300, 301]) + chance.choice([-1, 0, 0, 1, 2, 5])
        tick = near if chance.random() < 0.4 else chance.randint(self.ticks // 3, self.ticks)
        return max(1, min(self.ticks, tick))

    def lose(self):
        chance = self.chance
        first, last = sorted([self.tick(), self.tick()])
        if chance.random() < 0.4:
            last = min(self.ticks, first + chance.choice([0, 1, 2, 5, 9, 10, 11]))
        return {"cable": chance.randint(1, len(self.cables)), "first": first, "last": last}

    def actions(self):
        """Actions in any order: by themselves, or many of one node in one tick or in a few."""
        chance = self.chance
        if not self.nodes:
            return []
        actions = [self.action(self.tick(), chance.randrange(len(self.nodes))) for _ in range(chance.choice([0, 1, 2, 3, 5, 8, 12]))]
        if chance.random() < 0.15:
            at, node = self.tick(), chance.randrange(len(self.nodes))
            target = self.target(node)
            for _ in range(chance.choice([5, 17, 20])):
                actions.append(self.send(min(self.ticks, at + chance.choice([0, 0, 0, 1])), node, target))
        if chance.random() < 0.05:
            actions += self.flood()
        chance.shuffle(actions)
        return actions

    def flood(self):
        """About as many datagrams from one node to another as that keeps, after one that finds its address."""
        chance = self.chance
        sender, taker = chance.choice(range(len(self.nodes))), chance.choice(self.nodes)
        near = [k for k, node in enumerate(self.nodes) if node[0] == taker[0] and node is not taker]
        sender, at = chance.choice(near or [sender]), self.tick()
        one = {"node": sender + 1, "do": "send", "to": written(taker[1]), "socket": 200, "source": 200, "type": 200}
        later = min(self.ticks, at + 2)
        return [{"at": at, **one, "hex": ""}, *({"at": later, **one, "hex": f"{k:02X}"} for k in range(chance.choice([62, 63, 64, 65])))]

    def action(self, at, node):
        return self.lookup(at, node) if self.chance.random() < 0.35 else self.send(at, node, self.target(node))

    def target(self, node):
        """Whom a node sends to."""
        chance = self.chance
        k = chance.randrange(len(self.cables))
        own, address = self.nodes[node][:2]
        ports = [(net, number) for ports in self.routers for _, net, number in ports]
        stations = [other[1] for other in self.nodes] + ports
        there, here = self.within(k), self.within(own)
        odd = [(there, chance.randint(1, 253)), (here, chance.randint(1, 253)), HERE, (there, 255), (here, 255), (there, 0), (here, 0),
               address, (0, chance.choice([0, 1, 7, 254])), (chance.choice([0, 649, 65280, 65535]), chance.choice([0, 1, 254, 255]))]
        return chance.choice([*[chance.choice(stations)] * 6, *[chance.choice(ports or stations)] * 3, *odd])

    def send(self, at, node, target):
        chance = self.chance
        source, socket, kind, data = chance.choice(self.payloads.kinds)(self.nodes[node][1], target)
        digits = data.hex()
        return {"at": at, "node": node + 1, "do": "send", "to": written(target), "socket": socket, "source": source, "type": kind,
                "hex": digits.upper() if chance.random() < 0.5 else digits}

    def lookup(self, at, node):
        chance = self.chance
        known = [name for other in self.nodes for name in other[4]]
        parts = [part.decode() for part in chance.choice(known)] if known and chance.random() < 0.6 else ["=", chance.choice(PATTERNS)]
        parts = [chance.choice([part, part, part.swapcase(), "=", chance.choice(PATTERNS)]) for part in parts]
        zone = chance.choice(chance.choice(self.texts))
        zone = chance.choice([zone, zone, zone.swapcase(), "*", "", "Nowhere", "\u0142" * 16])
        return {"at": at, "node": node + 1, "do": "lookup", "id": chance.choice([0, 1, 9, 255, 256, 65535]), "object": parts[0][:32],
                "type": parts[1][:32], "zone": zone}
