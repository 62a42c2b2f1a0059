"""Scripts made by chance, over internets made by chance."""
from internets import Made
from payloads import NAMES, Payloads

MOST_LINES = 30
COMMENTS = [b"#", b"# a comment", b"#send 1.1 - 1 1.1 1 1 0 -", b"", b"", b"# \xc5\xff", b"#\r"]
ODD_NAMES = [b"=:a:b@c@d@Red", b"=:=@", b"=:@@Red", b"a b:c d@Machine Room", b"=:=@ Red", b"=:=@Red ", b"=:=@:"]
BAD_NAMES = [b"lab", b"lab:x", b"lab@Red", b"a@b:c", b":x@Red", b"lab:@Red", b"x" * 33 + b":y@Red", b"x:" + b"y" * 33 + b"@Red",
             b"x:y@" + b"z" * 33, b"@:", b":@", b"", b"@Red:x"]
MAXIMA = [0, 1, 1, 2, 3, 5, 10, 100, 1000, 4294967295]


def written(address):
    return b"%d.%d" % address


class Staffed(Made):
    """An internet with more nodes, and more names, than the audit needs; it passes."""

    spoiled = False

    def some_zones(self):
        """Now and then many zones, whose names are of every length."""
        chance = self.chance
        if chance.random() < 0.85:
            return super().some_zones()
        counts = [17, 30, 64] if self.version == 1 else [17, 65, chance.randint(66, 254), 255]
        return [(b"%d " % number).ljust(chance.randint(3, 32), b".") for number in range(chance.choice(counts))]

    def node_count(self):
        return self.chance.choice([0, 1, 2, 3, 4, 6, 8, 10])

    def names(self):
        return [self.chance.choice(NAMES) for _ in range(self.chance.choice([0, 1, 1, 2, 3, 6]))]

    def spoil_node(self, zone, router, own):
        """The zone in another case, or no router; neither is a fault."""
        return self.chance.choice([(zone.swapcase(), router), (zone, None)])


class Spoiled(Staffed):
    """The same with faults in tables, as the audit is given them; some pass for all that."""

    spoiled = True
    spoil_node = Made.spoil_node


class Crowded(Staffed):
    """One cable with sixty nodes of 32 names."""

    def __init__(self, chance):
        super().__init__(chance)
        self.cables, self.zones, self.routers = [(1, 9)], [[b"Red"]], [[(0, 1, 1)]]

    def node_count(self):
        return 60

    def names(self):
        return [(b"name %d" % number, b"Crowd") for number in range(32)]


def filling(internet):
    """A script that fills the room of a run: names are asked for, and each node tells all of them to all of the cable; and
    then events of each kind until there is no room for the smallest."""
    address = written(internet.nodes[0][1])
    asked = b"send %s - 128 0.255 2 2 0 21010001FF8000013D013D00" % address
    line = b"send %s - 128 0.255 128 128 0 -" % address
    request = b"request %s 1.1 1 =:=@" % address
    return b"\n".join([asked, b"drain 4294967295"] * 40 + [line, request, b"take 0 1.1", b"drain 2"] * 400) + b"\n"


class Script:
    """The lines of a script, and what is known of the run so far: which frames are perhaps pending for whom."""

    def __init__(self, chance, internet):
        self.chance = chance
        self.internet = internet
        self.payloads = Payloads(chance, internet)
        self.nodes = {node[1]: node for node in internet.nodes}
        self.ports = [(k, (net, node)) for ports in internet.routers for k, net, node in ports]
        self.stations = [*self.nodes, *(address for _, address in self.ports)]
        self.stamp = 0
        self.likely = []
        self.sends = []
        self.focus = self.aimed(self.chance.choice(self.payloads.asked)) if self.chance.random() < 0.4 else None

    def aimed(self, make):
        """A node, whom it sends to, and what. Routers are asked more than others."""
        node = self.node()
        ask = make in self.payloads.asked and self.ports and self.chance.random() < 0.4
        return node, self.chance.choice(self.ports)[1] if ask else self.target(node), make

    def text(self):
        """The whole script, perhaps with a line that is no event."""
        chance = self.chance
        lines = []
        for _ in range(chance.choice([0, 1, 2, 5, 10, 10, 20, 20, MOST_LINES])):
            lines.append(self.line())
        if chance.random() < 0.5:
            lines.append(b"drain 1000")
        if lines and chance.random() < 0.15:
            at = chance.randrange(len(lines))
            lines[at] = self.bad(lines[at] or b"drain 1")
        text = b"\n".join(lines)
        return text + b"\n" if chance.random() < 0.8 else text

    def line(self):
        chance = self.chance
        kind = chance.random()
        if kind < 0.35 or not self.stamp and kind < 0.7:
            return self.send()
        if kind < 0.5:
            return self.request()
        if kind < 0.8:
            return self.take()
        if kind < 0.95:
            return self.drain()
        return chance.choice(COMMENTS)

    # ---- addresses

    def absent(self):
        """An address on a cable that nobody has."""
        return self.internet.within(self.chance.randrange(len(self.internet.cables))), self.chance.randint(200, 253)

    def station(self):
        return self.chance.choice(self.stations) if self.stations else self.absent()

    def node(self):
        """Mostly a node's address."""
        if self.nodes and self.chance.random() < 0.95:
            return self.chance.choice(list(self.nodes))
        return self.chance.choice([self.absent(), self.station(), (0, 0), (0, 255), (65535, 255)])

    def via(self, node):
        """Which router takes a node's datagram: what the script says, and the router's address, where it is known."""
        chance = self.chance
        cable, own = self.nodes[node][0], self.nodes[node][3]
        near = [address for k, address in self.ports if k == cable]
        kind = chance.random()
        if kind < 0.6 or not near:
            return b"-", own
        if kind < 0.93:
            router = chance.choice(near)
            return written(router), router
        return written(chance.choice([self.station(), self.station(), self.absent(), node, (0, 0), (near[0][0], 0)])), None

    def target(self, node):
        chance = self.chance
        cable = self.nodes[node][0] if node in self.nodes else 0
        k = chance.randrange(len(self.internet.cables))
        (first, last), within = self.internet.cables[k], self.internet.within(k)
        own_first, own_last = self.internet.cables[cable]
        outside = [6500, 7000, 65279, 65280, 65535, last + 1, max(0, first - 1)]
        kinds = [
            self.station,
            self.station,
            lambda: chance.choice(list(self.nodes) or [node]),
            lambda: chance.choice(list(self.nodes) or [node]),
            lambda: chance.choice(self.ports)[1] if self.ports else node,
            self.absent,
            lambda: node,
            lambda: (within, 0),
            lambda: (within, 255),
            lambda: (first, chance.choice([0, 254, 255])),
            lambda: (own_first, 255),
            lambda: (own_last, chance.choice([0, 250])),
            lambda: (0, 255),
            lambda: (0, chance.choice([0, 1, 5, 254])),
            lambda: (chance.choice(outside), chance.choice([0, 1, 5, 255])),
        ]
        return chance.choice(kinds)()

    # ---- events

    def put(self, address):
        """A frame was put for a station, as far as is known."""
        self.likely.append((self.stamp, address))
        self.stamp += 1

    def send(self):
        chance = self.chance
        if self.sends and chance.random() < 0.15:
            return chance.choice(self.sends)
        again = self.focus and chance.random() < 0.7
        node, target, make = self.focus if again else self.aimed(chance.choice(self.payloads.kinds))
        via, router = self.via(node) if node in self.nodes else (b"-", None)
        source_socket, socket, kind, data = make(node, target)
        if router and target[0]:
            self.put(router)
        digits = data.hex().encode() or b"-"
        digits = digits.upper() if chance.random() < 0.5 else digits
        numbers = b"%d %s %d %d %d" % (source_socket, written(target), socket, kind, chance.randrange(2))
        line = b"send %s %s %s %s" % (written(node), via, numbers, digits)
        self.sends.append(line)
        return line

    def request(self):
        """A request for names, some with a colon or an at sign more."""
        chance = self.chance
        node = self.node()
        via, router = self.via(node) if node in self.nodes else (b"-", None)
        if router:
            self.put(router)
        name = b"%s:%s@%s" % (self.payloads.pattern(), self.payloads.pattern(), self.payloads.zone())
        if chance.random() < 0.1:
            name = chance.choice(ODD_NAMES)
        return b"request %s %s %d %s" % (written(node), via, chance.choice([0, 1, 2, 255]), name)

    def take(self):
        """Mostly a frame that is perhaps pending, in any order."""
        chance = self.chance
        if self.likely and chance.random() < 0.75:
            at = chance.randrange(len(self.likely))
            stamp, address = self.likely[at] if chance.random() < 0.1 else self.likely.pop(at)
            if chance.random() < 0.1:
                address = self.station()
            for _ in range(chance.choice([0, 1, 1, 1, 2])):
                self.put(self.station())
        else:
            stamp, address = chance.randint(0, self.stamp + 1), self.node() if chance.random() < 0.3 else self.station()
        if chance.random() < 0.02:
            stamp = 4294967295
        return b"take %d %s" % (stamp, written(address))

    def drain(self):
        most = self.chance.choice(MAXIMA)
        if most > 10:
            self.likely.clear()
        return b"drain %d" % most

    # ---- bad lines

    def bad(self, line):
        """The line, or another one, with one mistake; some aren't one after all."""
        chance = self.chance
        words = line.split(b" ")
        mistakes = [self.bad_number, self.bad_number, self.bad_address, self.bad_data, self.bad_first, self.bad_end, self.bad_count,
                    self.bad_space, self.bad_name]
        return chance.choice(mistakes)(words)

    def bad_number(self, words):
        numbers = [k for k, word in enumerate(words) if word.isdigit()]
        if numbers:
            k = self.chance.choice(numbers)
            number = words[k]
            others = [b"+" + number, b"-" + number, b"0" + number, b"0x" + number, b"256", b"4294967296", b"2", b""]
            words[k] = self.chance.choice(others)
        return b" ".join(words)

    def bad_address(self, words):
        """An address that is none, in place of one."""
        addresses = [k for k, word in enumerate(words) if b"." in word]
        if addresses:
            k = self.chance.choice(addresses)
            address = words[k]
            words[k] = self.chance.choice([address + b".1", address.replace(b".", b""), b"0" + address, address.replace(b".", b".0"),
                                           b"65536.1", b"1.256", b".", b"1.", b".1", b"-1.1", b"--", b"-"])
        return b" ".join(words)

    def bad_data(self, words):
        others = [b"0", b"012", b"0g", b"--", b"", b"0x00", b"\xc5\xc5", b"00 ", b"aB", b"0001\r", b"00-", b"-00"]
        data = self.chance.choice(others)
        return b"send %s - 1 1.1 1 1 0 %s" % (written(self.station()), data)

    def bad_first(self, words):
        first = words[0]
        others = [b"sned", first.title(), first + b":", b"", first + b"s", b"\t" + first, b"trace", first[:-1]]
        words[0] = self.chance.choice(others)
        return b" ".join(words)

    def bad_end(self, words):
        return b" ".join(words) + self.chance.choice([b"\r", b"\r", b" ", b"\t", b"\0", b" -", b" 1", b" #", b"-", b"0"])

    def bad_count(self, words):
        """A word too few, or no word but the first."""
        return self.chance.choice([b" ".join(words[:-1]), words[0], words[0] + b" ", b"\r", b" "])

    def bad_space(self, words):
        at = self.chance.randrange(len(words))
        return b" ".join(words[:at]) + self.chance.choice([b"  ", b"\t", b"\xa0", b""]) + b" ".join(words[at:])

    def bad_name(self, words):
        return b"request %s - 1 %s" % (written(self.station()), self.chance.choice(BAD_NAMES))
