"""Internet files made by chance, whose timers run out just before, just at or just after what they wait for."""
import struct

from internet_texts import Plainly
from made_plays import Plan

ZONES = ["Red", "Blue", "Green", "Machine Room"]
PERIOD = 50  # ticks from one packet of routing data to the next
AGE = 100  # ticks from one ageing to the next
SILENCE = 250  # ticks after which a node forgets its router
RELEASE = {0: 150, 1: 300, 2: 600, 3: 1200, 4: 2400, 5: 2400, 7: 2400}  # ticks by the release time of a request
SETTLED = 11  # the tick in which a port that nobody objects to has its address


class Timed:
    """Cables in a row with a router between each two, nodes, and what is lost and sent when. Cables and nodes count from 1."""

    def __init__(self, chance, count):
        self.chance = chance
        self.ticks = AGE
        self.hardware = 0
        self.cables = [{"range": [10 * k, 10 * k + 9], "zones": chance.sample(ZONES, chance.randint(1, 3))} for k in range(1, count + 1)]
        self.routers = [{"port": [self.seat(k, 2), self.seat(k + 1, 1)]} for k in range(1, count)]
        self.nodes = []
        self.losses = []
        self.actions = []

    def seat(self, cable, number, tries=None):
        self.hardware += 1
        return {"cable": cable, "hardware": f"02000000{self.hardware:04X}", "try": [f"{10 * cable}.{number}"] if tries is None else tries}

    def node(self, cable, tries=None, zone=None, names=()):
        """A node with an address of its own; its number."""
        number = len(self.nodes) + 1
        self.nodes.append({**self.seat(cable, 100 + number, tries), "zone": zone or self.chance.choice(self.cables[cable - 1]["zones"]),
                           "name": [{"object": name, "type": "Server", "socket": 129} for name in names]})
        return number

    def address(self, node):
        return f"{10 * self.nodes[node - 1]['cable']}.{100 + node}"

    def lose(self, cable, first, last):
        if 1 <= first <= last:
            self.losses.append({"cable": cable, "first": first, "last": last})
            self.ticks = max(self.ticks, last)

    def act(self, at, node, what):
        self.actions.append({"at": max(1, at), "node": node, **what})
        self.ticks = max(self.ticks, at)

    def send(self, at, node, to, data=b"\1ping", socket=4, source=128, kind=4):
        self.act(at, node, {"do": "send", "to": to, "socket": socket, "source": source, "type": kind, "hex": data.hex()})

    def lookup(self, at, node, zone, kind="="):
        self.act(at, node, {"do": "lookup", "id": self.chance.randrange(256), "object": "=", "type": kind, "zone": zone})

    def near(self, tick, *steps):
        """The tick, or one of its neighbours."""
        return tick + self.chance.choice(steps or (-1, 0, 0, 1))

    def until(self, tick):
        self.ticks = max(self.ticks, tick)

    def file(self):
        top = {"ticks": self.ticks, "cable": self.cables, "router": self.routers, "node": self.nodes, "lose": self.losses,
               "action": self.actions}
        return Plainly().file({key: value for key, value in top.items() if value != []})


def ageing(chance):
    """A cable loses from around a period on, so long that rows behind it grow old or go, and perhaps come back."""
    world = Timed(chance, chance.choice([2, 3, 3, 4, 5]))
    ends = [world.node(1), world.node(len(world.cables))]
    first = world.near(chance.choice([2, 3, 4, 6]) * PERIOD)
    last = world.near(first // PERIOD * PERIOD + chance.randint(1, 10) * PERIOD)
    world.lose(chance.randint(1, len(world.cables)), first, max(first, last))
    for _ in range(3):
        world.send(world.near(chance.randint(2, 12) * PERIOD), ends[0], world.address(ends[1]))
    world.until(world.near(world.ticks // AGE * AGE + chance.choice([0, 1, 2, 3, 4]) * AGE))
    return world


def asking(chance):
    """A node or a router asks for an address, and the answer comes with one of the last requests, or too late, or never."""
    world = Timed(chance, chance.choice([1, 2, 3]))
    nodes = [world.node(1), world.node(1), world.node(len(world.cables))]
    at = chance.choice([12, 60, 113, 149, 151])
    to = chance.choice([world.address(nodes[1]), world.address(nodes[2]), f"{10 * len(world.cables)}.77", "10.77", "10.2"])
    cable = chance.choice([1, len(world.cables)])
    world.lose(cable, world.near(at, -1, 0, 0, 1, 5), at + chance.choice([7, 8, 9, 9, 10, 11, 12]))
    for _ in range(chance.choice([1, 2, 15, 16, 17, 18, 20, 33])):
        world.send(at + chance.choice([0, 0, 0, 1]), nodes[0], chance.choice([to, to, to, "10.78"]), b"\1" + chance.randbytes(2))
    for _ in range(chance.randint(0, 4)):
        world.send(at + chance.randint(5, 22), nodes[0], chance.choice([to, to, "10.78"]), b"\1" + chance.randbytes(2))
    world.until(at + 30)
    return world


def giving_up(chance):
    """A router asks its next router for zones, and gives the address up, or hears the answer to one of its last requests."""
    world = Timed(chance, chance.choice([3, 3, 4]))
    ends = [world.node(1), world.node(len(world.cables))]
    at = chance.choice([1, 2, 2, 3]) * PERIOD
    cable = chance.randint(2, len(world.cables) - 1)
    world.lose(cable, world.near(at, 0, 1, 1), at + chance.choice([8, 9, 9, 10, 10, 11]))
    world.lose(cable, world.near(at - PERIOD, 0, 1), world.near(at - PERIOD, 0, 1))
    for _ in range(3):
        world.send(at + chance.randint(5, 70), ends[0], world.address(ends[1]))
    world.until(world.near(at + chance.choice([10, 11, 50, 60, 100, 150])))
    return world


def keeping(chance):
    """A list of zones is asked for once, and again with the same number when the answer is about to be forgotten. What is asked
    for differs, so that a kept answer is told from a new one."""
    world = Timed(chance, chance.choice([1, 2, 2]))
    if len(world.cables) == 1:
        world.routers.append({"port": [world.seat(1, 2)]})
    node, other = world.node(1), world.node(1)
    at, code = 60, chance.choice([0, 0, 0, 0, 1, 1, 1, 2, 2, 3, 4, 5, 7])

    def ask(tick, who=node, number=7, control=0x60):
        user = struct.pack(">BBH", chance.choice([7, 8, 8, 9]), 0, chance.choice([0, 1, 2, 3]))
        data = bytes([control | code, 1]) + struct.pack(">H", number) + user
        world.send(tick, who, "10.2", data, socket=6, source=252, kind=3)

    ask(at)
    for _ in range(chance.choice([0, 0, 1])):
        ask(at + chance.randint(1, 100), number=chance.choice([7, 8]), who=chance.choice([node, other]))
    if chance.random() < 0.2:
        ask(at + chance.choice([1, 20, 149]), control=0xC0)
    if chance.random() < 0.15:
        for number in range(100, 100 + chance.choice([62, 63, 64, 65])):
            ask(at + 1, number=number)
    last = max(action["at"] for action in world.actions)
    for _ in range(2):
        last = world.near(chance.choice([at, last]) + RELEASE[code], -2, -1, -1, 0, 0, 1, 2)
        ask(last)
    world.until(last + chance.choice([1, 2, 15]))
    return world


def forgetting(chance):
    """A node hears its router for the last time, and forgets it; what it sends then is passed on or refused."""
    world = Timed(chance, chance.choice([2, 3]))
    if chance.random() < 0.4:
        world.routers.append({"port": [world.seat(1, 3)]})
    node, far = world.node(1), world.node(len(world.cables))
    heard = chance.choice([1, 2, 3]) * PERIOD
    world.lose(1, heard + chance.choice([0, 1, 1, 2, 49]), heard + chance.choice([SILENCE - 1, SILENCE, SILENCE + 1, SILENCE + 60]))
    for step in chance.sample([-2, -1, 0, 1, 2], 3):
        world.send(heard + SILENCE + step, node, world.address(far))
    world.lookup(world.near(heard + SILENCE), node, "Red")
    world.ticks = max(action["at"] for action in world.actions)
    world.ticks = max(world.ticks, world.losses[0]["last"]) + chance.choice([0, 0, 1, 40])
    return world


def choosing(chance):
    """Stations that try the same addresses, and hear each other in some of their probes only."""
    world = Timed(chance, chance.choice([1, 2]))
    first, last = chance.choice([(10, 10), (10, 11), (10, 19)])
    world.cables[0]["range"] = [first, last]
    shared = [[f"{first}.253"], [f"{last}.252", f"{last}.253"], ["10.5"], ["10.5", "10.6"], [f"{last}.253", "10.1"], ["10.2"], []]
    tries = chance.choice(shared)
    nodes = [world.node(1, list(tries) + ([f"10.{20 + k}"] if chance.random() < 0.5 else [])) for k in range(chance.choice([2, 2, 3]))]
    for _ in range(chance.choice([0, 1, 1, 2])):
        start = chance.randint(1, 12)
        world.lose(1, start, start + chance.choice([0, 4, 8, 9, 10]))
    for node in nodes:
        world.send(chance.choice([10, 11, 12, 13, 22, 23, 30]), node, "0.255", socket=200, source=200, kind=200, data=bytes([node]))
    world.ticks = max(world.near(chance.choice([11, 12, 22, 23, 60])), *(action["at"] for action in world.actions),
                      *(loss["last"] for loss in world.losses), 1)
    return world


def joining(chance):
    """A node asks about its cable when it has its address, and 5 and 10 ticks later; some questions or answers are lost."""
    world = Timed(chance, chance.choice([1, 2, 2]))
    if len(world.cables) == 1:
        world.routers.append({"port": [world.seat(1, 2)]})
    node = world.node(1, zone=chance.choice(["Nowhere", "Nowhere", "red", None]), names=["lab"])
    other = world.node(len(world.cables), names=["lab"])
    late = chance.choice([0, 0, 1, 3])
    if late:
        world.lose(1, 1, late)
        world.routers[0]["port"][0]["try"] = [world.address(node), "10.2"]
    start = SETTLED + chance.choice([0, 0, 1, 4, 5, 6])
    world.lose(1, start, start + chance.choice([0, 3, 4, 5, 8, 9, 10, 11]))
    for zone in ["Nowhere", "Red", "*"]:
        world.lookup(world.near(60), chance.choice([node, other]), zone)
    world.until(chance.choice([70, 120]))
    return world


def receiving(chance):
    """A node receives about as many datagrams as it keeps; nodes have many names; zone lists take several packets."""
    world = Timed(chance, chance.choice([1, 2, 3]))
    if chance.random() < 0.5:
        world.cables[-1]["zones"] = [f"{number:03} ".ljust(chance.choice([5, 32]), ".") for number in range(chance.choice([17, 64, 65, 255]))]
    node = world.node(1, names=[f"name {k}" for k in range(chance.choice([0, 1, 15, 32]))])
    far = world.node(len(world.cables), zone=world.cables[-1]["zones"][-1], names=[f"far {k}" for k in range(chance.choice([1, 32]))])
    at = chance.choice([60, 110, 160])
    for number in range(chance.choice([0, 1, 63, 64, 65, 70])):
        world.send(at + number // 10, node, world.address(far), bytes([number]), socket=200, source=200, kind=200)
    world.lookup(at + 10, node, world.cables[-1]["zones"][-1])
    world.lookup(at + 11, far, chance.choice(ZONES))
    if chance.random() < 0.5:
        world.lose(len(world.cables), world.near(AGE), world.near(AGE + PERIOD))
    world.until(at + chance.choice([12, 60]))
    return world


def reaching(chance):
    """So many cables in a line that the last ones are about as far away as a cable may be, for a time that may be too short."""
    world = Timed(chance, chance.choice([15, 16, 17, 18]))
    for cable in world.cables:
        cable["zones"] = ["Red"]
    ends = [world.node(1), world.node(len(world.cables))]
    at = chance.choice([600, 760, 800, 850])
    world.send(at, ends[0], world.address(ends[1]))
    world.send(at + 1, ends[1], chance.choice(["10.2", "10.255", "20.2"]))
    if chance.random() < 0.3:
        world.lose(len(world.cables), world.near(at + 2), at + 2 + chance.choice([1, 2, 3]) * PERIOD)
    world.until(world.near(world.ticks + chance.choice([5, 50, 100, 300])))
    return world


def mapping(chance):
    """One cable with so many stations that their numbers need two bytes, of all of which a node learns the hardware addresses, and
    more frames in a tick than are taken in one. What the stations say to one another before is lost, for it would be too much."""
    world = Timed(chance, 1)
    world.cables[0]["range"] = [10, 19]
    nodes = [world.node(1, [f"{10 + number % 4}.{100 + number // 4}"]) for number in range(200)]
    world.routers = [{"port": [world.seat(1, 0, [f"19.{number}"])]} for number in range(1, 61)]
    stations = [f"{10 + number % 4}.{100 + number // 4}" for number in range(1, 200)] + [f"19.{number}" for number in range(1, 61)]
    world.lose(1, 1, PERIOD - chance.choice([0, 1]))
    world.send(PERIOD + 1, nodes[1], "0.255", b"", socket=200, source=200, kind=200)
    count = chance.choice([257, 258, 259])
    again = chance.choice([0, 1, count - 1])  # each of them is known still
    for number, to in enumerate(stations[:count]):
        world.send(PERIOD + 3 + number // 15, nodes[0], to, b"", socket=200, source=200, kind=200)
    world.send(PERIOD + 23, nodes[0], stations[again], b"", socket=200, source=200, kind=200)
    world.ticks = PERIOD + 25
    return world


def fanning(chance):
    """So many cables that a router needs two packets for its routes, or just doesn't: a backbone with seven routers, and the cables
    that these have to themselves."""
    world = Timed(chance, 1)
    count = chance.choice([96, 97, 98, 99])
    world.cables += [{"range": [10 * k, 10 * k + 9], "zones": ["Red"]} for k in range(2, count + 1)]
    for number in range(7):
        own = range(2 + number, count + 1, 7)
        world.routers.append({"port": [world.seat(1, 1 + number), *(world.seat(k, 1) for k in own)]})
    world.until(world.near(2 * PERIOD, 0, 1))
    return world


def crowd(chance):
    """More happens than there is room for: the routing data of two hundred routers on one cable."""
    world = Timed(chance, 1)
    world.cables[0]["range"] = [10, 19]
    world.routers = [{"port": [world.seat(1, 0, [f"{10 + number // 20}.{1 + number % 20}"])]} for number in range(200)]
    world.until(chance.randint(12000, 13000))
    return world.file()


KINDS = [reaching, ageing, asking, giving_up, keeping, forgetting, choosing, joining, receiving, Plan]


def timed(chance, number):
    """The file of a number; the kinds come in turn, and seldom there is a large one."""
    make = {49: fanning, 99: mapping}.get(number % 100, KINDS[number % len(KINDS)])
    return make(chance).file()
