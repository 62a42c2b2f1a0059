"""The routers' ports that a capture heard, by the routing data that they sent, and which of them are ports of one router.

A port is a *speaker* here: an address and a hardware address on one cable. Two speakers are one router where a datagram went
in by one and out by the other; where one sends with the address of the other; and where they announce the same cables as their
own, if no other grouping of the speakers of these cables agrees with what they announce.
"""
import functools
import itertools
from dataclasses import dataclass, field

from heard import BAD, Address, Cut, Datagram, Range, routing_data

BURST = 2.0  # seconds within which a port sends all of its routing data
FULL = 500  # bytes of routing data that go on in another packet
MISSED = 15.0  # seconds in which a port that sends every 10 would have sent
SILENT = 30.0  # seconds after which a port that sends every 10 isn't heard any more
PASSED = 1.0  # seconds within which a router passes a datagram on
MOST_GROUPINGS = 5000


@dataclass(eq=False)
class Speaker:
    wire: int
    hardware: str
    address: Address
    own: Range
    began: float
    heard: float = 0.0  # when the last routing data began
    told: dict = field(default_factory=dict)  # distances of the last data, by range
    best: dict = field(default_factory=dict)  # the last distance of each range that could be reached
    silence: float = 0.0  # seconds without data at the end of the capture

    def hear(self, time, told, continues):
        if not continues:
            self.heard, self.told = time, {}
        self.told |= told
        self.best |= {range_: distance for range_, distance in told.items() if distance != BAD}

    def is_silent(self):
        return self.silence > SILENT

    def direct(self):
        """The ranges of the cables on which its router has ports."""
        return frozenset([self.own, *(range_ for range_, distance in self.told.items() if distance == 0)])

    def distance(self, range_):
        """How far away it says that a range is; None where it doesn't say so."""
        return 0 if range_ == self.own else self.told.get(range_)


def speakers_of(wires, frames):
    """The speakers, as they were heard last. One address at one hardware address that tells now of these cables as its own, now
    of those, is two speakers."""
    found, open_ = {}, {}
    for frame in frames:
        data = frame.packet
        if not (isinstance(data, Datagram) and data.kind == 1 and data.target.node == 255 and data.hops == 0):
            continue  # what is sent to one node is an answer, without the table
        try:
            address, own, told = routing_data(data.data)
        except Cut:
            continue
        if address != data.source or not own.holds(address.net):
            continue
        seat = (frame.wire, frame.sender, address, own)
        direct = frozenset(range_ for range_, distance in told.items() if distance == 0)
        begun, until = open_.get(seat, (None, 0.0))
        continues = frame.time <= until
        speaker = begun if continues else found.setdefault((seat, direct), Speaker(*seat, frame.time))
        speaker.hear(frame.time, told, continues)
        open_[seat] = (speaker, frame.time + BURST if len(data.data) >= FULL else 0.0)
    for speaker in found.values():
        speaker.silence = wires[speaker.wire].end - speaker.heard
    return [speaker for speaker in found.values() if not any(replaces(other, speaker) for other in found.values())]


def replaces(other, speaker):
    """Whether one port speaks so since, with another address or other tables, or another port has its address since."""
    if other is speaker or other.wire != speaker.wire:
        return False
    if other.hardware != speaker.hardware:
        return other.address == speaker.address and other.began > speaker.heard
    again = other.address == speaker.address and other.heard > speaker.heard + MISSED
    return other.began > speaker.heard or again or (speaker.is_silent() and not other.is_silent())


def by_hardware(speakers):
    """The speakers by wire and hardware address, but for those that share one."""
    seats = {}
    for speaker in speakers:
        seats.setdefault((speaker.wire, speaker.hardware), []).append(speaker)
    return {seat: on[0] for seat, on in seats.items() if len(on) == 1}


@dataclass(frozen=True)
class Passage:
    """A datagram that a router took from one cable and put on another."""
    by: Speaker  # the port to which it came
    out: Speaker  # the port by which it left
    receiver: str  # the hardware address to which it was sent then
    target: Address


def passages_of(frames, speakers):
    """The datagrams that are seen to be passed on by one router, from one speaker to another."""
    seats = by_hardware(speakers)
    before, passages = {}, []
    for frame in frames:
        ends = {(frame.wire, frame.sender), (frame.wire, frame.receiver)}
        if not isinstance(frame.packet, Datagram) or not ends & seats.keys():
            continue
        key = (frame.packet.is_same(), frame.packet.hops)
        earlier = before.get((key[0], key[1] - 1), [])
        came = {(last.wire, last.receiver) for last in earlier if frame.time - last.time <= PASSED and last.wire != frame.wire}
        if len(came) == 1:
            by, out = seats.get(came.pop()), seats.get((frame.wire, frame.sender))
            if by and out:
                passages.append(Passage(by, out, frame.receiver, frame.packet.target))
        before[key] = [*(last for last in before.get(key, []) if frame.time - last.time <= PASSED), frame]
    return passages


def links_of(frames, speakers, passages):
    """Pairs of speakers that are surely ports of one router."""
    links = [(passage.by, passage.out) for passage in passages]
    links += [pair for pair in itertools.combinations(speakers, 2) if pair[0].hardware == pair[1].hardware
              and pair[0].wire != pair[1].wire and pair[0].direct() == pair[1].direct()]
    seats = by_hardware(speakers)
    by_address = {}
    for speaker in speakers:
        by_address.setdefault(speaker.address, []).append(speaker)
    for frame in frames:
        sender = seats.get((frame.wire, frame.sender))
        if sender and isinstance(frame.packet, Datagram) and frame.packet.hops == 0 and frame.packet.source != sender.address:
            others = [other for other in by_address.get(frame.packet.source, []) if other.wire != frame.wire]
            links += [(sender, other) for other in others if len(others) == 1]
    return set(links)


@dataclass
class Group:
    """The speakers of one router."""
    speakers: list
    doubts: list = field(default_factory=list)  # speakers that could be this router's in place of others


def groups_of(speakers, links):
    """The speakers, by router."""
    rest, groups = list(speakers), []
    while rest:
        first = min(rest, key=lambda it: (it.own, it.address))
        linked = closure(first, links)
        kin = [it for it in rest if it.direct() == first.direct() or it in linked]
        groups += split(kin, links, speakers)
        rest = [it for it in rest if it not in kin]
    return joined(groups)


def closure(speaker, links):
    """The speakers that are linked with one, by any number of links."""
    found, rest = {speaker}, [speaker]
    while rest:
        near = {it for pair in links if rest[-1] in pair for it in pair}
        rest = rest[:-1] + [it for it in near if it not in found]
        found |= near
    return found


def split(kin, links, speakers):
    """Speakers that announce the same cables as their own, by router: the one grouping that agrees with the rest, or, where
    there are several, the one of ports that send at the most equal times, with its doubts."""
    cables = {}
    for speaker in sorted(kin, key=lambda it: it.address):
        cables.setdefault((speaker.wire, speaker.own), []).append(speaker)
    seats = sorted(cables.values(), key=lambda on: (-len(on), on[0].own))
    for agree in (agrees_strictly, lambda one, other, _: are_alike(one, other), lambda one, other, _: True):
        found = list(groupings(seats, links, functools.cache(lambda one, other: agree(one, other, speakers))))
        if found:
            break
    groups = [Group(group) for group in min(found, key=spread)]
    if len(found) > 1:
        for group in groups:
            group.doubts = [it for on in seats if len(on) > 1 for it in on if it not in group.speakers
                            and not any(it in closure(own, links) for own in group.speakers)]
    return groups


def groupings(seats, links, agree):
    """The ways to share out the speakers of each cable among as many routers as the fullest cable has speakers."""
    first, *others = seats
    ways = [itertools.permutations(range(len(first)), len(on)) for on in others]
    for way in itertools.islice(itertools.product(*ways), MOST_GROUPINGS):
        groups = [[speaker] for speaker in first]
        for on, places in zip(others, way):
            for speaker, place in zip(on, places):
                groups[place].append(speaker)
        whole = all(agree(*pair) for group in groups for pair in itertools.combinations(group, 2))
        if whole and not any(splits(pair, groups) for pair in links):
            yield groups


def spread(groups):
    """How far apart in time the ports of each group send."""
    return sum(abs(one.heard - other.heard) for group in groups for one, other in itertools.combinations(group, 2))


def splits(pair, groups):
    """Whether a pair that belongs together is in two groups."""
    seats = [place for place, group in enumerate(groups) for it in pair if it in group]
    return len(set(seats)) > 1


def are_alike(one, other):
    """Whether what both say of one range is the same; data of different times say nothing."""
    if one.is_silent() != other.is_silent():
        return True
    both = (one.told.keys() & other.told.keys()) - {one.own, other.own}
    return all(one.told[range_] == other.told[range_] for range_ in both)


def agrees_strictly(one, other, speakers):
    """Whether two ports can be of one router that has no others but them: what one leaves out was learnt by it."""
    if not are_alike(one, other) or one.is_silent() or other.is_silent() or len(one.direct()) != 2:
        return are_alike(one, other)
    return all(is_learnt(speaker, told, speakers) for speaker, told in ((one, other), (other, one)))


def is_learnt(speaker, other, speakers):
    """Whether all that the other port tells is heard on the speaker's cable from another router, one nearer."""
    near = [it for it in speakers if it.wire == speaker.wire and it.own == speaker.own and it is not speaker]
    far = [(range_, distance) for range_, distance in other.told.items() if 0 < distance < BAD]
    return all(any(it.distance(range_) == distance - 1 for it in near) for range_, distance in far)


def joined(groups):
    """The groups; where ports went silent before others of their router changed, they are with these again."""
    for group in [group for group in groups if all(it.is_silent() for it in group.speakers)]:
        owns = {it.own for it in group.speakers}
        hosts = [host for host in groups if host is not group and any(not it.is_silent() for it in host.speakers)
                 and owns <= host.speakers[0].direct() and not owns & {it.own for it in host.speakers}]
        if len(hosts) == 1:
            hosts[0].speakers += group.speakers
            groups = [it for it in groups if it is not group]
    return groups
