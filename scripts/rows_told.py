"""The rows of routers, by what their ports tell, and what their neighbours tell.

A router doesn't tell of a range on the cable where it learnt it (split horizon). So a row goes by a port that leaves its range
out, and by a neighbour there that is one nearer.
"""
from gathered import Row
from heard import BAD
from speakers import Speaker


class Rows:
    """Fills in the rows of all routers: first which they have, and then where these lead."""

    def __init__(self, tables, passages):
        self.tables, self.passages = tables, passages
        self.unheard = [(port, router) for router in tables.routers for port in router.ports if port.speaker is None]
        led = [(router, row, voices) for router in tables.routers for row, voices in self.fill(router)]
        for router, row, voices in led:
            self.lead(router, row, voices)

    def fill(self, router):
        """The rows that a router's last routing data tell of, and, where one port alone was heard, those that it must have learnt
        by that. Gives the ones for other cables that it told of, each with the ports that told of it."""
        voices, told = router.voices(), []
        for range_ in sorted({it for voice in voices for it in (voice.own, *voice.told)}):
            own = next((place for place, port in enumerate(router.ports, 1) if port.cable.range == range_), None)
            row = Row(range_, 0, own) if own else far_row(range_, [it for it in voices if range_ in it.told])
            router.rows.append(row)
            if not own:
                told.append((row, [it for it in voices if range_ in it.told]))
        if len(voices) == 1 and not voices[0].is_silent():
            router.rows += self.learnt_rows(router, voices[0])
        router.rows.sort(key=lambda row: row.range)
        self.leave_overlaps_out(router)
        return told

    @staticmethod
    def leave_overlaps_out(router):
        """Leaves out rows that overlap the one before, which no table has."""
        kept = []
        for row in router.rows:
            if kept and row.range.first <= kept[-1].range.last:
                router.remarks.append(f"ask {router.name()} for its row of {row.range}: it tells of a range that overlaps it")
            else:
                kept.append(row)
        router.rows = kept

    def learnt_rows(self, router, voice):
        """Rows that a router must have learnt by the one port that was heard, since its neighbours there tell of them."""
        place, port = next((place, port) for place, port in enumerate(router.ports, 1) if port.speaker is voice)
        known = {row.range for row in router.rows}
        ways = {}
        for near in sorted(self.neighbours(port), key=lambda it: it.heard):
            for range_, distance in near.told.items():
                if distance < BAD and range_ not in known and distance + 1 <= ways.get(range_, (BAD,))[0]:
                    ways[range_] = (distance + 1, near.address)
        return [Row(range_, distance, place, next_, remarks=[
            f"ask {router.name()} for its row of {range_}: it tells of it on other cables only; {next_} told it of it"])
            for range_, (distance, next_) in ways.items()]

    def lead(self, router, row, voices):
        """Where a row leads: to the neighbour that is one nearer. Of equal ones a router takes the one that it heard last."""
        bad = row.state == "Bad"
        quiet = [place for place, port in enumerate(router.ports, 1) if port.speaker not in voices]
        ways = [(place, near) for place in quiet or range(1, len(router.ports) + 1)
                for near in self.neighbours(router.ports[place - 1], bad) if leads(near, row.range, row.distance - 1, bad)]
        ways.sort(key=lambda way: way[1].heard, reverse=True)
        row.port = ways[0][0] if ways else (quiet or [1])[0]
        if ways:
            row.next = ways[0][1].address
        if not bad:
            self.choose(router, row, ways)

    def neighbours(self, port, with_silent=False):
        """The other routers' ports on a port's cable: those that are heard there, and those that must be there; what they tell
        there is what they tell elsewhere."""
        heard = [it for it in self.tables.speakers if it.wire == port.cable.wire and it.own == port.cable.range
                 and it is not port.speaker and (with_silent or not it.is_silent())]
        others = [(it, router) for it, router in self.unheard if it.cable is port.cable and it is not port]
        return heard + [supposed(it, router) for it, router in others]

    def choose(self, router, row, ways):
        """Which of several ways a row has, by the datagrams that were passed on; a remark where that isn't known."""
        seen = {(place, near.address) for passage in self.passages for place, near in ways
                if row.range.holds(passage.target.net) and passage.receiver == near.hardware
                and passage.out is router.ports[place - 1].speaker}
        if len(seen) == 1:
            row.port, row.next = seen.pop()
        elif len(ways) > 1:
            those = ", ".join(sorted(str(near.address) for _, near in ways))
            row.remarks.append(f"ask {router.name()} for the next router to {row.range}: it is one of {those}")
        elif not ways:
            self.look_farther(router, row)

    def look_farther(self, router, row):
        """The next router of a row where none is one nearer: one that tells of the range at all, or one that isn't heard."""
        unheard = [place for place, port in enumerate(router.ports, 1) if port.speaker is None]
        near = [it for it in self.neighbours(router.ports[row.port - 1]) if it.distance(row.range) is not None]
        if unheard:
            row.port = unheard[0]
        elif near:
            row.next = min(near, key=lambda it: (it.distance(row.range), it.address)).address
        row.remarks.append(f"ask {router.name()} for the next router to {row.range}: none was heard that is one nearer")


def far_row(range_, voices):
    """The row of a range on another cable, as it was told last; one that is bad has the distance that it had before."""
    last = max(voices, key=lambda it: it.heard)
    bad = last.told[range_] == BAD
    return Row(range_, last.best.get(range_, BAD) if bad else last.told[range_], 1, state="Bad" if bad else "Good")


def supposed(port, router):
    """What a port tells on a cable where it wasn't heard."""
    speaker = Speaker(-1, "", port.address, port.cable.range, 0.0, max(it.heard for it in router.voices()))
    speaker.told = {row.range: BAD if row.state == "Bad" else row.distance for row in router.rows}
    for voice in router.voices():
        speaker.best |= voice.best
    return speaker


def leads(speaker, range_, distance, bad):
    """Whether a speaker tells that a range is so far; of one that is bad by now, whether it told so before."""
    return speaker.distance(range_) == distance or (bad and speaker.best.get(range_) == distance)
