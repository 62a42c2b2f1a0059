"""What is compared: traces of scripts, plays of internet files, and the transcripts of both."""
import itertools
import os
import random
import subprocess

from internets import InVersion2, changed
from made_faults import faulted
from made_plays import Plan
from made_scripts import Crowded, Script, Spoiled, Staffed, filling
from made_worlds import crowd, timed
from programs import ran

SECONDS = 20
SHOWN = 50  # bytes before and after the first one that differs
FULL = "full"


def answer(command, seconds, **how):
    """What a command answers: the status, standard output, and the first line of standard error."""
    try:
        status, out, err = ran(command, timeout=seconds, **how)
    except subprocess.TimeoutExpired:
        return f"no end in {seconds} seconds", b"", b""
    return status, out, err[0]


def bytes_apart(ours, judged):
    """Both around the first byte that differs."""
    at = len(os.path.commonprefix([ours, judged]))
    start = max(0, at - SHOWN)
    return f"{ours[start:at + SHOWN]} from byte {start} on, not {judged[start:at + SHOWN]}"


def difference(ours, judged):
    """Where two answers differ, if they do."""
    if ours[1] != judged[1]:
        pairs = itertools.zip_longest(ours[1].split(b"\n"), judged[1].split(b"\n"), fillvalue=b"")
        number, (line, other) = next((k, pair) for k, pair in enumerate(pairs, 1) if pair[0] != pair[1])
        return f"line {number} has {bytes_apart(line, other)}"
    if ours != judged:
        return f"status {ours[0]}, {ours[2]}, not {judged[0]}, {judged[2]}"
    return None


def ending(judged):
    """How a run ended: yes, no, or the refusal."""
    return {0: "yes", 1: "no"}.get(judged[0], judged[2].decode() or str(judged[0]))


class Runs:
    """Runs of two programs on files made by chance. A run depends on a seed and on its number alone."""

    number = 5000  # how many there are, if it isn't said
    files = ()  # the names of the files that a run has
    counted = (0, 1)  # the statuses of runs whose lines are counted

    def __init__(self, words):
        self.words = words

    def seconds(self, number):
        return 15 * SECONDS if number == FULL else SECONDS

    def made(self, number):
        """The contents of the files of a run."""
        raise NotImplementedError

    def compared(self, files, seconds):
        """Where the programs differ on these files, if they do; what the judge answers; and how the run ended."""
        raise NotImplementedError

    def kind_of(self, line):
        """The kind of a line that the judge printed."""
        raise NotImplementedError


class StaffedInVersion2(InVersion2, Staffed):
    """A staffed internet whose image is of version 2."""


class SpoiledInVersion2(InVersion2, Spoiled):
    """A spoiled internet whose image is of version 2."""


class Traces(Runs):
    """Traces of scripts over images."""

    files = ("image", "script")
    counted = (0,)

    def made(self, number):
        chance = random.Random(f"run {self.words.seed} {number}")
        if number == FULL:
            internet = Crowded(chance)
            image = internet.image()
            return image, filling(internet)
        kind = chance.random()
        staffed, spoiled = (StaffedInVersion2, SpoiledInVersion2) if self.words.v2 else (Staffed, Spoiled)
        internet = (spoiled if kind < 0.12 else staffed)(chance)
        image = internet.image()
        if kind > 0.95:
            image = changed(chance, image)
        return image, Script(chance, internet).text()

    def compared(self, files, seconds):
        judged = answer([*self.words.judge.split(), "trace", *files], seconds)
        ours = answer([*self.words.program.split(), "trace", *files], seconds)
        return difference(ours, judged), judged, ending(judged)

    def kind_of(self, line):
        """The first word, and how, why, or to whom."""
        words = line.split(b" ")
        first = words[0].decode()
        if first == "put":
            return first + " to " + (words[6].decode() if words[6] in (b"all", b"group") else "address")
        if first == "reached":
            return f"{first} {words[4].decode()}"
        if first == "dropped":
            return f"{first} {words[2].decode()}"
        return line.decode() if first == "refused" else first


def kind_of_entry(line):
    """The first word of an entry's line, and which packet or how."""
    words = line.split(b" ")
    first, frame = words[0].decode(), words[-1]
    if first == "put":
        functions = {b"0001": "request", b"0002": "response", b"0003": "probe"}
        return f"{first} {functions.get(frame[12:16], 'AARP') if frame.startswith(b'0001809B') else 'datagram'}"
    return f"{first} {words[4].decode()}" if first == "reached" else first


class Transcripts(Traces):
    """Transcripts of scripts over images, some with little room."""

    def compared(self, files, seconds):
        with open(files[1], "rb") as script:
            chance = random.Random(script.read())
        room = [str(chance.randrange(3000))] if chance.random() < 0.3 else []
        judged = answer([*self.words.judge.split(), "frozen", *files, *room], seconds)
        ours = answer([*self.words.runs.split(), *files, *room], seconds)
        return difference(ours, judged), judged, ending(judged)

    def kind_of(self, line):
        return line.decode() if line.startswith(b"refused") else kind_of_entry(line)


class Plays(Runs):
    """Plays of internet files, and the images that are left."""

    number = 2000
    files = ("toml",)

    def made(self, number):
        chance = random.Random(f"play {self.words.seed} {number}")
        if number == FULL:
            return (crowd(chance),)
        return (faulted(chance, number // 2) if number % 2 else Plan(chance).file(),)

    def played(self, command, files, seconds):
        """What a command answers, and the bytes of its image. A file that wasn't made, or in which nothing is, is no image."""
        image = files[0] + ".image"
        version = ["--v2"] if self.words.v2 else []
        answered = answer([*command.split(), "play", *version, *files, "--image", image], seconds)
        if not os.path.exists(image):
            return answered, b""
        with open(image, "rb") as file:
            content = file.read()
        os.unlink(image)
        return answered, content

    def compared(self, files, seconds):
        judged, image = self.played(self.words.judge, files, seconds)
        ours, other = self.played(self.words.program, files, seconds)
        told = difference(ours, judged)
        if told is None and image != other:
            told = f"the image of {len(other)} bytes has {bytes_apart(other, image)}, of {len(image)} bytes"
        return told, judged, ending(judged)

    def kind_of(self, line):
        """`received`, the refusal of an action, or the verdict with its rule."""
        words = line.decode().split(" ")
        if words[0] == "node":
            return words[2]
        return f"{words[2]} {words[3]}" if words[0] == "action" else " ".join(words[:2]) if words[0] == "no:" else words[0]


class Worlds(Runs):
    """Transcripts of plays whose timers run out at their bounds."""

    number = 300
    files = ("toml",)

    def made(self, number):
        return (timed(random.Random(f"world {self.words.seed} {number}"), number),)

    def compared(self, files, seconds):
        judged = answer([*self.words.judge.split(), "world", *files], seconds)
        with open(files[0], "rb") as file:
            ours = answer(self.words.worlds.split(), seconds, stdin=file)
        return difference(ours, judged), judged, "played" if judged[0] == 0 else ending(judged)

    def kind_of(self, line):
        return kind_of_entry(line)
