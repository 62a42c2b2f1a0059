"""Runs of stations over captures of what a cable shouldn't bring."""
import hashlib
import os
import random
import subprocess
import threading

from captures_read import blocks
from made_streams import Spelled
from programs import peak_before_end


def spelled(known, shots):
    """A capture of shots, plainly spelled."""
    names = [[f"cable {k + 1}, {first}-{last}".encode()] for k, (first, last) in enumerate(known.cables)]
    capture = Spelled(random.Random(0), names, True)
    capture.write(shots)
    return bytes(capture.data)


class Run:
    """A run over a capture that is given in pieces: its status, the sum of what it wrote, and its greatest memory in bytes."""

    def __init__(self, words, pieces, **environment):
        started = subprocess.Popen(words, stdin=subprocess.PIPE, stdout=subprocess.PIPE, stderr=subprocess.PIPE,
                                   env=dict(os.environ, ATALK_EXPLAIN="never", **environment))
        self.errors, self.memory = b"", 0
        feeder = threading.Thread(target=self.feed, args=(started, pieces))
        reader = threading.Thread(target=self.complain, args=(started.stderr,))
        feeder.start()
        reader.start()
        self.sum, self.bytes, self.front = hashlib.sha256(), 0, bytearray()
        while piece := started.stdout.read1(1 << 20):
            self.sum.update(piece)
            self.bytes += len(piece)
            if len(self.front) < 1 << 26:
                self.front += piece
        feeder.join()
        reader.join()
        self.status = started.wait()

    def feed(self, started, pieces):
        self.memory = peak_before_end(started, pieces)

    def complain(self, errors):
        self.errors = errors.read()

    def is_whole(self):
        """It wrote whole blocks."""
        return self.bytes > len(self.front) or all(True for _ in blocks(bytes(self.front)))
