"""Runs of programs that are compared, and the arguments that say which."""
import argparse
import contextlib
import fcntl
import os
import subprocess
import sys
import termios
import time

TOP = os.path.join(os.path.dirname(os.path.realpath(__file__)), "..")


def options(doc, number):
    """A parser of the arguments that each comparison has: the program, how many cases (NUMBER, if not given), and the seed
    that they depend on."""
    given = argparse.ArgumentParser(description=doc.split("\n")[0])
    given.add_argument("-p", dest="program", metavar="PROGRAM", default=os.path.join(TOP, "atalk"))
    given.add_argument("-n", dest="number", metavar="N", type=int, default=number)
    given.add_argument("-s", dest="seed", metavar="SEED", type=int, default=1)
    return given


def arguments(doc, number):
    """The same with the judge, for a comparison with another program."""
    given = options(doc, number)
    given.add_argument("judge", metavar="JUDGE")
    return given


def ran(words, **how):
    """The status, standard output, and the lines of standard error."""
    done = subprocess.run(words, stdout=subprocess.PIPE, stderr=subprocess.PIPE, check=False, **how)
    return done.returncode, done.stdout, done.stderr.split(b"\n")


def peak_before_end(process, pieces):
    """Gives a process these pieces of its standard input, and tells the greatest memory that it had, in bytes, when it had taken them
    all and waited for more. What the system tells of a process that has ended counts the memory of the one that started it, too."""
    try:
        for piece in pieces:
            process.stdin.write(piece)
        process.stdin.flush()
        while int.from_bytes(fcntl.ioctl(process.stdin, termios.FIONREAD, bytes(4)), sys.byteorder):
            if process.poll() is not None:
                return 0  # it ended early, and takes no more
            time.sleep(0.001)
        time.sleep(0.05)  # what it took, it works on
        with open(f"/proc/{process.pid}/status", encoding="ascii") as status:
            return sum(int(line.split()[1]) * 1024 for line in status if line.startswith("VmHWM"))
    except OSError:
        return 0  # it ended early
    finally:
        with contextlib.suppress(OSError):
            process.stdin.close()
