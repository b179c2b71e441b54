"""The program under the benchmarks, and what one run of it takes."""

import os
import subprocess
import sys

TOP = os.path.dirname(os.path.dirname(os.path.abspath(__file__)))
PROGRAM = os.path.join(TOP, "crates", "lockd", "out", "lockd")


def must_be_built():
    """Ends the benchmark where there is no program."""
    if not os.access(PROGRAM, os.X_OK):
        sys.exit("there is no %s: run ./lockd --version first" % PROGRAM)


def seconds_of(words, source=None):
    """What one run of the program takes, in seconds of the processor, which other programs disturb least."""
    run = subprocess.Popen([PROGRAM] + words, stdin=source, stdout=subprocess.DEVNULL)
    _, status, usage = os.wait4(run.pid, 0)
    if status != 0:
        sys.exit("lockd %s ended with the wait status %d" % (" ".join(words), status))
    run.returncode = 0
    return usage.ru_utime + usage.ru_stime


def processor_seconds(path):
    """What one run of a schedule takes."""
    with open(path, "rb") as schedule:
        return seconds_of(["play"], schedule)
