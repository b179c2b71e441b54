#!/usr/bin/env python3
"""Times a gate that threads enter in turn, against the kit's mutex round the same value.

    cd crates/gate_race && rt run -- gate 1 1 && cd ../..     # builds the program, if it isn't built yet
    bench/gate.py

A turn takes the value, scrambles a number for about a microsecond and gives the value back, through the gate with an entry
of its history. All threads together take a million turns. The two ways take turns in one run, so that what else the
machine does falls on both. The figures are ratios: how many turns the gate lets through in the time in which the mutex lets
one through, and what processor time it takes for a turn, against the mutex.
"""

import argparse
import os
import subprocess
import sys
import time

from program import TOP

RACE = os.path.join(TOP, "crates", "gate_race", "out", "gate_race")
TURNS = 1_000_000


def race(way, threads):
    """The seconds and the processor seconds of one race."""
    turns = TURNS // threads
    start = time.perf_counter()
    run = subprocess.Popen([RACE, way, str(threads), str(turns)], stdout=subprocess.PIPE)
    written = run.stdout.read()
    _, status, usage = os.wait4(run.pid, 0)
    took = time.perf_counter() - start
    run.returncode = 0
    if status != 0 or int(written) != threads * turns:
        sys.exit("gate_race %s ended with the wait status %d and wrote %r" % (way, status, written))
    return took, usage.ru_utime + usage.ru_stime


def median(values):
    return sorted(values)[len(values) // 2]


def main():
    parser = argparse.ArgumentParser(description="Times a gate against the kit's mutex.")
    parser.add_argument("--runs", type=int, default=9, help="runs of each way, of which the median counts")
    parser.add_argument("--threads", type=int, nargs="*", default=[1, 4, 16, 50], help="how many threads")
    options = parser.parse_args()
    if not os.access(RACE, os.X_OK):
        sys.exit("there is no %s: see the head of this script" % RACE)

    print("threads   turns in a time   processor time of a turn   the gate's turns in a second")
    for threads in options.threads:
        gate, mutex = [], []
        for _ in range(options.runs):
            gate.append(race("gate", threads))
            mutex.append(race("mutex", threads))
        speed = median([m[0] for m in mutex]) / median([g[0] for g in gate])
        cost = median([g[1] for g in gate]) / median([m[1] for m in mutex])
        print("%7d   %15.2f   %24.2f   %28.0f" % (threads, speed, cost, TURNS / median([g[0] for g in gate])))


if __name__ == "__main__":
    main()
