#!/usr/bin/env python3
"""Times single steps of `lockd play` while its stored history grows to a million entries.

    bench/history.py

Each event is `force`, which makes one entry. Two things are measured:

- what a step costs by processor time, over the first entries and over the last ones: the time of a longer schedule less
  that of a shorter one;
- how long single steps take, where each line is written only after the line of the one before it was read. Such a time has
  the way through two pipes in it, and a step that copied what is stored would stand out.
"""

import argparse
import gc
import os
import subprocess
import sys
import tempfile
import time

from program import PROGRAM, must_be_built, processor_seconds

NAMES = 1000
ENTRIES = 1_000_000
# Costs are measured over so many entries, from the first of these on and up to the last.
FIRST = 1_000
SPAN = 250_000


def event(place):
    return b"force n%d\n" % (place % NAMES)


def shortest(folder, lengths, runs):
    """The shortest of several runs of each of these schedules, by its number of events. The runs take turns."""
    paths = {}
    for events in lengths:
        paths[events] = os.path.join(folder, "forces-%d.txt" % events)
        with open(paths[events], "wb") as file:
            file.write(b"".join(event(place) for place in range(events)))
    best = dict.fromkeys(lengths, float("inf"))
    for _ in range(runs):
        for events in lengths:
            best[events] = min(best[events], processor_seconds(paths[events]))
    return best


def step_times(events):
    """How long each step takes, in nanoseconds."""
    run = subprocess.Popen([PROGRAM, "play"], stdin=subprocess.PIPE, stdout=subprocess.PIPE, bufsize=0)
    to, back = run.stdin.fileno(), run.stdout.fileno()
    lines = [event(place) for place in range(NAMES)]
    times = [0] * events
    now = time.perf_counter_ns
    gc.disable()
    for place in range(events):
        start = now()
        os.write(to, lines[place % NAMES])
        # The program writes a whole line at once.
        shown = os.read(back, 4096)
        times[place] = now() - start
        if not shown.endswith(b"not-held\n"):
            sys.exit("lockd play: unexpected answer %r" % shown)
    gc.enable()
    run.stdin.close()
    if run.wait() != 0:
        sys.exit("lockd play ended with status %d" % run.returncode)
    return times


def main():
    parser = argparse.ArgumentParser(description="Times single steps of lockd play over a growing history.")
    parser.add_argument("--runs", type=int, default=9, help="runs of each schedule, of which the shortest counts")
    options = parser.parse_args()
    must_be_built()

    lengths = [FIRST, FIRST + SPAN, ENTRIES - SPAN, ENTRIES]
    with tempfile.TemporaryDirectory() as folder:
        took = shortest(folder, lengths, options.runs)
    few = (took[lengths[1]] - took[lengths[0]]) / SPAN
    many = (took[lengths[3]] - took[lengths[2]]) / SPAN
    print("a step, from %d entries on:        %.3f microseconds" % (FIRST, few * 1e6))
    print("a step, up to %d entries:       %.3f microseconds, %.2f times that" % (ENTRIES, many * 1e6, many / few))

    times = sorted(step_times(ENTRIES))
    median = times[len(times) // 2]
    slow = times[len(times) * 9999 // 10000]
    print("single steps, with the way there and back: median %.1f microseconds" % (median / 1e3))
    print("  99.99th percentile %.1f microseconds, %.1f times the median" % (slow / 1e3, slow / median))
    print("  slowest %.1f microseconds, %.1f times the median" % (times[-1] / 1e3, times[-1] / median))


if __name__ == "__main__":
    main()
