#!/usr/bin/env python3
"""Times `lockd play` on generated schedules over many held locks.

    bench/play.py                           times schedules over 1, 1,000 and 50,000 names
    bench/play.py --write FILE NAMES        writes one such schedule

A schedule has two parts. In the first, each name is taken by a thread for a long lease, in four events: begin,
ask, exec, take. In the second, EVENTS events go over the names in a random order that is the same at each run:
tries, unlocks and forced unlocks, and now and then a tick. No lease runs out, so all names stay held.

The cost of an event is that of the second part: the processor time of the whole schedule less that of its first part,
each the shortest of several runs.
"""

import argparse
import os
import random
import subprocess
import sys
import tempfile

from program import PROGRAM, must_be_built, processor_seconds

LEASE = 86_400_000_000
CLIENTS = 64
THREADS = 256
MOST_EVENTS = 1_000_000


def thread_of(place):
    """The client and the thread that hold the name at this place."""
    return 1 + place % CLIENTS, 1 + place // CLIENTS % THREADS


def request(thread, function, name, lease=LEASE):
    """The four events of a request that is executed at once."""
    who = "%d %d" % thread
    return [
        "begin %s once %s %s %d" % (who, function, name, lease),
        "ask " + who,
        "exec " + who,
        "take " + who,
    ]


def taking(names):
    """Each name is taken once."""
    lines = []
    for place in range(names):
        lines += request(thread_of(place), "lock_try", "n%d" % place)
    return lines


def using(names, events, seed):
    """So many events over names that are held, after which they are held again."""
    pick = random.Random(seed)
    lines = []
    moment = 0
    while len(lines) < events:
        place = pick.randrange(names)
        name = "n%d" % place
        holder = thread_of(place)
        other = thread_of(place + 1)
        what = pick.randrange(20)
        if what < 10:
            # Taken once more, and given back once: each gives the hold a new deadline.
            lines += request(holder, "lock_try", name) + request(holder, "lock_unlock", name)
        elif what < 15:
            lines += request(other, "lock_try", name)
        elif what < 17:
            lines += request(other, "lock_unlock", name)
        elif what < 19:
            lines += ["force " + name] + request(holder, "lock_try", name)
        else:
            moment += 1
            lines.append("tick %d" % moment)
    return lines[:events]


def write_lines(path, lines):
    with open(path, "w", newline="\n") as file:
        file.write("".join(line + "\n" for line in lines))


def check(path, lines):
    """The program takes the whole schedule, and shows each of its events."""
    with open(path, "rb") as schedule:
        run = subprocess.run([PROGRAM, "play"], stdin=schedule, stdout=subprocess.PIPE, check=False)
    shown = run.stdout.splitlines()
    if run.returncode != 0 or len(shown) != len(lines):
        sys.exit("lockd play: status %d after %d of %d lines" % (run.returncode, len(shown), len(lines)))
    refused = sum(1 for line in shown if b" no " in line)
    if refused:
        sys.exit("lockd play: %d events of the schedule don't apply" % refused)


def seconds(path, runs):
    """The shortest of several runs of a schedule."""
    return min(processor_seconds(path) for _ in range(runs))


def cost(folder, names, events, seed, runs):
    """Seconds for an event over so many names, and for the whole schedule."""
    first = taking(names)
    whole = first + using(names, events, seed)
    if len(whole) > MOST_EVENTS:
        sys.exit("%d names and %d events are more than %d lines" % (names, events, MOST_EVENTS))
    first_path = os.path.join(folder, "taken-%d.txt" % names)
    whole_path = os.path.join(folder, "used-%d.txt" % names)
    write_lines(first_path, first)
    write_lines(whole_path, whole)
    check(whole_path, whole)
    took = seconds(whole_path, runs)
    return max(took - seconds(first_path, runs), 1e-9) / events, took, len(whole)


def main():
    parser = argparse.ArgumentParser(description="Times lockd play on schedules over many held locks.")
    parser.add_argument("--names", type=int, nargs="+", default=[1, 1_000, 50_000], metavar="K")
    parser.add_argument("--events", type=int, default=200_000, help="events over the held names")
    parser.add_argument("--runs", type=int, default=5, help="runs of each schedule, of which the shortest counts")
    parser.add_argument("--seed", type=int, default=1)
    parser.add_argument("--write", nargs=2, metavar=("FILE", "K"), help="write a schedule over K names, and time nothing")
    options = parser.parse_args()

    if options.write:
        path, names = options.write[0], int(options.write[1])
        write_lines(path, taking(names) + using(names, options.events, options.seed))
        return
    must_be_built()

    costs = []
    with tempfile.TemporaryDirectory() as folder:
        for names in options.names:
            each, took, lines = cost(folder, names, options.events, options.seed, options.runs)
            costs.append(each)
            print(
                "%7d names: %8.0f events a second, %6.2f microseconds an event (%d lines in %.2f s)"
                % (names, 1 / each, each * 1e6, lines, took)
            )
    if len(costs) < 2:
        return
    print("an event over %d names costs %.2f times one over %d" % (options.names[-1], costs[-1] / costs[0], options.names[0]))


if __name__ == "__main__":
    main()
