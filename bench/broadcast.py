#!/usr/bin/env python3
"""Times messages that wake all under `lockd play`, where one thread of a client sleeps and where 256 do.

    bench/broadcast.py

Threads of one client sleep until a semaphore has more permits than it ever gets. Another client gives it one permit more,
again and again: each time a message is sent, and taken by the client of those who sleep.

    message   the permit is given, and the message is taken; nobody wakes
    waking    so it is, and each who sleeps is woken, asks, finds the permits too few, and falls asleep once more

The cost of a message is that of its five events. The cost of a waking is that of the five events with which one thread wakes
and falls asleep: what is left of a round without its message, divided by how many sleep. What messages and rounds take is the
processor time of a whole schedule less that of the falling asleep alone, each the shortest of several runs. The runs take
turns.
"""

import argparse
import os
import sys
import tempfile

from play import MOST_EVENTS, check, write_lines
from program import must_be_built, processor_seconds

SLEEPERS = (1, 256)
WANTED = 1_000_000_000


def asking(who):
    """A thread sends its call, and takes the reply."""
    return ["ask " + who, "exec " + who, "take " + who]


def falling_asleep(many):
    """So many threads of client 1 fall asleep. The first of them subscribes."""
    lines = []
    for thread in range(1, many + 1):
        who = "1 %d" % thread
        lines += ["begin %s long sem_try s %d" % (who, WANTED)] + asking(who)
        if thread == 1:
            lines += ["sub 1", "push 1"]
        lines += asking(who) + ["check " + who]
    return lines


def message():
    """Client 2 gives a permit, and client 1 takes the message."""
    return ["begin 2 1 once sem_release s 1"] + asking("2 1") + ["push 1"]


def waking(many):
    """Each who sleeps is woken, is refused, and falls asleep."""
    lines = []
    for thread in range(1, many + 1):
        who = "1 %d" % thread
        lines += ["wake " + who] + asking(who) + ["check " + who]
    return lines


def schedules(many, times):
    """The falling asleep alone, with so many messages, and with so many wakings, and how many rounds the last has."""
    asleep = falling_asleep(many)
    rounds = times // many
    return asleep, asleep + message() * times, asleep + (message() + waking(many)) * rounds, rounds


def main():
    parser = argparse.ArgumentParser(description=__doc__.splitlines()[0])
    parser.add_argument("--times", type=int, default=50_000, help="messages of a schedule, and wakings of another")
    parser.add_argument("--runs", type=int, default=5, help="runs of each schedule, of which the shortest counts")
    given = parser.parse_args()
    must_be_built()
    with tempfile.TemporaryDirectory() as folder:
        paths, rounds = {}, {}
        for many in SLEEPERS:
            *parts, rounds[many] = schedules(many, given.times)
            for part, lines in enumerate(parts):
                if len(lines) > MOST_EVENTS:
                    sys.exit("%d times are more than %d lines" % (given.times, MOST_EVENTS))
                paths[many, part] = os.path.join(folder, "%d-%d" % (many, part))
                write_lines(paths[many, part], lines)
                check(paths[many, part], lines)
        least = {}
        for _ in range(given.runs):
            for key, path in paths.items():
                took = processor_seconds(path)
                least[key] = min(took, least.get(key, took))
        costs = {"message": [], "waking": []}
        for many in SLEEPERS:
            sent = (least[many, 1] - least[many, 0]) / given.times
            woken = ((least[many, 2] - least[many, 0]) / rounds[many] - sent) / many
            for kind, cost in (("message", sent), ("waking", woken)):
                costs[kind].append(cost)
                print("%-8s %4d asleep  %7.2f us" % (kind, many, cost * 1e6))
        for kind, (few, all_) in costs.items():
            print("%-8s ratio %.2f" % (kind, all_ / few))


if __name__ == "__main__":
    sys.exit(main())
