#!/usr/bin/env python3
"""Times a wait and a wakeup under `lockd play`, beside few and beside many that sleep.

    bench/waiting.py

Each schedule has two parts. In the first, threads fall asleep on locks. In the second, one of them after the other, in a
random order that is the same at each run, is woken by the unlock of its lock's holder, takes the lock and gives it back;
the holder takes it again, and the thread falls asleep on it once more.

    clients   1 to 64 clients, each with one thread asleep on a lock of its own; another thread of the client holds it
    threads   1 to 256 threads of one client, each asleep on a lock of its own, which a thread of another client holds
    latch     3 to 256 threads of one client, all asleep on one lock: they share its latch, and hand a permit on

The cost of a wait and a wakeup is that of the second part: the processor time of the whole schedule less that of its first
part, each the shortest of several runs. The runs take turns.
"""

import argparse
import os
import random
import sys
import tempfile

from play import LEASE, check, write_lines
from program import must_be_built, processor_seconds

FEWEST = {"clients": 1, "threads": 1, "latch": 3}
MOST = {"clients": 64, "threads": 256, "latch": 256}


def request(who, function, name):
    """The four events of a request that is executed at once."""
    return ["begin %s once %s %s %d" % (who, function, name, LEASE), "ask " + who, "exec " + who, "take " + who]


def asking(who):
    """A thread asks once more, and takes the reply."""
    return ["ask " + who, "exec " + who, "take " + who]


def beginning(who, name):
    """A thread begins to wait, and is refused."""
    return ["begin %s long lock_try %s %d" % (who, name, LEASE)] + asking(who)


def asleep(who, name):
    """A thread falls asleep on a lock on which nobody of its client waits."""
    client = who.split()[0]
    return beginning(who, name) + ["sub " + client, "push " + client] + asking(who) + ["check " + who]


def sleeper(kind, place):
    """The thread at this place, the holder of its lock, and the lock."""
    if kind == "clients":
        return "%d 1" % (place + 1), "%d 2" % (place + 1), "n%d" % place
    if kind == "threads":
        return "1 %d" % (place + 1), "2 %d" % (place + 1), "n%d" % place
    return "1 %d" % (place + 1), "2 1", "n"


def falling_asleep(kind, many):
    """So many threads fall asleep."""
    lines = []
    for place in range(many):
        who, holder, name = sleeper(kind, place)
        if kind == "latch" and place > 0:
            lines += beginning(who, name) + asking(who) + ["check " + who]
        else:
            lines += request(holder, "lock_try", name) + asleep(who, name)
    return lines


def woken(kind, place):
    """A thread is woken, has the lock and gives it back, and falls asleep on it once more."""
    who, holder, name = sleeper(kind, place)
    client = who.split()[0]
    lines = request(holder, "lock_unlock", name) + ["push " + client, "wake " + who] + asking(who)
    if kind != "latch":
        # It was the last at its latch, so its client leaves the channel.
        lines += ["sub " + client, "push " + client]
        lines += request(who, "lock_unlock", name) + request(holder, "lock_try", name)
        return lines + asleep(who, name)
    # It has handed a permit on, and finds that itself when it falls asleep. Its unlock sends a message too.
    lines += request(who, "lock_unlock", name) + request(holder, "lock_try", name) + ["push " + client]
    lines += beginning(who, name) + asking(who) + ["check " + who] + asking(who) + ["check " + who]
    return lines + asking(who) + ["check " + who]


def wakeups(kind, many, rounds, seed):
    """So many waits and wakeups."""
    pick = random.Random(seed)
    lines = []
    for _ in range(rounds):
        lines += woken(kind, pick.randrange(many))
    return lines


def main():
    parser = argparse.ArgumentParser(description=__doc__.splitlines()[0])
    parser.add_argument("--rounds", type=int, default=20_000, help="waits and wakeups of a schedule")
    parser.add_argument("--runs", type=int, default=5, help="runs of each schedule, of which the shortest counts")
    parser.add_argument("--seed", type=int, default=1)
    given = parser.parse_args()
    must_be_built()
    with tempfile.TemporaryDirectory() as folder:
        parts = {}
        for kind in FEWEST:
            for many in (FEWEST[kind], MOST[kind]):
                first = falling_asleep(kind, many)
                second = wakeups(kind, many, given.rounds, given.seed)
                paths = [os.path.join(folder, "%s-%d-%s" % (kind, many, part)) for part in ("first", "whole")]
                write_lines(paths[0], first)
                write_lines(paths[1], first + second)
                check(paths[1], first + second)
                parts[kind, many] = paths
        least = {}
        for _ in range(given.runs):
            for key, paths in parts.items():
                for part, path in enumerate(paths):
                    took = processor_seconds(path)
                    least[key, part] = min(took, least.get((key, part), took))
        for kind in FEWEST:
            costs = []
            for many in (FEWEST[kind], MOST[kind]):
                cost = (least[(kind, many), 1] - least[(kind, many), 0]) / given.rounds
                costs.append(cost)
                print("%-8s %4d asleep  %7.2f us a wait and a wakeup" % (kind, many, cost * 1e6))
            print("%-8s ratio %.2f" % (kind, costs[1] / costs[0]))


if __name__ == "__main__":
    sys.exit(main())
