#!/usr/bin/env python3
"""Times one holder among many of the same object: a reader of a read-write lock, and a permit.

    bench/holders.py                        over 1 and 16,000 readers, and over 1 and 50,000 permits

A schedule has two parts. In the first, so many holders take the one object for a long lease. In the second, one more
takes it and gives it back, again and again; or takes it for a millisecond, and a tick lets that run out.

The cost of a turn is that of the second part: the processor time of the whole schedule less that of its first part,
each the shortest of several runs. A lock has at most one reader for each thread of a client, of which a schedule has
16,384.
"""

import argparse
import os
import tempfile
import uuid

from play import LEASE, check, thread_of, write_lines
from program import must_be_built, processor_seconds


def events(who, call):
    """The four events of a call by a thread."""
    return ["begin %s once %s" % (who, call), "ask " + who, "exec " + who, "take " + who]


def holder(place):
    return "%d %d" % thread_of(place)


def readers(number):
    """So many readers, and what one more does."""
    first = [line for place in range(number) for line in events(holder(place), "rw_read a %d" % LEASE)]
    one = holder(number)
    return first, events(one, "rw_read a %d" % LEASE) + events(one, "rw_unlock_read a 1"), events(one, "rw_read a 1")


def permits(number):
    """So many permits that one thread has, and what it does with one more."""
    def take(place, lease):
        return events("1 1", "permit_try p %s %d" % (uuid.UUID(int=place + 1), lease))

    first = events("1 1", "permit_set p 1000000")
    first += [line for place in range(number) for line in take(place, LEASE)]
    release = events("1 1", "permit_release p %s" % uuid.UUID(int=number + 1))
    return first, take(number, LEASE) + release, take(number, 1)


def ticking(turn, turns):
    """So many turns, each of which runs out at a tick behind it."""
    return [line for number in range(turns) for line in turn + ["tick %d" % (number + 1)]]


def cost(folder, name, first, rest, turns, runs):
    """The seconds of a turn."""
    taken = []
    for part, lines in (("first", first), ("whole", first + rest)):
        path = os.path.join(folder, "%s-%s.txt" % (name, part))
        write_lines(path, lines)
        check(path, lines)
        taken.append(min(processor_seconds(path) for _ in range(runs)))
    return max(taken[1] - taken[0], 1e-9) / turns


def main():
    parser = argparse.ArgumentParser(description="Times one holder among many of the same object.")
    parser.add_argument("--readers", type=int, default=16_000)
    parser.add_argument("--permits", type=int, default=50_000, help="permits that are leased beside the one")
    parser.add_argument("--turns", type=int, default=50_000, help="turns of the one holder")
    parser.add_argument("--runs", type=int, default=5, help="runs of each schedule, of which the shortest counts")
    options = parser.parse_args()
    must_be_built()

    with tempfile.TemporaryDirectory() as folder:
        for what, made, many in (("readers", readers, options.readers), ("permits", permits, options.permits)):
            costs = []
            for number in (1, many):
                first, turn, ending = made(number)
                name = "%s-%d" % (what, number)
                back = cost(folder, name + "-back", first, turn * options.turns, options.turns, options.runs)
                ends = cost(folder, name + "-ends", first, ticking(ending, options.turns), options.turns, options.runs)
                costs.append((back, ends))
            print("one among %d %s: taken and given back in %.2f microseconds, %.2f times one beside one; "
                  "taken and run out in %.2f, %.2f times"
                  % (many, what, costs[1][0] * 1e6, costs[1][0] / costs[0][0],
                     costs[1][1] * 1e6, costs[1][1] / costs[0][1]))


if __name__ == "__main__":
    main()
