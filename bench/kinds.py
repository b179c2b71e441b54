#!/usr/bin/env python3
"""Times the kinds of object under `lockd play`, each against the reentrant lock, and over many names.

    bench/kinds.py

A schedule has two parts. In the first, each name is set up: locks are taken by a thread for a long lease, semaphores get
permits, latches are set. In the second, pairs of requests go over the names in a random order that is the same at each
run: a try and its give-back; of a latch, a down and a look at the count. A request is four events: begin, ask, exec, take.

The cost of a pair is that of the second part: the processor time of the whole schedule less that of its first part, each
the shortest of several runs. The runs of all kinds take turns.
"""

import argparse
import os
import random
import sys
import tempfile

from play import LEASE, MOST_EVENTS, check, thread_of, write_lines
from program import must_be_built, processor_seconds

# The id under which a permit is taken.
PERMIT = "00000000-0000-0000-0000-000000000001"

# The request that sets a name up, and the pair of requests, by kind: a function, and the words behind the name.
KINDS = {
    "reentrant lock": (("lock_try", LEASE), ("lock_try", LEASE), ("lock_unlock", LEASE)),
    "fenced lock": (("fenced_try", LEASE), ("fenced_try", LEASE), ("fenced_unlock", LEASE)),
    "read-write lock": (("rw_read", LEASE), ("rw_read", LEASE), ("rw_unlock_read", LEASE)),
    "semaphore": (("sem_set", 5), ("sem_try", 1), ("sem_release", 1)),
    "expirable permits": (("permit_set", 5), ("permit_try", PERMIT, LEASE), ("permit_release", PERMIT)),
    "countdown latch": (("latch_set", 1_000_000_000), ("latch_down",), ("latch_count",)),
}
FIRST_KIND = "reentrant lock"


def request(place, call):
    """The four events of a call on the name at this place, by its thread."""
    who = "%d %d" % thread_of(place)
    words = " ".join(str(word) for word in call[1:])
    begin = "begin %s once %s n%d %s" % (who, call[0], place, words)
    return [begin.rstrip(), "ask " + who, "exec " + who, "take " + who]


def setting_up(kind, names):
    """Each name is set up once."""
    lines = []
    for place in range(names):
        lines += request(place, KINDS[kind][0])
    return lines


def pairs_of(kind, names, pairs, seed):
    """So many pairs of requests over names that are set up."""
    pick = random.Random(seed)
    lines = []
    for _ in range(pairs):
        place = pick.randrange(names)
        lines += request(place, KINDS[kind][1]) + request(place, KINDS[kind][2])
    return lines


def schedules(folder, names, pairs, seed):
    """The paths of both schedules of each kind over so many names."""
    paths = {}
    for place, kind in enumerate(KINDS):
        first = setting_up(kind, names)
        whole = first + pairs_of(kind, names, pairs, seed)
        if len(whole) > MOST_EVENTS:
            sys.exit("%d names and %d pairs are more than %d lines" % (names, pairs, MOST_EVENTS))
        paths[kind] = [os.path.join(folder, "%d-%d-%s.txt" % (place, names, part)) for part in ("first", "whole")]
        write_lines(paths[kind][0], first)
        write_lines(paths[kind][1], whole)
        check(paths[kind][1], whole)
    return paths


def costs(paths, pairs, runs):
    """The seconds of a pair, by kind."""
    best = {path: float("inf") for both in paths.values() for path in both}
    for _ in range(runs):
        for path in best:
            best[path] = min(best[path], processor_seconds(path))
    return {kind: max(best[whole] - best[first], 1e-9) / pairs for kind, (first, whole) in paths.items()}


def main():
    parser = argparse.ArgumentParser(description="Times the kinds of object under lockd play.")
    parser.add_argument("--names", type=int, nargs=2, default=[1, 50_000], metavar=("FEW", "MANY"))
    parser.add_argument("--pairs", type=int, default=90_000, help="pairs of requests over the names")
    parser.add_argument("--runs", type=int, default=5, help="runs of each schedule, of which the shortest counts")
    parser.add_argument("--seed", type=int, default=1)
    options = parser.parse_args()
    must_be_built()

    with tempfile.TemporaryDirectory() as folder:
        few, many = (
            costs(schedules(folder, names, options.pairs, options.seed), options.pairs, options.runs)
            for names in options.names
        )
    for kind in KINDS:
        print(
            "%-17s %6.2f microseconds a pair over %d names, %.2f times the %s; over %d names %.2f times as much"
            % (kind, few[kind] * 1e6, options.names[0], few[kind] / few[FIRST_KIND], FIRST_KIND,
               options.names[1], many[kind] / few[kind])
        )


if __name__ == "__main__":
    main()
