#!/usr/bin/env python3
"""Measures what a held lock takes of the memory of `lockd play`, and what a lease that runs out costs.

    bench/keys.py                           both, over 200,000 locks and over 50,000 names

The memory is the growth of the greatest resident size, from a schedule that takes 20,000 locks of different names to
one that takes LOCKS more. Each lock also has an entry in the stored history. What an entry takes is measured in the
same way, by calls that take nothing else, and is told apart.

The leases run out in a schedule of TRIES times a request for a lock and a tick of a millisecond, over the names in
turn. In one the lease is as long as it takes to come to the name again, so that at each tick but the first ones one
lease runs out; in the other no lease does.
"""

import argparse
import os
import subprocess
import sys
import tempfile
import threading

from play import LEASE, check, request, seconds, taking, thread_of, write_lines
from program import PROGRAM, must_be_built

FEW = 20_000


def resident(lines):
    """The greatest resident size of a run of a schedule, in bytes, once all its lines were answered.

    It is read before the program ends: the size that the system gives afterwards also counts this script, of which
    the program's process was a copy for a moment.
    """
    run = subprocess.Popen([PROGRAM, "play"], stdin=subprocess.PIPE, stdout=subprocess.PIPE)
    schedule = "".join(line + "\n" for line in lines).encode()
    writer = threading.Thread(target=run.stdin.write, args=(schedule,))
    writer.start()
    for _ in lines:
        run.stdout.readline()
    writer.join()
    with open("/proc/%d/status" % run.pid) as status:
        size = next(int(line.split()[1]) for line in status if line.startswith("VmHWM:"))
    run.stdin.close()
    if run.wait() != 0:
        sys.exit("lockd play ended with the status %d" % run.returncode)
    return size * 1024


def growth(few, many, more):
    """Bytes for each of so many things more."""
    return (resident(many) - resident(few)) / more


def memory(folder, locks):
    """Bytes a held lock with its entry of the history, and bytes an entry."""
    few, many = taking(FEW), taking(FEW + locks)
    path = os.path.join(folder, "locks.txt")
    write_lines(path, many)
    check(path, many)
    held = growth(few, many, locks)
    entry = growth(["force x"] * FEW, ["force x"] * (FEW + locks), locks)
    return held, entry


def ticking(names, tries, lease):
    """So many requests over the names in turn, with a tick after each."""
    lines = []
    for number in range(tries):
        place = number % names
        lines += request(thread_of(place), "lock_try", "n%d" % place, lease)
        lines.append("tick %d" % (number + 1))
    return lines


def passing(folder, names, tries, lease, runs):
    """Seconds for such a schedule."""
    path = os.path.join(folder, "ticks-%d.txt" % lease)
    lines = ticking(names, tries, lease)
    write_lines(path, lines)
    check(path, lines)
    return seconds(path, runs)


def main():
    parser = argparse.ArgumentParser(description="Measures held locks and leases that run out.")
    parser.add_argument("--locks", type=int, default=200_000, help="locks that are held")
    parser.add_argument("--names", type=int, default=50_000, help="names whose leases run out")
    parser.add_argument("--tries", type=int, default=200_000, help="requests over these names")
    parser.add_argument("--runs", type=int, default=5, help="runs of each schedule, of which the shortest counts")
    options = parser.parse_args()
    must_be_built()

    with tempfile.TemporaryDirectory() as folder:
        held, entry = memory(folder, options.locks)
        print("an entry of the history takes %.0f bytes" % entry)
        print("a held lock takes %.0f bytes beside its entry" % (held - entry))
        lasting = passing(folder, options.names, options.tries, LEASE, options.runs)
        ending = passing(folder, options.names, options.tries, options.names, options.runs)
        print("%d requests and ticks: %.2f s, and %.2f s where a lease runs out at each" % (options.tries, lasting, ending))
        print("a lease that runs out at each makes that %.2f times as long" % (ending / lasting))


if __name__ == "__main__":
    main()
