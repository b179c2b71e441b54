#!/usr/bin/env python3
"""Times long drills of `lockd`.

    bench/drill.py

A drill of a million events is run several times, and its shortest processor time counts. Its events for each second of that
time are written, and what an event of a short drill costs against one of a long drill, in one run: no event should cost more
because there were many before it. What a start of the program costs is that of a drill of no events, and is taken off.
"""

import argparse

from program import must_be_built, seconds_of

LONG = 1_000_000
SHORT = 100_000
NUMBERS = (7, 23)


def shortest(number, events, runs):
    """The shortest processor time of some runs of a drill."""
    return min(seconds_of(["drill", str(number), str(events)]) for _ in range(runs))


def main():
    parser = argparse.ArgumentParser(description=__doc__, formatter_class=argparse.RawDescriptionHelpFormatter)
    parser.add_argument("--runs", type=int, default=5, help="runs of each drill")
    args = parser.parse_args()
    must_be_built()

    for number in NUMBERS:
        start = shortest(number, 0, args.runs)
        short = (shortest(number, SHORT, args.runs) - start) / SHORT
        long = (shortest(number, LONG, args.runs) - start) / LONG
        print("drill %d: %.2f million events a second, %.2f times the cost of an event among %d" %
              (number, 1 / long / 1e6, long / short, SHORT))


if __name__ == "__main__":
    main()
