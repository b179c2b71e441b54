#!/usr/bin/env python3
"""Times the decoder of RESP2 frames over streams that come in pieces.

    cd crates/frame_race && rt run -- calls 99 1 && cd ../..     # builds the program, if it isn't built yet
    bench/frames.py

One stream has 200,000 calls of the reentrant lock of 99 bytes each, and the other 40 frames of 983,000 bytes, each an array
of 15 bulk strings. The program reads a stream in pieces of a size, and says how many frames came and what processor time
reading took; what it takes to make the stream isn't in it. Whole, each frame is a piece of its own. The ways take turns in
one run, so that what else the machine does falls on all, and the shortest time of each counts. The figures are the cost of
a frame in pieces of 16 KiB against one that comes whole, and the same for a stream that comes at once.
"""

import argparse
import os
import subprocess
import sys

from program import TOP

RACE = os.path.join(TOP, "crates", "frame_race", "out", "frame_race")
PIECE = 16_384
AT_ONCE = 0
# the frames of a stream, by the word of the program: how many there are, and the bytes of each
STREAMS = {"calls": (200_000, 99), "large": (40, 983_000)}


def seconds_of(stream, piece):
    """The processor seconds in which a stream is read in pieces of this size."""
    frames = STREAMS[stream][0]
    run = subprocess.run([RACE, stream, str(piece), str(frames)], capture_output=True, text=True)
    if run.returncode != 0 or run.stdout.strip() != str(frames):
        sys.exit("frame_race %s %d ended with the status %d and wrote %r" % (stream, piece, run.returncode, run.stdout))
    return int(run.stderr) / 1e9


def shortest_times(stream, runs):
    """The shortest time of each way to read a stream, by the size of the pieces."""
    sizes = (STREAMS[stream][1], PIECE, AT_ONCE)
    times = {size: [] for size in sizes}
    for _ in range(runs):
        for size in sizes:
            times[size].append(seconds_of(stream, size))
    return {size: min(times[size]) for size in sizes}


def main():
    parser = argparse.ArgumentParser(description="Times the decoder of RESP2 frames.")
    parser.add_argument("--runs", type=int, default=9, help="runs of each way, of which the shortest counts")
    options = parser.parse_args()
    if not os.access(RACE, os.X_OK):
        sys.exit("there is no %s: see the head of this script" % RACE)

    print("frames  bytes of each  16 KiB pieces, against whole  at once, against whole  frames a second, whole     MB/s")
    for stream, (frames, size) in STREAMS.items():
        took = shortest_times(stream, options.runs)
        whole = took[size]
        print("%6s  %13d  %28.2f  %22.2f  %22.0f  %7.0f" %
              (stream, size, took[PIECE] / whole, took[AT_ONCE] / whole, frames / whole, frames * size / whole / 1e6))


if __name__ == "__main__":
    main()
