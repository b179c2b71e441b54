#!/usr/bin/env python3
"""Writes a schedule that looks like chance, and is the same each time.

    checks/made_schedule.py SEED LINES [MOMENT]

Its clock goes on from the moment. The stored runs of crates/lockd_bad_line and crates/lockd_too_many have the schedules of
2,000 lines with the seeds 8 and 9, and that of crates/lockd_stories has one with the seed 7 among its stories.
"""

import sys

VERBS = ("begin", "ask", "exec", "take")


def numbers(seed):
    """Numbers of 32 bits that look like chance."""
    while True:
        seed = (seed * 6364136223846793005 + 1442695040888963407) % 2**64
        yield seed >> 32


def schedule(seed, lines, moment):
    """Threads of three clients try and unlock two locks. Mostly a thread goes on with its request."""
    chance = numbers(seed)
    stages = {}
    for _ in range(lines):
        kind, who, what = next(chance) % 40, next(chance) % 6, next(chance)
        thread = "%d %d" % (1 + who % 3, 1 + who // 3)
        if kind == 0:
            yield "force %s" % "ab"[what % 2]
        elif kind < 4:
            # Now and then an earlier moment, which changes nothing.
            moment += what % 12
            yield "tick %d" % max(moment - what // 12 % 2 * 5, 0)
        else:
            stage = stages.get(thread, 0) if kind < 36 else what // 80 % 4
            if stage == stages.get(thread, 0):
                stages[thread] = (stage + 1) % 4
            if stage == 0:
                call = ("lock_try", "lock_try", "lock_unlock")[what // 320 % 3], "ab"[what % 2], 1 + what // 2 % 160
                yield "begin %s once %s %s %d" % (thread, *call)
            else:
                yield VERBS[stage] + " " + thread


def main():
    if len(sys.argv) not in (3, 4):
        sys.exit(__doc__)
    seed, lines, moment = (int(word) for word in [*sys.argv[1:], "0"][:3])
    for line in schedule(seed, lines, moment):
        print(line)


if __name__ == "__main__":
    main()
