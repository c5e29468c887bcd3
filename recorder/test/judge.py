"""judge.py TRACE: whether a trace is one of locks that exclude one another. It names each acquisition that overlaps another
thread's holding; then the status is 1."""

import sys

mode, count, holds = {}, {}, {}
bad = False
with open(sys.argv[1], encoding="latin1") as trace:
    for number, line in enumerate(trace, 1):
        word, *rest = line.split(" ")
        if word == "check":
            mode[rest[0]] = rest[2]
        elif word in ("lock", "try"):
            seat, lock = rest[0], rest[1].rstrip("\n")
            how = mode[seat] if word == "lock" else rest[2]
            for other, held in holds.get(lock, {}).items():
                if other != seat and "x" in (how, held):
                    print(f"line {number}: lock {lock} is held by another thread")
                    bad = True
            holds.setdefault(lock, {}).setdefault(seat, how)
            count[seat, lock] = count.get((seat, lock), 0) + 1
        elif word == "unlock":
            seat, lock = rest[0], rest[1]
            count[seat, lock] = count.get((seat, lock), 0) - 1
            if count[seat, lock] == 0:
                del count[seat, lock], holds[lock][seat]
sys.exit(bad)
