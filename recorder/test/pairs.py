"""pairs.py [marked]: prints the pairs of types that a trace tells of, a line each: a lock of the second type was asked for, and
not yet held, while its seat held one of the first. A type is its class and its name. The number at a name's end, which parts
types of one name, goes by the order in which they came, so it is left out.

With `marked` it reads a recorder's file in which each request stands, and prints the pairs that no request tells of but such as
are marked: those that the recorder would leave out. There a type is its number."""

import re
import sys

marked = sys.argv[1:] == ["marked"]
types, held, pairs = [], {}, {}
for line in open(sys.stdin.fileno(), encoding="latin1"):
    word, *rest = line.rstrip("\n").split(" ")
    if word == "init" and marked:
        types.append(rest[3])
    elif word == "init":
        quoted = line.split('"')
        name = re.sub("#[0-9]+$", "", quoted[3] if len(quoted) > 3 else quoted[1])
        types.append(f'{rest[1]} "{name}"')
    elif word in ("check", "lock", "try", "unlock"):
        locks = held.setdefault(rest[0], {})
        lock = int(rest[1])
        if word == "check" and lock not in locks:
            for other in locks:
                pairs.setdefault((types[other - 1], types[lock - 1]), set()).add(rest[3])
        elif word in ("lock", "try"):
            locks[lock] = locks.get(lock, 0) + 1
        elif word == "unlock":
            locks[lock] = locks.get(lock, 0) - 1
            if locks[lock] == 0:
                del locks[lock]
for (first, second), letters in pairs.items():
    if not marked or letters == {"k"}:
        print(first, "->", second)
