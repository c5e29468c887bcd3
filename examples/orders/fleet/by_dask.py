#!/usr/bin/env python3
"""by_dask.py SCHEDULER OUT FOLDER..: the orders of all recordings in these folders, each once, in OUT, and how many of them met
each in OUT.runs, as `orders judge` reads them.

SCHEDULER is the address of a dask scheduler, tcp://HOST:PORT. Its workers read the files, so each of them sees the folders by
these names. It needs Dask's distributed (Debian: python3-distributed) here, on the scheduler's machine and on the workers'.
"""

import os
import sys

from distributed import Client

FILES_AT_ONCE = 200


def counted(files):
    """The orders of these files: how often each was met, and the least of its lines, which has an origin."""
    found = {}
    for name in files:
        with open(name, "rb") as file:
            for line in file:
                line = line.rstrip(b"\n")
                count, least = found.get(line.split(b"\t", 1)[0], (0, line))
                found[line.split(b"\t", 1)[0]] = count + 1, min(least, line)
    return found


def together(*parts):
    """The orders of several parts."""
    found = dict(parts[0])
    for part in parts[1:]:
        for order, (count, least) in part.items():
            before, line = found.get(order, (0, least))
            found[order] = before + count, min(least, line)
    return found


def recordings(folders):
    for folder in folders:
        for place, _, names in sorted(os.walk(folder)):
            yield from (os.path.join(place, name) for name in sorted(names) if name.endswith(".orders"))


def main(scheduler, out, folders):
    files = list(recordings(folders))
    with Client(scheduler) as client:
        parts = client.map(counted, [files[at:at + FILES_AT_ONCE] for at in range(0, len(files), FILES_AT_ONCE)])
        while len(parts) > 1:
            parts = [client.submit(together, *parts[at:at + 8]) for at in range(0, len(parts), 8)]
        found = parts[0].result() if parts else {}
    with open(out, "wb") as lines, open(out + ".runs", "wb") as counts:
        counts.write(b"runs %d\n" % len(files))
        for order in sorted(found):
            lines.write(found[order][1] + b"\n")
            counts.write(b"%d %s\n" % (found[order][0], order))


if __name__ == "__main__":
    if len(sys.argv) < 4:
        sys.exit(__doc__)
    main(sys.argv[1], sys.argv[2], sys.argv[3:])
