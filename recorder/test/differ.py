"""differ.py: of the traces condensed.trace and full.trace of one run, whose orders are in condensed.orders and full.orders, prints
each order that one of them has alone. Below it stands each request of either trace that may have taught it: its line, its seat,
its place, and what the seat held, oldest first."""


def last_type(line):
    """The type is the last name of the line."""
    return line.split('"')[-2]


def requests(path, pairs):
    """Those of a lock of the second type of a pair, after one of the first; by pairs."""
    types, held, found = [], {}, {pair: [] for pair in pairs}
    with open(path, encoding="latin1") as trace:
        for number, line in enumerate(trace, 1):
            word, *rest = line.split()
            if word == "init":
                types.append(last_type(line))
                continue
            if word not in ("check", "lock", "try", "unlock"):
                continue
            chain, lock = held.setdefault(rest[0], []), int(rest[1])
            if word == "check" and chain and lock not in chain:
                pair = types[chain[-1] - 1], types[lock - 1]
                if pair in found:
                    behind = ", ".join(f'"{types[other - 1]}"' for other in chain)
                    found[pair].append(f"line {number}, seat {rest[0]} @ {rest[-1]}, held {behind}")
            elif word in ("lock", "try"):
                chain.append(lock)
            elif word == "unlock":
                # The last one of those that were acquired again.
                del chain[len(chain) - 1 - chain[::-1].index(lock)]
    return found


def orders(path):
    with open(path, encoding="latin1") as lines:
        return {tuple(line.strip()[1:-1].split('","')) for line in lines}


condensed, full = orders("condensed.orders"), orders("full.orders")
differ = condensed ^ full
told = {name: requests(f"{name}.trace", differ) for name in ("condensed", "full")}
for pair in sorted(differ):
    print("condensed" if pair in condensed else "full", f'alone: "{pair[0]}" -> "{pair[1]}"')
    for name, found in told.items():
        for request in found[pair]:
            print(f"  {name}: {request}")
