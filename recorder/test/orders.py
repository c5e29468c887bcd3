#!/usr/bin/env python3
"""Files of orders that are made, and what `orders judge` has to say of them by a second reading of the rules.

  orders.py fleet FOLDER RUNS    so many recordings of one program, two of which have an order against the others': planted.txt
                                 has the two
  orders.py random SEED COUNT    so many graphs made at random: what `orders judge` reports is what closes a circle with the
                                 orders of more runs; ORDERS names the command
  orders.py large FILE TYPES     a file whose types are all in one knot, and the two orders that make it one in FILE.planted
  orders.py ring FILE TYPES      one circle through so many types
  orders.py clean FILE TYPES     no circle
  orders.py broken SEED COUNT    so many files with bytes that are changed: each is judged, or refused with its line
  orders.py within SECONDS MB COMMAND..   runs it, and fails where it takes more time of a processor, or more memory
"""
import os
import random
import re
import resource
import subprocess
import sys
import tempfile


def line(a, b, where="f (a.c) while g (b.c)", run=None):
    return f'mtx "{a}" > mtx "{b}"' + (f"\t# {where}, {run}" if run else "")


def written(path, lines):
    with open(path, "w") as file:
        file.writelines(each + "\n" for each in sorted(lines))


def fleet(folder, runs):
    """Each recording has a part of the orders of a program with 400 types. Recordings 17 and 9000 have one that goes back."""
    chance = random.Random(7)
    names = [f"server:Module{i // 20}::lock_{i}" for i in range(400)]
    orders = sorted({tuple(sorted(chance.sample(range(400), 2))) for _ in range(900)})
    os.makedirs(folder, exist_ok=True)
    # Against an order that most runs have, and against a way of two orders.
    a, b = orders[100]
    c, d = next((a, b) for a, b in orders[300:] if any(x == b for x, _ in orders))
    e = next(y for x, y in orders if x == d)
    planted = {runs // 5: line(names[b], names[a], run="rare"), runs - 100: line(names[e], names[c], run="rarer")}
    for run in range(runs):
        some = [order for order in orders if chance.random() < 0.1 or order in ((a, b), (c, d), (d, e))]
        lines = [line(names[x], names[y], f"f{x} (m{x % 9}.c) while g{y} (n.c)", f"run{run}") for x, y in some]
        if run in planted:
            lines.append(planted[run])
        written(os.path.join(folder, f"{run}.orders"), lines)
    with open(os.path.join(os.path.dirname(folder) or ".", "planted.txt"), "w") as file:
        for each in sorted(planted.values()):
            file.write(each.split("\t")[0] + "\n")


def leads(edges, start, end):
    """Whether the edges lead from start to end."""
    after = {}
    for x, y in edges:
        after.setdefault(x, []).append(y)
    met, rest = {start}, [start]
    while rest:
        for y in after.get(rest.pop(), ()):
            if y == end:
                return True
            if y not in met:
                met.add(y)
                rest.append(y)
    return False


def closing(counted):
    """Those that close a circle with the ones before them: orders of more runs come first, then by their lines."""
    known, against = [], []
    for x, y in sorted(counted, key=lambda pair: (-counted[pair], line(*pair))):
        (against if leads(known, y, x) else known).append((x, y))
    return sorted(against)


def reported(text):
    """The pairs of types of each report: the first is held, the second asked for."""
    return sorted(re.findall(r'^ 1st "([^"]*)" .*\n 2nd "([^"]*)" ', text, re.M))


def distance(edges, start, end):
    """By how few of the edges start leads to end."""
    far, rest = {start: 0}, [start]
    while rest:
        x = rest.pop(0)
        for a, b in edges:
            if a == x and b not in far:
                far[b] = far[x] + 1
                rest.append(b)
    return far[end]


def ways_are_shortest(counted, text):
    """Whether each report's steps lead from the second of its types to the first, by as few orders as can be."""
    known, ways = [], {}
    for report in text.split("lock order reversal:\n")[1:]:
        (x, y), = re.findall(r'^ 1st "([^"]*)" .*\n 2nd "([^"]*)" ', report, re.M)
        ways[x, y] = re.findall(r'^ "([^"]*)" -> "([^"]*)" @ ', report, re.M)
    for x, y in sorted(counted, key=lambda pair: (-counted[pair], line(*pair))):
        if (x, y) not in ways:
            known.append((x, y))
            continue
        way = ways[x, y]
        ends = [y, *(b for _, b in way)]
        if [a for a, _ in way] != ends[:-1] or ends[-1] != x or not set(way) <= set(known) or len(way) != distance(known, y, x):
            return False
    return True


def judged(files):
    done = subprocess.run([os.environ["ORDERS"], "judge", *files], capture_output=True, text=True)
    return done.stdout, done.returncode, done.stderr


def at_random(seed, count):
    wrong = circles = 0
    with tempfile.TemporaryDirectory() as work:
        for at in range(count):
            chance = random.Random(f"{seed}-{at}")
            names = [f"t{i}" for i in range(chance.randrange(2, 9))]
            files, counted = [], {}
            for run in range(chance.randrange(1, 6)):
                pairs = {tuple(chance.sample(names, 2)) for _ in range(chance.randrange(0, 8))}
                for pair in pairs:
                    counted[pair] = counted.get(pair, 0) + 1
                files.append(os.path.join(work, f"{run}"))
                written(files[-1], [line(*pair, run=f"run{run}") for pair in pairs])
            wanted = closing(counted)
            text, status, complaints = judged(files)
            circles += bool(wanted)
            if reported(text) != wanted or not ways_are_shortest(counted, text) or status != bool(wanted) or complaints or (not wanted) != ("orders: clean: " in text):
                wrong += 1
                print(f"orders.py: graph {seed}-{at}: {reported(text)}, {status} in place of {wanted}: {complaints}")
    print(f"{count} graphs, {circles} with circles, {wrong} wrong")
    return wrong > 0 or circles == 0 or circles == count


def broken(seed, count):
    """Of a whole file: bytes that are others, are missing or twice; and its counts, too."""
    wrong = refused = 0
    with tempfile.TemporaryDirectory() as work:
        path = os.path.join(work, "file")
        lines = sorted(line(f"t{i}", f"t{i + j}", run="run") for i in range(6) for j in (1, 2))
        whole = {"": "".join(each + "\n" for each in lines).encode(),
                 ".runs": ("runs 9\n" + "".join(f"{2 + i % 5} {i % 9 + 1} {each.split(chr(9))[0]}\n" for i, each in enumerate(lines))).encode()}
        for at in range(count):
            chance = random.Random(f"{seed}-{at}")
            for part, text in whole.items():
                text = bytearray(text)
                for _ in range(chance.choice([0, 1, 1, 2])):
                    place = chance.randrange(len(text))
                    text[place:place + chance.randrange(3)] = chance.choice(
                        [b"", b"\0", b"\xff", b'"', b"\n", b"\t", b" ", b">", b"9" * 30, b"-", text[place:place + 40]])
                with open(path + part, "wb") as file:
                    file.write(text)
            done = subprocess.run([os.environ["ORDERS"], "judge", path], capture_output=True)
            refused += done.returncode == 2
            is_refused = done.returncode == 2 and re.fullmatch(rb"orders: [^\n]*: line [0-9]+: [^\n]*\n", done.stderr) and not done.stdout
            if not is_refused and not (done.returncode in (0, 1) and done.stdout and not done.stderr):
                wrong += 1
                print(f"orders.py: file {seed}-{at}: {done.returncode}, {done.stdout[-200:]}, {done.stderr[-2000:]}")
    print(f"{count} files, {refused} refused, {wrong} wrong")
    return wrong > 0 or refused == 0 or refused == count


def large(path, types):
    """A long way through all types, with shorter ones, known by many runs; and two orders back."""
    names = [f"t{i}" for i in range(types)]
    lines = {line(names[i], names[i + 1], run="often") for i in range(types - 1)}
    lines |= {line(names[i], names[i + 400], run="often") for i in range(0, types - 400, 7)}
    back = [line(names[types - 1], names[0], run="rare"), line(names[types // 2 + 60], names[types // 2], run="rare")]
    written(path, lines)
    written(path + ".again", lines)
    written(path + ".planted", back)


def within(seconds, megabytes, command):
    status = subprocess.run(command).returncode
    used = resource.getrusage(resource.RUSAGE_CHILDREN)
    time, memory = used.ru_utime + used.ru_stime, used.ru_maxrss / 1000
    print(f"{time:.2f} s of a processor, {memory:.0f} MB", file=sys.stderr)
    return status if time < seconds and memory < megabytes else 99


def main(words):
    if words[0] == "fleet":
        fleet(words[1], int(words[2]))
    elif words[0] == "random":
        return at_random(words[1], int(words[2]))
    elif words[0] == "broken":
        return broken(words[1], int(words[2]))
    elif words[0] == "large":
        large(words[1], int(words[2]))
    elif words[0] == "ring":
        count = int(words[2])
        written(words[1], [line(f"t{i}", f"t{(i + 1) % count}") for i in range(count)])
    elif words[0] == "clean":
        count = int(words[2])
        written(words[1], [line(f"t{i}", f"t{min(i + j, count - 1)}") for i in range(count - 1) for j in (1, 3, 50) if i + j < count])
    elif words[0] == "within":
        return within(float(words[1]), float(words[2]), words[3:])
    return 0


if __name__ == "__main__":
    sys.exit(main(sys.argv[1:]))
