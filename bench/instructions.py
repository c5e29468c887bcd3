"""instructions.py FEW MANY FOLDER TIMES: what the instructions of the recorder are for, by the functions of its sources in FOLDER
that they stand in, those that were inlined too. FEW and MANY are callgrind's files of two runs, the second of which does TIMES
more of something: it is told how many instructions each of these takes, in a row of a table. Without these words the table's
head is written. bench/instructions.sh runs it."""

import collections
import os
import re
import sys

# What each function is for. The rest of a wrapper is its own: what it keeps, and the real call.
KINDS = {
    "whether it is recorded, and going inside and outside": ["takes_long_way", "goes_inside", "goes_outside", "quick_begins"],
    "the place": ["place_slot", "place_at_pc", "place_at", "detour_at"],
    "the lock": ["lock_bucket", "lock_at"],
    "what is asked for is known": ["locks_with", "locks_held", "is_remembered", "remember"],
    "the errand": ["errand_releases", "release_of", "errand_keeps"],
    "the chain": ["held_fill", "quick_is_known", "quick_ends", "is_held_once", "quick_released"],
}
REST = "the wrapper and the real call"
ALL_KINDS = [*KINDS, REST]
KIND_OF = {name: kind for kind, names in KINDS.items() for name in names}


def functions(path):
    """Where each function of the file begins."""
    found = []
    with open(path, encoding="utf-8") as source:
        for number, line in enumerate(source, 1):
            match = re.match(r"(?:[A-Za-z_].*[ *])?([a-z_0-9]+)\(.*[^;]$", line)
            if match and not line.startswith(("#", "/", " ", "}")):
                found.append((number, match.group(1)))
    return found


def costs(path):
    """The instructions of each line: by file, then by line. Those of the functions that it calls aren't its own."""
    names, cost = {}, collections.Counter()
    file, line, called = "", 0, False
    for text in open(path, encoding="utf-8", errors="replace"):
        match = re.match(r"(fl|fi|fe|fn|cfi|cfl|cob|ob|cfn)=(?:\((\d+)\))? ?(.*)", text.rstrip("\n"))
        if match:
            what, number, name = match.groups()
            space = "file" if what in ("fl", "fi", "fe", "cfi", "cfl") else what
            if name:
                names[space, number] = name
            if what in ("fl", "fi", "fe"):
                file = names.get((space, number), name)
        elif text.startswith("calls="):
            called = True
        elif re.match(r"[+*\-0-9]", text):
            place, count = text.split()[:2]
            line = line + int(place) if place[0] in "+-" else line if place == "*" else int(place)
            if not called:
                cost[file, line] += int(count)
            called = False
    return cost


def head():
    columns = ["Locks held", "Plain", "Recorded", "Each with its callers", *(kind.capitalize() for kind in ALL_KINDS)]
    print("| " + " | ".join(columns) + " |")
    print("|" + "---|" * len(columns))


def main():
    if len(sys.argv) == 1:
        return head()
    few, many, folder, times = sys.argv[1], sys.argv[2], os.path.realpath(sys.argv[3]), int(sys.argv[4])
    begins, sums, further = {}, collections.Counter(), costs(many)
    further.subtract(costs(few))
    for (file, line), count in further.items():
        file = os.path.realpath(file)
        if os.path.dirname(file) != folder:
            continue
        if file not in begins:
            begins[file] = functions(file)
        within = [name for number, name in begins[file] if number <= line]
        sums[KIND_OF.get(within[-1] if within else "", REST)] += count
    print(" | ".join(f"{sums[kind] / times:.0f}" for kind in ALL_KINDS) + " |")


main()
