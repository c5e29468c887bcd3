#!/usr/bin/env python3
"""schedule.py FILE WITNESS: the schedules of a file of `record --json`, by the locks themselves and by `witness circle`.

Each row has to be admitted by the locks as the rows before have left them. In the end each column waits, for a lock that another
one has. Written as a trace of version 2 it has to be one that `witness circle` says hangs, with all columns in the circle.
The file has the line of the source of each row. Prints a line for each report that has a schedule: its result, and how many steps,
columns and rests there are."""

import json
import subprocess
import sys


def admits(had, lock, mode, column):
    others = [m for (c, l), m in had.items() if l == lock and c != column]
    return not others or (mode == "shared" and "exclusive" not in others)


def followed(rows):
    """Who has what in the end, and who waits for what."""
    had, waits = {}, {}
    for row in rows:
        column, lock, mode = row["column"], row["lock"], row["mode"]
        assert column not in waits, "it goes on"
        if row["does"] == "gets":
            assert (column, lock) not in had and admits(had, lock, mode, column), "%s isn't free" % lock
            had[column, lock] = mode
        elif row["does"] == "lets go":
            assert had.pop((column, lock)) == mode
        else:
            assert (column, lock) not in had
            waits[column] = (lock, mode)
    return had, waits


def trace_of(rows):
    locks = sorted({row["lock"] for row in rows})
    lines = ["witness-trace 2 seats %d types 64 locks 64 chunks 64" % max(row["column"] for row in rows)]
    lines += ['init 1 rw - "%d"' % (at + 1) for at in range(len(locks))]
    for row in rows:
        words = "%d %d" % (row["column"], locks.index(row["lock"]) + 1)
        asks = "check %s %s n f:1" % (words, row["mode"][0].replace("e", "x"))
        if row["does"] == "gets":
            lines += [asks, "take " + words, "lock " + words]
        elif row["does"] == "lets go":
            lines += ["unlock %s %s" % (words, row["mode"][0].replace("e", "x")), "free " + words]
        else:
            lines.append(asks)
    return "\n".join(lines) + "\n"


def look_at(schedule, witness):
    rows = schedule["rows"]
    assert bool(rows) == (schedule["result"] == "hangs")
    assert sum(row["rests"] for row in rows) == schedule["rests_on"]
    if not rows:
        return 0, 0
    columns = {row["column"] for row in rows}
    had, waits = followed(rows)
    assert columns == set(waits) == set(range(1, len(columns) + 1))
    for column, (lock, mode) in waits.items():
        assert not admits(had, lock, mode, column), "%d waits for nobody" % column
    told = subprocess.run([witness, "circle"], input=trace_of(rows), capture_output=True, text=True, check=False)
    assert told.returncode == 1, told.stdout
    assert told.stdout.count(" waits for ") == len(columns), told.stdout
    return len(rows), len(columns)


def main():
    with open(sys.argv[1], encoding="utf-8") as file:
        findings = json.load(file)
    lines = {(source["file"], line["line"]) for source in findings["sources"] for line in source["lines"]}
    for report in findings["reports"]:
        schedule = report["single"] and report["single"]["schedule"]
        if schedule:
            lacking = {(row["file"], row["line"]) for row in schedule["rows"] if row["site"]} - lines
            assert not lacking, lacking
            print(schedule["result"], *look_at(schedule, sys.argv[2]), schedule["rests_on"])


main()
