#!/bin/sh
# Measures the views that look at a whole state: the graph of 1,023 types with every order (522,753 lines), and the circle
# among 256 seats that all wait, or that all wait but for the first, so that there is none. It writes a table: the least
# processor time of three runs, that of the same trace in `witness replay`, and the peak memory of both. WITNESS names
# another program to measure, RUNS how often each runs.
set -e
here=$(dirname "$(readlink -f "$0")")
program=${WITNESS:-$here/../crates/witness/out/witness}
if [ ! -x "$program" ]; then
    echo "bench: there is no program yet: run make" >&2
    exit 1
fi
folder=$(mktemp -d)
trap 'rm -rf "$folder"' EXIT

cat >"$folder/measure.py" <<'END'
import os, sys
trace, runs, program, view = sys.argv[1:]


def run(word):
    """Runs one view of the trace, and gives its status, its processor seconds and its peak in MB."""
    opens = [(os.POSIX_SPAWN_OPEN, 0, trace, os.O_RDONLY, 0),
             (os.POSIX_SPAWN_OPEN, 1, f"{trace}.out", os.O_WRONLY | os.O_CREAT | os.O_TRUNC, 0o600)]
    pid = os.posix_spawn(program, [program, word], os.environ, file_actions=opens)
    _, status, used = os.wait4(pid, 0)
    return os.waitstatus_to_exitcode(status), used.ru_utime + used.ru_stime, used.ru_maxrss / 1024


def measure(word):
    status, used, peak = min((run(word) for _ in range(int(runs))), key=lambda it: it[1])
    if status not in (0, 1):
        sys.exit(f"bench: {view}: the program ended with status {status}")
    return used, peak


replayed, replayed_peak = measure("replay")
used, peak = measure(view)
with open(f"{trace}.out", "rb") as it:
    lines = it.read().count(b"\n")
print(f"| {view} of {os.path.basename(trace)} | {lines:,} | {used:.3f} | {peak:.1f} | {replayed:.3f} | {replayed_peak:.1f} |", flush=True)
END

echo '| View, trace | Lines shown | s | MB | Replay, s | MB |'
echo '|---|---|---|---|---|---|'
for pair in orders:graph ring:circle queue:circle; do
    name=${pair%:*}
    "$here/make_trace.sh" "$name" >"$folder/$name"
    python3 "$folder/measure.py" "$folder/$name" "${RUNS:-3}" "$program" "${pair#*:}"
    rm "$folder/$name" "$folder/$name.out"
done
