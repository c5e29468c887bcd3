#!/bin/sh
# Measures `witness replay` on the traces named, or on each that make_trace.sh knows, beside a program that only
# reads the lines (getline in C; awk where there is no C compiler). It writes a table: the least processor time of
# three runs, what that makes a line, and the peak memory. WITNESS names another program to measure, RUNS how
# often each runs, and TRACES a folder in which the traces stay for the next time.
set -e
here=$(dirname "$(readlink -f "$0")")
program=${WITNESS:-$here/../crates/witness/out/witness}
if [ ! -x "$program" ]; then
    echo "bench: there is no program yet: run make" >&2
    exit 1
fi
folder=$(mktemp -d)
trap 'rm -rf "$folder"' EXIT
traces=${TRACES:-$folder}
[ $# -gt 0 ] || set -- hot seats names files held nest chain narrow wide random reports steps

if command -v cc >/dev/null; then
    cat >"$folder/reader.c" <<'END'
#define _GNU_SOURCE
#include <stdio.h>
int main(void)
{
    char *line = NULL;
    size_t room = 0;
    long lines = 0;
    while (getline(&line, &room, stdin) > 0)
        lines++;
    printf("%ld\n", lines);
    return 0;
}
END
    cc -O2 -o "$folder/reader" "$folder/reader.c"
    reader=$folder/reader
else
    printf '#!/bin/sh\nexec awk "END { print NR }"\n' >"$folder/reader"
    chmod +x "$folder/reader"
    reader=$folder/reader
fi

cat >"$folder/measure.py" <<'END'
import os, sys, time
name, trace, runs, *programs = sys.argv[1:]
lines = 0
with open(trace, "rb") as it:
    while block := it.read(1 << 20):
        lines += block.count(b"\n")


def run(words, errors):
    """Runs a command on the trace, and gives its status, its seconds and its processor seconds."""
    opens = [(os.POSIX_SPAWN_OPEN, 0, trace, os.O_RDONLY, 0),
             (os.POSIX_SPAWN_OPEN, 1, "/dev/null", os.O_WRONLY, 0),
             (os.POSIX_SPAWN_OPEN, 2, errors, os.O_WRONLY | os.O_CREAT | os.O_TRUNC, 0o600)]
    start = time.monotonic()
    pid = os.posix_spawnp(words[0], words, os.environ, file_actions=opens)
    _, status, used = os.wait4(pid, 0)
    return os.waitstatus_to_exitcode(status), time.monotonic() - start, used.ru_utime + used.ru_stime


def measure(words):
    """Gives the status, the seconds and processor seconds of the run that took least, and its peak in MB."""
    peak = float("nan")
    if os.path.exists("/usr/bin/time"):
        run(["/usr/bin/time", "-f", "%M", *words], f"{trace}.peak")
        with open(f"{trace}.peak") as it:
            peak = int(it.read().split()[-1]) / 1024
        os.remove(f"{trace}.peak")
    return *min((run(words, "/dev/null") for _ in range(int(runs))), key=lambda it: it[2]), peak


status, wall, used, peak = measure([programs[0], "replay"])
if status not in (0, 1):
    sys.exit(f"bench: {name}: the program ended with status {status}")
_, _, reads, _ = measure(programs[1:])
print(f"| {name} | {lines:,} | {used:.2f} | {used / lines * 1e9:.0f} | {reads / lines * 1e9:.0f} | {peak:.1f} |", flush=True)
END

echo '| Trace | Lines | s | ns a line | Reading alone, ns | Peak, MB |'
echo '|---|---|---|---|---|---|'
for name; do
    [ -f "$traces/$name" ] || "$here/make_trace.sh" "$name" >"$traces/$name"
    python3 "$folder/measure.py" "$name" "$traces/$name" "${RUNS:-3}" "$program" "$reader"
    [ -n "${TRACES:-}" ] || rm "$traces/$name"
done
