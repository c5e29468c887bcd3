#!/bin/sh
# bench/words.sh: what the program's other words take, of inputs that are made here: an import of a million lines, a forecast of
# a million with 500 reports, orders of a thousand runs beside sort(1), and findings of a recording without locks. It writes a
# table: the least processor time of three runs (RUNS names another number), and the most memory. WITNESS names another program.
set -eu
here=$(dirname "$(readlink -f "$0")")
program=${WITNESS:-$here/../crates/witness/out/witness}
if [ ! -x "$program" ]; then
    echo "bench: there is no program yet: run make" >&2
    exit 1
fi
folder=$(mktemp -d)
trap 'rm -rf "$folder"' EXIT

cat >"$folder/measure.py" <<'END'
import os, sys
name, runs, given, *words = sys.argv[1:]


def run():
    """Runs the command once, and gives its processor seconds, and the most memory of one of its processes in MB."""
    opens = [(os.POSIX_SPAWN_OPEN, 0, given, os.O_RDONLY, 0), (os.POSIX_SPAWN_OPEN, 1, "/dev/null", os.O_WRONLY, 0)]
    pid = os.posix_spawnp(words[0], words, os.environ, file_actions=opens)
    _, status, used = os.wait4(pid, 0)
    if os.waitstatus_to_exitcode(status) not in (0, 1):
        sys.exit(f"bench: {name}: the status is {os.waitstatus_to_exitcode(status)}")
    return used.ru_utime + used.ru_stime, used.ru_maxrss / 1024


used, peak = min(run() for _ in range(int(runs)))
print(f"| {name} | {used:.3f} | {peak:.1f} |", flush=True)
END

# row NAME INPUT COMMAND..
row() {
    name=$1
    given=$2
    shift 2
    python3 "$folder/measure.py" "$name" "${RUNS:-3}" "$given" "$@"
}

# Four threads take two locks of forty types each, of 1,000 locks.
awk 'BEGIN {
    srand(7)
    for (n = 0; n < 166667; n++) {
        t = n % 4
        a = int(rand() * 999)
        b = a + 1
        printf "req %d %d type%d x a.c:%d\nacq %d %d type%d x a.c:%d\n", t, a, a / 25, a, t, a, a / 25, a
        printf "req %d %d type%d x b.c:%d\nacq %d %d type%d x b.c:%d\n", t, b, b / 25, b, t, b, b / 25, b
        printf "rel %d %d\nrel %d %d\n", t, b, t, a
    }
}' >"$folder/plain"

# Eight seats take 500 pairs of mutexes, each pair in both orders, one after the other; then all of them the first way again.
awk '
function take(seat, a, b) {
    printf "check %d %d x n f.c:1\nlock %d %d\ncheck %d %d x n f.c:2\nlock %d %d\n", seat, a, seat, a, seat, b, seat, b
    printf "unlock %d %d x\nunlock %d %d x\n", seat, b, seat, a
}
BEGIN {
    print "witness-trace 1 seats 8 types 1001 locks 1001 chunks 64"
    for (lock = 1; lock <= 1000; lock++)
        printf "init 1 mtx - \"m%d\" \"m%d\"\n", lock, lock
    for (pair = 0; pair < 500; pair++) {
        take(1 + pair % 8, 2 * pair + 1, 2 * pair + 2)
        take(1 + (pair + 1) % 8, 2 * pair + 2, 2 * pair + 1)
    }
    for (n = 0; n < 165499; n++)
        take(1 + n % 8, 2 * (n % 500) + 1, 2 * (n % 500) + 2)
}' >"$folder/pairs"

# A thousand runs have 1,000 of 100,000 orders each, between 5,000 types.
mkdir "$folder/runs"
awk -v folder="$folder/runs" 'BEGIN {
    srand(11)
    for (run = 0; run < 1000; run++) {
        file = folder "/" run
        for (n = 0; n < 1000; n++) {
            order = int(rand() * 100000)
            a = order % 5000
            b = (a + 1 + int(order / 5000)) % 5001
            if (b < a) { c = a; a = b; b = c }
            if (a != b)
                printf "mtx \"t%04d\" > mtx \"t%04d\"\t# f%d (a.c) while g (b.c), run%d\n", a, b, n, run >file
        }
        close(file)
    }
}'
(cd "$folder/runs" && for file in *; do LC_ALL=C sort -u -o "$file" "$file"; done && cat -- *) >"$folder/orders"
: >"$folder/nothing"
# A process that asked for nothing.
echo 'asked 0 version 8 missed' >"$folder/recording"

echo '| Of what | s of a processor | MB |'
echo '|---|---|---|'
row "\`import plain\` of $(wc -l <"$folder/plain") lines" "$folder/plain" "$program" import plain
row "\`replay\` of $(wc -l <"$folder/pairs") lines with 500 reports" "$folder/pairs" "$program" replay
"$program" migrate <"$folder/pairs" >"$folder/pairs2" || :
row "\`forecast\` of these, in version 2" "$folder/pairs2" "$program" forecast
row "\`sort -m -u\` of 1,000 files of orders, $(wc -l <"$folder/orders") lines" "$folder/nothing" \
    env LC_ALL=C sh -c 'cd "$0" && exec sort -m -u -- *' "$folder/runs"
row "\`orders judge\` of these lines" "$folder/orders" "$program" orders judge
row "\`orders merge\` of them" "$folder/orders" "$program" orders merge
row "\`findings\` of a recording without locks" "$folder/recording" "$program" findings
