#!/bin/sh
# bench/reports.sh: what `record` itself takes: a program without locks; how soon a report of a program that goes on stands on
# standard error, straight after its request and where the program had asked for 45,000 pairs of types before; and many processes
# that have a report. It writes a table. The times are of wall: the least of five runs (RUNS names another number), and the
# middle one. RECORDER names another recorder's folder.
set -eu
here=$(dirname "$(readlink -f "$0")")
recorder=${RECORDER:-$here/../recorder}
folder=$(mktemp -d)
trap 'rm -rf "$folder"' EXIT
"$recorder/record" -- true 2>/dev/null

# asks PAIRS FILE: asks for so many pairs of 301 types, and then for nothing for a second and a half. Then it takes two locks
# both ways, and tells the file when. Without words it does that alone. It has no debug information: each mutex has the type of
# the line that makes it.
awk 'BEGIN {
    print "#include <pthread.h>\n#include <stdio.h>\n#include <stdlib.h>\n#include <time.h>\n#include <unistd.h>"
    print "static pthread_mutex_t first = PTHREAD_MUTEX_INITIALIZER, second = PTHREAD_MUTEX_INITIALIZER;"
    print "static pthread_mutex_t *made[301];"
    print "static void both(pthread_mutex_t *one, pthread_mutex_t *other) {"
    print "    pthread_mutex_lock(one); pthread_mutex_lock(other); pthread_mutex_unlock(other); pthread_mutex_unlock(one); }"
    print "static void burst(long pairs) {"
    for (n = 0; n < 301; n++)
        printf "    made[%d] = malloc(sizeof *made[0]);\n    pthread_mutex_init(made[%d], NULL);\n", n, n
    print "    for (int i = 0; i < 301; i++)"
    print "        for (int j = i + 1; j < 301 && pairs > 0; j++, pairs--) both(made[i], made[j]);"
    print "    usleep(1500000); }"
    print "int main(int count, char **words) {"
    print "    struct timespec now;"
    print "    if (count > 2 && atol(words[1]) > 0) burst(atol(words[1]));"
    print "    both(&first, &second);"
    print "    clock_gettime(CLOCK_REALTIME, &now);"
    print "    both(&second, &first);"
    print "    if (count > 2) {"
    print "        FILE *file = fopen(words[2], \"w\");"
    print "        fprintf(file, \"%lld\\n\", (long long)now.tv_sec * 1000000000 + now.tv_nsec);"
    print "        fclose(file);"
    print "        sleep(1); }"
    print "    return 0; }"
}' >"$folder/asks.c"
cc -O1 -pthread -o "$folder/asks" "$folder/asks.c"

cat >"$folder/measure.py" <<'END'
import os, subprocess, sys, time
folder, record, runs = sys.argv[1], sys.argv[2], int(sys.argv[3])
asks = f"{folder}/asks"


def row(name, times, unit=1000):
    times.sort()
    print(f"| {name} | {times[0] * unit:.0f} | {times[len(times) // 2] * unit:.0f} |", flush=True)


def whole(*words):
    """The seconds of wall of a run."""
    start = time.monotonic()
    subprocess.run([record, "--", *words], stdout=subprocess.DEVNULL, stderr=subprocess.DEVNULL, check=False)
    return time.monotonic() - start


def until_told(pairs):
    """The seconds from the request to the report's first line."""
    with subprocess.Popen([record, "--", asks, str(pairs), f"{folder}/when"], stderr=subprocess.PIPE) as run:
        told = None
        for line in run.stderr:
            if told is None and b"reversal" in line:
                told = time.time()
        run.wait()
    if told is None:
        sys.exit("bench: no report was told")
    with open(f"{folder}/when", encoding="ascii") as it:
        return told - int(it.read()) / 1e9


many = "n=0; while [ $n -lt $1 ]; do \"$2\"; n=$((n + 1)); done"
print("| Of what | Least, ms | Middle |")
print("|---|---|---|")
row("`record -- true`, in all", [whole("true") for _ in range(runs)])
row("from a program's first such request to its report, while it goes on", [until_told(0) for _ in range(runs)])
row("the same after 45,000 pairs of types, and nothing for 1.5 s", [until_told(45000) for _ in range(runs)])
for count in 60, 1000:
    row(f"{count:,} processes, one after the other, that all have one report", [whole("sh", "-c", many, "sh", str(count), asks) for _ in range(runs)])
END
python3 "$folder/measure.py" "$folder" "$recorder/record" "${RUNS:-5}"
