#!/bin/sh
# Measures what the recorder costs: the nanoseconds of processor time that a pair of lock and unlock takes in a loop
# that does nothing else, and its ratio to the plain loop. The loop runs plain, recorded, and recorded with
# the stacks of all that is held; with libwitness, awake and asleep, where its verifier stands built; under helgrind and drd where
# valgrind is installed; and built by the compiler for ThreadSanitizer where that can be linked. Then it measures what a
# start of a program takes, what taking and freeing a block costs while a mutex stands in the heap, the processor time of
# node under work, and how long a recorder's file takes to become a trace. Of RUNS runs (5) the least counts; the ways take
# turns, so that all meet the same machine. RECORDER names another recorder's folder, to compare.
set -eu
blocks=
here=$(dirname "$(readlink -f "$0")")
recorder=${RECORDER:-$here/../recorder}
folder=$(mktemp -d)
trap 'rm -rf "$folder"' EXIT
cc -O2 -pthread -o "$folder/pairs" "$here/../recorder/test/pairs.c"
cc -O2 -pthread -o "$folder/frees" "$here/frees.c"
cc -O2 -o "$folder/starts" "$here/starts.c"
# This builds the recorder where it isn't there; no trace is replayed here.
WITNESS=true "$recorder/record" -- true 2>/dev/null

# recorded COMMAND..: under the recorder, whose file is thrown away.
recorded() {
    rm -rf "$folder/records"
    mkdir "$folder/records"
    env RECORDER_DIRECTORY="$folder/records" ${blocks:+RECORDER_BLOCKS=1} \
        LD_PRELOAD="${blocks:+$recorder/out/blocks.so:}$recorder/out/recorder.so" "$@"
}

once() {
    case $1 in
    plain) "$folder/pairs" "$2" "$3" 400000 ;;
    recorded) recorded "$folder/pairs" "$2" "$3" 400000 ;;
    held) RECORDER_HELD=1 RECORDER_FRAMES=8 recorded "$folder/pairs" "$2" "$3" 400000 ;;
    watched) WITNESS=1 WITNESS_LOG="$folder/log" LD_PRELOAD="$folder/libwitness/libwitness.so" "$folder/pairs" "$2" "$3" 400000 ;;
    asleep) LD_PRELOAD="$folder/libwitness/libwitness.so" "$folder/pairs" "$2" "$3" 400000 ;;
    helgrind | drd) valgrind -q --tool="$1" "$folder/pairs" "$2" "$3" 20000 2>/dev/null ;;
    # Threads that nobody joins would be told of, and the status be 66.
    tsan) TSAN_OPTIONS=report_thread_leaks=0 "$folder/pairs-tsan" "$2" "$3" 100000 ;;
    esac
}

ways="plain recorded held"
if "$here/../libwitness/build" "$folder/libwitness"; then
    ways="$ways watched asleep"
fi
if command -v valgrind >/dev/null; then
    ways="$ways helgrind drd"
fi
if cc -O2 -g -fsanitize=thread -pthread -o "$folder/pairs-tsan" "$here/../recorder/test/pairs.c" 2>/dev/null &&
    TSAN_OPTIONS=report_thread_leaks=0 "$folder/pairs-tsan" 1 1 1 >/dev/null 2>&1; then
    ways="$ways tsan"
fi
echo "| Locks held, threads |$(printf ' %s |' $ways)"
echo "|---|$(printf -- '---|%.0s' $ways)"
for shape in "1 1" "2 1" "5 1" "23 1" "1 4" "2 4" "5 4" "23 4"; do
    for way in $ways; do
        : >"$folder/$way"
    done
    runs=0
    while [ "$runs" -lt "${RUNS:-5}" ]; do
        runs=$((runs + 1))
        for way in $ways; do
            once "$way" ${shape% *} ${shape#* } >>"$folder/$way"
        done
    done
    line="| ${shape% *}, ${shape#* } |"
    least=$(sort -n "$folder/plain" | head -n 1)
    for way in $ways; do
        line="$line $(sort -n "$folder/$way" | head -n 1 | awk -v plain="$least" \
            '{ printf "%.1f (%.2f) |", $1, $1 / plain }')"
    done
    echo "$line"
done

echo
echo '| A program whose thread takes two locks and ends | ms of a processor | kB in memory |'
echo '|---|---|---|'
rm -rf "$folder/records"
mkdir "$folder/records"
for way in $ways; do
    library=
    case $way in
    recorded) library="RECORDER_DIRECTORY=$folder/records LD_PRELOAD=$recorder/out/recorder.so" ;;
    watched) library="WITNESS=1 WITNESS_LOG=$folder/log LD_PRELOAD=$folder/libwitness/libwitness.so" ;;
    asleep) library="LD_PRELOAD=$folder/libwitness/libwitness.so" ;;
    plain) ;;
    *) continue ;;
    esac
    "$folder/starts" 200 $library "$folder/pairs" 2 1 1 | awk -v way="$way" '{ printf "| %s | %s | %s |\n", way, $1, $3 }'
done

# seconds COMMAND..: the processor time that it takes with its children.
seconds() {
    ("$@" >/dev/null 2>&1; times) | tail -n 1 | tr 'ms' '  ' | awk '{ printf "%.3f\n", $1 * 60 + $2 + $3 * 60 + $4 }'
}

# compared TEXT COMMAND..: the least of what the command writes, plain and recorded.
compared() {
    text=$1
    shift
    : >"$folder/plain"
    : >"$folder/recorded"
    runs=0
    while [ "$runs" -lt "${RUNS:-5}" ]; do
        runs=$((runs + 1))
        "$@" >>"$folder/plain"
        measured=1 "$@" >>"$folder/recorded"
    done
    sort -n "$folder/recorded" | head -n 1 | awk -v text="$text" -v plain="$(sort -n "$folder/plain" | head -n 1)" \
        '{ printf "| %s | %s | %s | %.2f |\n", text, plain, $1, $1 / plain }'
}

one_free() {
    if [ -n "${measured-}" ]; then
        recorded "$folder/frees" "$1" "$2"
    else
        "$folder/frees" "$1" "$2"
    fi
}

one_node() {
    if [ -n "${measured-}" ]; then
        seconds recorded node "$here/load.js"
    else
        seconds node "$here/load.js"
    fi
}

echo
echo '| Of what | Plain | Recorded | Ratio |'
echo '|---|---|---|---|'
for bytes in 100 10000 100000 1000000 10000000; do
    compared "to take and free $bytes bytes while a mutex stands in the heap, ns" one_free "$bytes" 20000
done
for bytes in 24 100 10000; do
    blocks=1
    compared "to take and free $bytes bytes with \`--blocks\`, ns" one_free "$bytes" 20000
    blocks=
done
if command -v node >/dev/null; then
    compared "node with \`bench/load.js\`, s" one_node
fi
# A recorder that writes each request.
cc -std=c11 -D_GNU_SOURCE -DWRITE_ALL -O2 -fPIC -shared -fexceptions -fvisibility=hidden -pthread -static-libgcc -Wl,-z,now \
    -I"$recorder" -I"$recorder/runtime" -o "$folder/all.so" "$recorder"/runtime/*.c "$here/../crates/wit_condensed_c/out/libwit_condensed_c.a" -Wl,--exclude-libs,ALL -ldl
echo
echo '| A file of all requests becomes a trace of so many lines | s |'
echo '|---|---|'
for rounds in 138000 1380000; do
    rm -rf "$folder/records" && mkdir "$folder/records"
    env RECORDER_DIRECTORY="$folder/records" LD_PRELOAD="$folder/all.so" "$folder/pairs" 4 1 "$rounds" >/dev/null
    file=$(echo "$folder"/records/*.0)
    begin=$(date +%s)
    "$here/../tools/trace-of" "$file" >"$folder/trace"
    echo "| $(wc -l <"$folder/trace") | $(($(date +%s) - begin)) |"
done
