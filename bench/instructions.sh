#!/bin/sh
# Counts the instructions that a pair of lock and unlock takes, plain and recorded, and tells what the recorder's own are for: by
# callgrind, of a loop that does nothing else. RECORDER names another recorder's folder, to compare.
set -eu
here=$(dirname "$(readlink -f "$0")")
recorder=${RECORDER:-$here/../recorder}
folder=$(mktemp -d)
trap 'rm -rf "$folder"' EXIT
cc -O2 -pthread -o "$folder/pairs" "$here/../recorder/test/pairs.c"
WITNESS=true "$recorder/record" -- true 2>/dev/null
object=$recorder/out/recorder.so
few=2000
many=12000

# counted DEPTH THREADS ROUNDS [OBJECT]: the instructions of a run, whose file is left.
counted() {
    rm -rf "$folder/records" && mkdir "$folder/records"
    env RECORDER_DIRECTORY="$folder/records" ${4:+LD_PRELOAD="$4"} valgrind --tool=callgrind --dump-line=yes \
        --callgrind-out-file="$folder/$3" "$folder/pairs" "$1" "$2" "$3" 2>&1 | sed -n 's/.*Collected : //p'
}

# a_pair DEPTH THREADS [OBJECT]: how many a pair takes.
a_pair() {
    from=$(counted "$1" "$2" $few ${3-})
    to=$(counted "$1" "$2" $many ${3-})
    echo $(((to - from) / ((many - few) * $1 * $2)))
}

python3 "$here/instructions.py"
for depth in 1 2 5 23; do
    plain=$(a_pair "$depth" 1)
    held=$(RECORDER_FRAMES=8 RECORDER_HELD=1 a_pair "$depth" 1 "$object")
    recorded=$(a_pair "$depth" 1 "$object")
    echo "| $depth | $plain | $recorded | $held |" \
        "$(python3 "$here/instructions.py" "$folder/$few" "$folder/$many" "$recorder/runtime" $(((many - few) * depth)))"
done
