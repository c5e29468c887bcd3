#!/bin/sh
# bench/confirm.sh [TRIES [PLAIN [right]]]: of the models of bugs in recorder/test/confirm, how often each hangs by itself, in
# so many (20) plain runs, and how often `record --confirm` makes it hang, in so many (10) tries: in which of its three runs,
# and after how many seconds all was told. With `right` it is how often models of right programs were confirmed.
#
# bench/confirm.sh RUNS tests [NAME..]: of the right programs in recorder/test, or of these, each of whose reports is steered
# in so many runs (in one, where one thread alone took both orders): how many reports there are, how many steered runs were
# made, and how many reports were confirmed. None is to be. bench/confirm.sh RUNS FILE does that with the commands of a file,
# each in a line after a name and a colon.
#
# RECORDER names another recorder's folder.
set -eu
here=$(dirname "$(readlink -f "$0")")
recorder=${RECORDER:-$here/../recorder}
tries=${1:-10}
plain=${2:-20}
models=${3:-wrong}
commands=$(readlink -f "$plain" || true)
folder=$(mktemp -d)
trap 'rm -rf "$folder"' EXIT
cd "$folder"

# steered NAME WORDS..: the row of a right program.
steered() {
    name=$1
    shift
    RECORD_FRAMES=8 timeout -s KILL 900 "$recorder/record" --on-deadlock kill --confirm="$tries,time=600" -- "$@" >told.out 2>told.err </dev/null || true
    awk -v name="$name" '/: not confirmed in [0-9]* run/ { sub(/.*: not confirmed in /, ""); runs += $1; reports++ }
        /: not confirmed: seemed to hang/ { reports++; seemed++ }
        /: not tried: / { reports++; untried++ }
        /: confirmed: hung in run / { sub(/.*: hung in run /, ""); runs += $1; reports++; confirmed++ }
        /: another circle: / { others++ }
        END { printf "| %s | %d | %d | %d | %d | %d | %d |\n", name, reports, runs, confirmed, seemed, untried, others }' told.err
    if [ -n "${KEEP:-}" ]; then
        cp told.err "$KEEP/$name.told"
    fi
}

# The right programs of recorder/test that have a report of an order without options, each with its words, one for each run;
# - stands for none. Their orders never come at once, since threads are joined in between, or by what the report says.
right_tests() {
    cat <<'END'
accounts both
alike - second
alone
atomics
begun
between
blocks crossed members row
byname - many
c11
cancel
changed
condition
coroutines
crowd
cycle
dropped
ending 0 1 2 3 4
facts spent
forking
futex
glib
guards
handover
helper
inlined
joins
jump
kinds
late
later
leaving
live 0 3
moved both try
named
odd
oneline
openmp
orphans
philosophers
reversal
rwlock
separate
single alone anew apart begun by-two early gate inner later locks not-under one read-gate readers row three through timed twice twins under waits woken writers
small
started
stripes 30
switched
third - timed
triples
tryfirst
trythen
varying
varyings
vectors many
with
writers
END
}

head_of_steered() {
    echo "| Program | Reports | Steered runs | Confirmed | Seemed to hang | Not tried | Other circles |"
    echo "|---|---|---|---|---|---|---|"
}

case $plain in
tests)
    shift 2
    chosen=" $* "
    cp "$recorder"/test/*.c "$recorder"/test/*.cc "$recorder"/test/*.h .
    head_of_steered
    right_tests | while read -r program words; do
        case $chosen in "  " | *" $program "*) ;; *) continue ;; esac
        case $program in openmp) libraries=-fopenmp ;; glib) libraries=-l:libglib-2.0.so.0 ;; *) libraries= ;; esac
        if [ -f "$program.cc" ]; then
            c++ -g -O1 -I"$recorder" -pthread -o "$program" "$program.cc"
        else
            cc -g -O1 -I"$recorder" -pthread -o "$program" "$program.c" $libraries
        fi
        for word in ${words:--}; do
            case $word in -) steered "$program" "./$program" ;; *) steered "$program $word" "./$program" "$word" ;; esac
        done
    done
    exit
    ;;
*[!0-9]*)
    head_of_steered
    while IFS=: read -r program command; do
        steered "$program" sh -c "$command"
    done <"$commands"
    exit
    ;;
esac

cp "$recorder"/test/confirm/* .
cc -g -O1 -pthread -o wrong wrong.c
cc -g -O1 -pthread -o right right.c
c++ -g -O1 -pthread -o observers observers.cc
c++ -g -O0 -pthread -o observers_0 observers.cc

# hang WORDS..: how many of the plain runs hang: they take less than half a second by themselves.
hang() {
    hung=0
    for _ in $(seq "$plain"); do
        timeout -s KILL 5 "$@" >plain.out 2>&1 || hung=$((hung + 1))
    done
    echo $hung
}

# tried WORDS..: of each try in which run it hung, 0 for none, and the seconds that it took.
tried() {
    for _ in $(seq "$tries"); do
        from=$(date +%s%N)
        RECORD_FRAMES=8 timeout 200 "$recorder/record" --on-deadlock kill --confirm "$@" >told.out 2>told.err </dev/null || true
        to=$(date +%s%N)
        run=$(sed -n 's/.* confirmed: hung in run \([0-9]*\) .*/\1/p' told.err | sort -n | head -n 1)
        echo "${run:-0} $(((to - from) / 10000000))"
    done
}

# of NAME WORDS..: its row.
of() {
    name=$1
    shift
    by_itself=$(hang "$@")
    tried "$@" | sort -k 2 -n | awk -v name="$name" -v plain="$by_itself of $plain" '{ runs[$1]++; time[NR] = $2 / 100 }
        END { printf "| %s | %s | %d | %d | %d | %d | %.1f |\n", name, plain, runs[1], runs[2], runs[3], runs[0], time[int((NR + 1) / 2)] }'
}

echo "| Model | Hangs by itself | In run 1 | In run 2 | In run 3 | Not in $tries tries | Seconds |"
echo "|---|---|---|---|---|---|---|"
for model in $("./$models"); do
    of "$model" "./$models" "$model"
done
[ "$models" = right ] || of "observers, -O1" ./observers
[ "$models" = right ] || of "observers, -O0" ./observers_0
