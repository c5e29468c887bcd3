# How threads come to hang, or why no schedule is told. recorder/test/run has the functions.

# hangs WHAT WANTED FOUND WORDS..: what stands below the report of these words, with N and M for threads; what schedule.py finds of
# the JSON file. Nothing is told where WANTED is empty.
hangs() {
    what=$1 words=$2 found=$3
    shift 3
    RECORDER_DEPTH=1 RECORD_FRAMES=8 "$record" --quiet --json told.json -- "$@" 2>recorded.err
    sed -n 's/threads \([0-9]*, \)*[0-9]* and [0-9]*/threads N and M/; s/thread [0-9][0-9]*/thread N/g; /^hangs so: /p; /^no schedule: /p' \
        recorded.err >below
    printf '%s' "${words:+$words
}" | diff - below && python3 "$here/schedule.py" told.json "$WITNESS" >followed && printf '%s' "${found:+$found
}" | diff - followed
    tell schedules "$what" $?
}

# unanswered WHAT SCRIPT: nothing is told where the shell does the script in place of `witness forecast`.
unanswered() {
    printf '#!/bin/sh\n[ "$1" != forecast ] || { %s; exit; }\nexec "%s" "$@"\n' "$2" "$WITNESS" >forecaster && chmod +x forecaster
    whole=$WITNESS
    WITNESS=$work/forecaster
    hangs "$1" '' "unanswered 0 0 0" ./single locks
    WITNESS=$whole
}

if wanted schedules; then
    compile single && compile schedule && compile hand
    hangs "two locks in opposite orders" \
        'hangs so: 4 steps, threads N and M, resting on 1 acquisition (single.c:55 has "branch(mutex)" before single.c:56)' \
        "hangs 4 2 1" ./single locks
    hangs "of one thread alone" \
        'hangs so: 4 steps, thread N and a further one that does what thread N did, resting on 1 acquisition (single.c:55 has "branch(mutex)" before single.c:56)' \
        "hangs 4 2 1" ./single alone
    hangs "a circle of three" \
        'hangs so: 6 steps, threads N and M, resting on 2 acquisitions (first single.c:55 has "branch(mutex)/3" before single.c:56)' \
        "hangs 6 3 2" ./single three
    hangs "one of three by two threads" \
        'hangs so: 6 steps, thread N, a further one that does what thread N did and thread N, resting on 2 acquisitions (first single.c:173 has "branch(mutex)/3" before single.c:174)' \
        "hangs 6 3 2" ./single twice
    hangs "two locks of one type" \
        'hangs so: 4 steps, threads N and M, resting on 1 acquisition (single.c:55 has "account(mutex)/2" before single.c:56)' \
        "hangs 4 2 1" ./single twins
    hangs "readers that ask as writers" \
        'hangs so: 4 steps, threads N and M, resting on 1 acquisition (single.c:99 has "try_readers::index" before single.c:100)' \
        "hangs 4 2 1" ./single writers
    hangs "a time limit" \
        'hangs so: 4 steps, threads N and M, until a time limit is over, resting on 1 acquisition (single.c:76 has "branch(mutex)" before single.c:56)' \
        "hangs 4 2 1" ./single timed
    hangs "five philosophers" \
        'hangs so: 10 steps, threads N and M, resting on 4 acquisitions (first schedule.c:91 has "fork_of[1]" before schedule.c:36)' \
        "hangs 10 5 4" ./schedule queue
    hangs "locks that were tried" \
        'hangs so: 4 steps, threads N and M, resting on 1 acquisition (schedule.c:55 has "other" before schedule.c:36)' \
        "hangs 4 2 1" ./schedule tried
    hangs "a lock of both on the way" \
        'hangs so: 8 steps, threads N and M, resting on 1 acquisition (schedule.c:57 has "other" before schedule.c:36)' \
        "hangs 8 2 1" ./schedule way
    hangs "a lock that is taken a hundred times on the way" \
        'hangs so: 6 steps, threads N and M, resting on 1 acquisition (schedule.c:57 has "other" before schedule.c:36)' \
        "hangs 6 2 1" ./schedule loop 100
    hangs "fifteen locks on the way" \
        'hangs so: 34 steps, threads N and M, resting on 1 acquisition (schedule.c:57 has "other" before schedule.c:36)' \
        "hangs 34 2 1" ./schedule long 15
    hangs "a long way" 'no schedule: a thread did more on its way than is kept' "cut 0 0 0" ./schedule long 60
    hangs "locks that each keeps, and has for a while" \
        'no schedule: thread N takes "third" @ schedule.c:64 on its way, which is another one'"'"'s by then' "barred 0 0 0" \
        ./schedule across
    hangs "ways of different times" 'no schedule: when they came on these ways, they weren'"'"'t there at one time' "apart 0 0 0" \
        ./schedule early
    hangs "a wait for a condition, and a request" \
        'hangs so: 6 steps, threads N and M, resting on 1 acquisition (single.c:266 has "account(mutex)" before single.c:225)' \
        "hangs 6 2 1" ./single woken
    hangs "a gate" '' "gate 0 0 0" ./single gate
    hangs "readers" '' "readers 0 0 0" ./single readers
    hangs "a thread that was joined" '' "apart 0 0 0" ./single apart
    hangs "a time before another thread" '' "apart 0 0 0" ./single early
    hangs "waits for conditions" '' "apart 0 0 0" ./single waits
    hangs "types alone" '' "" ./single types
    unanswered "a program that doesn't know the word" 'exit 2'
    unanswered "a program that ends" 'head -n 1 >/dev/null'
    unanswered "a program that says what it reads" cat
    unanswered "a program whose schedule breaks off" "\"$WITNESS\" forecast | head -n 9"
fi
