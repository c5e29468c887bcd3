# Tests of whether the lines of a trace stand in an order that locks can have had: `witness migrate` puts the real steps of the
# locks between them. Read by `run`, whose functions it uses.

# is_of_locks RECORD WORDS..: in each process's trace of a run of these words each lock is free when it is taken.
is_of_locks() {
    rm -f kept kept.*
    recorder_used=$1
    shift
    recorded_by "$recorder_used" -o kept -- "$@"
    [ -s kept ] || return 1
    for trace in kept kept.*; do
        [ ! -e "$trace" ] || "$WITNESS" migrate <"$trace" >moved 2>&1 || { tail -n 1 moved && return 1; }
    done
}

if wanted judged; then
    all=$(recorder_of all)
    for line in again anew atomics between c11 cancel condhang condition "conditions ends" contend \
        crowd cycle deadlock "dropped 2" ending forking forks "full 20000 reversal" futex guards \
        handover helper inlined "jump 0" "jump 1" "jump 2" keepers kinds late long named orphans \
        "pairs 4 2 1000" philosophers recursive reused reversal rwlock signals started threads \
        tryfirst trysecond trythen varying varyings with; do
        compile ${line%% *}
        is_of_locks "$all" timeout -s KILL "$(limit_of $line)" ./$line
        tell judged "$line" $?
    done
    # Programs of several sources, with libraries, that crash, or that go on.
    compile_atfork && compile_clash && compile_closed_libraries
    compile closed
    for line in "atfork 12" "clash both" closed "closed back" "crash 2" crew slow; do
        [ -x "${line%% *}" ] || compile ${line%% *}
        is_of_locks "$all" timeout -s KILL "$(limit_of $line)" ./$line
        tell judged "$line" $?
    done
    # A mutex whose holder has ended is still that one's in the trace, and another thread gets it.
    compile odd
    # The line after its request.
    ! is_of_locks "$all" ./odd >refused && bad=$(sed -n 's/^line \([0-9]*\): F35 RawNotFree$/\1/p' refused) && [ -n "$bad" ] &&
        sed -n "$((bad - 1))p" kept | grep -q '^check .* odd.c:46$'
    tell judged "odd, whose robust mutex is got when its holder has ended, is refused there" $?
    for program in between reversal recursive; do
        compile $program
        is_of_locks "$all" ./$program && [ "$(sed -n 2p kept)" = "profile all" ]
        tell judged "$program, whose trace compares all held locks" $?
    done
    "$record" -- true 2>/dev/null
    object=$recorder/out/recorder.so
    compile random -O1
    for seed in 1 2 3 4; do
        for kind in clean mixed; do
            record_both ./random "$seed" $kind && "$WITNESS" migrate <full.trace >/dev/null &&
                "$WITNESS" migrate <condensed.trace >/dev/null
            tell judged "a $kind run, seed $seed" $?
        done
    done
    # Whether its threads meet is a matter of luck, and of how busy the machine is: one run of sixty is enough.
    compile contend -O1
    caught=1
    plant overlapping && for run in $(seq 60); do
        ! is_of_locks overlapping/record ./contend >refused && grep -q '^line [0-9]*: F35 RawNotFree$' refused && caught=0 && break
    done
    tell judged "a recorder that writes unlock too late is told of" $caught
fi

# What is asked for after a try has an order after each held lock.
writing_all example between "three locks, one by a try"
example between "three locks, one by a try"
writing_all example philosophers "five philosophers"
