# Tests of what `--on-deadlock` sees: a thread that waits for itself, requests that are repeated, readers behind writers. Read by
# `run`, whose functions it uses.

# hangs_so FRAMES CASE LINES..: it is ended with status 7, and the circle is told once, with exactly these lines below it.
hangs_so() {
    frames=$1
    case=$2
    shift 2
    RECORD_FRAMES=$frames timeout 60 "$record" --on-deadlock exit=7 -- ./hung $case >recorded.out 2>recorded.err
    ended=$?
    printf '%s\n' "$@" | sort >wanted.lines
    sed -n '/^circle:$/,/^[cr]/p; /^a thread waited/,/^[cr]/p' recorded.err | grep '^ seat\|^circle:\|^a thread' |
        sed 's/seat [0-9]/seat N/g; s/ (made[^)]*)//' | sort >told.lines
    [ $ended -eq 7 ] && diff wanted.lines told.lines && ! grep -q '^line ' recorded.err && return
    echo "status $ended:" && cat recorded.err
    return 1
}

# goes_on FRAMES CASE: no circle is told, and the program ends by itself.
goes_on() {
    RECORD_FRAMES=$1 timeout 60 "$record" --on-deadlock exit=7 -- ./hung "$2" >recorded.out 2>recorded.err
    [ $? -eq 0 ] && grep -qx 'all went on' recorded.out && ! grep -q '^circle:\|^line ' recorded.err && return
    cat recorded.err
    return 1
}

if wanted own; then
    compile hung
    for requests in new all; do
        record=$(recorder_of $requests)
        hangs_so 1 waits 'a thread waited for a lock that it held itself:' ' seat N waited for "pool" @ hung.c:153' \
            ' seat N holds "journal" @ hung.c:150' ' seat N holds "pool" @ hung.c:151' &&
            grep -q '^record: hung (process [0-9]*) is ended: a thread of it waits for a lock that it holds$' recorded.err &&
            [ "$(tail -n 1 recorded.err)" = 'record: 0 reports, 1 circle, 1 process' ]
        tell own "a thread that waits for its own mutex is ended ($requests requests)" $?
        goes_on 1 given && grep -q '^a thread waited for a lock that it held itself:$' recorded.err
        tell own "one that gets it from another thread is not ($requests requests)" $?
    done
    record=$recorder/record
fi

if wanted repeats; then
    compile hung
    for requests in new all; do
        record=$(recorder_of $requests)
        for case in repeats both; do
            first=101 second=105
            [ $case = repeats ] || { first=49 && second=43; }
            hangs_so 8 $case circle: ' seat N waits for "pool" held by seat N @ hung.c:43' \
                " seat N waits for \"journal\" held by seat N @ hung.c:$second" \
                " seat N holds \"pool\" @ hung.c:$first" ' seat N holds "journal" @ hung.c:49' &&
                grep -q '^\(record: by now, .*: \)*single locks: both orders, the same locks, threads [0-9]* and [0-9]*$' recorded.err
            tell repeats "requests with a time limit without an end: $case ($requests requests)" $?
        done
        goes_on 8 backs && grep -q '^single locks: .*timed: one was asked for with a time limit$' recorded.err
        tell repeats "a thread that lets its locks go each time ($requests requests)" $?
        goes_on 8 gives && grep -q '^single locks: .*timed: one was asked for with a time limit$' recorded.err
        tell repeats "a thread that asks thrice ($requests requests)" $?
    done
    record=$recorder/record
fi

if wanted behind; then
    compile hung
    for requests in new all; do
        record=$(recorder_of $requests)
        hangs_so 1 readers circle: ' seat N waits for "pool" held by seat N @ hung.c:119' \
            ' seat N waits for "table" behind a writer, who waits for seat N @ hung.c:133' \
            ' seat N holds "pool" @ hung.c:130' ' seat N holds "table" @ hung.c:113'
        tell behind "a reader behind a writer ($requests requests)" $?
        hangs_so 1 twice circle: ' seat N waits for "table" behind a writer, who waits for seat N @ hung.c:117' \
            ' seat N holds "table" @ hung.c:113'
        tell behind "a reader behind a writer who waits for it itself ($requests requests)" $?
        goes_on 1 shares
        tell behind "readers alone ($requests requests)" $?
    done
    record=$recorder/record
fi
