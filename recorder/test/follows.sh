# What is told while the program runs. recorder/test/run has the functions.

# begin_live WORDS OF RECORD..: runs it with `held-open`, a pipe that stays open until `end_live`. It has done its work when
# this returns.
begin_live() {
    rm -f held-open && mkfifo held-open
    "$record" "$@" >recorded.out 2>recorded.err <held-open &
    recorder_process=$!
    exec 8>held-open
    within grep -q '^done' recorded.out
}

comes() {
    within grep -q "$1" recorded.err
}

logged() {
    cat told.* 2>/dev/null | grep -q '^lock order reversal'
}

end_live() {
    exec 8>&-
    wait "$recorder_process"
}

if wanted follows; then
    compile live
    "$record" -- true 2>/dev/null
    begin_live -- ./live 0
    comes '^ "pool" -> "journal" @ live.c:17$' && ! grep -q '^record: ' recorded.err
    before=$?
    end_live && [ $before -eq 0 ] && [ "$(grep -c '^lock order reversal' recorded.err)" -eq 1 ] &&
        [ "$(tail -n 1 recorded.err)" = "record: 1 report, 0 circles, 1 process" ]
    tell follows "a report of a program that goes on" $?
    RECORD_FRAMES=8 begin_live -- ./live 0
    comes '^  both (live.c:17)$'
    before=$?
    end_live && [ $before -eq 0 ]
    tell follows "its callers" $?
    writing_all begin_live -- ./live 0
    comes '^lock order reversal'
    before=$?
    end_live && [ $before -eq 0 ]
    tell follows "of a recording of all requests" $?
    begin_live --log-file told.%p -- ./live 0
    within logged && [ ! -s recorded.err ]
    before=$?
    end_live && [ $before -eq 0 ] && [ "$(cat told.* | grep -c '^lock order reversal')" -eq 1 ]
    tell follows "in the log" $?
    begin_live --quiet -- ./live 0
    sleep 1
    [ ! -s recorded.err ]
    before=$?
    end_live && [ $before -eq 0 ] && grep -q '^lock order reversal' recorded.err
    tell follows "nothing with --quiet before the program has ended" $?
    begin_live -- ./live 1
    comes '^ "pool" -> "journal" @ live.c:17$'
    before=$?
    end_live && [ $before -eq 0 ]
    tell follows "a report of a child that has ended" $?
fi

# runs_made: how often the verifier was asked to judge lines.
runs_made() {
    grep -c '^findings$' words
}

# The verifier goes on with the program, and has each line once.
if wanted once && has_libdw once; then
    compile live && compile kinds
    printf '#!/bin/sh\necho "$1" >>"%s/words"\nexec "%s" "$@"\n' "$work" "$WITNESS" >counting && chmod +x counting
    verifier=$WITNESS
    WITNESS=$work/counting
    "$record" -- true 2>/dev/null
    rm -f words
    begin_live -- ./live 0
    comes '^lock order reversal' && [ "$(runs_made)" -eq 2 ]
    before=$?
    end_live && [ $before -eq 0 ] && [ "$(runs_made)" -eq 2 ] && grep -q '^record: 1 report, 0 circles, 1 process$' recorded.err
    tell once "one verifier looks before the program, and one while it goes on and at its end" $?
    printf '%s\n' '"made()<main()"' '"kinds.c:8<kinds.c:25" "kinds.c:8<kinds.c:24"' >list && rm -f words
    "$record" --quiet --ignore list --json once.json -- ./kinds 2>recorded.err
    [ "$(runs_made)" -eq 2 ] && [ "$(grep -c '"silenced": true' once.json)" -eq 2 ] && grep -q 'list ignores 2 reports' recorded.err
    tell once "what is ignored is asked for with the rest" $?
    rm -f words
    "$record" --quiet -- sh -c './live 0; ./kinds' 2>both.err </dev/null
    [ "$(runs_made)" -eq 2 ] && grep -q '^record: 3 reports, 0 circles, 2 processes$' both.err
    tell once "one verifier for processes that differ" $?
    printf '#!/bin/sh\necho "$1" >>"%s/words"\n[ "$1" = findings ] || exec "%s" "$@"\nsed -u "s/^process /PROCESS /" | "%s" "$@"\n' \
        "$work" "$verifier" "$verifier" >counting && rm -f words
    "$record" --quiet -- sh -c './live 0; ./kinds' 2>recorded.err </dev/null
    sed -i 's/^==[0-9]*== //' both.err recorded.err
    [ "$(runs_made)" -eq 3 ] && diff both.err recorded.err
    tell once "one for each where it can't judge one after another" $?
    # Its input: a file that is read as it grows is begun once, but where types come to be one.
    printf '#!/bin/sh\n[ "$1" = findings ] || exec "%s" "$@"\ntee -a "%s/lines" | "%s" "$@"\n' "$verifier" "$work" "$verifier" >counting
    for level in -g -g1; do
        compile later $level && rm -f lines && "$record" -- ./later >recorded.out 2>recorded.err
        [ "$(grep -c '^asked' lines)" -eq $([ $level = -g ] && echo 1 || echo 2) ] && grep -qx look lines &&
            grep -q '^ "front" -> "back" @ later.c:17$' recorded.err
        tell once "each line is told once ($level)" $?
    done
    WITNESS=$verifier
fi

# What `record` has begun itself is nothing that goes on after the program.
if wanted ended; then
    compile live
    "$record" -- true 2>/dev/null
    "$record" -- sh -c 'for n in 1 2 3 4 5 6 7 8 9 10 11 12 13 14 15 16; do ./live 0; done; sleep 0.5' >recorded.out 2>recorded.err </dev/null
    [ "$(grep -c 'lock order reversal' recorded.err)" -eq 1 ] && ! grep 'goes on' recorded.err &&
        [ "$(tail -n 1 recorded.err)" = "record: 16 reports, 0 circles, 16 processes" ]
    tell ended "nothing goes on after processes that were told of while others ran" $?
fi

# Each process has the report: it is told of one of them.
if wanted equal; then
    compile live
    "$record" -- ./live 3 >recorded.out 2>recorded.err </dev/null
    [ "$(grep -c 'lock order reversal' recorded.err)" -eq 1 ] &&
        grep -q '^record: the report of "journal" and "pool" @ live.c:17 of process [0-9]* is one of 2 more: [0-9]*, [0-9]*$' \
            recorded.err && [ "$(tail -n 1 recorded.err)" = "record: 3 reports, 0 circles, 3 processes" ]
    tell equal "a report of three processes is told once" $?
    rm -f told.*
    "$record" --log-file told.%p -- ./live 3 >recorded.out 2>recorded.err </dev/null
    [ "$(cat told.* | grep -c 'lock order reversal')" -eq 3 ]
    tell equal "each log has it" $?
    "$record" -- ./live 20 >recorded.out 2>recorded.err </dev/null
    grep -q ' is one of 19 more: \([0-9]*, \)\{7\}[0-9]* and 11 others$' recorded.err
    tell equal "of many processes eight are named" $?
fi

# Threads that wait for one another are told of while they do, and what is wanted is done.
if wanted hangs; then
    compile deadlock
    # Where a source is newer, this builds what is needed.
    "$record" -- true 2>/dev/null
    "$record" -- ./deadlock >recorded.out 2>recorded.err &
    recorder_process=$!
    comes '^circle:$' && comes '^ seat [0-9]* .* waits for "pool" held by seat [0-9]* @ deadlock.c:24$' &&
        ! grep -q '^record: ' recorded.err
    before=$?
    kill "$recorder_process"
    wait "$recorder_process"
    [ $before -eq 0 ] && [ "$(grep -c '^circle:$' recorded.err)" -eq 1 ] &&
        grep -q '^record: 1 report, 1 circle, 1 process$' recorded.err
    tell hangs "a circle while the program goes on, once" $?
    timeout 300 "$record" --on-deadlock exit=7 -- ./deadlock 2>recorded.err
    [ $? -eq 7 ] && [ "$(grep -c '^circle:$' recorded.err)" -eq 1 ] &&
        grep -q '^record: deadlock (process [0-9]*) is ended: its threads wait for one another$' recorded.err
    tell hangs "--on-deadlock exit=7" $?
    timeout 300 "$record" --on-deadlock kill -- sh -c './deadlock; echo went on; exit 3' >recorded.out 2>recorded.err
    [ $? -eq 3 ] && grep -q '^went on$' recorded.out
    tell hangs "--on-deadlock kill ends the process that hangs alone" $?
    for word in exit= exit=0 exit=256 exit=7x stop; do
        "$record" --on-deadlock $word -- true 2>recorded.err
        [ $? -eq 2 ] && grep -q '^record: --on-deadlock is tell, kill or exit=N' recorded.err
        tell hangs "--on-deadlock $word" $?
    done
    compile slow
    timeout 300 "$record" --on-deadlock exit=7 -- ./slow >recorded.out 2>recorded.err
    [ $? -ne 7 ] && ! grep -q '^circle:$' recorded.err
    tell hangs "a wait of some seconds that ends" $?
    compile patient
    timeout 300 "$record" --on-deadlock exit=7 -- ./patient >recorded.out 2>recorded.err
    [ $? -eq 0 ] && grep -q '^both went on$' recorded.out
    tell hangs "a circle of which one gives up is left alone" $?
    # A wait for a condition ends with its mutex alone: it counts as a wait for that.
    compile conditions
    for requests in new all; do
        record=$(recorder_of $requests)
        for word in signalled unsignalled timed known two; do
            timeout 300 "$record" --on-deadlock exit=7 -- ./conditions $word >recorded.out 2>recorded.err
            [ $? -eq 7 ] && [ "$(grep -c '^circle:$' recorded.err)" -eq 1 ] && ! grep -q '^line ' recorded.err &&
                grep -q '^ seat [0-9]* .* waits for "inner" held by seat [0-9]* @ conditions.c:7[24]$' recorded.err &&
                grep -q '^ seat [0-9]* holds "outer" @ conditions.c:62$' recorded.err
            tell hangs "a circle with a wait for a condition: $word ($requests requests)" $?
        done
        timeout 300 "$record" --on-deadlock exit=7 -- ./conditions ends >recorded.out 2>recorded.err
        [ $? -eq 0 ] && [ "$(cat recorded.out)" = ended ] &&
            printf '%s\n' "$clean" 'record: nothing to report' | diff - recorded.err
        tell hangs "a wait for a condition that comes late, while threads wait for what its thread holds ($requests requests)" $?
        timeout 300 "$record" --on-deadlock exit=7 -- ./conditions left >recorded.out 2>recorded.err
        [ $? -eq 0 ] && [ "$(cat recorded.out)" = ended ] && ! grep -q '^circle:$' recorded.err &&
            [ "$(tail -n 1 recorded.err)" = 'record: nothing in what was recorded' ]
        tell hangs "a wait for a condition that is left by a jump ($requests requests)" $?
    done
    record=$recorder/record
fi
