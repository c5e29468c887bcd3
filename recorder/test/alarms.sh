# Whether single locks were taken both ways, and errors of locks. recorder/test/run has the functions.

# alarm HOW WANTED: what stands below the report of `single HOW`, with N and M for the numbers of threads.
alarm() {
    RECORDER_DEPTH=1 RECORD_FRAMES=8 "$record" --quiet -- ./single "$1" 2>recorded.err
    sed -n 's/thread [0-9][0-9]*/thread N/; s/threads \([0-9]*, \)*[0-9]* and [0-9]*/threads N and M/; s/which [0-9]*/which N/; /^single locks: /p' recorded.err >below
    echo "single locks: $2" | diff - below
    tell alarms "of $1" $?
}

# changed HOW WHAT SCRIPT WANTED: the same of a recording that the script of sed has changed.
changed() {
    rm -rf records && mkdir records
    RECORDER_FRAMES=8 RECORDER_DIRECTORY=$work/records LD_PRELOAD=$recorder/out/recorder.so ./single "$1"
    sed "$3" records/*.0 >changed && ! cmp -s changed records/*.0 && mv changed records/9.0 &&
        RECORD_FRAMES=8 "$record" --show records/9.0 2>&1 | sed -n 's/threads [0-9]* and [0-9]*/threads N and M/; /^single locks: /p' >below
    echo "single locks: $4" | diff - below
    tell alarms "of $1, where $2" $?
}

# reused HOW WANTED: of one in which the kernel gave each number to a second thread, made later.
reused() {
    changed "$1" "numbers were given twice" 's/^life \([0-9]*\) \([0-9]*\) [0-9]*$/&\nlife \1 \2 9/' "$2"
}

# graded WHAT BEFORE AFTER WANTED: what stands below the report of two threads where these filters stand before `witness
# findings` and after it. It counts all the same.
graded() {
    printf '#!/bin/sh\n[ "$1" = findings ] || exec "%s" "$@"\n%s | "%s" findings | %s\n' "$WITNESS" "$2" "$WITNESS" "$3" >grader &&
        chmod +x grader
    RECORDER_DEPTH=1 RECORD_FRAMES=8 WITNESS=$work/grader "$record" --error-exitcode 9 -- ./single locks 2>recorded.err
    status=$?
    sed -n '/^single locks: /p' recorded.err >below
    echo "single locks: not known, $4" | diff - below && [ $status -eq 9 ]
    tell alarms "not known: $1" $?
}

# unbuilt WHAT WANTED: the same where the program would only be tried, in the folder `top`.
unbuilt() {
    PATH=$work/top/bin:$PATH RECORD_FRAMES=8 WITNESS=$work/top/witness RECORDER_DEPTH=1 "$record" -- ./single locks 2>recorded.err
    sed -n 's/threads [0-9]* and [0-9]*/threads N and M/; /^single locks: /p' recorded.err >below
    grep -q "isn't built: a trial of it answers" recorded.err && echo "single locks: $2" | diff - below
    tell alarms "$1" $?
}

# counts STATUS HOW WORDS: the status of `single HOW` with --alarms WORDS.
counts() {
    RECORDER_DEPTH=1 "$record" --error-exitcode 9 ${3:+--alarms "$3"} -- ./single "$2" 2>recorded.err
    [ $? -eq "$1" ]
    tell alarms "the status of $2${3:+ with --alarms $3}" $?
}

if wanted alarms; then
    compile single
    alarm locks 'both orders, the same locks, threads N and M'
    alarm types 'one order only for any two locks: types alone'
    alarm one 'both orders, the same locks, thread N alone; apart: both were done before there was another thread'
    alarm alone 'both orders, the same locks, thread N alone'
    alarm anew 'both orders, the same locks, thread N alone'
    alarm gate 'both orders, the same locks, threads N and M; gate: each time "bank(mutex)" was held'
    alarm timed 'both orders, the same locks, threads N and M; timed: one was asked for with a time limit'
    alarm readers 'both orders, the same locks, threads N and M; readers: one waits for readers as a reader'
    alarm writers 'both orders, the same locks, threads N and M'
    alarm read-gate 'both orders, the same locks, threads N and M'
    alarm apart "both orders, the same locks, threads N and M; apart: one thread had ended, or wasn't made yet, when the other did so"
    alarm early 'both orders, the same locks, threads N and M; apart: one was done before there was another thread'
    alarm later 'both orders, the same locks, threads N and M'
    alarm begun 'both orders, the same locks, threads N and M; apart: one was done before there was another thread'
    alarm by-two 'both orders, the same locks, threads N and M; apart: one was done before there was another thread'
    alarm many 'one order only for any two locks: types alone'
    alarm three 'all orders of the circle, the same locks, threads N and M'
    alarm through 'all orders of a smaller circle of these types, the same locks, threads N and M'
    alarm inner 'all orders of a smaller circle of these types, the same locks, threads N and M; timed: one was asked for with a time limit'
    alarm twice 'all orders of the circle, the same locks, threads N and M, of which N took two orders'
    alarm waits 'both orders, the same locks, threads N and M; apart: each one had its lock when its wait for a condition began'
    alarm woken 'both orders, the same locks, threads N and M'
    alarm under 'both orders, the same locks, threads N and M; apart: one took its lock under the one that the other kept in its wait'
    alarm not-under 'both orders, the same locks, threads N and M'
    alarm twins 'both orders, the same locks, threads N and M; the other way @ single.c:56'
    alarm row 'one order: none of these locks was ever taken the other way round'
    reused apart 'both orders, the same locks, threads N and M'
    reused early 'both orders, the same locks, threads N and M; apart: one was done before there was another thread'
    # Others may read, so who waits as a reader may have lost the lock to one that took it under what was kept.
    changed under "the wait ends as a reader's" '/^pair /s/ xw/ sw/' 'both orders, the same locks, threads N and M'
    unanswered="the verifier didn't answer; a smaller part of the work may show it"
    graded "a program that doesn't know the word" 'sed -u "s/^grade /graded /"' cat "$unanswered"
    graded "a program that ends" 'sed -u "/^grade /Q"' cat "$unanswered"
    graded "a program that says something else" cat 'sed -u "s/^{\"finding\":\"grade\"/{\"finding\":\"graded\"/"' "$unanswered"
    graded "a program that grades a report that there isn't" cat \
        'sed -u "s/\(\"finding\":\"grade\",.*\"line\":\)[0-9]*/\17/"' "$unanswered"
    graded "a program that hangs" 'sed -u "/^grade /d"' cat "$unanswered"
    compile deadlock
    WITNESS=$work/grader "$record" --on-deadlock kill -- ./deadlock 2>recorded.err >/dev/null &
    within grep -q ' is ended: its threads wait for one another$' recorded.err
    tell alarms "a deadlock is seen while such a program has no answer" $?
    wait $!
    graded "facts are missing" cat 'sed -u "s/\"grade\":\"same\",\(.*\"circle\":\).*,\"reasons\"/\"grade\":\"unknown\",\1[],\"reasons\"/"' \
        'there were more orders of such locks than are kept'
    mkdir -p top/tools top/bin top/crates/witness/out && printf '#!/bin/sh\nexit 1\n' >top/tools/build && cp top/tools/build top/bin/rt &&
        printf '#!/bin/sh\nexec "%s" "$@"\n' "$WITNESS" >top/witness && chmod +x top/tools/build top/bin/rt top/witness
    unbuilt "not known: a program that isn't built" "not known, the verifier isn't built, and a trial of it isn't asked; make builds it"
    ln -s "$WITNESS" top/crates/witness/out/witness
    unbuilt "a program that was built of earlier sources is asked" 'both orders, the same locks, threads N and M'
    counts 9 locks ''
    counts 0 types ''
    counts 0 types locks
    counts 9 types all
    counts 9 locks threads
    counts 9 one locks
    counts 0 one threads
    counts 0 one locks,apart
    counts 9 anew locks,apart
    counts 9 gate all
    counts 0 gate locks,gate
    counts 0 timed all,timed
    counts 0 readers threads,readers
    counts 0 apart threads,apart
    counts 0 early threads,apart
    counts 9 later threads,apart
    counts 0 many threads
    counts 9 through threads,timed
    counts 9 twice locks
    counts 0 twice threads
    counts 9 waits threads
    counts 0 waits threads,apart
    counts 9 woken threads,apart
    counts 0 under threads,apart
    counts 9 not-under threads,apart
    counts 9 twins ''
    counts 0 row ''
    counts 9 row all
    # What a third thread does isn't told, nor what one does later that has asked with a time limit.
    compile third
    for how in third timed; do
        RECORD_FRAMES=8 "$record" --quiet --alarms all,apart,timed --error-exitcode 9 -- ./third $how 2>recorded.err
        [ $? -eq 9 ] && grep -q '^single locks: both orders, the same locks, threads [0-9]* and [0-9]*$' recorded.err
        tell alarms "of a $how request" $?
    done
    # The duplicate is told when the second order isn't known yet.
    rm -f held-open && mkfifo held-open
    RECORDER_DEPTH=1 RECORD_FRAMES=8 "$record" -- ./single asked 2>recorded.err <held-open &
    exec 8>held-open
    within grep -q '^single locks: one order: none of these locks ' recorded.err
    before=$?
    echo >&8
    exec 8>&-
    wait $!
    [ $before -eq 0 ] &&
        grep -q '^record: by now, of "account(mutex)" and "account(mutex)/2" @ single.c:56: single locks: both orders, ' recorded.err
    tell alarms "what comes to be known of a report that was told" $?
    "$record" --alarms sometimes -- ./single locks 2>recorded.err
    [ $? -eq 2 ] && grep -q '^record: --alarms takes ' recorded.err
    tell alarms "a word that isn't known" $?
fi

# misused WHAT LINE: what `misuse WHAT` is told of.
misused() {
    "$record" --error-exitcode 9 -- ./misuse "$1" 2>recorded.err
    status=$?
    printf 'record: misuse: %s\nrecord: nothing to report but 1 error\n' "$2" >wanted.err
    grep -v '^record: clean: ' recorded.err | diff wanted.err - && [ $status -eq 9 ]
    tell misuse "$1" $?
}

if wanted misuse && has_libdw misuse; then
    compile misuse
    misused ends 'a thread ended that held a lock, taken here: "journal" @ misuse.c:21'
    misused exits 'a thread ended that held a lock, taken here: "table" @ misuse.c:27'
    misused destroys 'a lock was destroyed while it was held: "made(mutex)<main(mutex)" @ misuse.c:136'
    misused frees 'the memory of a lock was freed while it was held, taken here: "made(mutex)<main()" @ misuse.c:61'
    misused remakes 'a lock was made anew while it was held: "made(mutex)<main(#2)" @ misuse.c:142'
    misused waits 'a condition was waited for without its mutex: "queue" @ misuse.c:70'
    "$record" --error-exitcode 9 -- ./misuse right 2>recorded.err && ! grep -q error recorded.err &&
        [ "$(tail -n 1 recorded.err)" = "record: nothing to report: no thread asked for a lock while it held another" ]
    tell misuse "what is allowed" $?
    "$record" --error-exitcode 9 -- ./misuse forks 2>recorded.err && ! grep -q error recorded.err
    tell misuse "handlers of fork that make their locks anew" $?
    "$record" -- ./misuse child 2>recorded.err
    grep -q '^==[0-9]*== record: misuse: a lock was made anew while it was held: "arena" @ misuse.c:119$' recorded.err &&
        [ "$(tail -n 1 recorded.err)" = "record: nothing to report but 1 error" ]
    tell misuse "a lock that the child has taken, and makes anew" $?
    "$record" --error-exitcode 9 --alarms no-errors -- ./misuse ends frees 2>recorded.err && ! grep -q 'held a lock' recorded.err
    tell misuse "--alarms no-errors" $?
fi

# An array of more than 16 elements is one type. Without debug information each of 16 locks of a variable has its own type, and
# of more they have one.
if wanted stripes && has_libdw stripes; then
    for level in -g -g1; do
        compile stripes $level
        for count in 16 8000; do
            "$record" -o kept -- ./stripes $count 2>recorded.err
            diff "$here/stripes.want" recorded.err
            tell stripes "a table of $count mutexes ($level)" $?
            types=$(sed -n 's/^init [0-9]* mtx - "table[^"]*"\( "\(table[^"]*\)"\)\{0,1\}$/\2/p' kept | sort | uniq -c | sed 's/^ *//')
            if [ "$count$level" = 16-g1 ]; then [ "$types" = "16 " ]; else [ "${types#* }" = "table[]" ]; fi
            tell stripes "its types ($count of them, $level)" $?
        done
    done
fi

# What was told while the program ran is so in the end, too.
if wanted later && has_libdw later; then
    compile later
    "$record" -- ./later 2>recorded.err >recorded.out
    grep -q '^ "front" -> "back" @ later.c:17$' recorded.err && [ "$(grep -c '^acquiring\|^lock order' recorded.err)" -eq 2 ] &&
        grep -qx 'acquiring duplicate lock of same type: "table\[\]"' recorded.err && grep -q '^record: 2 reports' recorded.err
    tell later "an array is one type from its first element on" $?
    # But where debug information doesn't tell the array.
    compile later -g1
    "$record" -- ./later 2>recorded.err >recorded.out
    grep -q '^ "front" -> "back" @ later.c:17$' recorded.err && grep -qF '"table+0x28"' recorded.err
    tell later "a report that follows those whose types have changed" $?
fi
