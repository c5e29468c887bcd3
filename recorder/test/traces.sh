# Tests of what is done with a trace beside telling its reports, read by `run`: it is looked at while the program goes on,
# replayed in the other profile, and judged.

# shows PROGRAM PATTERN: whether `record --show` tells such a line of it by now.
shows() {
    [ -s "$1.pid" ] && recorded_by "$record" --show "$(cat "$1.pid")" && grep -q "$2" recorded.err
}

# A program that goes on: what there is so far, by its number and by that of `record`. It takes USR1 as ever.
if wanted live; then
    compile crew
    "$record" -- sh -c 'echo $$ >crew.pid; exec ./crew' >/dev/null 2>ended.err &
    recorder_pid=$!
    within shows crew '^circle:'
    sed -n '/^held now:/,$d; s/seat [0-9]*/seat N/gp' recorded.err | sort | diff "$here/crew.want" -
    tell live "a circle of a program that goes on" $?
    sed -n '/^held now:/,$p' recorded.err | sed 's/seat [0-9]* ([^)]*)/seat N/; s/seat [0-9][0-9]*/seat N/' | sort >held
    printf '%s\n' ' seat N holds "journal" @ crew.c:22' ' seat N holds "pool" @ crew.c:13' ' seat N waits for "journal" @ crew.c:15' \
        ' seat N waits for "pool" @ crew.c:24' 'held now:' \
        'record: crew: no thread asked for a lock meanwhile, so of what is held only what the trace has is told' 'record: so far: 1 report, 1 circle, 1 process' | diff - held
    tell live "what its threads hold and wait for" $?
    cp recorded.err by_number.err
    recorded_by "$record" --error-exitcode 9 --show $recorder_pid
    diff by_number.err recorded.err && [ "$recorded" -eq 9 ]
    tell live "the same by the number of record, with a status" $?
    kill -USR1 $recorder_pid
    wait $recorder_pid
    [ $? -eq 138 ] && grep -q '^record: sh was ended by signal 10$' ended.err && grep -q '^record: 1 report, 1 circle, 1 process$' ended.err
    tell live "it was left in peace, and USR1 ends it" $?
    compile slow
    "$record" -- sh -c 'echo $$ >slow.pid; exec ./slow' 2>ended.err &
    within shows slow '^held now:'
    printf '%s\n' 'held now:' ' thread N (slow writer) holds "table"' "record: so far: ${clean#record: }" \
        'record: so far: nothing to report' >wanted.err
    sed 's/thread [0-9]* /thread N /' recorded.err | diff wanted.err - && kill "$(cat slow.pid)" && wait $! ; [ $? -eq 143 ]
    tell live "a mutex that a thread holds behind which it asked for nothing" $?
    : >empty.file
    for words in "$$" 4194305 none empty.file /dev/null; do
        recorded_by "$record" --show $words
        [ "$recorded" -eq 2 ] && [ "$(wc -l <recorded.err)" -eq 1 ] && grep -q "$words" recorded.err
        tell live "--show $words is refused" $?
    done
    recorded_by "$record" --show $$ true
    said 2 'runs no program'
    tell live "--show with a program is refused" $?
fi

# A program that replays and knows what the real one may not know yet, and one that knows nothing of it.
stand_in() {
    cat >knows <<END
#!/bin/sh
if [ "\$1" != migrate ]; then
    exec "$WITNESS" "\$@"
elif [ -f "$work/misjudges" ] && [ "\$(wc -l)" -gt 1 ]; then
    echo 'line 10: F35 RawNotFree'
    exit 3
fi
END
    cat >ignorant <<END
#!/bin/sh
[ "\$1" != migrate ] || exit 2
exec cat >/dev/null
END
    chmod +x knows ignorant
}

if wanted profile; then
    compile reversal
    for words in "--profile all" "--profile plain" --full; do
        recorded_by "$record" $words -- echo ran
        said 2 "^record: ${words% *} is gone: " && [ ! -s recorded.out ]
        tell profile "$words is gone" $?
    done
    recorded_by "$record" -o kept -- ./reversal
    diff "$here/reversal.want" recorded.err && [ "$(sed -n 2p kept)" = "profile all" ]
    tell profile "the second line of a trace" $?
fi

# --judge goes. Until then it works.
if wanted judge; then
    stand_in
    compile reversal
    rm -f misjudges
    WITNESS="$work/ignorant" recorded_by "$record" --judge -- echo ran
    said 126 "doesn't know --judge" && [ ! -s recorded.out ]
    tell judge "a program that doesn't know it" $?
    WITNESS="$work/knows" recorded_by "$record" --judge -- ./reversal
    said 0 '^record: reversal: judged: each lock was free when it was taken$' && grep -v 'judged\|^record: --judge goes: ' recorded.err | diff "$here/reversal.want" -
    tell judge "a trace that is one of locks" $?
    : >misjudges
    WITNESS="$work/knows" recorded_by "$record" --judge --error-exitcode 9 -- ./reversal
    said 9 '^record: reversal: judged: line 10: F35 RawNotFree: seat 1 gets "pool", which isn.t free, @ reversal.c:10$'
    tell judge "a trace that isn't" $?
    place=$(sed -n 's/^record: the recording is kept: //p' recorded.err)
    [ -n "$place" ] && [ -s "$(echo "$place"/*.trace)" ] && recorded_by "$record" --show "$place" &&
        sed 's/: so far: /: /' recorded.err | diff "$here/reversal.want" -
    tell judge "it is kept, and can be shown" $?
    [ -z "$place" ] || rm -rf "$(dirname "$place")"
fi

# A recorder's file of another version is told, and not read as one of this.
if wanted version; then
    compile reversal
    printf '#!/bin/sh\n[ "$(head -c 1)" != a ] || exit 4\n' >broken && chmod +x broken
    WITNESS="$work/broken" recorded_by "$record" -- ./reversal
    place=$(sed -n 's/^record: the recording is kept: //p' recorded.err)
    file=$(ls "$place"/[0-9]*.0)
    for first in 's/ version [0-9]* / version 0 /' 's/ version [0-9]* / /'; do
        sed -i "1$first" "$file" && recorded_by "$record" --show "$file"
        said 2 "^record: $file is of a recorder of another version, whose files this one can't read$" &&
            [ "$(wc -l <recorded.err)" -eq 1 ]
        tell version "a recorder's file of another version ($first)" $?
    done
    [ -z "$place" ] || rm -rf "$(dirname "$place")"
    recorded_by "$record" --quiet --error-exitcode 9 -- \
        sh -c './reversal; sed -i "1s/ version [0-9]* / version 0 /" "$RECORDER_DIRECTORY"/[0-9]*.0'
    said 9 '^record: process [0-9]*: nothing is known of it: .* is of a recorder of another version$' &&
        ! grep -q '^lock order reversal' recorded.err
    tell version "one of a run" $?
    drop_kept
fi
