# Tests that the stream tells of what the program asks for: read by `run`, whose functions it uses. Laws carry what is promised
# of a clean recording to the run: see docs/PROOFS.md. What they rest on is that the run asks for nothing but what its recording
# tells of, and that is what is tested here, by a recorder that writes each request, and marks those that may be left out.

# streams_of OBJECT WORDS..: leaves the files of a run, those with lines alone.
streams_of() {
    loaded=$1
    shift
    rm -rf records && mkdir records
    env RECORDER_DIRECTORY="$work/records" RECORDER_FRAMES=1 LD_PRELOAD="$loaded" \
        timeout -s KILL "$(limit_of "${1#./}")" "$@" >/dev/null 2>&1
    find records -type f -name '[0-9]*.[0-9]*' | while read -r file; do
        [ -n "$(head -c 1 "$file" | tr -d '\000')" ] || rm "$file"
    done
}

# pairs_of FILES..: the pairs of types that they tell of.
pairs_of() {
    for file in "$@"; do
        "$trace_of" "$file" 2>/dev/null | python3 "$here/pairs.py"
    done | sort -u
}

# leaves_out_nothing_new WORDS..: of each process of the program each pair is told of by a request that isn't left out.
leaves_out_nothing_new() {
    streams_of "$whole" "$@"
    for file in records/[0-9]*; do
        tr -d '\000' <"$file" | python3 "$here/pairs.py" marked
    done >left_out
    diff /dev/null left_out
}

# tells_all WORDS..: the recorder's own files tell of the pairs that another run asks for, and there are some.
tells_all() {
    leaves_out_nothing_new "$@" || return 1
    pairs_of records/[0-9]* >full.pairs
    streams_of "$object" "$@"
    pairs_of records/[0-9]* >condensed.pairs
    diff condensed.pairs full.pairs && [ -s full.pairs ]
}

# random_runs COMMAND [WORD]: whether it holds of a hundred random runs, with this word.
random_runs() {
    missing=
    seed=1
    while [ $seed -le 50 ]; do
        for kind in clean mixed; do
            "$1" ./random $seed $kind ${2:-} || missing="$missing $kind $seed"
        done
        seed=$((seed + 1))
    done
    [ -z "$missing" ]
}

if wanted tells; then
    object=$(object_of new)
    whole=$(object_of all)
    for line in anew between c11 cancel condition contend crew cycle deadlock "dropped 2" "ending 0" forking forks futex guards \
        handover helper inlined "jump 0" keepers kinds late madeup condhang long moved "moved try" named odd "pairs 4 2 1000" philosophers recursive \
        reused reversal rwlock signals started threads tryfirst trysecond trythen varying varyings with; do
        [ -f "$here/${line%% *}.c" ] || [ -f "$here/${line%% *}.cc" ] || continue
        compile ${line%% *}
        tells_all ./$line
        tell tells "$line" $?
    done
    compile random -O1
    random_runs leaves_out_nothing_new
    tell tells "a hundred random runs${missing:+: not$missing}" $?
    random_runs tells_all turns
    tell tells "a hundred random runs of one thread after the other${missing:+: not$missing}" $?
    # One that doesn't write a request after just two held locks.
    copy_recorder omitting
    sed 's/^    uint32_t asked = type_number(type);$/&\n    if (thread->count == 2)\n        return true;/' "$recorder/runtime/quick.h" >omitting/runtime/quick.h
    ! cmp -s "$recorder/runtime/quick.h" omitting/runtime/quick.h && omitting/record -- true 2>/dev/null && [ -f omitting/out/recorder.so ]
    planted=$?
    object=$work/omitting/out/recorder.so
    [ $planted -eq 0 ] && tells_all ./pairs 4 2 1000 >/dev/null && ! tells_all ./random 1 clean turns >/dev/null
    tell tells "a recorder that leaves a request out is caught" $?
    # One that leaves out the fifth line of a kind, or the first one that tells of a request given up: it is the only one of its run.
    copy_recorder lacking
    sed 's/^    const char \*from = stream.line;$/&\n    static int spared;\n    const char *kind = getenv("LEFT_OUT");\n    if (kind \&\& strncmp(from, kind, strlen(kind)) == 0 \&\& spared++ == atoi(getenv("SPARED"))) {\n        stream.length = 0;\n        return;\n    }/' \
        "$recorder/runtime/stream.c" >lacking/runtime/stream.c
    ! cmp -s "$recorder/runtime/stream.c" lacking/runtime/stream.c && lacking/record -- true 2>/dev/null && [ -f lacking/out/recorder.so ]
    planted=$?
    object=$work/lacking/out/recorder.so
    [ $planted -eq 0 ] && record_both ./random 1 clean turns && both_agree
    tell tells "a recorder that leaves out none of a kind agrees" $?
    for line in "check 4 1" "lock 4 1" "try 4 1" "unlock 4 1" "giveup 0 3" "init 4 1" "type 4 1"; do
        set -- $line
        record_both ./random "$3" clean turns
        export LEFT_OUT="$1 " SPARED="$2"
        [ $planted -eq 0 ] && both_agree && record_one "$object" condensed.trace ./random "$3" clean turns && ! both_agree >/dev/null 2>&1
        tell tells "one that leaves out a line of the kind $1 is caught" $?
        unset LEFT_OUT SPARED
    done
    object=$recorder/out/recorder.so
fi

# A lock that stands after another one than it was asked for after, since that one was released first.
if wanted moved; then
    object=$(object_of new)
    compile moved
    record_both ./moved try && both_agree && grep -q '^lock order reversal' full.reports
    tell moved "with a try both streams have the report" $?
    record_both ./moved && [ "$("$WITNESS" clean <condensed.trace) $("$WITNESS" clean <full.trace)" = "clean clean" ]
    tell moved "without one both are clean" $?
    record_both ./moved reversal && for stream in condensed full; do
        "$WITNESS" replay <$stream.trace | head -n 3 >$stream.first
    done && [ -s full.first ] && cmp condensed.first full.first
    tell moved "without one both have the report" $?
    [ "$("$record" -- ./moved both 2>&1 | grep -c '^lock order reversal')" -eq 1 ]
    tell moved "a report that was told before the first try is told once" $?
fi

# A request that was reported teaches no order: what it asks for after one lock alone is written once more.
example alone "an order that a reported request has, too"
writing_all example alone "an order that a reported request has, too"
