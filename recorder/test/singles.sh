# What the recorder's file tells of pairs of single locks, and of the threads of its seats.
# recorder/test/run has the functions.

# file_of WORDS..: the lines of the program's file, without the zeroes, in `lines`. $object is the recorder's, if it is set.
file_of() {
    rm -rf records && mkdir records
    RECORDER_FRAMES=1 RECORDER_DIRECTORY=$work/records LD_PRELOAD=${object:-$recorder/out/recorder.so} "$@"
    cat records/*.0 | tr -d '\000' >lines
}

# pairs_of WORDS..: the pairs of `pool` and `journal` of `facts WORDS`: the mode and the letters of what is asked for, then
# each lock that was held besides, by its variable, how far it is in that, and its mode.
pairs_of() {
    file_of ./facts "$@"
    awk '$1 == "type" && $3 == "variable" { name[$2] = $6; within[$2] = $7 }
        $1 == "pair" && name[$9] == "pool" && name[$13] == "journal" {
            printf "%s", $14
            for (i = 15; i < NF; i += 4) printf " %s+%s:%s", name[$(i + 2)], within[$(i + 2)], $(i + 3)
            print ""
        }' lines
}

# told_as HOW COUNT STATUS WANTED [OPTIONS..]: what stands below the report of `hand HOW COUNT`, and its status.
told_as() {
    how=$1 count=$2 wanted_status=$3 words=$4
    shift 4
    RECORD_FRAMES=8 "$record" --quiet --error-exitcode 9 "$@" -- ./hand "$how" "$count" 2>recorded.err
    status=$?
    sed -n 's/threads [0-9, ]* and [a-z0-9 ]*;/threads N and M;/; /^single locks: /p' recorded.err >below
    echo "single locks: $words" | diff - below && [ $status -eq "$wanted_status" ]
    tell hand "$how, $count locks${*:+ ($*)}" $?
}

if wanted hand; then
    compile hand
    "$record" -- true 2>/dev/null
    for count in 2 100 1000; do
        told_as forward $count 0 'one order: none of these locks was ever taken the other way round'
    done
    for count in 10 100; do
        told_as back $count 9 'both orders, the same locks, threads N and M; taken @ hand.c:37, hand.c:28'
    done
    for count in 5 40; do
        told_as ring $count 9 'all orders of the circle, the same locks, threads N and M; the others @ hand.c:28'
    done
    told_as far 100 9 'all orders of the circle, the same locks, threads N and M; the others @ hand.c:37, hand.c:28'
    # The first report is of many pairs, the second one of few: that it is asked about first.
    compile several
    printf '#!/bin/sh\n[ "$1" = findings ] || exec "%s" "$@"\ntee -a "%s/lines" | "%s" findings\n' "$WITNESS" "$work" "$WITNESS" >tells &&
        chmod +x tells && rm -f lines
    WITNESS=$work/tells "$record" --quiet -- ./several 100 2>recorded.err
    set -- $(sed -n 's/^grade //p' lines)
    [ $# -eq 2 ] && [ "$1" -gt "$2" ] && grep -q '^record: 2 reports' recorded.err
    tell hand "a report of few pairs is graded first" $?
fi

# fact WHAT WANTED WORDS..: the pairs of `facts WORDS` are those.
fact() {
    what=$1 pairs=$2
    shift 2
    pairs_of "$@" >pairs && echo "$pairs" | diff - pairs
    tell facts "$what" $?
}

if wanted facts; then
    compile facts
    "$record" -- true 2>/dev/null
    for count in 1 2000; do
        fact "a pair that is asked for $count times" x known $count
    done
    fact "what is held besides, each time" "xy table+0:x other+0:x other+28:x other+50:x
xy table+0:x other+0:x other+28:x
xy table+0:s
x" shrinks
    fact "of five threads three" "x
x
xm" threads 5
    [ "$(awk '$1 == "pair" { print $3 }' lines | sort -u | wc -l)" -eq 3 ]
    tell facts "by their numbers" $?
    fact "a thread that makes ten others" "x
xr
xr
xr
xr
xr
xr
xr" anew 10
    # Half of the numbers of locks are for what the trace needs.
    pairs_of spent 17000 >pairs
    [ "$(awk '$1 == "pair" { pairs++; numberless += $7 == 0 && $11 == 0; typed += $9 > 0 && $13 > 0 }
        END { print pairs, (numberless > 500), (typed == pairs) }' lines)" = "17002 1 1" ]
    tell facts "the types of locks that have no numbers" $?
    RECORD_FRAMES=8 "$record" --quiet -- ./facts spent 17000 2>recorded.err
    told <recorded.err | grep -qx 'single locks: both orders, the same locks, threads N and N'
    tell facts "what is told of locks that have no numbers" $?
fi

# errands_in FILE: its lines of errands, with the variables' names in place of the locks' numbers, and without places.
errands_in() {
    tr -d '\000' <"$1" | awk '$1 == "type" && $3 == "variable" { name[$2] = $6 }
        $1 == "pair" { lock[$8] = name[$9]; lock[$12] = name[$13] }
        $1 == "errand" { line[++lines] = $0 }
        END {
            for (i = 1; i <= lines; i++) {
                count = split(line[i], word, " ")
                for (at = 3; at < count; at += word[at] == "-" ? 2 : 3)
                    printf "%s%s ", word[at] == "-" ? "-" : word[at] ":", lock[word[at + 1]]
                print count == 3 ? word[3] : "."
            }
        }'
}

if wanted errands; then
    compile errands
    "$record" -- true 2>/dev/null
    file_of ./errands
    errands_in "$(grep -la '^errand [0-9]* x ' records/*.0)" >told
    echo "x:a x:b -b .
x:a x:b -b s:r -a xt:b .
x:a x:b -b s:r -a xt:b x:c -r .
x:a x:b -b s:r -a xt:b x:c -r x:a -b -c .
x:d x:c ." | diff - told
    tell errands "what a thread got and let go, in its sequence" $?
    errands_in "$(grep -la '^errand [0-9]* cut$' records/*.0)" >told
    echo cut | diff - told
    tell errands "of a child that holds what its parent held" $?
fi

# A recorder that keeps 100 pairs.
if wanted filled; then
    compile facts
    copy_recorder few && sed 's/PAIRS_MOST = 1000000/PAIRS_MOST = 100/' "$recorder/runtime/single_pairs.c" >few/runtime/single_pairs.c &&
        RECORD_FRAMES=8 few/record --quiet --error-exitcode 9 --alarms threads -- ./facts spent 200 2>recorded.err
    [ $? -eq 9 ] && grep -qx 'single locks: not known, there were more orders of such locks than are kept' recorded.err
    tell filled "what is told where there are more pairs than there is room for" $?
    object=$work/few/out/recorder.so file_of ./facts spent 200
    [ "$(grep -c '^pair ' lines)" -eq 100 ] && [ "$(grep -c '^many 0$' lines)" -eq 1 ]
    tell filled "its lines" $?
fi

# seated COUNT WANTED: how many threads are told of, how many seats they have together, and whether seats are lent.
seated() {
    file_of ./facts seats "$1"
    [ "$(awk '$1 == "thread" { threads++; seats += !($2 in seat); seat[$2] }
        $1 == "lent" { lent++; before = threads }
        END { print threads, seats, lent + 0, before + 0 }' lines)" = "$2" ]
    tell seats "of $1 threads" $?
}

if wanted seats; then
    compile facts
    "$record" -- true 2>/dev/null
    seated 200 "200 200 0 0"
    seated 256 "256 256 0 0"
    seated 300 "300 256 1 256"
fi

if wanted torn; then
    cp "$here/torn.c" . && sed "s#\.\./runtime/single_pairs.c#$recorder/runtime/single_pairs.c#" "$here/torn.c" >torn.c
    for by in "-O2" "-O1 -fsanitize=thread"; do
        "${CC:-cc}" -std=c11 -D_GNU_SOURCE -g -Wall -Wextra $by -I"$recorder" -pthread -o torn torn.c 2>told.err || {
            [ "$by" = -O2 ] || { echo "left out  torn: there is no ThreadSanitizer" && continue; }
        }
        # Its addresses are where the sanitizer wants them.
        echo "many 0 lost 0 differ" >wanted
        setarch -R ./torn 2>&1 | diff wanted -
        tell torn "threads that tell of pairs at once ($by)" $?
    done
fi
