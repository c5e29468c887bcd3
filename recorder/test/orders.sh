# Tests of files of orders: how they are read, written, merged and judged. Read by `run`, whose functions it uses. orders.py
# makes large ones, and says by a second reading what has to be told of them.
orders=$recorder/orders
maker=$here/orders.py
tab=$(printf '\t')

# ordered ARGS..: what `orders` writes is in `told` and `complaints`, and its status is $status.
ordered() {
    "$orders" "$@" >told 2>complaints
    status=$?
}

# stands STATUS LINES..: that was its status, and it told exactly these lines and complained of nothing.
stands() {
    [ "$status" -eq "$1" ] && shift || return 1
    if [ $# -eq 0 ]; then : >wanted; else printf '%s\n' "$@" >wanted; fi
    diff wanted told && [ ! -s complaints ]
}

# refuses WHAT CAUSE [COUNTS]: a file with these bytes isn't read, for that cause; neither is one with these counts beside it.
refuses() {
    rm -f bad bad.runs
    printf '%b' "$1" >bad
    [ $# -lt 3 ] || printf '%b' "$3" >bad.runs
    ordered judge good bad
    [ "$status" -eq 2 ] && [ ! -s told ] && echo "orders: $2" | diff - complaints
    tell orders "it refuses $2" $?
}

a='mtx "a"' b='mtx "b"' c='rw "c"'
good="orders: clean: threads that ask for nothing but these orders never wait for one another in a circle (docs/PROOFS.md)"
form='it isn'\''t CLASS "TYPE" > CLASS "TYPE"'

if wanted orders; then
    printf '%s\n' "$a > $b${tab}# f (x.c) while g (y.c), one" "$b > $c" >good
    refuses '\n' "bad: line 1: $form"
    refuses 'mtx "a" > mtx "b"\n<<<<<<< HEAD\n' "bad: line 2: $form"
    refuses 'mtx "a" > mtx ""\n' "bad: line 1: $form"
    refuses 'mtx "a" > mtx b\n' "bad: line 1: $form"
    refuses 'mtx "a"\n' "bad: line 1: $form"
    refuses 'mutex "a" > mtx "b"\n' "bad: line 1: $form"
    refuses 'mtx "a" > mtx "a"\n' 'bad: line 1: a type stands before itself'
    refuses 'mtx "a" > mtx "b"\t#f\n' 'bad: line 1: after the order stands something else than a tab, # and where it comes from'
    refuses 'mtx "a" > mtx "b" # f\n' "bad: line 1: $form"
    refuses 'mtx "a" > mtx "b"\r\n' "bad: line 1: $form"
    refuses 'mtx "a" > mtx "b"\t# f\0\n' 'bad: line 1: it has a byte that is no part of a text'
    refuses 'mtx "a" > mtx "b\t"\n' "bad: line 1: $form"
    refuses 'mtx "a" > mtx "b\001"\n' 'bad: line 1: it has a byte that is no part of a text'
    refuses 'mtx "a" > mtx "b"\n\tfile\n' "bad: line 2: $form"
    refuses 'mtx "a" > mtx "b"\n' "bad.runs: line 2: it isn't COUNT [LAST] CLASS \"TYPE\" > CLASS \"TYPE\"" 'runs 3\n\tcounts\n'
    refuses "mtx \"$(printf '%04090d' 1)\" > mtx \"b\"\n" 'bad: line 1: it is longer than 4,096 bytes'
    refuses 'mtx "a" > mtx "b"\nmtx "b" > mtx "c"' 'bad: line 2: it has no end'
    refuses 'mtx "a" > mtx "b"\n' 'bad.runs: line 1: it isn'\''t runs N' 'runs x\n'
    refuses 'mtx "a" > mtx "b"\n' "bad.runs: line 2: it isn't COUNT [LAST] CLASS \"TYPE\" > CLASS \"TYPE\"" 'runs 3\n3 0 mtx "a" > mtx "b"\n'
    refuses 'mtx "a" > mtx "b"\n' "bad.runs: line 1: it isn't COUNT [LAST] CLASS \"TYPE\" > CLASS \"TYPE\"" '0 mtx "a" > mtx "b"\n'
    refuses 'mtx "a" > mtx "b"\n' 'bad.runs: line 1: it has no end' 'runs 3'
    for counts in 'runs 3\n4 2 ' 'runs 3\n2 4 ' 'runs 3\n4 '; do
        refuses 'mtx "a" > mtx "b"\n' 'bad.runs: line 2: it tells of more runs than were counted' "${counts}mtx \"a\" > mtx \"b\"\n"
    done
    refuses 'mtx "a" > mtx "b"\n' 'bad.runs: line 1: it tells of more runs than were counted' '4 2 mtx "a" > mtx "b"\n'
    rm -f bad bad.runs
    ordered judge good none
    [ "$status" -eq 2 ] && echo "orders: none can't be read: No such file or directory" | diff - complaints
    tell orders "it refuses a file that isn't there" $?
    ordered judge good .
    [ "$status" -eq 2 ] && echo "orders: . can't be read: Is a directory" | diff - complaints
    tell orders "it refuses a folder" $?
    : >empty
    ordered judge empty
    stands 0 "$good: 0 orders, 0 types, 1 run"
    tell orders "no order at all" $?
    for line in "" "judge" "merge" "text" "unseen" "unseen 0 good" "unseen good" "judge --graph x.png good" "judge --ignore" "-x" \
        "judge -o x good" "merge --ignore x good" "judge --ignore none good" "learn good"; do
        ordered $line
        [ "$status" -eq 2 ] && [ "$(wc -l <complaints)" -eq 1 ] && [ ! -s told ]
        tell orders "orders $line is refused" $?
    done
    "$orders" --help | grep -q '^orders judge' && ! "$orders" --help >/dev/full 2>complaints &&
        echo "orders: the output can't be written: No space left on device" | diff - complaints
    tell orders "orders --help" $?

    # Merging is what `sort` does, whatever came first; and it changes nothing that is merged.
    printf '%s\n' "$c > $a${tab}# h (z.c) while h (z.c), two" "$a > $b${tab}# other (x.c) while g (y.c), two" >other
    for files in "good other" "other good" "good other good"; do
        "$orders" merge $files >merged && LC_ALL=C sort -s -u -t "$tab" -k 1,1 $files | cmp merged - &&
            "$orders" merge merged | cmp merged - && [ "$(wc -l <merged)" -eq 3 ]
        tell orders "the union of $files" $?
    done
    rm -f all all.runs
    printf '%s\n' "runs 7" "3 2 $a > $b" "1 7 $b > $c" >good.runs
    ordered merge -o all good other
    stands 0 && "$orders" merge good other | cmp all - &&
        printf '%s\n' 'runs 8' "4 8 $a > $b" "1 7 $b > $c" "1 8 $c > $a" | diff - all.runs
    tell orders "counts of runs beside them" $?
    cut -f 1 good other | LC_ALL=C sort | uniq -c >all.runs
    "$orders" judge all | tail -n 1 | grep -q 'and no circle without it: 3 orders, 3 types, 2 runs$'
    tell orders "counts as uniq makes them" $?
    ordered unseen 1 all
    [ "$status" -eq 0 ] && [ ! -s told ] && grep -q '^orders: of 3 orders the runs' complaints
    tell orders "of these it isn't known when they were met" $?
    rm -f good.runs all.runs
    printf '%s\n' "runs 7" "3 2 $a > $b" "1 7 $b > $c" "5 5 $c > $a" >all.runs
    ordered unseen 2 all
    stands 1 "$a > $b${tab}# 5 runs ago" "$c > $a${tab}# 2 runs ago"
    tell orders "orders that weren't met for long" $?
    ordered unseen 6 all
    stands 0
    tell orders "none that wasn't met for longer" $?
    ordered text good other
    stands 0 "$a" "    $b  # f (x.c)" "$b" "    $c" "$c" "    $a  # h (z.c)"
    tell orders "a page to read" $?

    # Judged, by the proved program.
    ordered judge good
    stands 0 "$good: 2 orders, 3 types, 1 run"
    tell orders "no circle" $?
    cp good again
    ordered judge other again good
    stands 1 "lock order reversal:" ' 1st "c" (c, rw) @ h (z.c), in two' ' 2nd "a" (a, sleep mutex) @ h (z.c), in two' \
        'established order:' ' "a" -> "b" @ other (x.c), in two and 2 more runs' ' "b" -> "c" @ ?, in 2 runs' \
        'orders: 1 order against others, and no circle without it: 3 orders, 3 types, 3 runs'
    tell orders "a circle of three: the rare order is the one against the others" $?
    printf '%s\n' '# either' '"a" "c"' >peace
    ordered judge --ignore peace other good
    stands 0 'orders: 1 of them is ignored' 'orders: no circle without the ignored ones: 3 orders, 3 types, 2 runs'
    tell orders "an order that the user allows" $?
    ordered judge --gen-suppressions other again good
    grep -qx '"c" "a"' told
    tell orders "the line that would allow it" $?
    printf '%s\n' 'mtx "lib.so:f(m)" > mtx "x:std::n"' 'mtx "x:std::n" > mtx "lib.so:f(m)"' 'mtx "y::n" > mtx "a"' 'mtx "a" > mtx "y::n"' >prefixed
    printf '%s\n' '"f(m)" "std::n"' '":n" "a"' '"n" "a"' >peace
    ordered judge --ignore peace prefixed
    [ "$status" -eq 1 ] && grep -c '^lock order' told | grep -qx 1 && grep -q '^ 1st "y::n" ' told &&
        grep -qx 'orders: 2 of them are ignored' told
    tell orders "names without their objects" $?
    echo '"a" b' >peace
    ordered judge --ignore peace good
    [ "$status" -eq 2 ] && grep -q '^orders: peace: line 1 ' complaints
    tell orders "a file of these that is none" $?
    # The files are read by the program itself.
    reads='[ "$2" = judge ] || exec "$REAL" "$@"'
    export REAL="$WITNESS"
    printf '%s\n' '#!/bin/sh' "$reads" 'cat >/dev/null' 'echo "against: 0 of 1 orders, 3 types"' >fewer && chmod +x fewer
    WITNESS=$work/fewer ordered judge good
    [ "$status" -eq 126 ] && [ ! -s told ] &&
        echo "orders: $work/fewer answers something else than what is against them: nothing is judged" | diff - complaints
    tell orders "a judge that has read less" $?
    printf '%s\n' '#!/bin/sh' "$reads" 'cat >/dev/null' "echo '$b > $c'" >cut && chmod +x cut
    WITNESS=$work/cut ordered judge good
    [ "$status" -eq 126 ] && [ ! -s told ] && grep -q 'answers something else' complaints
    tell orders "a judge whose answer is cut" $?
    printf '%s\n' '#!/bin/sh' "$reads" 'cat >/dev/null' "echo '$a > $c'" 'echo "against: 1 of 2 orders, 3 types"' 'exit 1' >other.judge &&
        chmod +x other.judge
    WITNESS=$work/other.judge ordered judge good
    [ "$status" -eq 126 ] && [ ! -s told ] && grep -q 'answers something else' complaints
    tell orders "a judge that tells an order which isn't there" $?
    printf '%s\n' '#!/bin/sh' 'exit 4' >broken && chmod +x broken
    WITNESS=$work/none ordered judge good other
    [ "$status" -eq 126 ] && [ ! -s told ] &&
        echo "orders: $work/none can't be run: nothing is judged" | diff - complaints
    tell orders "no judge" $?
    WITNESS=$work/broken ordered judge good other
    [ "$status" -eq 126 ] && [ ! -s told ] &&
        echo "orders: $work/broken doesn't accept the orders, by status 4: nothing is judged" | diff - complaints
    tell orders "a judge that fails" $?

    # Pictures.
    "$orders" judge --graph all.dot --html all.html other again good >/dev/null
    grep -q '^    "c" -> "a" \[label=" h (z.c)", color=red, style=dashed\]$' all.dot &&
        grep -q '^    "a" -> "b" .*, color=red\]$' all.dot &&
        { ! command -v python3 >/dev/null || python3 "$here/outputs/check.py" page all.html; } &&
        grep -q 'in two and 2 more runs' all.html
    tell orders "a picture and a page" $?
    "$orders" judge --html /dev/full other good >told 2>complaints
    [ $? -eq 126 ] && grep -q "^orders: /dev/full can't be written$" complaints
    tell orders "a page that can't be written" $?

    # What can't be written.
    python3 "$maker" clean large 200 2>/dev/null || "$orders" merge good >large
    rm -f limited*
    cp good limited
    (ulimit -f 4 && exec "$orders" merge -o limited large 2>complaints)
    [ $? -eq 126 ] && echo "orders: limited can't be written: File too large" | diff - complaints && cmp good limited &&
        [ "$(echo limited*)" = "limited limited.lock" ]
    tell orders "a file that can't be written stays as it was" $?
    "$orders" merge -o none/file good 2>complaints
    [ $? -eq 126 ] && echo "orders: none/file.lock can't be written: No such file or directory" | diff - complaints
    tell orders "a folder that isn't there" $?
    ln -sf limited link && "$orders" merge -o link other && [ -h link ] && cmp limited other.sorted 2>/dev/null
    "$orders" merge other >other.sorted && [ -h link ] && cmp limited other.sorted && [ -f limited.runs ]
    tell orders "a link stays one" $?
    chmod 640 limited && "$orders" merge -o limited good && [ "$(stat -c %a limited)" = 640 ]
    tell orders "a file keeps its rights" $?
    # Each writer adds a line of its own to what is there by then.
    rm -f together*
    : >together
    for number in 1 2 3 4 5 6 7 8 9 10 11 12; do
        echo "mtx \"t$number\" > $a" >"part.$number"
        "$orders" merge -o together together "part.$number" &
    done
    wait
    "$orders" merge part.[0-9]* | cmp together - && [ "$(wc -l <together)" -eq 12 ] &&
        [ "$(echo together*)" = "together together.lock together.runs" ]
    tell orders "twelve writers at once" $?
fi

if wanted fleet; then
    if ! command -v python3 >/dev/null 2>&1; then
        echo "left out  fleet: there is no python3"
    else
        ORDERS=$orders python3 "$maker" random 1 60
        tell fleet "orders at random: what is reported is what closes a circle with those of more runs" $?
        ORDERS=$orders python3 "$maker" broken 1 150
        tell fleet "files that are changed at random are read, or refused with the line" $?
        python3 "$maker" fleet recordings 10000
        python3 "$maker" within 30 500 "$orders" judge recordings/*.orders >told
        [ $? -eq 1 ] && sed -n 's/^ 1st "\([^"]*\)".*/\1/p' told >held &&
            sed -n 's/^ 2nd "\([^"]*\)".*/\1/p' told >asked &&
            paste held asked | sed "s/\(.*\)${tab}\(.*\)/mtx \"\1\" > mtx \"\2\"/" | LC_ALL=C sort | diff planted.txt - &&
            grep -q '^orders: 2 orders against others.* 10000 runs$' told
        tell fleet "10,000 recordings with two planted orders" $?
        find recordings -name '*.orders' -exec cat {} + | LC_ALL=C sort -u -t "$tab" -k 1,1 --parallel=2 >union &&
            "$orders" merge recordings/*.orders | cut -f 1 >merged && cut -f 1 union | cmp merged - &&
            wc -l <union | grep -qx 89[0-9]
        tell fleet "their union is what sort makes" $?
        find recordings -name '*.orders' -exec cut -f 1 {} + | LC_ALL=C sort --parallel=2 | uniq -c >union.runs
        sed 's/^ *[0-9]* //' union.runs | cmp merged -
        tell fleet "so are the counts" $?
        "$orders" judge union >again
        sed 's/run[0-9]*/run/g' told >told.plain && sed 's/run[0-9]*/run/g' again | diff told.plain -
        tell fleet "the union and its counts are judged as all of them" $?
        rm -rf recordings
        python3 "$maker" ring ring 1500 && ordered judge ring
        [ "$status" -eq 1 ] && [ ! -s complaints ] && sed -n 2,3p told | cut -d @ -f 1 >ends &&
            printf '%s\n' ' 1st "t999" (t999, sleep mutex) ' ' 2nd "t1000" (t1000, sleep mutex) ' | diff - ends &&
            grep -c '^ "t[0-9]*" -> "t[0-9]*" @ ?$' told | grep -qx 1499 &&
            tail -n 1 told | grep -qx 'orders: 1 order against others, and no circle without it: 1500 orders, 1500 types, 1 run'
        tell fleet "a circle of 1,500 types" $?
        python3 "$maker" clean clean 20000 && ordered judge clean
        stands 0 "$good: 59946 orders, 20000 types, 1 run"
        tell fleet "20,000 types" $?
        python3 "$maker" large large 5000 && ordered judge large large.again large.planted
        [ "$status" -eq 1 ] && sed -n 's/^ 1st "\([^"]*\)".*/\1/p' told >held &&
            sed -n 's/^ 2nd "\([^"]*\)".*/\1/p' told >asked &&
            paste held asked | sed "s/\(.*\)${tab}\(.*\)/mtx \"\1\" > mtx \"\2\"/" | LC_ALL=C sort >found &&
            cut -f 1 large.planted | diff - found
        tell fleet "a knot of 5,000 types with two planted orders" $?
        grep -q '^orders: 2 orders against others, and no circle without these: ' told && [ ! -s complaints ]
        tell fleet "no circle without the two" $?
    fi
fi
