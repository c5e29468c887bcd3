# Threads at random, and parts by themselves under sanitizers: read by `run`, whose functions it uses. SOAK is so many
# seconds: 3600 is the long form.

if wanted soak; then
    compile soak $linked && ./soak "${SOAK:-4}" >out 2>err
    tell soak "64 threads for ${SOAK:-4} s: $(tail -n 1 out)" $?
fi

if wanted heap; then
    "${CC:-cc}" -std=c11 -D_GNU_SOURCE -g -Wall -Wextra -Werror -fsanitize=address,undefined -fno-sanitize-recover=all \
        -o heap_try "$here/heap_try.c" "$top/libwitness/heap.c" && ./heap_try >out 2>err && grep -q '^heap: [1-9][0-9]* passed, 0 failed$' out
    tell heap "the verifier's heap, by AddressSanitizer and UBSan" $?
fi

# All of the library by sanitizers, in programs that are built so.
if wanted sanitized; then
    sanitize="-fsanitize=address,undefined -fno-sanitize-recover=all"
    CFLAGS=$sanitize "$top/libwitness/build" "$work/sanitized"
    by_sanitized="$sanitize -L$work/sanitized -lwitness -Wl,-rpath,$work/sanitized"
    compile asserts $by_sanitized && WITNESS=1 ./asserts 2>err | told >out
    diff "$here/asserts.want" out
    tell sanitized "assertions" $?
    compile ordered $by_sanitized && WITNESS_ORDERS="$here/orders.txt" ./ordered file 2>err
    told <err | diff "$here/ordered.want" -
    tell sanitized "orders from a file" $?
    ./ordered show 2>err | told | sed 's/by thread [0-9]*/by thread N/; s/^free chunks: [0-9]*$/free chunks: N/' |
        diff "$here/show.want" -
    tell sanitized "what is held" $?
    compile hook $by_sanitized && ./hook >out 2>err
    diff "$here/hook.want" out
    tell sanitized "a report" $?
    compile hangs $by_sanitized && WITNESS=1 WITNESS_ON_DEADLOCK=exit=3 timeout 100 ./hangs new >out 2>err
    [ $? -eq 3 ] && grep -q '^circle:$' err
    tell sanitized "a deadlock" $?
    compile conditions $by_sanitized && WITNESS=1 WITNESS_ON_DEADLOCK=exit=3 timeout 100 ./conditions two >out 2>err
    [ $? -eq 3 ] && grep -q '^circle:$' err && WITNESS=1 WITNESS_ON_DEADLOCK=exit=3 timeout 100 ./conditions left >out 2>err &&
        [ "$(cat out)" = ended ]
    tell sanitized "waits for a condition" $?
    compile soak $by_sanitized && ./soak 2 >out 2>err
    [ $? -le 1 ] && grep -q ' 10 planted reports, 0 others,' out
    tell sanitized "threads at random: $(tail -n 1 out)" $?
fi

# lists WANT LINE..: what is in a file of these lines.
lists() {
    want=$1
    shift
    printf '%s\n' "$@" >lists.txt
    WITNESS_ORDERS=lists.txt ./lists_try >out 2>err && [ "$(cat out)" = "$want" ] || { echo "$* is $(cat out err)"; return 1; }
}

if wanted lists; then
    "${CC:-cc}" -std=c11 -D_GNU_SOURCE -DLIBWITNESS -g -Wall -Wextra -Werror -fsanitize=address,undefined \
        -fno-sanitize-recover=all -I"$top/recorder" -I"$top/recorder/runtime" -o lists_try "$here/lists_try.c" "$top/libwitness/lists.c"
    lists "0 lists of 0 types, 0 pairs, 0 doubled, 0 told" "" "  " "# a" "  # b" &&
        lists "1 lists of 3 types, 0 pairs, 0 doubled, 0 told" 'order mtx "a" rw "b" mtx "c" # d' &&
        lists "2 lists of 4 types, 2 pairs, 1 doubled, 0 told" 'order mtx "a" mtx "b"' 'bless "a" "b"' '"c"' \
            ' "a b" "c<d()" ' ' order rw "a" rw "b"'
    tell lists "files that are right" $?
    long=$(printf '%063d' 0)
    lists "0 lists of 0 types, 0 pairs, 0 doubled, 14 told" 'order' 'order mtx' 'order mtx "a"' 'order "a" "b"' \
        'order mtx "a" mtx "b' 'order spin "a" spin "b"' 'bless' 'bless "a"' 'bless "a" "b" "c"' '"a' '""' '"a" b' \
        "\"0$long\"" 'blessed "a" "b"' && lists "0 lists of 0 types, 0 pairs, 1 doubled, 0 told" "\"$long\""
    tell lists "lines that are wrong" $?
    awk 'BEGIN { for (i = 0; i < 3000; i++) print "order mtx \"a" i "\" mtx \"b\"\n\"a" i "\"\n\"a" i "\" \"b\"" }' >lists.txt
    WITNESS_ORDERS=lists.txt ./lists_try >out 2>err && grep -qx '256 lists of 512 types, 1024 pairs, 1024 doubled, 6696 told' out
    tell lists "more than there is room for" $?
    head -c 2000000 /dev/zero >lists.txt && WITNESS_ORDERS=lists.txt ./lists_try >out 2>err && grep -q ', 1 told$' out
    tell lists "a file that is too long" $?
    head -c 200000 /dev/urandom | tr -d '\000' >>lists.random && WITNESS_ORDERS=lists.random ./lists_try >out 2>err
    tell lists "bytes at random" $?
fi

# The library has no warnings, by either compiler.
if wanted warnings; then
    for compiler in gcc clang; do
        command -v $compiler >/dev/null || continue
        $compiler -std=c11 -D_GNU_SOURCE -DLIBWITNESS -fsyntax-only -Wall -Wextra -Werror -pthread -I"$top/recorder" -I"$top/recorder/runtime" \
            "$top"/recorder/runtime/*.c "$top"/libwitness/*.c
        tell warnings "$compiler" $?
    done
fi
