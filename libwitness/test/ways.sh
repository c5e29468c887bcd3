# The three ways in, and what the library needs and has for others: read by `run`, whose functions it uses.

# Awake by the environment, linked or loaded; asleep without.
if wanted ways; then
    compile reversal $linked && WITNESS=1 ./reversal 2>err
    told <err | diff "$here/reversal.want" -
    tell ways "a linked program, awake by WITNESS=1" $?
    ./reversal 2>err && [ ! -s err ]
    tell ways "a linked program, asleep" $?
    WITNESS=/bin/true ./reversal 2>err && [ ! -s err ]
    tell ways "a linked program, asleep where WITNESS names a program" $?
    compile reversal && WITNESS=1 LD_PRELOAD="$lib/libwitness.so" ./reversal 2>err
    told <err | diff "$here/reversal.want" -
    tell ways "a program that isn't linked, with the library loaded" $?
    compile reversal "$lib/libwitness.a" && WITNESS=1 ./reversal 2>err
    told <err | diff "$here/reversal.want" -
    tell ways "a program with the library inside" $?
    # Whose first call comes before there is an environment.
    compile reversal -fsanitize=address,undefined $linked && WITNESS=1 ./reversal 2>err
    told <err | diff "$here/reversal.want" -
    tell ways "a linked program with AddressSanitizer and UBSan" $?
    compile reversal -fsanitize=thread $linked && WITNESS=1 ./reversal 2>err
    told <err | sed -n '/^lock order reversal:$/,$p' | grep -v '(libtsan[^ ]*)$\|^ThreadSanitizer' | diff "$here/reversal.want" -
    tell ways "a linked program with ThreadSanitizer, whose own calls are passed over" $?
    compile hook $linked && ./hook >out 2>err
    diff "$here/hook.want" out
    tell ways "awake by witness_start" $?
    compile hook && ./hook >out 2>err && [ "$(cat out)" = "asleep
0 calls" ] && [ ! -s err ]
    tell ways "the calls without the library" $?
    compile futex $linked && WITNESS=1 ./futex 2>err >out && grep -q '^lock order reversal:$' err
    tell ways "locks of the program's own, that witness.h tells of" $?
    # The library doesn't know beforehand that a try will come.
    compile moved $linked && WITNESS=1 ./moved try 2>err && [ "$(grep -c '^lock order reversal:$' err)" -eq 1 ]
    tell ways "a report after a try, though a lock that was held between two others was released before" $?
    # As the recorder names them (recorder/test/byname.c), but with the line of a type: a reversal by name, and one with places of the code.
    compile byname $linked && WITNESS=1 ./byname 2>err >out
    head -n 5 "$top/recorder/test/byname.want" | sed 's/(log\.rs)/(log.rs:8)/g' >byname.want && head -n 5 err | diff byname.want - &&
        grep -q '^ a_100%?bank\.py:21(audit)$' err && grep -q '^ 2nd "journal" (journal, sleep mutex) @ byname\.c:62$' err &&
        grep -q '^ 1st "plain" (sleep mutex) in main+0x[0-9a-f]* (byname)$' err
    tell ways "places and types by name" $?
fi

# Needs the C library alone, and has nothing for others but its calls and what it interposes.
if wanted names; then
    readelf -d "$lib/libwitness.so.1" | sed -n 's/.*(NEEDED).*\[\(.*\)\]$/\1/p' | grep -v '^ld-linux' >needed
    echo libc.so.6 | diff - needed
    tell names "needs libc alone" $?
    readelf -d "$lib/libwitness.so.1" | grep -q 'SONAME.*\[libwitness\.so\.1\]$'
    tell names "its own name" $?
    nm -D --defined-only "$lib/libwitness.so.1" | awk '$2 != "A" { print $3 }' | sort >had
    grep '@@WITNESS_1$' had | grep -v '^witness_' >others
    grep -v '@' had | sed 's/$/ /' >interposed
    # What it interposes are names of the C library's: by those of GLib and OpenMP a program may look for these.
    nm -D --defined-only "$("${CC:-cc}" -print-file-name=libc.so.6)" | awk '{ sub(/@.*/, "", $3); print $3 " " }' | sort -u >libc
    comm -23 interposed libc >>others
    [ -s interposed ] && grep -q '^witness_start@@WITNESS_1$' had && [ ! -s others ] || { cat others; false; }
    tell names "has its own calls, by version, and what it interposes" $?
    nm -g --defined-only "$lib/libwitness.a" | awk 'NF == 3 { print $3 }' | sort | grep -v '^witness_' | sed 's/$/ /' |
        comm -23 - libc >others
    [ ! -s others ] || { cat others; false; }
    tell names "nor has the other library" $?
    for header in libwitness/libwitness.h recorder/witness.h; do
        "${CXX:-c++}" -std=c++17 -Wall -Wextra -Werror -fsyntax-only -I"$top/recorder" -x c++ "$top/$header" &&
            "${CC:-cc}" -std=c11 -Wall -Wextra -Werror -fsyntax-only -I"$top/recorder" -x c "$top/$header"
        tell names "$header in C and in C++" $?
    done
fi

# Every call of the header in C++, with the library and without.
if wanted names; then
    cat >calls.cc <<'END'
#include <libwitness.h>
int main()
{
    int lock = 0, sum = witness_start();
    witness_on_report(nullptr, nullptr);
    sum += witness_assert(&lock, WITNESS_UNLOCKED) + witness_warn("here") + witness_define_order(&lock, &sum);
    sum += witness_watch(WITNESS_WATCH_ON);
    witness_show(2);
    witness_made(&lock, WITNESS_MUTEX);
    return sum;
}
END
    "${CXX:-c++}" -Wall -Wextra -Werror -I"$top/recorder" -I"$top/libwitness" -o calls calls.cc && ./calls
    [ $? -eq 1 ] && "${CXX:-c++}" -Wall -Wextra -Werror -I"$top/recorder" -I"$top/libwitness" -o calls calls.cc \
        -Wl,--no-as-needed $linked && ./calls 2>err
    [ $? -eq 4 ] && grep -q '^held now:$' err
    tell names "every call in C++, without the library and with it" $?
fi

# The verifier is proved first where that is asked for: here by a stand-in for rt.
if wanted prove; then
    mkdir -p proving/crates/wit_c/src bin && cp -R "$top/libwitness" "$top/recorder" proving && rm -rf proving/libwitness/out
    printf '#!/bin/sh\necho "$@" >>"%s"\n[ -f out/libwit_c.a ] || cp "%s" out\n' "$work/asked" \
        "${WIT_C:-$top/crates/wit_c/out/libwit_c.a}" >bin/rt && chmod +x bin/rt
    duty=${WIT_CONDENSED:-$top/crates/wit_condensed_c/out/libwit_condensed_c.a}
    prove() { PATH="$work/bin:$PATH" WIT_CONDENSED="$duty" env -u WIT_C proving/libwitness/build --prove 2>err; }
    prove && [ "$(cat asked)" = lib ] && [ -f proving/libwitness/out/libwitness.so.1 ]
    tell prove "the verifier is proved and built first" $?
    prove && [ "$(cat asked)" = lib ] && [ ! -s err ]
    tell prove "and not once more" $?
    touch proving/crates/wit_c/src/lib.rt && prove && prove && [ "$(wc -l <asked)" -eq 2 ]
    tell prove "once more where a source of it is newer" $?
    touch proving/recorder/runtime/locks.c && prove && [ proving/libwitness/out/libwitness.a -nt proving/recorder/runtime/locks.c ]
    tell prove "the library is built once more where a source of the recorder's is newer" $?
    printf '#!/bin/sh\necho the goal is open\nexit 1\n' >bin/rt && touch proving/crates/wit_c/src/lib.rt && prove
    [ $? -eq 1 ] && [ "$(sed -n 1p err)" = "libwitness: proving and building its verifier: three minutes on four processors" ] &&
        grep -qx 'the goal is open' err
    tell prove "what the prover says where it fails" $?
fi

# Installed, where it stands alone.
if wanted install; then
    WIT_C=$work/none "$top/libwitness/install" "$work/a place" 2>err
    [ $? -eq 3 ] && [ "$(wc -l <err)" -eq 1 ] && [ ! -e "a place" ]
    tell install "without a verifier: a line, and nothing is put there" $?
    "$top/libwitness/install" "$work/a place" && cp "$here/hook.c" "a place" &&
        (cd "a place" && "${CC:-cc}" -g -Iinclude -pthread -o hook hook.c -Llib -lwitness -Wl,-rpath,"$PWD/lib" && ./hook) >out 2>err
    diff "$here/hook.want" out
    tell install "headers and library under a folder" $?
fi

# Under `record`, which loads the recorder: that one records, and the library of the program sleeps.
if wanted second; then
    if [ -x "$program" ]; then
        compile reversal $linked
        WITNESS="$program" RECORD_FRAMES=1 "$top/recorder/record" -- ./reversal 2>err
        diff "$top/recorder/test/reversal.want" err
        tell second "the recorder in a program that is linked" $?
        compile reversal -rdynamic "$lib/libwitness.a"
        WITNESS="$program" RECORD_FRAMES=1 WITNESS_LOG="$work/second.log" "$top/recorder/record" -- ./reversal 2>err
        diff "$top/recorder/test/reversal.want" err && grep -q '^lock order reversal' second.log
        tell second "the recorder in a program that has the library inside" $?
    else
        echo "left out  second: $program isn't built"
    fi
fi

# All tests of the recorder, with the library in its place: it records as before, and tells its reports to files. Left out
# is a program that can open no file any more: it is told of on standard error.
case $chosen in
*" recorder "*)
    if [ -x "$program" ]; then
        export WIT_CONDENSED="${WIT_CONDENSED:-$top/crates/wit_condensed_c/out/libwit_condensed_c.a}"
        cp -R "$top/recorder" recorder && rm -rf recorder/out && WITNESS="$program" recorder/record -- true
        touch "$lib/libwitness.so.1" && cp -p "$lib/libwitness.so.1" recorder/out/recorder.so
        # Some of the programs become another user.
        chmod 711 . && mkdir live lanes && chmod 1777 live && ln -s "$top/tools" "$top/examples" "$top/crates" "$top/VERSION" .
        export WITNESS="$program" WITNESS_LOG="$work/live/%p" all_built="$work/writes_all"
        # It builds the recorder that writes each request, for all.
        recorder/test/run alone >lanes/alone 2>&1
        recorder/test/run --names | grep -vx -e dropped -e alone | sort -u |
            xargs -P "${LANES:-4}" -n 1 sh -c 'recorder/test/run "$1" >"lanes/$1" 2>&1' sh
        unset WITNESS WITNESS_LOG
        grep -hv '^passed\|^[0-9]* passed, 0 failed$' lanes/*
        tail -qn 1 lanes/* | awk '$3 == 0 { passed += $1; whole++ } END { print passed; exit whole != lanes }' lanes="$(ls lanes | wc -l)" >out &&
            grep -q '^lock order reversal' live/*
        tell recorder "all tests of the recorder: $(cat out)" $?
    else
        echo "left out  recorder: $program isn't built"
    fi
    ;;
esac
