# What the library has no room for: read by `run`, whose functions it uses.

if wanted limits; then
    compile crowd $linked
    WITNESS=1 ./crowd >out 2>err
    tell limits "more than there is room for: the program goes on" $?
    grep '^witness: ' err | grep -v ' passed over [0-9]* times: ' | sort | uniq -d >twice
    [ ! -s twice ] && grep -q '^witness: more than 1,023 types of locks: ' err &&
        grep -q '^witness: passed over [1-9][0-9]* times: more than 1,023 types of locks: ' err
    tell limits "types: told once, and counted" $?
    # A library that judges each request.
    CFLAGS=-DWRITE_ALL "$top/libwitness/build" "$work/all"
    LD_LIBRARY_PATH="$work/all" WITNESS=1 ./crowd >out 2>err && [ "$(grep -c '^witness: more than 256 threads ' err)" -eq 1 ] &&
        grep -q '^witness: passed over [1-9][0-9]* times: more than 256 threads ' err
    tell limits "threads at once: told once, and counted" $?
    compile many $linked
    LD_LIBRARY_PATH="$work/all" WITNESS=1 ./many >out 2>err && [ "$(grep -c '^witness: more than 65,536 locks: ' err)" -eq 1 ] &&
        grep -q '^witness: passed over [1-9][0-9]* times: more than 65,536 locks: ' err
    tell limits "locks: told once, and counted" $?
    compile pairs -O1 $linked
    LD_LIBRARY_PATH="$work/all" WITNESS=1 ./pairs 2 1 800000 >out 2>err && grep -q '^[0-9]' out &&
        [ "$(grep '^witness: ' err)" = "witness: the verifier's log is full: nothing is judged from here on" ]
    tell limits "the log: told once, and the program goes on" $?
    compile waits $linked
    ./waits >out 2>err && grep -q '^ "pool" by thread' out && ! grep -q '^seat' out
    tell limits "a wait of a known order adds nothing" $?
    WITNESS_ON_DEADLOCK=tell ./waits >out 2>err && grep -q '^exclusive sleep mutex "pool"' out
    tell limits "but where deadlocks are looked for" $?
    compile no_memory $linked && ./no_memory >out 2>err
    [ "$(cat out)" = "1 1 0 0" ] && [ "$(cat err)" = "witness: no memory for the verifier: nothing is judged from here on" ]
    tell limits "no memory for the verifier" $?
fi
