# What happens at a report: read by `run`, whose functions it uses.

# acts WORD: runs `stops` so, without a core; the status is the program's. (The shell tells of an end by a signal, too.)
acts() {
    WITNESS=1 WITNESS_ON_REPORT=$1 sh -c 'ulimit -c 0; ./stops >out; exit $?' 2>err
}

if wanted acts; then
    compile stops $linked
    for word in tell ""; do
        acts "$word" && [ "$(cat out)" = "before
after" ] && grep -q '^lock order reversal:$' err
        tell acts "goes on (WITNESS_ON_REPORT=$word)" $?
    done
    for case in abort:134 trap:133 exit=7:7 exit=0:0; do
        acts "${case%:*}"
        [ $? -eq "${case#*:}" ] && [ "$(cat out)" = before ] && grep -q '^lock order reversal:$' err
        tell acts "${case%:*} ends it before the lock is asked for" $?
    done
    for word in exit=256 exit= exit=7x stopp; do
        acts "$word" && grep -q "^witness: WITNESS_ON_REPORT is .*, not $word: reports are told$" err &&
            grep -q '^lock order reversal:$' err
        tell acts "a wrong word is told: $word" $?
    done
    WITNESS=1 WITNESS_ON_REPORT=stop ./stops >out 2>err &
    number=$!
    looks=600
    until grep -q ') T ' "/proc/$number/stat" || [ $looks -eq 0 ]; do
        looks=$((looks - 1))
        sleep 0.1
    done
    grep -q ') T ' "/proc/$number/stat" && [ "$(cat out)" = before ] && grep -q "^witness: process $number stops here: gdb -p $number " err
    tell acts "stops, and says how to go on" $?
    kill -CONT "$number"
    wait "$number" && [ "$(cat out)" = "before
after" ]
    tell acts "goes on after that" $?
fi

if wanted acts; then
    compile condhang $linked
    WITNESS=1 WITNESS_ON_REPORT=exit=3 timeout 100 ./condhang 2>err
    [ $? -eq 3 ] && told <err | grep -q '^ 2nd "inner" (sleep mutex) in main (condhang)$'
    tell acts "before a wait for a condition" $?
fi

# The text goes to standard error, as long as that is what it was, or to a file.
if wanted tells; then
    compile closes $linked
    WITNESS=1 ./closes file >out 2>err && [ "$(cat out)" = done ] && [ ! -s precious ] && [ ! -s err ]
    tell tells "nothing to a file that the program has in place of standard error" $?
    WITNESS=1 sh -c './closes 2>&1 >out; echo $? >status' | true
    [ "$(cat status)" = 0 ] && [ "$(cat out)" = done ]
    tell tells "standard error that nobody reads" $?
    (ulimit -f 0 && WITNESS=1 ./closes 2>err | grep -q '^done$')
    tell tells "a limit on the size of files" $?
    WITNESS=1 WITNESS_LOG=log.%p ./closes >out 2>err &
    number=$!
    wait $number && [ ! -s err ] && grep -q '^lock order reversal:$' "log.$number"
    tell tells "a file that WITNESS_LOG names" $?
    WITNESS=1 WITNESS_LOG=none/log ./closes >out 2>err && grep -q '^lock order reversal:$' err
    tell tells "a file that can't be written: standard error" $?
fi

# A debugger stands where the program asks.
if wanted debugger; then
    if command -v gdb >gdb.out; then
        compile stops $linked
        WITNESS=1 gdb -nx -batch -ex 'set breakpoint pending on' -ex 'break witness_reported' -ex run -ex bt ./stops \
            >out 2>err </dev/null
        grep -q 'both (first=.*, second=.*) at stops.c:11' out
        tell debugger "gdb stands at the line by a breakpoint" $?
        cp "$here/bank.cc" .
        for library in "$linked" "$lib/libwitness.a"; do
            "${CXX:-c++}" -g -Wall -Wextra -pthread -o bank bank.cc $library
            WITNESS=1 timeout 300 gdb -nx -batch -x "$top/libwitness/stand.py" -ex run -ex 'print money' -ex 'info line' \
                --args ./bank >out 2>err </dev/null
            grep -q '^\$1 = 20$' out && tail -n 1 out | grep -q '^Line 15 of "bank.cc"'
            tell debugger "gdb stands in the function that asks (${library##*/})" $?
        done
    else
        echo "left out  debugger: there is no gdb"
    fi
    # Debian's lldb doesn't find its own module for Python without help.
    for folder in "${PYTHONPATH-}" /usr/lib/llvm-*/lib/python3*/dist-packages; do
        lldb_finds=$folder
        PYTHONPATH=$folder lldb -b -o 'script print(40 + 2)' 2>/dev/null </dev/null | grep -qx 42 && break
        lldb_finds=none
    done
    if [ "$lldb_finds" != none ]; then
        cp "$here/bank.cc" . && "${CXX:-c++}" -g -Wall -Wextra -pthread -o bank bank.cc $linked
        WITNESS=1 PYTHONPATH=$lldb_finds timeout 300 lldb -b -o "command script import $top/libwitness/stand_lldb.py" -o run -o 'print money' \
            -- ./bank >out 2>err </dev/null
        grep -q '= 20$' out && grep -q '^frame #.* at bank.cc:15' out
        tell debugger "lldb stands in the function that asks" $?
    else
        echo "left out  debugger: there is no lldb with Python"
    fi
fi

# A thread's name is text, whatever its bytes are.
if wanted threadname; then
    compile threadname $linked
    WITNESS=1 ./threadname 2>err && told <err | grep -qx 'asked by thread N (?\[31m?witness:x):' && ! LC_ALL=C grep -q '[^ -~]' err
    tell threadname "a name with bytes that a terminal takes for its own" $?
fi

# What a report takes isn't taken of the stack of the thread that asks: of that it is some hundred bytes.
if wanted stacks; then
    compile coroutines $linked -Wl,-z,now
    for way in "" handlers onstack thread; do
        ./coroutines 1536 $way >plain 2>err && WITNESS=1 WITNESS_LOG=log.%p ./coroutines 1536 $way >out 2>err && cmp plain out &&
            grep -q '^lock order reversal:$' log.[0-9]* && grep -q '^asked by thread ' log.[0-9]*
        tell stacks "a report on a stack of 1,536 bytes${way:+ ($way)}" $?
        rm -f log.[0-9]*
    done
fi

# What a program looks for by name is what it finds without the library; what comes later is watched.
if wanted optional; then
    compile optional $linked -ldl
    ./optional >plain && WITNESS=1 ./optional >out 2>err && grep -qx 'weak: absent absent absent' plain && cmp plain out && [ ! -s err ]
    tell optional "names of GLib and OpenMP, where these aren't there" $?
    if "${CC:-cc}" -g -fPIC -shared -DLIBRARY -o libneeds.so optional.c -l:libglib-2.0.so.0 2>/dev/null; then
        WITNESS=1 ./optional "$PWD/libneeds.so" >out 2>err && grep -q '^lock order reversal:$' err
        tell optional "a library that brings GLib while the program runs" $?
    else
        echo "left out  optional: GLib isn't there"
    fi
fi

# A wish of earlier versions is answered, and changes nothing.
if wanted gone; then
    compile reversal $linked
    WITNESS=1 ./reversal 2>plain
    WITNESS=1 WITNESS_PROFILE=plain ./reversal 2>err
    told <plain >plain.told
    [ "$(grep -c '^witness: WITNESS_PROFILE is gone: ' err)" -eq 1 ] && grep -v 'WITNESS_PROFILE' err | told | diff plain.told -
    tell gone "WITNESS_PROFILE" $?
fi
