# Tests of what is taken for an object of a program, and of what is said where not all was seen: read by `run`, whose functions it uses.

# plugin NAME FIRST SECOND: a library of these two locks.
plugin() {
    cp "$here/plugin.c" . && "${CC:-cc}" -g -DFIRST="$2" -DSECOND="$3" -fPIC -shared -pthread -o "$1.so" plugin.c
}

# The program has the same status by itself and in the recorder.
is_unharmed() {
    timeout 20 "$@" >plain.out 2>&1
    plain=$?
    timeout 120 "$record" --alarms no-errors -- "$@" >recorded.out 2>recorded.err
    status=$?
    [ $status -eq $plain ] && cmp -s plain.out recorded.out && return
    echo "$plain by itself, $status in the recorder" && cat recorded.err
    return 1
}

# A file that is mapped and locked by fcntl is neither opened nor closed, which would let go the lock.
if wanted filelock; then
    compile filelock && plugin one one_a one_b
    is_unharmed ./filelock "$work/locked" "$work/one.so" && [ $plain -eq 0 ]
    tell filelock "a lock of a file" $?
    cat >database.py <<'END'
import ctypes, os, sqlite3, subprocess, sys
if len(sys.argv) > 1:
    other = sqlite3.connect("rows.db", timeout=0.2, isolation_level=None)
    try:
        other.execute("begin immediate")
        other.execute("insert into t values (2)")
        other.execute("commit")
        print("got in")
    except sqlite3.OperationalError as error:
        print(error)
    sys.exit()
for name in ("rows.db", "rows.db-shm", "rows.db-wal"):
    if os.path.exists(name):
        os.unlink(name)
base = sqlite3.connect("rows.db", isolation_level=None)
base.execute("pragma journal_mode=wal")
base.execute("create table t (x)")
base.execute("begin immediate")
base.execute("insert into t values (1)")
ctypes.CDLL("./one.so").work()
second = [sys.executable, "database.py", "second"]
print(subprocess.run(second, stdout=subprocess.PIPE, env={}, text=True).stdout, end="")
base.execute("commit")
print(base.execute("select count(*) from t").fetchall())
END
    if python3 -c 'import sqlite3, ctypes' 2>/dev/null; then
        is_unharmed "$(python3 -c 'import sys; print(sys.executable)')" database.py && grep -q 'database is locked' recorded.out
        tell filelock "a database's lock" $?
    else
        echo "left out  filelock: there is no python3 with sqlite3"
    fi
fi

if wanted robust; then
    compile robust
    is_unharmed ./robust && [ $plain -eq 0 ]
    tell robust "a mutex that can't be recovered" $?
fi

# An object is what the dynamic linker says is one.
if wanted mapped; then
    plugin one one_a one_b
    printf 'int big_table_of_another_file[1 << 20];\n' >big.c && "${CC:-cc}" -g -fPIC -shared -o big.so big.c
    compile flat && is_unharmed ./flat "$work/big.so" "$work/one.so" && [ $plain -eq 0 ]
    tell mapped "a library's file that is mapped as data" $?
    rm -rf seen && mkdir seen
    RECORDER_DIRECTORY=$work/seen LD_PRELOAD=$("$recorder/build")/recorder.so ./flat "$work/big.so" "$work/one.so"
    grep -aq '^init' seen/[0-9]* && ! grep -aq 'big.so' seen/[0-9]*
    tell mapped "it has no locks" $?
    # The second one has the opposite order of locks at the addresses of the first one's.
    compile unloaded && plugin one one_a one_b
    sed 's/both(&FIRST, &SECOND)/both(\&LATER, \&FIRST)/; s/both(&SECOND, &FIRST)/both(\&FIRST, \&LATER)/; s/SECOND/LATER/' \
        "$here/plugin.c" >turned.c
    "${CC:-cc}" -g -DFIRST=two_a -DLATER=two_b -fPIC -shared -pthread -o two.so turned.c
    RECORD_FRAMES=1 recorded_by "$record" -- ./unloaded "$work/one.so" "$work/two.so"
    said 0 "^$clean\$" && last_is 'record: nothing to report'
    tell mapped "a library that stands where another one was" $?
fi

# What is opened so has the C library's own calls.
if wanted apart; then
    compile apart && plugin one one_a one_b
    recorded_by "$record" -- ./apart plain "$work/one.so"
    said 0 '^record: 1 report, 0 circles, 1 process$'
    tell apart "a library that is opened as most are" $?
    for how in deepbind dlmopen; do
        recorded_by "$record" -- ./apart $how "$work/one.so"
        last_is "record: nothing in what was recorded; not seen: locks of one.so (see record(1))" &&
            ! grep -q 'clean:' recorded.err
        tell apart "$how" $?
    done
    recorded_by "$record" -- ./apart none "$work/none.so"
    last_is 'record: nothing to report'
    tell apart "no library of that name" $?
    compile byhandle
    for library in libc.so.6 libpthread.so.0; do
        recorded_by "$record" -- ./byhandle $library
        last_is "record: nothing in what was recorded; not seen: locks of byhandle (see record(1))" && ! grep -q 'clean:' recorded.err
        tell apart "a call that dlsym finds by a handle of $library" $?
    done
    recorded_by "$record" -- ./byhandle program
    said 0 '^record: 1 report, 0 circles, 1 process$'
    tell apart "a call that dlsym finds by a handle of the program" $?
fi

# A reader that reads again, and a writer that waits in between.
if wanted reread; then
    compile reread
    recorded_by "$record" -- ./reread writers
    said 0 'a lock was read again by a thread that read it, and a writer that waits in between stops both: "lock" @ reread.c:23' &&
        last_is 'record: nothing to report but 1 error' &&
        grep -q '^record: not clean: reread: a thread read a lock again that it read' recorded.err
    tell reread "a lock that prefers writers" $?
    recorded_by "$record" --alarms no-errors --error-exitcode 7 -- ./reread writers
    said 0 '^record: not clean: ' && ! grep -q '^record: clean' recorded.err
    tell reread "where errors aren't told" $?
    for kind in readers default written; do
        recorded_by "$record" -- ./reread $kind
        said 0 "^$clean\$" && last_is 'record: nothing to report'
        tell reread "$kind" $?
    done
fi

# Locks that processes share are judged in each by itself.
if wanted processes; then
    compile processes
    for class in mutex rwlock spin; do
        for how in both one; do
            recorded_by "$record" -- ./processes $how $class
            said 0 '^record: not clean: .*: locks that processes share are judged in each process by itself$' &&
                ! grep -q '^record: clean' recorded.err && last_is 'record: nothing to report'
            tell processes "two processes have them ($how, $class)" $?
        done
        recorded_by "$record" -- ./processes alone $class
        last_is 'record: nothing to report' && grep -q '^record: clean' recorded.err
        tell processes "one process ($class)" $?
    done
fi

# What a thread holds may be another lock by the time that its request is told.
run_remade() {
    recorded_by "$record" -- ./remade
}
if wanted remade; then
    compile remade
    writing_all run_remade
    last_is 'record: nothing to report' && ! grep -q "can't be\|accepted" recorded.err
    tell remade "a lock that another thread makes anew while it is held" $?
    drop_kept
fi
