# The module `witness`, by each Python from 3.8 on that is found: in PATH, and where pyenv keeps them.

# One of each version, by its own name.
pythons() {
    for each in python3 python3.8 python3.9 python3.10 python3.11 python3.12 python3.13 \
        "${PYENV_ROOT:-${HOME-}/.pyenv}"/versions/*/bin/python3; do
        "$each" -c 'import ctypes, sys; assert sys.version_info >= (3, 8); print("%d.%d" % sys.version_info[:2], sys.executable)' 2>/dev/null
    done | sort -u -k 1,1
}

python_tests() {
    "$python" names.py >named 2>&1 || { cat named && false; }
    tell python "what locks are called, $version" $?
    told bank.python "$python" -m witness bank.py
    tell python "two locks in opposite orders, $version" $?
    told orders.python "$python" orders.py
    tell python "other kinds of locks, $version" $?
    if "$python" -c 'import sys; sys.exit(sys.version_info < (3, 11))'; then
        told oneline.python "$python" oneline.py
        tell python "two locks that one line makes, $version" $?
    fi
    "$python" same.py >same.plain && RECORD_FRAMES=1 "$record" --log-file log -- "$python" same.py | diff same.plain -
    tell python "what locks answer, $version" $?
    "$record" --log-file log -- "$python" untold.py >out 2>err && echo done | diff - out &&
        echo 'witness: not seen: asyncio.Lock, asyncio.Semaphore, multiprocessing.Lock' | diff - err
    tell python "locks that aren't told are named, $version" $?
    options="-o kept" told crowd "$python" crowd.py && is_of_locks kept
    tell python "a hundred threads, whose trace is one of locks, $version" $?
}

if wanted python python3; then
    mkdir python && cp "$here"/*.py "$top/bindings/python"/*.py python && cd python || exit 4
    pythons >../pythons
    while read -r version python <&3; do
        python_tests
    done 3<../pythons
    [ -s ../pythons ] || echo "left out  python: there is none from 3.8 on"
    if python3 -c 'import test.lock_tests' 2>/dev/null; then
        "$record" -- python3 locks.py >own 2>&1 || { cat own && false; }
        tell python "the interpreter's own tests of locks" $?
    else
        echo "left out  python: the interpreter's own tests aren't installed"
    fi
    # Python joins threads by pthread_join from 3.13 on.
    without='s/; apart: one thread was joined before the other did so$//'
    RECORD_FRAMES=4 options="--gen-suppressions" told bank.python.callers python3 -m witness bank.py
    tell python "functions, threads, and lines for the ignore file" $?
    without=
    RECORD_FRAMES=5 told helper python3 helper.py
    tell python "the callers of a helper" $?
    printf '%s\n' 'import sys, bank' 'print(sys.argv, __name__)' >words.py
    python3 -m witness words.py a b >one && python3 words.py a b | diff - one &&
        python3 -m witness -m words a b >one && python3 -m words a b | diff - one
    tell python "a script or module with its words, without the recorder" $?
    python3 -m witness 2>/dev/null
    [ $? -eq 1 ] && python3 -c 'import threading, witness; kept = threading.Lock; assert not witness.patch() and kept is threading.Lock'
    tell python "no script; no recorder" $?
    cd "$work" || exit 4
fi
