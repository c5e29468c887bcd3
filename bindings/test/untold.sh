# What the last line says of a program in Python: whether all of its locks were told. Read by `run`, whose functions it uses.

# ends PYTHON LINE WORDS..: the last line by that Python.
ends() {
    PYTHONPATH=$top/bindings/python "$record" -- "$1" $3 >out 2>err
    tail -n 1 err | grep -q "^record: $2" || { cat err && false; }
}

if wanted untold python3; then
    mkdir untold && cd untold || exit 4
    unseen='nothing in what was recorded.*; not seen: locks of Python'
    nested='import threading; a, b = threading.Lock(), threading.Lock(); a.acquire(); b.acquire(); b.release(); a.release()'
    echo "$nested" >good.py
    printf '%s\n' "$nested" 'import tempfile, queue, logging, subprocess, functools, concurrent.futures' >library.py
    printf '%s\n' "$nested" 'import _thread; _thread.allocate_lock()' >below.py
    printf '%s\n' "$nested" 'import asyncio; asyncio.Lock()' >tasks.py
    printf '%s\n' 'from threading import Lock; import witness; witness.patch()' "$nested" >late.py
    printf '%s\n' "$nested" 'import subprocess, sys; subprocess.call([sys.executable, "good.py"])' >child.py
    printf '%s\n' "$nested" 'import os; os._exit(0)' >ended.py
    pythons >../pythons.found
    while read -r version python <&3; do
        for program in good library; do
            ends "$python" 'nothing to report' "-m witness $program.py"
            tell untold "all is told of $program.py, $version" $?
        done
        for program in below child ended; do
            ends "$python" "$unseen" "-m witness $program.py"
            tell untold "not all is told of $program.py, $version" $?
        done
        # Before 3.10 such a lock needs a loop, and warns where there is none.
        ends "$python" "$unseen" "-W ignore -m witness tasks.py"
        tell untold "not all is told of tasks.py, $version" $?
        ends "$python" "$unseen" late.py
        tell untold "not all is told of late.py, $version" $?
    done 3<../pythons.found
    cd "$work" || exit 4
fi
