# Tests of what the recorder does inside a program: read by `run`, whose functions it uses.

compile_atfork() {
    cp "$here/atfork.c" . && cc -g -fPIC -shared -DLIBRARY -pthread -o libatfork.so atfork.c &&
        cc -g -pthread -o atfork atfork.c -L. -latfork -Wl,-rpath,"$PWD"
}

# A library's handlers of fork come before the recorder's in the registering, and so after it in the preparing.
if wanted atfork; then
    compile_atfork
    for forks in 1 12; do
        timeout -s KILL 300 "$record" -- ./atfork $forks >recorded.out 2>recorded.err
        [ $? -eq 0 ] && [ "$(cat recorded.out)" = forked ] && sed 's/^==[0-9]*== //; /^record: /d' recorded.err | diff "$here/atfork.want" -
        tell atfork "$forks forks in a library's handlers" $?
    done
fi

for flags in -O0 -O2; do
    example varying "frames of varying size"
    example varyings "frames of varying size, std::mutex"
    example started "lambdas of std::thread"
done
flags=

example named "locks of one array"
writing_all example named "locks of one array"

for words in 0 2 3; do
    example dropped "rights that are given up before the first nested request"
done
words=1
if [ "$(id -u)" -eq 0 ]; then
    example dropped "another root and another user before the first nested request"
elif wanted dropped; then
    echo "left out  dropped: only root changes root and user"
fi
words=
if [ "$(id -u)" -eq 0 ]; then
    writing_all example changed "another user, and more than a window of calls after that"
elif wanted changed; then
    echo "left out  changed: only root changes its user"
fi

# What other threads held at a fork is held by nobody in the child: its trace has those locks free.
example orphans "locks that other threads hold at a fork"
writing_all example orphans "locks that other threads hold at a fork"
if wanted orphans; then
    compile orphans
    for requests in new all; do
        record=$(recorder_of $requests)
        "$record" -o kept -- ./orphans 2>/dev/null
        bad=0
        for trace in kept kept.1; do
            python3 "$here/judge.py" $trace && "$WITNESS" locks <$trace >left && ! grep -q '^seat\|^ ' left || bad=1
        done
        [ "$bad" -eq 0 ]
        tell orphans "nothing is left held in either trace ($requests requests)" $?
    done
    record=$recorder/record
fi

# It isn't recorded, which is told, and runs as without the recorder.
if wanted unwatched; then
    compile unwatched
    for requests in new all; do
        "$(recorder_of $requests)" -- ./unwatched >recorded.out 2>recorded.err
        [ $? -eq 0 ] && [ "$(cat recorded.out)" = "status 0, signal 0" ] &&
            grep -q 'not recorded: 1 process whose fork was not seen' recorded.err
        tell unwatched "a child in a sandbox whose fork isn't seen ($requests requests)" $?
    done
fi

if wanted elfsymbols; then
    sed "s#\.\./runtime/elf_symbols.c#$recorder/runtime/elf_symbols.c#" "$here/elfsymbols.c" >elfsymbols.c
    printf 'many variables, 0 wrong\nmany functions, 0 wrong\n' >wanted
    "${CC:-cc}" -std=c11 -D_GNU_SOURCE -g -Wall -Wextra -Werror -I"$recorder" -I"$recorder/runtime" -o elfsymbols elfsymbols.c &&
        ./elfsymbols | diff wanted -
    tell elfsymbols "the symbol of an address, sorted or not" $?
fi

# Stacks: of requests, of what was held as far as they are known, and through functions that are
# passed over. A helper that was called a thousand times from one place has no more.
RECORD_FRAMES=8 want=helper.held example helper "callers"
RECORD_FRAMES=3 want=helper.held example helper "callers, three frames"
RECORD_FRAMES=8 want=helper.held writing_all example helper "callers"
words=1000
RECORD_FRAMES=8 want=helper.callers example helper "the callers of requests"
RECORD_FRAMES= want=helper.held example helper "the callers of what was held" --verbose
words=
want=helper.skip example helper "functions that are passed over" --skip 'cache_*'
RECORD_FRAMES=8 example helper "no callers" --brief
flags=-O2
RECORD_FRAMES=8 want=helper.held example helper "callers"
RECORD_FRAMES=8 want=with example with "the callers through templates and lambdas" --skip with
flags=
if wanted helper; then
    compile helper
    RECORD_FRAMES=2 "$record" -o kept -- ./helper 2>recorded.err
    "$WITNESS" replay <kept | diff - "$here/helper.first" && ! grep -q 'main' recorded.err && grep -q audit recorded.err
    tell helper "two frames, and a trace with its places" $?
fi

# Each place has its function, where it has no caller too, and its thread: with the number that the thread itself has told.
if wanted writers; then
    compile writers
    for requests in new all; do
        record=$(recorder_of $requests)
        RECORD_FRAMES=8 "$record" -- ./writers >recorded.out 2>recorded.err
        for name in reader writer other; do
            number=$(sed -n "s/^$name //p" recorded.out)
            echo "s/, thread $number\\>/, thread $(echo $name | tr a-z A-Z)/"
            echo "/^single/s/\\<$number\\>/$(echo $name | tr a-z A-Z)/"
        done >numbers
        sed -f numbers recorded.err | diff "$here/writers.want" -
        tell writers "the functions and threads of a report's places ($requests requests)" $?
    done
    record=$recorder/record
    "$record" --brief -- ./writers >recorded.out 2>recorded.err
    sed '/^callers:/,/^  collect/d; /^single/d' "$here/writers.want" | diff - recorded.err
    tell writers "none with one frame" $?
fi

# Locks of the program's own, annotated.
for flags in -O0 -O2; do
    example futex "locks on futexes"
    writing_all example futex "locks on futexes"
    example atomics "locks on std::atomic, by C++'s guards"
    writing_all example atomics "locks on std::atomic, by C++'s guards"
done
flags=

# A call that was left is told of, and its thread is recorded as before.
if wanted jump; then
    "$record" -- true 2>/dev/null
    compile jump
    for way in 0 1 2 3; do
        for requests in new all; do
            record=$(recorder_of $requests)
            timeout -s KILL 100 "$record" -- ./jump $way 2>recorded.err
            # The third way has the order in another line.
            sed 's/process [0-9]*/process N/; s/ @ jump.c:54$/ @ jump.c:23/' recorded.err | diff "$here/jump.want" -
            tell jump "a call that is left, way $way ($requests requests)" $?
        done
        record=$recorder/record
    done
fi

# A call that counts as left, and goes on.
if wanted switched; then
    compile switched
    for requests in new all; do
        record=$(recorder_of $requests)
        timeout -s KILL 100 "$record" -- ./switched 2>&1 | sed 's/process [0-9]*/process N/' | diff "$here/switched.want" -
        tell switched "a handler that changes to another stack and back ($requests requests)" $?
    done
    record=$recorder/record
fi

# The duty of the condensed stream: each request behind held locks is written, or one like it was.
if wanted duty; then
    compile condhang
    for requests in new all; do
        record=$(recorder_of $requests)
        "$record" -- timeout -s KILL 4 ./condhang 2>&1 | diff "$here/condhang.want" -
        tell duty "a wait for a condition whose mutex never comes back ($requests requests)" $?
    done
    record=$recorder/record
    compile madeup
    "$record" -o kept -- ./madeup 2>/dev/null
    [ "$(grep -c '^check' kept)" -eq 6 ] && ! grep '^try' kept
    tell duty "no try that wasn't" $?
    if has_libdw duty; then
        compile unnumbered
        echo '"shelves[]"' >list
        "$record" --ignore list -- ./unnumbered 2>&1 | grep -v 'not recorded: 5 locks' | diff "$here/unnumbered.want" -
        tell duty "a chain with a lock that has no number" $?
    fi
fi

# The functions of the C++ library that have one of the program's in them say its lines, whatever the compiler inlined.
if wanted callbacks; then
    cp "$here/callbacks.cc" .
    for compiler in g++ clang++ "clang++ -stdlib=libc++"; do
        for level in -O0 -O1 -O2 -O3; do
            if ! $compiler -g $level -pthread -o callbacks callbacks.cc 2>/dev/null; then
                echo "left out  callbacks: $compiler isn't there"
                break
            fi
            "$record" -- ./callbacks 2>clean.err
            "$record" -- ./callbacks twice 2>recorded.err
            sed -E 's/"[^"]*"/T/g; s/\([^(]*, sleep/(T, sleep/' recorded.err | diff "$here/callbacks.want" - &&
                printf '%s\n' "$clean" 'record: nothing to report' | diff - clean.err
            tell callbacks "functions that were inlined into the library ($compiler $level)" $?
        done
    done
fi

# A program that is started with INT ignored, as in the background of a shell, and has a handler for it later.
if wanted ignored; then
    cat >handles.c <<'END'
#include <signal.h>
#include <stdio.h>
#include <unistd.h>
static volatile sig_atomic_t came;
static void handle(int number) { came = number; }
int main(void)
{
    signal(SIGINT, handle);
    puts("ready");
    fflush(stdout);
    for (int i = 0; i < 300 && !came; i++)
        usleep(100000);
    puts(came ? "it came" : "nothing came");
}
END
    cc -o handles handles.c
    "$record" -- true 2>/dev/null
    : >ignored.out
    "$record" -- ./handles >ignored.out 2>/dev/null &
    within grep -q ready ignored.out
    kill -INT $!
    wait $!
    grep -qx 'it came' ignored.out
    tell ignored "INT that was ignored at the start is passed on" $?
    : >ignored.out
    "$record" -- sh -c 'echo ready; sleep 4; echo went on' >ignored.out 2>/dev/null &
    within grep -q ready ignored.out
    kill -INT $!
    wait $!
    grep -qx 'went on' ignored.out
    tell ignored "and is ignored by a program that has no handler for it" $?
fi

# A program that is started by a link is told by that name.
if wanted link; then
    mkdir -p linked && cp "$here/reversal.c" . && cc -pthread -s -o linked/file reversal.c && ln -sf file linked/alias
    "$record" -- linked/alias 2>recorded.err
    grep -q ' in .*alias' recorded.err && ! grep -q '[ (]file' recorded.err
    tell link "the program's own name, by a link" $?
    "$record" -- linked/file 2>recorded.err
    grep -q ' in .*file' recorded.err
    tell link "the program's own name" $?
fi

# A program that overwrites the words that it was started by, as servers do, keeps its name.
if wanted renamed; then
    sed 's/^int main(void)$/int main(int count, char **word)/; s/^    pthread_t .*;$/&\n    for (char *at = word[count - 1]; *at; at++)\n        *at = 110;/' \
        "$here/reversal.c" >renamed.c && cc -g -pthread -o renamed renamed.c && grep -q 'char \*at' renamed.c &&
        RECORD_FRAMES=8 "$record" -- ./renamed 2>recorded.err
    grep -q '^ 1st "journal", thread [0-9]* (made by main' recorded.err
    tell renamed "its threads have no name of their own" $?
fi

# An object without unwind tables is named, once.
if wanted blind; then
    cp "$here/helper.c" . && cc -g -O1 -fno-asynchronous-unwind-tables -fno-unwind-tables -pthread -o blind helper.c
    "$record" -- sh -c './blind; ./blind' 2>recorded.err
    [ "$(grep -c '^record: blind has functions without unwind tables' recorded.err)" -eq 1 ]
    tell blind "an object without unwind tables" $?
    cc -g -O1 -pthread -o blind helper.c
    "$record" -- ./blind 2>recorded.err
    ! grep -q 'unwind tables' recorded.err
    tell blind "an object with them" $?
    # What begins a process, and what ends an object, has none in any case, and nobody misses them.
    cat >library.c <<'END'
#include <pthread.h>
#include <stdlib.h>
static pthread_mutex_t outer = PTHREAD_MUTEX_INITIALIZER, first = PTHREAD_MUTEX_INITIALIZER, last = PTHREAD_MUTEX_INITIALIZER;
static void under_outer(pthread_mutex_t *inner)
{
    pthread_mutex_lock(&outer);
    pthread_mutex_lock(inner);
    pthread_mutex_unlock(inner);
    pthread_mutex_unlock(&outer);
}
static void end(void) { under_outer(&last); }
__attribute__((constructor)) static void begin(void)
{
    under_outer(&first);
    atexit(end);
}
END
    cat >closes.c <<'END'
#include <dlfcn.h>
int main(int count, char **word) { return count > 1 && dlclose(dlopen(word[1], RTLD_NOW)); }
END
    cc -g -shared -fPIC -pthread -o library.so library.c && cc -o closes closes.c && cc -o needs closes.c -Wl,--no-as-needed ./library.so
    for words in ./needs "./closes ./library.so"; do
        RECORD_FRAMES=8 "$record" -o kept -- $words 2>recorded.err
        ! grep -q 'unwind tables' recorded.err && [ "$(grep -c '^check' kept)" -ge 4 ]
        tell blind "where a process begins, and an object ends ($words)" $?
    done
    words=
fi

# A handler of signals on a small stack: 512 bytes more are enough than without the recorder.
if wanted small; then
    compile small
    size=2048
    while [ $size -lt 65536 ] && ! ./small $size 2>/dev/null; do
        size=$((size + 64))
    done
    "$record" -- ./small $((size + 512)) 2>&1 | diff "$here/small.want" -
    tell small "a handler on a small stack" $?
    "$(recorder_of all)" -- ./small $((size + 512)) 2>&1 | diff "$here/small.want" -
    tell small "a handler on a small stack (all requests)" $?
    RECORD_FRAMES=8 "$record" -- ./small $((size + 512)) 2>recorded.err
    grep -q '^  handle (small.c:18)$' recorded.err && grep -q '^  main (small.c:32)$' recorded.err
    tell small "its callers" $?
fi
