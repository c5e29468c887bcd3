# Tests of what is told where not all was seen, read by `run`, whose functions it uses: processes that go on, programs that
# never loaded the recorder, room that ends, reports that are silenced.

last_is() {
    [ "$(tail -n 1 recorded.err)" = "$1" ] && return
    cat recorded.err
    return 1
}

# Whether the recording is there that is told to be kept.
is_kept() {
    place=$(sed -n 's/^record: the recording is kept: //p' recorded.err)
    [ -n "$place" ] && [ -d "$place" ]
}

# A program whose process begins another one. What has the recorder is recorded, whichever call it was begun by; of what
# hasn't nothing is known, and that is said.
if wanted begun; then
    compile begun
    for way in execve execv execvp execl execlp execle spawn spawnp system; do
        recorded_by "$record" -- ./begun $way
        said 0 '^record: 1 report, 0 circles, 1 process$' && ! grep -q 'nothing is known' recorded.err
        tell begun "$way" $?
    done
    for way in EXECVE EXECVPE EXECLE SELF SPAWN SPAWNP; do
        recorded_by "$record" -- ./begun $way
        said 0 "^record: nothing is known of begun (process [0-9]*): it didn.t load the recorder$" &&
            last_is 'record: nothing in what was recorded'
        tell begun "$way, with a clean environment" $?
    done
    recorded_by "$record" -- ./begun SYSTEM
    said 0 'not recorded: 1 shells that were started without the recorder' && last_is 'record: nothing in what was recorded'
    tell begun "a shell with a clean environment" $?
    for way in clone bare; do
        recorded_by "$record" -- ./begun $way
        said 0 'not recorded: 1 process whose fork was not seen (a bare call of the kernel' &&
            last_is 'record: nothing in what was recorded'
        tell begun "a child by a bare call of the kernel ($way)" $?
    done
    recorded_by "$record" -- ./begun none
    last_is 'record: nothing to report: no thread asked for a lock while it held another'
    tell begun "what isn't there isn't started" $?
    recorded_by "$record" -- env -i ./begun
    said 0 "^record: nothing is known of begun (process [0-9]*): it didn.t load" && last_is 'record: nothing in what was recorded'
    tell begun "env -i" $?
    echo 'int main(void) { return 3; }' >main.c
    "${CC:-cc}" -static -o static main.c && recorded_by "$record" -- sh -c './static; ./static; exit 4'
    said 4 "^record: nothing is known of static, which was started 2 times: it didn.t load the recorder$" &&
        last_is 'record: nothing in what was recorded'
    tell begun "children that are linked statically" $?
    cp main.c user.c && "${CC:-cc}" -o user user.c && chmod go+x . && chown 65534 user 2>/dev/null && chmod u+s user
    if [ "$(id -u)" -eq 0 ] && [ -u user ]; then
        recorded_by "$record" -- sh -c './user; exit 4'
        said 4 "^record: nothing is known of user (process [0-9]*): it didn.t load the recorder$"
        tell begun "a child that runs as another user" $?
    else
        echo "left out  begun: no program can be made to run as another user here"
    fi
    cat >many.c <<'END'
#include <sys/wait.h>
#include <unistd.h>
int main(void)
{
    for (int i = 0; i < 3100; i++) {
        if (vfork() == 0) {
            execl("./none", "none", NULL);
            _exit(0);
        }
        wait(NULL);
    }
    return 0;
}
END
    "${CC:-cc}" -o many many.c && recorded_by "$record" -- ./many
    said 0 '^record: there were more than 3,072 processes: ' && last_is 'record: nothing in what was recorded'
    tell begun "more processes than there is room for" $?
    # The program itself is one that nothing is known of, its child is another.
    printf '#include <stdlib.h>\nint main(void) { return system("./begun execl"); }\n' >outer.c
    "${CC:-cc}" -static -o outer outer.c && recorded_by "$record" -- ./outer
    said 0 '^record: nothing is known of outer (process [0-9]*): it is linked statically$' && last_is 'record: 1 report, 0 circles, 1 process'
    tell begun "a program that is linked statically, and whose child isn't" $?
fi

# A process that is left: it is waited for where it ends soon, else its recording is kept, and it can be looked at.
if wanted leaving; then
    compile leaving
    recorded_by "$record" -- ./leaving 200
    last_is 'record: 1 report, 0 circles, 1 process' && ! grep -q kept recorded.err
    tell leaving "what ends soon is waited for" $?
    rm -f left
    recorded_by "$record" -- ./leaving 4000
    pid=$(sed -n 's/^record: leaving (process \([0-9]*\)) goes on: record --show \1 tells of it$/\1/p' recorded.err)
    [ -n "$pid" ] && is_kept && last_is 'record: so far: nothing to report: no thread asked for a lock while it held another'
    tell leaving "what goes on is told, and its recording is kept" $?
    within [ -e left ]
    recorded_by "$record" --show "${pid:-0}"
    said 0 '^lock order reversal:$' && last_is 'record: so far: 1 report, 0 circles, 1 process'
    tell leaving "it is looked at by its number, though it has overwritten its environment" $?
    [ -z "$pid" ] || kill "$pid"
    recorded_by "$record" --show "$place"
    said 0 '^lock order reversal:$'
    tell leaving "it is looked at when it has ended" $?
    [ -z "$place" ] || rm -rf "$(dirname "$place")"
    # Its reports by then, too.
    compile reversal
    recorded_by "$record" --error-exitcode 9 -- sh -c './reversal; ./leaving 9000'
    pid=$(sed -n 's/^record: leaving (process \([0-9]*\)) goes on: .*/\1/p' recorded.err)
    said 9 '^record: so far: 1 report, 0 circles, 1 process$' && is_kept
    tell leaving "what is known by then is told" $?
    [ -z "$pid" ] || kill "$pid"
    drop_kept
    # One that isn't recorded goes on.
    recorded_by "$record" -- sh -c 'env -i sleep 5 & echo $! >sleep.pid'
    said 0 'nothing is known of sleep (process [0-9]*): it didn.t load the recorder' &&
        said 0 '^record: what goes on now isn.t recorded$' && last_is 'record: nothing in what was recorded' && ! is_kept
    tell leaving "what goes on and isn't recorded" $?
    kill "$(cat sleep.pid)"
fi

# For machines that build and test: where nothing was recorded at all, a run isn't a good one.
if wanted blind; then
    compile reversal
    compile begun
    echo 'int main(void) { return 0; }' >main.c
    "${CC:-cc}" -static -o static main.c && recorded_by "$record" --error-exitcode 9 -- ./static
    said 9 '^record: nothing is known of static: it is linked statically$'
    tell blind "a status for a program that is linked statically" $?
    for words in "env -i ./reversal" "./begun SELF" "./begun SPAWN"; do
        recorded_by "$record" --error-exitcode 9 -- $words
        said 9 '^record: nothing in what was recorded$'
        tell blind "a status for $words" $?
    done
    recorded_by "$record" --error-exitcode 9 -- ./none
    said 9 'nothing is known of none: it wasn.t started'
    tell blind "a status for a program that isn't there" $?
    printf '#!/bin/sh\n[ "$(head -c 1)" != a ] || exit 4\n' >broken && chmod +x broken
    WITNESS="$work/broken" recorded_by "$record" --error-exitcode 9 -- ./reversal
    said 9 'its recording isn.t accepted, by status 4'
    drop_kept
    tell blind "a status for a replay that failed" $?
    # What is known in part has its reports alone to fail by.
    compile trysecond
    recorded_by "$record" --error-exitcode 9 -- sh -c './trysecond; ./static; exit 4'
    said 4 '^record: nothing in what was recorded$'
    tell blind "the program's own status where something was recorded" $?
    recorded_by "$record" --error-exitcode 9 -- sh -c 'exit 4'
    said 4 '^record: nothing to report: no thread asked for a lock while it held another$'
    tell blind "the program's own status where there was nothing to record" $?
fi

# What ends the room is told by its own cause: the disks are in the tests `middle` and `full`.
if wanted causes; then
    compile spent
    recorded_by "$record" -- ./spent
    said 0 '^record: spent (process [0-9]*): not recorded: [0-9]* lines (no file descriptor was left)$' &&
        last_is 'record: nothing in what was recorded'
    tell causes "no file descriptor" $?
    compile reversal
    (ulimit -S -f 512 && recorded_by "$record" -- ./reversal && cp recorded.err limited.err) &&
        grep -q '^record: there was little room for the recording: a limit on the size of files$' limited.err
    tell causes "a limit on the size of files from the start" $?
    # A program that has few addresses keeps them, and nothing is known of it. One that gives itself a limit has some left.
    recorded_by "$record" --error-exitcode 9 -- sh -c 'ulimit -v 60000; ./reversal'
    said 9 '^record: nothing is known of reversal (process [0-9]*): there was too little memory for the recorder' &&
        last_is 'record: nothing in what was recorded'
    tell causes "a limit on memory" $?
    # A sanitizer takes more of them than that.
    if [ -z "${RECORD_SANITIZE-}" ]; then
        (ulimit -v 60000 && recorded_by "$record" -- ./reversal && cp recorded.err limited.err) &&
            [ "$(tail -n 1 limited.err)" = 'record: nothing in what was recorded' ]
        tell causes "a limit on memory from the start" $?
    fi
    cat >limited.c <<'END'
#include <sys/mman.h>
#include <sys/resource.h>
int main(void)
{
    struct rlimit limit = {64 << 20, 64 << 20};
    setrlimit(RLIMIT_AS, &limit);
    return mmap(0, 16 << 20, PROT_READ | PROT_WRITE, MAP_PRIVATE | MAP_ANONYMOUS, -1, 0) == MAP_FAILED;
}
END
    "${CC:-cc}" -o limited limited.c && "$record" -- ./limited 2>/dev/null
    tell causes "a limit that the program gives itself" $?
fi

# Where locks aren't seen the last line names them: not_seen WHAT WORDS.. runs the words.
not_seen() {
    what=$1
    shift
    recorded_by "$record" --alarms no-errors -- "$@"
    last_is "record: nothing in what was recorded; not seen: $what (see record(1))"
    tell unseen "$what ($*)" $?
}

# A library of that name, with that text in it.
stand_in_library() {
    printf 'const char *const text = "%s";\n' "$2" >library.c && "${CC:-cc}" -shared -fPIC -o "$1" library.c
}

if wanted unseen; then
    # Two locks in opposite orders, each in the other's language.
    cat >hang.rs <<'END'
use std::sync::{Arc, Mutex};
use std::thread;
fn main() {
    let locks = Arc::new((Mutex::new(0), Mutex::new(0)));
    let own = locks.clone();
    thread::spawn(move || { let _held = own.0.lock().unwrap(); *own.1.lock().unwrap() += 1; }).join().unwrap();
    let own = locks.clone();
    thread::spawn(move || { let _held = own.1.lock().unwrap(); *own.0.lock().unwrap() += 1; }).join().unwrap();
}
END
    if command -v rustc >/dev/null 2>&1; then
        rustc -g -o hang hang.rs && not_seen "locks of Rust's std" ./hang
        rustc -O -C strip=symbols -o hang hang.rs && not_seen "locks of Rust's std" ./hang
        rustc -C prefer-dynamic -o hang hang.rs &&
            not_seen "locks of Rust's std" env LD_LIBRARY_PATH="$(dirname "$(find "$(rustc --print sysroot)" -name 'libstd-*.so' | tail -n 1)")" ./hang
    else
        echo "left out  unseen: there is no rustc"
    fi
    cat >hang.py <<'END'
import threading
one, other = threading.Lock(), threading.Lock()
def both(first, second):
    with first:
        with second:
            pass
for order in ((one, other), (other, one)):
    thread = threading.Thread(target=both, args=order)
    thread.start()
    thread.join()
END
    if python3 -c '' 2>/dev/null; then
        not_seen "locks of Python" "$(python3 -c 'import sys; print(sys.executable)')" hang.py
    else
        echo "left out  unseen: there is no python3"
    fi
    cat >Hang.java <<'END'
public class Hang {
    static void both(Object first, Object second) { synchronized (first) { synchronized (second) { } } }
    public static void main(String[] words) throws Exception {
        Object one = new Object(), other = new Object();
        Thread thread = new Thread(() -> both(one, other));
        thread.start();
        thread.join();
        both(other, one);
    }
}
END
    if command -v javac >/dev/null 2>&1 && javac Hang.java 2>/dev/null; then
        not_seen "locks of Java" java -cp . Hang
    else
        echo "left out  unseen: there is no javac"
    fi
    cat >hang.cc <<'END'
#include <semaphore>
#include <thread>
static std::counting_semaphore<1> one(1), other(1);
static void both(std::counting_semaphore<1> &first, std::counting_semaphore<1> &second)
{
    first.acquire();
    second.acquire();
    second.release();
    first.release();
}
int main()
{
    std::thread([] { both(one, other); }).join();
    std::thread([] { both(other, one); }).join();
}
END
    for flags in -O0 -O2; do
        if c++ -std=c++20 $flags -pthread -o hang hang.cc 2>/dev/null; then
            not_seen "semaphores of C++20" ./hang
        else
            echo "left out  unseen: there is no C++20"
        fi
    done
    # What waits so is called by its name.
    for line in "latches:std::latch both(2):both.arrive_and_wait():latch" \
        "barriers:std::barrier<> both(2):both.arrive_and_wait():barrier" \
        "waits for atomics:std::atomic<int> both(0):both += 1; both.notify_all(); for (int n; (n = both) < 2;) both.wait(n):atomic"; do
        rest=${line#*:}
        header=${line##*:}
        rest=${rest%:*}
        printf '#include <%s>\n#include <thread>\nstatic %s;\nint main() { std::thread other([] { %s; }); %s; other.join(); }\n' "$header" \
            "${rest%:both*}" "both${rest##*:both}" "both${rest##*:both}" >waits.cc
        for flags in -O0 -O2; do
            c++ -std=c++20 $flags -pthread -o waits waits.cc 2>/dev/null && not_seen "${line%%:*} of C++20" ./waits
        done
    done
    # Semaphores of the C library, by which two threads wait for each other.
    cat >posix.c <<'END'
#include <pthread.h>
#include <semaphore.h>
static sem_t one, other;
static void both(sem_t *first, sem_t *second)
{
    sem_wait(first);
    sem_wait(second);
    sem_post(second);
    sem_post(first);
}
static void *work(void *unused)
{
    both(&other, &one);
    return unused;
}
int main(void)
{
    pthread_t thread;
    sem_init(&one, 0, 1);
    sem_init(&other, 0, 1);
    both(&one, &other);
    pthread_create(&thread, NULL, work, NULL);
    return pthread_join(thread, NULL);
}
END
    "${CC:-cc}" -pthread -o posix posix.c && not_seen semaphores ./posix
    recorded_by "$record" --semaphores -- ./posix
    said 0 '^record: 1 report, 0 circles, 1 process$'
    tell unseen "semaphores are seen where that is asked for" $?
    for words in "mono:locks of Mono" "guile:locks of Guile" "ecl:locks of ECL" "sbcl:locks of SBCL"; do
        command -v "${words%%:*}" >/dev/null 2>&1 || { echo "left out  unseen: there is no ${words%%:*}" && continue; }
        case $words in
        mono:*) not_seen "${words#*:}" mono --version ;;
        guile:*) not_seen "${words#*:}" guile -c '(display 1)' ;;
        ecl:*) not_seen "${words#*:}" ecl --eval '(quit)' ;;
        sbcl:*) not_seen "${words#*:}" sbcl --non-interactive --eval '(print 1)' ;;
        esac
    done
    if perl -Mthreads::shared -e 1 2>/dev/null; then
        not_seen "locks of Perl's threads::shared" perl -Mthreads -Mthreads::shared -e 'my $x :shared; { lock($x); }'
    fi
    flags=
    # Stand-ins for what a machine needn't have: by a library's name, and by what stands in a file.
    compile opens -Wl,-rpath,"$work/standing"
    mkdir -p standing
    for line in "locks of Ruby:libruby-3.1.so.3.1:" "locks of folly:libfolly.so.0.58.0:" "QMutex:libQt6Core.so.6:" \
        "locks of tokio:libten.so:_ZN5tokio4sync15batch_semaphore9Semaphore7acquire" "locks of tokio:libeleven.so:tokio-1.24.2/src/sync/batch_semaphore.rs" \
        "locks of GAsyncQueue:libsix.so:g_async_queue_lock" "absl::Mutex:libabsl_synchronization.so.20220623:" "locks of Java:libjvm.so:" \
        "locks of Go:libone.so:Go buildinf:" "absl::Mutex:libtwo.so:AbslInternalPerThreadSemWait_lts_20220623" \
        "locks of Mono:libmonosgen-2.0.so.1:" "locks of .NET:libcoreclr.so:" "locks of Guile:libguile-3.0.so.1:" "locks of ECL:libecl.so.21.2:" \
        "locks of D:libgphobos.so.3:" "locks of Erlang:libeight.so:ethr_mutex_lock" "MVars of Haskell:libnine.so:stg_takeMVarzh" \
        "critical sections of clang's OpenMP:libseven.so:__kmpc_critical" "QMutex:libthree.so:_ZN6QMutex4lockEv" "locks of folly:libfour.so:_ZN5folly6detail13futexWaitImplEv" \
        "locks of Rust's std:libfive.so:/rustc/f00/library/std/src/sync/poison.rs"; do
        what=${line%%:lib*}
        file=${line#"$what:"}
        stand_in_library "standing/${file%%:*}" "${file#*:}"
        not_seen "$what" ./opens "$work/standing/${file%%:*}"
    done
    # The last one that is opened and one before it, by their names alone.
    not_seen "locks of Go, QMutex" ./opens libone.so libQt6Core.so.6
    not_seen "locks of Rust's std, locks of Ruby" ./opens libruby-3.1.so.3.1 libfive.so libm.so.6
    stand_in_library standing/libplain.so "nothing of that kind"
    recorded_by "$record" -- ./opens libplain.so
    last_is 'record: nothing to report: no thread asked for a lock while it held another' && [ ! -s recorded.out ]
    tell unseen "a library without such locks" $?
    recorded_by "$record" --error-exitcode 9 -- ./opens libone.so
    said 9 'not seen: locks of Go'
    tell unseen "a status where nothing was recorded and not all seen" $?
    cat >many.c <<'END'
#include <dlfcn.h>
#include <stdio.h>
int main(void)
{
    char name[128];
    for (int i = 0; i < 3000; i++) {
        snprintf(name, sizeof name, "./none-%090d", i);
        dlopen(name, RTLD_NOW);
    }
    return 0;
}
END
    "${CC:-cc}" -o many many.c && not_seen "more objects than there is room for" ./many
    compile reversal -Wl,--no-as-needed "$work/standing/libruby-3.1.so.3.1"
    recorded_by "$record" -- ./reversal
    diff "$here/reversal.want" recorded.err
    tell unseen "a report isn't changed by it" $?
fi
