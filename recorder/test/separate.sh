# Tests of debug information in a file of its own, and of programs that have none. Read by `run`, whose functions it uses.

# parted WAY: `separate` without its debug information, which stands elsewhere.
parted() {
    rm -rf parted served cache && mkdir parted && objcopy --only-keep-debug separate parted/far.debug &&
        objcopy --strip-all separate parted/separate || return 1
    case $1 in
    link) objcopy --add-gnu-debuglink=parted/far.debug parted/separate ;;
    folder) mkdir parted/.debug && mv parted/far.debug parted/.debug && cd parted/.debug &&
        objcopy --add-gnu-debuglink=far.debug ../separate && cd ../.. ;;
    net)
        id=$(readelf -n parted/separate | sed -n 's/.*Build ID: //p')
        mkdir -p "served/buildid/$id" && mv parted/far.debug "served/buildid/$id/debuginfo"
        ;;
    esac
}

# by_net COMMAND..: `record` with debuginfod, which serves the folder.
by_net() {
    DEBUGINFOD_URLS="file://$work/served" DEBUGINFOD_CACHE_PATH="$work/cache" "$record" "$@" 2>recorded.err
}

if wanted separate && has_libdw separate; then
    for compiler in gcc clang; do
        command -v $compiler >/dev/null || continue
        cp "$here/separate.c" . && $compiler -g -O1 -Wl,--build-id -pthread -o separate separate.c
        for way in link folder; do
            parted $way && "$record" -- parted/separate 2>recorded.err
            diff "$here/separate.want" recorded.err
            tell separate "by a link in the object ($way, $compiler)" $?
        done
        parted net && "$record" -- parted/separate 2>recorded.err
        ! grep -q 'account::mutex' recorded.err
        tell separate "nothing is asked for that the user doesn't want ($compiler)" $?
        if ldconfig -p | grep -q 'libdebuginfod\.so\.1'; then
            by_net -- parted/separate
            diff "$here/separate.want" recorded.err
            tell separate "by debuginfod ($compiler)" $?
        else
            echo "left out  separate: libdebuginfod isn't there"
        fi
    done
fi

# A program without debug information is told by functions. By RECORD_FRAMES=1 how far in a function a place is isn't known.
if wanted nodebug; then
    for compiler in gcc clang; do
        command -v $compiler >/dev/null || continue
        for level in -O0 -O2; do
            cp "$here/nodebug.c" . && $compiler $level -fno-optimize-sibling-calls -pthread -o nodebug nodebug.c
            RECORD_FRAMES=8 "$record" --gen-suppressions -- ./nodebug 2>recorded.err
            sed 's/+0x[0-9a-f]*/+0xN/g; s/threads* [0-9][0-9]*/thread N/g' recorded.err | grep -v '^  main\|^  renders' >reports
            grep -v '^  main\|^  renders' "$here/nodebug.want" | diff - reports
            tell nodebug "a report by functions ($compiler $level)" $?
            sed -n 's/^"/"/p' recorded.err >list && "$record" --ignore list -- ./nodebug 2>&1 | tail -n 1 >reports
            echo 'record: nothing to report: list ignores 2 reports' | diff - reports
            tell nodebug "and its lines of the ignore file ($compiler $level)" $?
        done
    done
    "$record" --json run.json -- ./nodebug 2>/dev/null &&
        python3 - run.json "$(readelf -n nodebug | sed -n 's/.*Build ID: //p')" <<'END'
import json, re, sys
report = json.load(open(sys.argv[1]))["reports"][0]
names = [(each["type"], re.sub("[+]0x[0-9a-f]*", "", each["name"]), each["build_id"]) for each in report["lasting"]]
kinds = ("filter_init", "producer_init")
sys.exit(names != [(kind, f"nodebug:service_init<{kind}", sys.argv[2] or "-") for kind in kinds])
END
    tell nodebug "the lasting names, in JSON" $?
    "$record" -- ./nodebug 2>&1 | head -n 3 >reports
    printf '%s\n' 'lock order reversal:' ' 1st "filter_init" (sleep mutex) in get_frame (nodebug)' \
        ' 2nd "producer_init" lock 2 (sleep mutex) in get_frame (nodebug)' | diff - reports
    tell nodebug "a report without callers" $?
    cat >twice.c <<'END'
#include <pthread.h>
#include <stdlib.h>
__attribute__((noinline)) pthread_mutex_t *made(void)
{
    pthread_mutex_t *mutex = malloc(sizeof *mutex);
    return mutex && pthread_mutex_init(mutex, NULL) == 0 ? mutex : NULL;
}
int main(void)
{
    pthread_mutex_t *one = made(), *other = made();
    pthread_mutex_lock(one), pthread_mutex_lock(other), pthread_mutex_unlock(other), pthread_mutex_unlock(one);
    pthread_mutex_lock(other), pthread_mutex_lock(one), pthread_mutex_unlock(one), pthread_mutex_unlock(other);
    return 0;
}
END
    "${CC:-cc}" -O0 -pthread -o twice twice.c && RECORD_FRAMES=8 "$record" -- ./twice 2>recorded.err
    grep -q '^ 1st "made+0x[0-9a-f]*<main+0x[0-9a-f]*" (sleep mutex) in main+0x[0-9a-f]* (twice)$' recorded.err
    tell nodebug "types that functions don't part have their offsets" $?
    cat >keeping.c <<'END'
#include <pthread.h>
#include <stdlib.h>
__attribute__((noinline)) void *made(void)
{
    pthread_mutex_t *mutex = malloc(sizeof *mutex);
    return mutex && pthread_mutex_init(mutex, NULL) == 0 ? mutex : NULL;
}
__attribute__((noinline)) void *keeps(void *mutex)
{
    pthread_mutex_lock(mutex);
    return mutex;
}
int main(void)
{
    pthread_t thread;
    void *mutex[3];
    for (int i = 0; i < 3; i++)
        mutex[i] = made();
    pthread_create(&thread, NULL, keeps, mutex[2]);
    return pthread_join(thread, NULL);
}
END
    "${CC:-cc}" -O0 -pthread -o keeping keeping.c && RECORD_FRAMES=8 "$record" --json run.json -- ./keeping 2>recorded.err
    grep -q '^record: keeping: a thread ended that held a lock, taken here: "made" lock 3 in keeps+0x[0-9a-f]* (keeping)$' recorded.err &&
        python3 -c 'import json; at = json.load(open("run.json"))["reports"][0]; assert at["error"]["lock"] == "made/3", at'
    tell nodebug "an error of one lock among others of its type" $?
fi

# What is before the symbol's end alone is the symbol's.
if wanted stripped; then
    for compiler in gcc clang; do
        command -v $compiler >/dev/null || continue
        for level in -O0 -O2; do
            cp "$here/stripped.c" . && $compiler -g $level -rdynamic -pthread -o stripped stripped.c && strip stripped
            RECORD_FRAMES=8 "$record" --gen-suppressions -- ./stripped 2>recorded.err
            grep -q '^lock order reversal' recorded.err && grep -q '(made in stripped+0x[0-9a-f]*)' recorded.err &&
                grep -q '^  main+0x[0-9a-f]* (stripped)$' recorded.err && grep -q '^ 2nd ".*" (sleep mutex) in stripped+0x[0-9a-f]*$' recorded.err &&
                ! grep -q 'told\|_start\|_init\|:0' recorded.err
            tell stripped "no function is named that a place isn't in ($compiler $level)" $?
        done
    done
fi
