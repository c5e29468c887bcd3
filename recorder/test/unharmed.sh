# Tests that a program does under the recorder what it does without, where it is an odd one; and that names with any bytes
# are told. Read by `run`, whose functions it uses.

# same NAME COMMAND..: the command's output and status are as without the recorder.
same() {
    "$@" >plain.out 2>/dev/null
    plain=$?
    RECORD_FRAMES=8 "$record" -- "$@" >recorded.out 2>recorded.err
    recorded=$?
    cmp plain.out recorded.out && [ "$plain" = "$recorded" ]
}

# tells_as REPORTS PROGRAM: it is told of the program, with all callers, what stands there.
tells_as() {
    RECORD_FRAMES=8 "$record" -- "$2" 2>recorded.err
    told <recorded.err | diff "$1" -
}

# Names with any bytes, in each place that one comes from: none ends a line or a field of the recorder's file.
if wanted words; then
    compile reversal
    RECORD_FRAMES=8 "$record" -- ./reversal 2>&1 | told >reversal.told
    odd=$(printf 'x\ninit 1 mtx - 9 1\ncheck 1 1 x n 5')
    cp reversal "$odd"
    tells_as reversal.told "./$odd"
    tell words "a program whose name has newlines" $?
    folder=$(printf 'a\nb %%41 c\tobject 1 x')
    mkdir "$folder" && cp reversal "$folder"
    tells_as reversal.told "./$folder/reversal"
    tell words "a folder whose name has a newline" $?
    deep=deep
    part=$(printf 'd%.0s' $(seq 200))
    for i in 1 2 3 4 5 6 7 8 9 10 11 12 13 14 15 16 17 18; do deep=$deep/$part; done
    mkdir -p "$deep" && cp reversal "$deep"
    tells_as reversal.told "./$deep/reversal"
    tell words "a path of more than 3,600 bytes" $?
    copy_recorder short
    sed 's/LINE_MOST = 1 << 14/LINE_MOST = 1 << 9/' "$recorder/runtime/stream.c" >short/runtime/stream.c
    cmp -s "$recorder/runtime/stream.c" short/runtime/stream.c
    [ $? -eq 1 ] && short/record -- "./$deep/reversal" 2>&1 | told >recorded.err &&
        grep -q '^record: reversal: not recorded: 1 lines (a name was too long for them)$' recorded.err &&
        grep -q '^ 1st "journal" (sleep mutex) in checkpoint$' recorded.err
    tell words "a line that has no room is left out and counted, and the next one is read" $?
    if command -v objcopy >/dev/null; then
        objcopy --redefine-sym "journal=jo ur" reversal space
        objcopy --redefine-sym "pool=$(printf 'po\nmany 0 0 0 x 0 0 x\nol')" reversal newline
        strip -g space newline
        "$record" -- ./space 2>&1 | told >recorded.err
        [ "$(tail -n 1 recorded.err)" = "record: 1 report, 0 circles, 1 process" ] && grep -q '^ 1st "jo ur" (sleep mutex) in checkpoint (space)$' recorded.err &&
            ! grep -q 'nothing is known\|no room' recorded.err
        tell words "a variable whose name has a space" $?
        RECORD_FRAMES=8 "$record" -- ./newline 2>&1 | told >recorded.err
        [ "$(tail -n 1 recorded.err)" = "record: 1 report, 0 circles, 1 process" ] &&
            grep -q '^ 2nd "po?many 0 0 0 x 0 0 x?ol" ' recorded.err && grep -q '^single locks: both orders, the same locks, ' recorded.err
        tell words "a variable whose name has newlines" $?
    else
        echo "left out  words: there is no objcopy"
    fi
    compile leaving
    name=$(printf 'leaving\nskip main')
    cp leaving "$name"
    "$record" -- "./$name" 2000 2>recorded.err
    kept=$(sed -n 's/^record: the recording is kept: //p' recorded.err)
    [ -n "$kept" ] && [ "$(grep -c '^skip ' "$kept/../settings")" -eq 1 ] && grep -qx 'program leaving%0askip main' "$kept/../settings"
    tell words "the settings that a recording keeps" $?
    [ -z "$kept" ] || rm -rf "$(dirname "$kept")"
    rm -rf records && mkdir records
    printf '#include <dlfcn.h>\nint main(void) { return dlopen("/none/x\\nP0000077 name forged loaded 1", RTLD_NOW) != 0; }\n' |
        "${CC:-cc}" -x c -o forges - -ldl &&
        env RECORDER_DIRECTORY="$work/records" LD_PRELOAD="$recorder/out/recorder.so" ./forges &&
        ! grep -aq '^P0000077' records/status && tr -d '\000' <records/status | grep -aq '^object /none/x%0aP0000077%20name%20forged'
    tell words "a library whose name has a newline" $?
fi

# What can't be read is refused by the kernel, and not by the program's end.
if wanted execs; then
    compile badexec
    same ./badexec </dev/null
    tell execs "words that can't be read, or aren't right" $?
fi

if wanted joins; then
    compile joins
    "${CC:-cc}" -g -fPIC -shared -DLIBRARY -pthread -o libjoins.so joins.c -ldl
    "${CC:-cc}" -g -rdynamic -pthread -o joins joins.c -ldl
    LD_PRELOAD="$work/libjoins.so" RECORD_FRAMES=8 timeout 60 "$record" -- ./joins >recorded.out 2>recorded.err
    if [ "$(cat recorded.out)" = "the same handle" ]; then
        told <recorded.err | grep -qx 'single locks: both orders, the same locks, threads N and N'
        tell joins "a thread that has the handle of one that was joined" $?
    else
        echo "left out  joins: no handle came twice"
    fi
fi

# Functions of GLib and OpenMP are there where their library is.
if wanted optional; then
    compile optional -ldl
    same ./optional
    tell optional "weak names, and names that are looked for, of libraries that aren't there" $?
    if "${CC:-cc}" -g -fPIC -shared -DLIBRARY -o libneeds.so optional.c -l:libglib-2.0.so.0 2>/dev/null; then
        for way in lazy now; do
            "${CC:-cc}" -g -fPIC -shared -Wl,-z,$way -DLIBRARY -o libneeds.so optional.c -l:libglib-2.0.so.0
            same ./optional "$work/libneeds.so" && told <recorded.err | grep -q '^record: 1 report, '
            tell optional "a library that brings GLib while the program runs ($way)" $?
        done
        "${CC:-cc}" -g -Wl,--no-as-needed -o glibbed optional.c -l:libglib-2.0.so.0 -ldl
        same ./glibbed "$work/libneeds.so" && told <recorded.err | grep -q '^record: 1 report, '
        tell optional "a program that has GLib" $?
    else
        echo "left out  optional: GLib isn't there"
    fi
fi

# As many bytes more than the program needs by itself are few.
if wanted coroutines; then
    compile coroutines -Wl,-z,now
    for way in "" handlers onstack thread; do
        same ./coroutines 1280 $way && told <recorded.err | grep -q '^ 1st "a" \|^ 1st "b" '
        tell coroutines "a stack of 1,280 bytes${way:+ ($way)}" $?
    done
    compile coroutines
    for bytes in 4096 6144; do
        same ./coroutines $bytes
        tell coroutines "a stack of $bytes bytes, with functions that are looked for when they are called" $?
    done
fi

if wanted brought; then
    compile brought
    for way in "" onstack; do
        same ./brought $way
        tell brought "a mutex in memory that a handler brings${way:+ ($way)}" $?
    done
fi

# As another user, under a limit that has room for the program alone; and under one that hasn't even that.
if wanted pinned; then
    compile pinned
    "$record" -- true 2>/dev/null
    user=
    [ "$(id -u)" -ne 0 ] || user="setpriv --reuid 65534 --clear-groups --inh-caps=-all"
    mkdir all && chmod 777 all && chmod 755 "$work" && cp "$recorder/out/recorder.so" pinned all
    limits="8192 2048"
    if ! (ulimit -l 8192 && $user true) 2>/dev/null; then
        echo "left out  pinned: there is no such limit, or no other user"
        limits=
    fi
    for limit in $limits; do
        for way in both now; do
            (ulimit -l $limit && $user all/pinned $way >plain.out
            $user env RECORDER_DIRECTORY="$work/all" LD_PRELOAD="$work/all/recorder.so" all/pinned $way >recorded.out)
            cmp plain.out recorded.out && [ "$(head -n 1 plain.out)" = "$([ $limit = 8192 ] && echo locked || echo Cannot allocate memory)" ]
            tell pinned "all memory is locked, or not, as without the recorder ($way, a limit of $limit kB)" $?
        done
    done
fi

# A file that a process of the run cuts ends neither `record` nor another process.
if wanted cut; then
    compile cuts
    timeout 60 "$record" -- ./cuts >recorded.out 2>recorded.err
    [ $? -eq 7 ] && [ "$(cat recorded.out)" = done ] && tail -n 1 recorded.err | grep -q '^record: '
    tell cut "a recorder's file" $?
    printf '%s\n' ': >"$RECORDER_DIRECTORY/status"' '/bin/echo one' '/bin/echo two' 'exit 5' >cut.sh
    timeout 60 "$record" -- sh ./cut.sh >recorded.out 2>recorded.err
    [ $? -eq 5 ] && printf 'one\ntwo\n' | cmp - recorded.out
    tell cut "the status of the run" $?
fi
