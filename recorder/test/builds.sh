# Tests of recorder/build and of the Makefile, read by `run`: what is built where, when, and by whom. They use a recorder of few
# lines, whose command says how it was called.

# plant_small TO: the scripts and the Makefile as they are, and small sources. All is older than what will be built, and nothing is.
plant_small() {
    rm -rf "$1" cache && mkdir -p "$1/run" "$1/symbols" "$1/reports" "$1/runtime/malloc" && cp -R "$recorder/build" "$recorder/record" "$recorder/orders" "$recorder/duty" "$recorder/Makefile" "$1"
    : >"$1/format.h" && : >"$1/runtime/recorder.h"
    printf '%s\n' '#include "recorder.h"' 'int is_recorder(void) { return 1; }' >"$1/runtime/start.c"
    echo 'int has_hooks(void) { return 1; }' >"$1/runtime/malloc/hooks.c"
    cp "$duty" "$1"
    echo 'extern int has_page;' >"$1/reports/page.c"
    printf '%s\n' '#include <stdio.h>' '#include "format.h"' \
        'int main(int count, char **words) { return count > 2 && printf("%s in %s\n", words[2], words[1]) < 0; }' >"$1/run/main.c"
    find "$1" -exec touch -d '2 seconds ago' {} +
}

# make_compiler: one that notes what it makes: a part, or an object.
make_compiler() {
    cat >compiler <<END
#!/bin/sh
for word; do
    [ "\${before-}" != -o ] || made=\${word##*/}
    before=\$word
done
echo "\${made%.new}" >>"$work/made"
if [ -e "$work/slow" ]; then
    : >"$work/begun"
    [ ! -s "$work/slow" ] || kill -s "\$(cat "$work/slow")" 0
    sleep 3
fi
[ ! -e "$work/refuses" ] || { echo refused; exit 1; }
exec "${CC:-cc}" "\$@"
END
    chmod +x compiler
}

# built COMMAND..: runs it with this compiler, and leaves what it made, its output and its status.
built() {
    : >made && chmod a+w made
    RECORD_SANITIZE=${sanitize-} CC="$work/compiler" XDG_CACHE_HOME="$work/cache" timeout -k 10 100 "$@" >built.out 2>built.err
    status=$?
}

# made_are FOLDER NAMES..: whether the folder was told, and just these were made.
made_are() {
    { [ "$status" -eq 0 ] && [ "$(cat built.out)" = "$1" ] && [ ! -s built.err ]; } || { echo "status $status:"; cat built.out built.err; return 1; }
    shift
    printf '%s\n' "$@" | sed '/^$/d' | LC_ALL=C sort >wanted.names
    LC_ALL=C sort made | diff wanted.names -
}
of_command='main.o page.o record'
of_all="$of_command start.o recorder.so hooks.o blocks.so"

# refused_as LINE: whether nothing was told but why nothing was built, last.
refused_as() {
    [ "$status" -eq 126 ] && [ ! -s built.out ] && printf 'record: %s\n' "$1" >wanted.err && tail -n "$(wc -l <wanted.err)" built.err | diff wanted.err -
}

# later FILE: as if it had been written after all else.
later() {
    sleep 0.05
    touch "$1"
}

# ended_with STATUS: whether it ended so without a folder told.
ended_with() {
    [ "$status" -eq "$1" ] && [ ! -s built.out ] && return
    echo "status $status:" && cat built.out built.err
    return 1
}

# is_left FOLDER NAMES..: whether nothing but these is in the folder, and the objects.
is_left() {
    folder=$1
    shift
    printf '%s\n' "$@" | sed '/^$/d' | LC_ALL=C sort >wanted.names
    (cd "$folder" && find . -mindepth 1 -path ./objects -prune -o -mindepth 1 -print) | sed 's|^\./||' | LC_ALL=C sort | diff wanted.names -
}

parts='record recorder.so blocks.so'
whole="$parts built.blocks.so.record libwit_condensed_c.a lock"

if wanted builds; then
    make_compiler
    mkdir -p tmp
    export TMPDIR="$work/tmp"
    plant_small small
    built small/build
    made_are "$work/small/out" $of_all && is_left small/out $whole && is_left tmp ''
    tell builds "beside the sources" $?
    built small/build
    made_are "$work/small/out"
    tell builds "nothing that stands" $?
    built small/record --show one
    [ "$status" -eq 0 ] && echo "--show in $work/small" | diff - built.out && [ ! -s made ]
    tell builds "the command is told of its folder, and of its words" $?
    built small/orders one
    [ "$status" -eq 0 ] && echo "--orders in $work/small" | diff - built.out && [ ! -s made ]
    tell builds "the command by its other name" $?
    for line in 'runtime/start.c start.o recorder.so' 'runtime/malloc/hooks.c hooks.o blocks.so' 'runtime/recorder.h start.o recorder.so' 'run/main.c main.o record' \
        'reports/page.c page.o record' 'format.h main.o record' 'build ' 'duty ' 'libwit_condensed_c.a ' "Makefile $of_all"; do
        plant_small small && built small/build
        later "small/${line%% *}"
        built small/build
        made_are "$work/small/out" ${line#* }
        tell builds "what a newer ${line%% *} is in" $?
    done
    plant_small small && built small/build && rm -rf moved && cp -Rp small moved
    later moved/runtime/recorder.h
    built moved/build
    made_are "$work/moved/out" start.o recorder.so
    tell builds "what a newer header is in, where all was moved" $?
    plant_small small && built small/build && sed -i 's#runtime/start\.c#elsewhere/start.c#' small/out/objects/runtime/start.d
    later small/runtime/start.c
    built small/build
    made_are "$work/small/out" start.o recorder.so
    tell builds "what a source is in that stood elsewhere" $?
    plant_small small && built small/build
    printf x >>small/libwit_condensed_c.a
    later small/libwit_condensed_c.a
    built env -u WIT_CONDENSED small/build
    made_are "$work/small/out" recorder.so
    tell builds "the recorder, where its proved part is another one" $?
    for word in --help -h --version --completion --show --trace --clean; do
        plant_small small
        built small/build $word
        made_are "$work/small/out" $of_command
        tell builds "the command alone for $word" $?
    done
    built small/build --quiet
    made_are "$work/small/out" start.o recorder.so hooks.o blocks.so
    tell builds "the rest with the next run" $?
    sanitize=1
    built small/build
    made_are "$work/small/out" main.o page.o record.sanitized && nm -D small/out/record.sanitized | grep -q __asan
    tell builds "the command with sanitizers" $?
    sanitize=
fi

if wanted builds; then
    plant_small small
    built env CC=no-such-compiler small/build
    refused_as 'there is no C compiler (no-such-compiler) to build the recorder with: install one, or name it by CC'
    tell builds "no compiler" $?
    mkdir -p bare && for tool in sh readlink id stat find mkdir chmod rm mktemp cksum tr flock printf env cat; do ln -sf "$(command -v $tool)" bare; done
    built env PATH="$work/bare" small/build
    refused_as 'there is no make to build the recorder with: install one'
    tell builds "no make" $?
    built small/build && rm small/out/recorder.so
    : >refuses
    later small/runtime/start.c
    built small/build
    refused_as "the recorder wasn't built" && is_left small/out record blocks.so built.blocks.so.record libwit_condensed_c.a lock
    tell builds "a compiler that makes nothing of a part" $?
    plant_small small
    built small/build
    rm -f small/out/libwit_condensed_c.a
    refused_as "the recorder wasn't built" && is_left small/out lock && is_left tmp '' &&
        [ -z "$(find small -newer small/build ! -path 'small/out*' ! -path small)" ]
    tell builds "a compiler that makes nothing" $?
    rm refuses
    # A folder that leaves no other than one for this run.
    odd="$work/small \$HOME"
    plant_small "$odd"
    built env XDG_CACHE_HOME= HOME= "$odd/build"
    once=$(cat built.out)
    made_are "$once" $of_all && is_left "$once" once $whole && [ "$(dirname "$once")" = "$work/tmp" ] && [ ! -e "$odd/out" ]
    tell builds "in a folder for this run" $?
    rm -rf "$once"
    : >refuses
    built env XDG_CACHE_HOME= HOME= "$odd/build"
    [ "$status" -eq 126 ] && is_left tmp ''
    tell builds "a folder for this run goes where nothing is built" $?
    rm refuses
    built env XDG_CACHE_HOME= HOME= TMPDIR="$work/none" "$odd/build"
    refused_as "there is no room for a recording in $work/none"
    tell builds "no folder at all" $?
    mkdir -p "$odd/tmp"
    built env XDG_CACHE_HOME="$odd" TMPDIR="$odd/tmp" "$odd/build"
    refused_as "there is no folder for the recorder: names with a space, a colon or a dollar sign won't do, nor folders that
record: others can write to: let XDG_CACHE_HOME name a good one" && is_left "$odd/tmp" ''
    tell builds "no folder but those whose names won't do" $?
    # In the cache, under a name that the script knows, too.
    cache=$work/cache/lanyardyuzu-recorder/$(printf '%s' "$odd" | cksum | tr ' ' -)
    built "$odd/build"
    made_are "$cache" $of_all && is_left "$cache" $whole
    tell builds "in the user's cache" $?
    built "$odd/build"
    made_are "$cache"
    tell builds "nothing that stands in the cache" $?
    built env XDG_CACHE_HOME= HOME="$work/home" "$odd/build"
    made_are "$work/home/.cache/${cache#"$work/cache/"}" $of_all
    tell builds "in the cache of the user's home" $?
    # What stands beside the sources, whose name won't do.
    cp -Rp "$cache" "$odd/out" && rm -rf "$work/cache"
    built "$odd/build"
    made_are "$cache" && cmp "$odd/out/record" "$cache/record" && cmp "$odd/out/recorder.so" "$cache/recorder.so" && [ -x "$cache/record" ] &&
        is_left "$cache" $parts built.blocks.so.record lock
    tell builds "a copy of what stands beside its sources" $?
    rm -rf "$odd" cache home
fi

# theirs FILES..: what another user put there; where this one can't give files away, one that others can write to.
theirs() {
    for each; do
        printf '#!/bin/sh\necho theirs\n' >"$each" && { chown 65534 "$each" 2>/dev/null || chmod o+w "$each"; }
    done
}

# What others could have written is neither run nor loaded.
if wanted builds; then
    for way in 'out/record o+w' 'out/record g+w' 'out/record owner' 'out/record link' 'out/recorder.so g+w' 'out/recorder.so owner' \
        'out/blocks.so o+w' 'out/objects/run/main.o owner' 'out/objects/run/main.o o+w' 'out o+w' 'out g+w' 'out link'; do
        plant_small small && built small/build
        file=small/${way% *}
        case $way in
        'out '*) theirs small/out/record small/out/recorder.so small/out/blocks.so ;;
        *owner) theirs "$file" ;;
        *) printf '#!/bin/sh\necho theirs\n' >"$file" ;;
        esac
        case $way in
        *link) mv "$file" there && ln -s "$work/there" "$file" ;;
        *+w) chmod "${way#* }" "$file" ;;
        esac
        built small/record one
        [ "$status" -eq 0 ] && echo "one in $work/small" | diff - built.out && [ -z "$(find small/out cache -name '*.so' -exec grep -l theirs {} + 2>/dev/null)" ] &&
            grep -qx "$(basename "$file" | sed 's/^out$/record/')" made
        tell builds "not what others could have written ($way)" $?
        rm -rf there
    done
fi

# Signals to all, while the command is compiled: the compiler sends them.
if wanted builds; then
    for each in 'INT 130' 'TERM 143' 'HUP 143'; do
        plant_small small
        rm -f begun && echo "${each% *}" >slow && : >made
        RECORD_SANITIZE= CC="$work/compiler" $taking setsid -w small/build --show >built.out 2>built.err
        status=$?
        ended_with "${each#* }" && is_left tmp '' && is_left small/out lock && ! grep -qx record made
        tell builds "${each% *} while the command is compiled" $?
        rm slow
    done
    # To the script alone, which ends what it began; and where signals were ignored from the start.
    plant_small small && rm -f begun && : >slow
    RECORD_SANITIZE= CC="$work/compiler" $taking small/build --show >built.out 2>built.err &
    within [ -e begun ] && kill -TERM $!
    wait $!
    status=$?
    ended_with 143 && is_left small/out lock
    tell builds "TERM to the script alone" $?
    rm -f begun && : >made
    RECORD_SANITIZE= CC="$work/compiler" sh -c 'trap "" HUP; exec small/build' >built.out 2>built.err &
    within [ -e begun ] && kill -HUP $!
    wait $!
    status=$?
    rm slow && made_are "$work/small/out" $of_all && is_left small/out $whole
    tell builds "HUP where it was ignored from the start" $?
fi

# Two at once: the second waits, and finds all built.
if wanted builds; then
    plant_small small && : >made && : >slow
    for each in first second; do
        RECORD_SANITIZE= CC="$work/compiler" small/build >"$each.out" 2>"$each.err" &
    done
    wait
    rm slow
    cat first.out second.out | sort -u >built.out && cat first.err second.err >built.err && status=0
    made_are "$work/small/out" $of_all && is_left small/out $whole
    tell builds "two at once" $?
fi

# Sources of another user, who lets nobody else write there: all stands in this user's cache, and isn't compiled at each run.
if wanted builds; then
    if [ "$(id -u)" -eq 0 ] && command -v setpriv >/dev/null; then
        user='setpriv --reuid=65534 --regid=65534 --clear-groups'
        chmod go+x . && chmod 1777 tmp && plant_small small && mkdir -m 777 cache
        cache=$work/cache/lanyardyuzu-recorder/$(printf '%s' "$work/small" | cksum | tr ' ' -)
        built $user small/build
        made_are "$cache" $of_all && is_left "$cache" $whole
        tell builds "another user's sources in this user's cache" $?
        built $user small/build
        made_are "$cache"
        tell builds "nothing that stands there" $?
        later small/Makefile
        built $user small/build
        made_are "$cache" $of_all
        tell builds "all anew where the Makefile is newer" $?
        # What the other user has built is taken, as long as no source is newer.
        plant_small small && built small/build && rm -rf cache && mkdir -m 777 cache
        built $user small/build
        made_are "$work/small/out" && is_left cache ''
        tell builds "what another user has built" $?
        later small/run/main.c
        built $user small/build
        made_are "$cache" $of_all
        tell builds "all in this user's cache where a source is newer" $?
        # A folder of the cache that is a third user's is no place for anything.
        chown -R 65533 cache/lanyardyuzu-recorder
        built $user small/build
        once=$(cat built.out)
        made_are "$once" $of_all && [ "$(dirname "$once")" = "$work/tmp" ] && [ -e "$once/once" ]
        tell builds "nothing in a folder that a third user could have written to" $?
        rm -rf "$once"
    else
        echo "left out  builds: only root can be another user"
    fi
    unset TMPDIR
fi
