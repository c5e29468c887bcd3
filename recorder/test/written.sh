# Tests of the files that `record` and `orders` write: devices, FIFOs, symbolic links, names. Read by `run` after learns.sh,
# whose functions it uses.

# null TO: makes another /dev/null. False where that can't be.
null() {
    rm -f "$1" && mknod "$1" c 1 3 2>/dev/null
}

# is_null FILE: whether it is that device still, and nothing stands beside it.
is_null() {
    [ "$(stat -c '%F %t:%T' "$1")" = "character special file 1:3" ] && [ "$(echo "$1"*)" = "$1" ]
}

# from_fifo FIFO STATUS COMMAND..: what the command writes to it is in `came`. False where it has another status, or a file stands
# in the FIFO's place or beside it.
from_fifo() {
    fifo=$1
    wanted_status=$2
    shift 2
    rm -f "$fifo" came && mkfifo "$fifo"
    timeout 60 cat "$fifo" >came &
    reader=$!
    timeout 60 "$@" >recorded.out 2>reports
    ended=$?
    [ $ended -eq "$wanted_status" ] && wait $reader && [ -p "$fifo" ] && [ "$(echo "$fifo"*)" = "$fifo" ] && return
    kill $reader 2>/dev/null
    echo "status $ended:" && cat reports
    return 1
}

# linked PATTERN COMMAND..: the command, whose file to write is {}, with a link, and then with a dangling one. Each stays a link,
# and the file that it leads to has the pattern.
linked() {
    pattern=$1
    shift
    rm -rf far && mkdir far && ln -sf far/there.dot link.dot && ln -sf far/none.dot dangling.dot
    case $* in *--learn*) : >far/there.dot ;; *) echo of the last run >far/there.dot ;; esac
    for link in link dangling; do
        filled=$(echo "$*" | sed "s/{}/$link.dot/")
        timeout 60 $filled >recorded.out 2>reports
        [ -h $link.dot ] || { echo "$link is a link no more" && return 1; }
    done
    grep -q "$pattern" far/there.dot && grep -q "$pattern" far/none.dot && ! grep -q "of the last run" far/there.dot
}

if wanted devices; then
    compile reversal
    printf '%s\n' "$a > $b" >given
    mkdir -p dev
    # A device that a failing test may lose.
    if null dev/null; then
        "$record" --learn dev/null -- ./reversal >recorded.out 2>reports
        [ $? -eq 1 ] && is_null dev/null && grep -q '^record: dev/null: 1 new order learnt' reports
        tell devices "--learn to a device" $?
        ordered merge -o dev/null given
        stands 0 && is_null dev/null
        tell devices "orders merge -o a device" $?
        ln -sf null dev/link
        "$record" --learn dev/link -- ./reversal 2>reports
        [ $? -eq 1 ] && [ -h dev/link ] && rm dev/link && is_null dev/null
        tell devices "--learn to a link to a device" $?
        null dev/null.dot
        for option in -o --html --json --sarif --log-file --graph; do
            "$record" $option dev/null.dot -- ./reversal >recorded.out 2>reports
            [ $? -eq 0 ] && is_null dev/null.dot
            tell devices "$option to a device" $?
        done
        rm dev/null.dot && null dev/null
        compile forking && "$record" -o dev/null -- ./forking >recorded.out 2>reports
        is_null dev/null && grep -q "==[0-9]*== record: dev/null isn't a regular file: it has the trace of the first process alone" reports
        tell devices "-o to a device, of several processes" $?
    else
        echo "left out  devices: only root can make one"
    fi
    from_fifo fifo 1 "$record" --learn fifo -- ./reversal && [ "$(wc -l <came)" -eq 1 ] && grep -q '^mtx "reversal:pool" > ' came
    tell devices "--learn to a FIFO" $?
    from_fifo fifo 0 "$orders" merge -o fifo given && diff given came
    tell devices "orders merge -o a FIFO" $?
    for option in -o --html --json --sarif --log-file --graph; do
        from_fifo fifo.dot 0 "$record" $option fifo.dot -- ./reversal && [ -s came ]
        tell devices "$option to a FIFO" $?
    done
    "$orders" merge -o /proc/self/fd/1 given | diff given -
    tell devices "orders merge -o a pipe that has no name" $?
fi

if wanted links; then
    compile reversal
    printf '%s\n' "$a > $b" >given
    linked journal "$record" --learn {} -- ./reversal && [ -s far/none.dot.runs ] && ! ls dangling.dot?* 2>/dev/null
    tell links "--learn" $?
    linked mtx "$orders" merge -o {} given && [ -s far/none.dot.runs ] && ! ls dangling.dot?* 2>/dev/null
    tell links "orders merge -o" $?
    linked digraph "$orders" judge --graph {} given
    tell links "orders judge --graph" $?
    linked '<html' "$orders" judge --html {} given
    tell links "orders judge --html" $?
    for case in '-o witness-trace' '--html <html' '--json record-findings' '--sarif 2.1.0' '--log-file reversal' '--graph digraph'; do
        linked "${case#* }" "$record" "${case%% *}" {} -- ./reversal
        tell links "${case%% *}" $?
    done
    rm -f round && ln -s round round
    recorded_by "$record" --json round -- echo ran
    said 2 "round can't be written" && [ ! -s recorded.out ] && [ -h round ]
    tell links "a link to itself is refused" $?
fi

# An option's file that is missing isn't named as the word that follows it.
if wanted dashes; then
    mkdir -p alone && cd alone || exit 4
    for option in -o --learn --graph --html --json --sarif --log-file; do
        for name in -- - --quiet; do
            recorded_by "$record" $option $name -- echo ran
            said 2 "^record: $option takes a file, and $name begins with -: ./$name is a file of that name" && [ ! -s recorded.out ]
            tell dashes "$option $name" $?
        done
    done
    recorded_by "$record" --json -- echo ran
    said 2 'begins with -' && [ ! -s recorded.out ] && [ "$(ls -A)" = "$(printf 'recorded.err\nrecorded.out')" ]
    tell dashes "--json without its file" $?
    recorded_by "$record" --json ./-- -- echo ran
    said 0 'nothing to report' && [ -s ./-- ]
    tell dashes "a file of that name" $?
    for option in -o --learn --known --ignore --html --json --sarif --log-file --show; do
        recorded_by "$record" $option "" -- echo ran
        said 2 "^record: $option takes a file, and its name is empty;" && [ ! -s recorded.out ]
        tell dashes "$option and an empty word" $?
    done
    recorded_by "$record" --confirm=from= -- echo ran
    said 2 'last from=FILE' && [ ! -s recorded.out ]
    tell dashes "--confirm=from= without a file" $?
    printf '%s\n' "$a > $b" >given
    for words in "merge -o" "judge --graph" "judge --html"; do
        "$orders" $words -- given >told 2>complaints
        [ $? -eq 2 ] && grep -q "^orders: ${words#* } takes a file, and -- begins with -" complaints && [ ! -s told ]
        tell dashes "orders $words --" $?
    done
    cd ..
fi

# Who is root in a container has no right to look at a process that is outside.
if wanted unreadable; then
    sleep 60 &
    within grep -qs sleep /proc/$!/comm
    if unshare --user --map-root-user true 2>/dev/null; then
        recorded_by unshare --user --map-root-user "$record" --show $!
        said 2 "^record: process $! can't be looked at: Permission denied" && ! grep -q 'only' recorded.err
        tell unreadable "root of a container" $?
    else
        echo "left out  unreadable: there are no containers"
    fi
    if [ "$(id -u)" -eq 0 ] && command -v setpriv >/dev/null; then
        chmod go+x . && recorded_by setpriv --reuid=65534 --regid=65534 --clear-groups "$record" --show $!
        said 2 "^record: process $! is another user's: only he and root can look at it"
        tell unreadable "another user" $?
    else
        echo "left out  unreadable: only root can be another user"
    fi
    kill $!
fi
