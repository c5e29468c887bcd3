# Tests of options of earlier versions: each works, and says what stands in its place. Read by `run`, whose functions it uses.

# goes INSTEAD OLD SETTINGS NEW PROGRAM..: with the words OLD, whose first is such an option, `record` says by its name to use INSTEAD. All
# else that it tells, and its status, are those with the words NEW, by these settings of the environment.
goes() {
    instead=$1 old=$2 settings=$3 new=$4
    shift 4
    recorded_by "$record" $old -- "$@"
    status=$recorded
    told <recorded.err >old.told
    recorded_by env $settings ${by:-"$record"} $new -- "$@"
    told <recorded.err >new.told
    says "$old" "$instead" old.told && sed 1d old.told | diff new.told - && [ "$status" -eq "$recorded" ]
    tell earlier "$old" $?
}

# says OLD INSTEAD FILE: the first line there says so. The name is noted.
says() {
    option=${1%%[ =]*}
    echo "$option" >>earlier.names
    echo "record: $option goes: use $2" >wanted.line
    head -n 1 "$3" | diff wanted.line -
}

# writes OLD INSTEAD COMMAND..: with OLD it writes what the command does, and that line alone on standard error.
writes() {
    old=$1 instead=$2
    shift 2
    "$@" >wanted.out
    recorded_by "$record" $old
    says "$old" "$instead" recorded.err && [ "$(wc -l <recorded.err)" -eq 1 ] && diff wanted.out recorded.out && [ -s wanted.out ] && [ "$recorded" -eq 0 ]
    tell earlier "$old" $?
}

if wanted earlier; then
    rm -f earlier.names ORDERS*
    compile kinds && compile reversal && compile misuse
    goes 'RECORDER_DEPTH=N in the environment' '--depth 1' RECORDER_DEPTH=1 '' ./kinds
    goes '--brief, --verbose, or RECORD_FRAMES=N in the environment' '--frames 4' RECORD_FRAMES=4 '' ./reversal
    goes --verbose --held-callers '' --verbose ./reversal
    goes '--ignore FILE' "--default-ignore $recorder/known/libdbus.known" '' "--ignore $recorder/known/libdbus.known" ./reversal
    goes '--ignore none' --no-default-ignore '' '--ignore none' ./reversal
    goes '--html FILE, a page with the pictures' '--graph orders.dot' '' '' ./reversal
    goes '--alarms no-errors' '--errors no --error-exitcode 9' '' '--alarms no-errors --error-exitcode 9' ./misuse ends
    LIBWITNESS=none goes '--on-report gdb' --gdb '' '--on-report gdb' ./reversal
    goes '--confirm=time=SECONDS' '--confirm-time 5 --confirm' '' --confirm=time=5 true
    goes '--confirm=noise' --noise=7 '' --confirm=noise=7 ./reversal
    goes "-- sh -c 'COMMAND; exec PROGRAM'" '--before : --confirm' '' --confirm true
    "$record" --json run.json -- true 2>/dev/null
    goes '--confirm=from=FILE' '--confirm-from run.json' '' --confirm=from=run.json true
    : >ORDERS && echo '"nothing"' >peace
    by="$orders known"
    goes 'orders known --new-exitcode N FILE -- PROGRAM' '--new-exitcode 7 --ignore peace --known ORDERS' '' '--new-exitcode 7 ORDERS --ignore peace' ./reversal
    by="$orders learn"
    goes 'orders learn --run-name NAME FILE -- PROGRAM' '--run-name nightly --learn RUNS' '' '--run-name nightly RUNS' true
    goes 'orders learn --program-name NAME FILE -- PROGRAM' '--program-name bank --learn RUNS' '' '--program-name bank RUNS' true
    by=
    recorded_by "$record" --judge -o kept -- ./reversal
    says --judge '-o TRACE, and then witness migrate <TRACE' recorded.err && said 0 '^record: reversal: judged: each lock was free when it was taken$' &&
        "$WITNESS" migrate <kept >/dev/null
    tell earlier --judge $?
    record_one "$recorder/out/recorder.so" by.trace ./reversal
    writes "--trace $(echo records/*.0)" '-o TRACE --show FILE' cat by.trace
    recorded_by "$record" -o shown.trace --show "$(echo records/*.0)"
    diff by.trace shown.trace
    tell earlier "the trace of a recorder's file, by --show" $?
    writes '--clean kept' 'witness clean <FILE' sh -c '"$WITNESS" clean <kept; :'
    writes '--completion bash' 'tools/completion, or what tools/install puts under share' "$recorder/../tools/completion" bash
    sed -n 's/^    {{"\(--[a-z-]*\)", [A-Z]*, [A-Z]*(.*)},.*/\1/p' "$recorder/run/options.c" | sort >names && [ -s names ] && sort -u earlier.names | diff names -
    tell earlier "each of them was tried" $?
    "$record" --help >help && "$recorder/../tools/completion" bash >>help && "$orders" --help >orders.help
    for name in $(cat names); do
        ! grep -q -e "$name\($\|[^-a-z]\)" help && ! grep -q -e "Fl $name\|Fl -${name#--}\($\|[^-a-z]\)" "$here/../../docs/man/record.1" || echo "$name"
    done >shown
    [ ! -s shown ]
    tell earlier "neither the help, the completions nor the manual page has them" $? || cat shown
fi
