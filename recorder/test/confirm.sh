# Tests of `record --confirm`: models of programs that can hang (confirm/wrong.c, confirm/one_place.c, confirm/observers.cc,
# confirm/tasks.cc), and of such as only look like that (confirm/right.c). recorder/test/run has the functions.

# build_models: wrong, right, one_place, tasks, observers and observers_0, here.
build_models() {
    [ ! -x observers_0 ] || return 0
    cp "$here"/confirm/* . && "${CC:-cc}" -g -O1 -Wall -Wextra -Werror -pthread -o wrong wrong.c &&
        "${CC:-cc}" -g -O1 -Wall -Wextra -Werror -pthread -o right right.c &&
        "${CC:-cc}" -g -O1 -Wall -Wextra -Werror -pthread -o one_place one_place.c && c++ -g -O2 -pthread -o tasks tasks.cc &&
        c++ -g -O1 -pthread -o observers observers.cc &&
        c++ -g -O0 -pthread -o observers_0 observers.cc
}

# confirmed_run COMMAND..: what --confirm tells, in recorded.err; the output of the first run in recorded.out. RUNS is `=N` or
# empty.
confirmed_run() {
    RECORD_FRAMES=8 timeout 100 "$record" --on-deadlock "${HANGS-kill}" --confirm${RUNS-} "$@" >recorded.out 2>recorded.err </dev/null
}

# at_last COMMAND..: whether it becomes true in one of three tries. On a busy machine threads may not meet within a pause, or
# hang by themselves in the run that is recorded.
at_last() {
    "$@" || "$@" || "$@"
}

# confirms COMMAND..: a report of it hangs.
confirms() {
    confirmed_run "$@"
    grep -q "$hangs" recorded.err
}

# The line of a report that hung: each thread has taken a lock and waits for another.
hangs='confirmed: hung in run [1-3] after [0-9]*\.[0-9][0-9] s: thread [0-9]* took "[^"]*" @ [^ ]* and waits for "[^"]*" @ [^ ]*; thread [0-9]* took '

# confirms_model NAME: it hangs in a steered run. It may hang by itself, though that is seldom.
confirms_model() {
    case $1 in observers*) set -- "./$1" ;; *) set -- ./wrong "$1" ;; esac
    confirms "$@" && grep -q '^record: .*, 1 confirmed, [01] circles*, 1 process$' recorded.err &&
        { [ "$(cat recorded.out)" = ended ] || grep -q '^circle:$' recorded.err; }
}

if wanted confirm; then
    build_models
    got=0
    for model in $(./wrong) observers observers_0; do
        if confirms_model "$model" || confirms_model "$model"; then
            got=$((got + 1))
        else
            echo "not confirmed: $model" && grep confirmed recorded.err
        fi
    done
    [ $got -ge 17 ]
    tell confirm "at least 17 of 20 models of bugs hang within three runs of one of two recordings: $got" $?
fi

# unconfirmed WANTED COMMAND..: nothing hangs, and it is told why.
unconfirmed() {
    want=$1
    shift
    confirmed_run "$@"
    [ $? -eq 0 ] && grep -q "$want" recorded.err && ! grep -q 'confirmed: hung' recorded.err &&
        grep -q '^record: 1 report, 0 confirmed, [01] circles*, .*1 process$' recorded.err
    status=$?
    [ $status -eq 0 ] || cat recorded.err
    tell unconfirmed "of $*" $status
}

if wanted unconfirmed; then
    build_models
    for model in gate address join value barrier ring timed readers; do
        unconfirmed 'not confirmed in 3 runs: @ [^ ]*right.c:[0-9]* was reached [0-9]* times, .*never with the same locks crosswise\(; [0-9]* of the runs took too long, and w.*\)*$' ./right $model
    done
    unconfirmed 'not confirmed in 1 run: thread [0-9]* alone came to both places$' ./right alone
    # Without the look at who holds each lock it is confirmed. To the run that is recorded it is a circle, which ends; on a busy
    # machine it may end before anybody looks.
    HANGS=tell unconfirmed 'not confirmed: seemed to hang in run [1-3], but not each lock says who holds it: thread \|not confirmed in 3 runs: .*, crosswise [1-9][0-9]* times, and the threads went on' ./right handover
fi

# Programs of other tests, whose orders never come at once. bench/confirm.sh has all of them.
if wanted unconfirmed; then
    for words in reversal cycle philosophers rwlock joins cancel "single gate" "single readers" "single early" "single waits" "single under"; do
        compile "${words%% *}"
        # shellcheck disable=SC2086 # these are words
        unconfirmed 'not confirmed in 3 runs: \(@ [^ ]*:[0-9]* was \|thread [0-9]* alone came \)' ./$words
    done
    words=
fi

# How often the program was run, by the file to which it writes a line each time.
runs_made() {
    wc -l <before 2>/dev/null || echo 0
}

# far_in_documents: its report is confirmed in far.json, far.sarif and far.html, and says so in each.
far_in_documents() {
    confirmed_run --json far.json --sarif far.sarif --html far.html ./wrong far
    [ $? -eq 0 ] && python3 - <<'END'
import json
report = json.load(open("far.json"))["reports"][0]
confirmed = report["confirmed"]
assert confirmed["run"] == confirmed["runs"] in (2, 3), confirmed
assert {(each["took"], each["waits_for"]) for each in confirmed["waits"]} == {("settings", "output"), ("output", "settings")}
assert all(each["took_at"].startswith("wrong.c:") and each["waits_at"].startswith("wrong.c:") for each in confirmed["waits"])
assert 0.2 < confirmed["seconds"] < 20, confirmed
calls = report["asked"]["calls"]
assert calls[0]["object"].endswith("/wrong") and len(calls[0]["build_id"]) == 40 and calls[0]["offset"] > 0
step = report["established"][0]
assert step["taken"]["site"].startswith("wrong.c:") and abs(report["asked"]["at"] - step["at"] - 300) < 250, report["asked"]["at"]
result = json.load(open("far.sarif"))["runs"][0]["results"][0]
assert result["level"] == "error" and len(result["codeFlows"]) == 2
assert [len(flow["locations"]) for flow in result["codeFlows"][1]["threadFlows"]] == [2, 2]
assert "confirmed: hung in run 2" in open("far.html").read()
END
}

# far_from_json: what an earlier run reported hangs.
far_from_json() {
    RECORD_FRAMES=8 "$record" --confirm=from=far.json --error-exitcode 7 ./wrong far >recorded.out 2>recorded.err
    [ $? -eq 7 ] && grep -q "$hangs" recorded.err && grep -q '^record: 1 report, 1 confirmed$' recorded.err && [ ! -s recorded.out ]
}

# confirmed_comes_first: the report that hangs is told last, and stands first in the page.
confirmed_comes_first() {
    # shellcheck disable=SC2016 # the shell that runs it has these
    confirmed_run --html two.html --json two.json -- sh -c './right alone; ./wrong accounts'
    python3 - <<'END'
import json, re
reports = json.load(open("two.json"))["reports"]
assert [bool(report["confirmed"]["run"]) for report in reports] == [False, True], reports
cards = re.findall("<article .*?</article>", open("two.html").read(), re.S)
assert ["confirmed: hung" in card for card in cards] == [True, False], len(cards)
END
}

alarms_at_what_hangs() {
    confirmed_run --error-exitcode 9 --alarms confirmed ./wrong accounts
    [ $? -eq 9 ]
}

# one_run_of_far: its second lock comes too late for the pause of a first run.
one_run_of_far() {
    RUNS==1 confirmed_run ./wrong far
    grep -q 'not confirmed in 1 run: @ wrong.c:[0-9]* was reached 1 time, ' recorded.err
}

# confirms_from FILE WORDS..: a report that was written there hangs.
confirms_from() {
    from=$1
    shift
    RECORD_FRAMES=8 "$record" --confirm=from="$from" "$@" >recorded.out 2>recorded.err
    grep -q "$hangs" recorded.err
}

# reads_anew: the program reads its model from standard input in each run, and hangs in a steered one alone.
reads_anew() {
    # shellcheck disable=SC2016 # the shell that runs it has these
    RECORD_FRAMES=8 "$record" --on-deadlock kill --confirm=time=60 -- sh -c 'echo run >>before; read model; exec ./wrong $model' <model >recorded.out 2>recorded.err
    grep -q "$hangs" recorded.err && [ "$(cat recorded.out)" = ended ]
}

# ends_what_waits: by a pipe nothing is read twice. The program waits then, and is ended with what it has begun. No other test
# sleeps for as long.
ends_what_waits() {
    long=$((100000 + $$))
    echo accounts | RECORD_FRAMES=8 "$record" --on-deadlock kill --confirm=time=3 -- \
        sh -c "read model || sleep $long; ./wrong \$model" >recorded.out 2>recorded.err
    grep -q '; its standard input is /dev/null$' recorded.err && grep -q 'was never reached; [1-3] of the runs took too long, and w[a-z]* ended$' recorded.err &&
        ! pgrep -f "^sleep $long\$" >left.out
}

if wanted steered; then
    build_models
    at_last far_in_documents
    tell steered "what is confirmed in JSON, SARIF and the page" $?

    at_last far_from_json
    tell steered "a report of an earlier run" $?
    cp wrong wrong.before && "${CC:-cc}" -g -O2 -pthread -o wrong wrong.c
    RECORD_FRAMES=8 "$record" --confirm=from=far.json ./wrong far >recorded.out 2>recorded.err
    [ $? -eq 2 ] && grep -q "far.json: .*/wrong isn't the one that was recorded: record it anew$" recorded.err && cp wrong.before wrong
    tell steered "a report of another build is refused" $?
    echo '{"format": "other"}' >other.json
    RECORD_FRAMES=8 "$record" --confirm=from=other.json ./wrong far 2>recorded.err
    [ $? -eq 2 ] && grep -q "^record: other.json isn't a file that record --json has written$" recorded.err
    tell steered "a file that isn't one of findings is refused" $?

    at_last confirmed_comes_first
    tell steered "what is confirmed stands first in the page" $?

    at_last alarms_at_what_hangs && { confirmed_run --error-exitcode 9 --alarms confirmed ./right alone; [ $? -eq 0 ]; }
    tell steered "--alarms confirmed" $?
    at_last one_run_of_far
    tell steered "--confirm=1" $?

    # A plan of places alone spends its pauses on the other eight.
    RUNS==1 at_last confirms --json ten.json ./one_place ten && grep -q '"first" and "second" @\|"second" and "first" @' recorded.err
    tell steered "of the ten locks that one function takes, the two of the report have the pauses" $? || cat recorded.err
    at_last confirms_from ten.json --confirm=1 ./one_place ten
    tell steered "and so they have where the report is an earlier run's" $? || cat recorded.err
    RUNS==1 at_last confirms ./one_place table
    tell steered "a circle of ten orders at one place, for which a plan has no room" $? || cat recorded.err

    # Their places stand for several functions of the C++ library, and for what called these.
    at_last confirms --json tasks.json ./tasks
    tell steered "locks that tasks of std::async take" $? || cat recorded.err
    at_last confirms_from tasks.json ./tasks
    tell steered "and those of an earlier run" $? || cat recorded.err

    echo accounts >model
    rm -f before
    at_last reads_anew && grep -q 'is ended where it hangs$' recorded.err && [ "$(runs_made)" -ge 2 ]
    tell steered "standard input from a file is read anew, and a shell sets things right before each run" $? || cat recorded.err recorded.out
    at_last ends_what_waits
    tell steered "--confirm=time=3 ends a run, and what it has begun" $?

    # shellcheck disable=SC2016 # the shell that runs it has these
    at_last confirms -- sh -c '[ -z "${RECORDER_PLAN-}" ] || setsid sleep 7343 & ./wrong accounts' && ! pgrep -f '^sleep 7343$' >left.out
    tell steered "what has left the program's process group is ended, too" $?

    noisy=1
    for try in 1 2 3 4 5; do
        [ $noisy -eq 0 ] && break
        RECORD_FRAMES=8 timeout 60 "$record" --confirm=noise --on-deadlock exit=9 ./wrong accounts >recorded.out 2>recorded.err
        [ $? -eq 9 ] && grep -q '^record: wrong (process [0-9]*) is ended: its threads wait for one another$' recorded.err && noisy=0
    done
    tell steered "--confirm=noise, by which a program hangs" $noisy
    for words in --confirm=0 --confirm=many --confirm=time=0 --confirm=noise=0 --confirm=3,noise=often '--alarms confirmed' '--confirm --brief' '--confirm --show 1'; do
        # shellcheck disable=SC2086 # these are words
        RECORD_FRAMES=8 "$record" $words ./wrong far >recorded.out 2>recorded.err
        [ $? -eq 2 ] && [ ! -s recorded.out ]
        tell steered "$words is refused" $?
    done
fi

# instructions ROUNDS [PLAN]: how many `pairs` takes in a steered run by that plan.
instructions() {
    rm -rf records && mkdir records
    env RECORDER_DIRECTORY="$work/records" RECORDER_FRAMES=1 RECORDER_PLAN="${2-}" LD_PRELOAD="$object" valgrind --tool=callgrind \
        --callgrind-out-file=/dev/null ./pairs 2 1 "$1" 2>&1 | sed -n 's/.*Collected : //p'
}

# a_pair [PLAN]: the instructions of a hundred pairs of lock and unlock.
a_hundred_pairs() {
    few=$(instructions 1000 "$@") && many=$(instructions 6000 "$@") && echo $(((many - few) / 100))
}

# What isn't in the plan costs nothing. By one that has each request pause a pair takes longer, so that it is seen.
if wanted elsewhere; then
    if command -v valgrind >/dev/null 2>&1; then
        object=$(object_of new)
        compile pairs -O2 && compile elsewhere && ./elsewhere plan 0 && ./elsewhere noise 1
        without=$(a_hundred_pairs) && with=$(a_hundred_pairs "$work/plan") && noisy=$(a_hundred_pairs "$work/noise")
        echo "$without without a plan, $with with one, $noisy where all pause" >counted
        [ "${without:-0}" -gt 10000 ] && [ $((with - without)) -lt 50 ] && [ $((without - with)) -lt 50 ] && [ "$noisy" -gt $((2 * without)) ]
        tell elsewhere "a hundred pairs of lock and unlock take no instruction more at places that no plan names" $? || cat counted
    else
        echo "left out  elsewhere: there is no valgrind"
    fi
fi

# Threads pause before locks that the program tells of, and before semaphores, too. These name no holder.
if wanted toldlocks; then
    compile toldlocks
    for words in "" "--semaphores"; do
        RECORD_FRAMES=8 timeout 100 "$record" $words --confirm=2,time=20 -- ./toldlocks $words >recorded.out 2>recorded.err </dev/null
        grep -q 'not confirmed in 2 runs: @ [^ ]*toldlocks.c:41 was reached [1-9]\|not confirmed: seemed to hang in run [12], but not each lock says who holds it' recorded.err &&
            ! grep -q 'was never reached' recorded.err
        tell toldlocks "a steered run comes to locks that aren't pthread's${words:+ ($words)}" $? || cat recorded.err
    done
    words=
fi
