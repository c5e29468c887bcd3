# Tests of runs that are judged with the orders of others, and add to them. Read by `run` after orders.sh.

# learnt STATUS OPTIONS AND COMMAND..: `record` with them ends with that status. What it told is in `reports`.
learnt() {
    wanted_status=$1
    shift
    "$record" "$@" >recorded.out 2>reports
    status=$?
    [ "$status" -eq "$wanted_status" ] || { echo "status $status in place of $wanted_status:" && cat reports; return 1; }
}

# banked STATUS WAY [OPTIONS OF ORDERS..] FILE OPTIONS AND COMMAND..: `orders WAY` of the example, whose tests are linked from the same
# sources, ends with that status. What it told is in `reports`.
banked() {
    wanted_status=$1
    way=$2
    shift 2
    "$orders" "$way" --program-name bank "$@" >recorded.out 2>reports
    status=$?
    [ "$status" -eq "$wanted_status" ] || { echo "status $status in place of $wanted_status:" && cat reports; return 1; }
}

# lines: those of `reports` that are for the file of orders.
lines() {
    grep '^[+!] ' reports
}

# from_example NAME [OPTIONS..]: compiles that test of examples/orders.
from_example() {
    name=$1
    shift
    cp "$example"/*.[ch] . && "${CC:-cc}" -g -pthread "$@" -o "test_$name" "test_$name.c" bank.c
}

if wanted learns; then
    example=$(dirname "$recorder")/examples/orders
    first="mtx \"bank:accounts\" > mtx \"bank:journal\"${tab}# transfer (bank.c) while transfer (bank.c), test_transfer"
    second="mtx \"bank:journal\" > mtx \"bank:ledger\"${tab}# report (bank.c) while report (bank.c), test_report"
    third="mtx \"bank:ledger\" > mtx \"bank:accounts\"${tab}# rebuild (bank.c) while rebuild (bank.c), test_rebuild"
    from_example transfer && from_example report && from_example rebuild
    banked 0 learn ORDERS -- ./test_transfer && echo "$first" | diff - ORDERS &&
        printf '%s\n' "runs 1" "1 1 ${first%%$tab*}" | diff - ORDERS.runs &&
        [ "$(echo ORDERS*)" = "ORDERS ORDERS.lock ORDERS.runs" ] &&
        printf '%s\n' "record: ORDERS: 1 new order learnt, 0 against others" "$clean" "record: nothing to report" | diff - reports
    tell learns "a first run" $?
    cp ORDERS before
    banked 0 known ORDERS -- ./test_report && cmp ORDERS before &&
        printf '%s\n' "+ $second" "record: ORDERS: 1 new order, 0 against others" "$clean" "record: nothing to report" | diff - reports
    tell learns "a new order is told, and the file stays" $?
    { cat ORDERS && sed -n 's/^+ //p' reports; } | LC_ALL=C sort -u -t "$tab" -k 1,1 >committed
    banked 7 known --new-exitcode 7 ORDERS -- ./test_report &&
        banked 3 known --new-exitcode 7 ORDERS -- sh -c './test_report; exit 3'
    tell learns "a status for new orders" $?
    banked 0 learn ORDERS -- ./test_report && printf '%s\n' "$first" "$second" | diff - ORDERS &&
        cmp ORDERS committed
    tell learns "a second run, and the line that was told is what is learnt" $?
    banked 0 known --new-exitcode 7 ORDERS -- ./test_report && ! lines
    tell learns "nothing new" $?
    cp ORDERS before && cp ORDERS.runs before.runs
    cat >wanted <<'END'
lock order reversal:
 1st "bank:ledger" (bank:ledger, sleep mutex) @ rebuild (bank.c:34), in test_rebuild
 2nd "bank:accounts" (bank:accounts, sleep mutex) @ rebuild (bank.c:35), in test_rebuild
established order:
 "bank:accounts" -> "bank:journal" @ transfer (bank.c), in test_transfer
 "bank:journal" -> "bank:ledger" @ report (bank.c), in test_report
END
    printf '%s\n' "! $third" "record: ORDERS: 0 new orders, 1 against others" "record: 1 report, 0 circles, 1 process" >>wanted
    for frames in 1 8; do
        RECORD_FRAMES=$frames banked 1 known ORDERS -- ./test_rebuild && diff wanted reports && cmp ORDERS before &&
            cmp ORDERS.runs before.runs
        tell learns "an order against those of other runs ($frames frames)" $?
    done
    banked 1 known ORDERS --html run.html --json run.json --sarif run.sarif -- ./test_rebuild &&
        diff wanted reports &&
        grep -q "<mark class='row' data-line='35'>    pthread_mutex_lock(&amp;accounts);" run.html &&
        grep -q '"site": "report (bank.c), in test_report"' run.json &&
        grep -q '"startLine": 35' run.sarif && { ! command -v python3 >/dev/null || whole run; }
    tell learns "in a page, JSON and SARIF" $?
    banked 9 known ORDERS --error-exitcode 9 -- ./test_rebuild
    tell learns "its status by --error-exitcode" $?
    banked 1 learn ORDERS -- ./test_rebuild && sed 's/ learnt//' reports | diff wanted - && cmp ORDERS before &&
        sed 1q ORDERS.runs | grep -qx 'runs 3'
    tell learns "it isn't learnt" $?
    banked 1 known ORDERS --gen-suppressions -- ./test_rebuild && grep '^"' reports >peace &&
        echo '"bank:ledger" "bank:accounts"' | diff - peace &&
        banked 0 known ORDERS --ignore peace -- ./test_rebuild && ! grep -q '^lock order' reports
    tell learns "the user allows it" $?

    # Several processes of one run; a run's name; the file as two branches leave it.
    rm -f ORDERS*
    banked 1 learn --run-name nightly ORDERS -- sh -c './test_transfer; ./test_report; ./test_rebuild' &&
        printf '%s\n' "$first" "$second" | sed 's/, test_.*/, nightly/' | diff - ORDERS &&
        lines | sed 's/, nightly$/, test_rebuild/' | grep -qxF "! $third"
    tell learns "a circle through three processes" $?
    printf '%s\n' "$first" "$second" "$third" >ORDERS && rm -f ORDERS.runs
    banked 0 known ORDERS -- ./test_transfer &&
        grep -qx 'record: ORDERS: 1 of its own orders are against others of its own: `orders judge ORDERS` tells which' reports
    tell learns "a file that contradicts itself" $?

    # What the run reports by itself is told once, and what came first is learnt.
    compile reversal
    rm -f ORDERS*
    learnt 1 --learn ORDERS -- ./reversal && [ "$(grep -c '^lock order reversal' reports)" -eq 1 ] &&
        tail -n 1 reports | grep -q '1 report, ' &&
        printf '%s\n' "mtx \"reversal:pool\" > mtx \"reversal:journal\"${tab}# commit (reversal.c) while commit (reversal.c), reversal" | diff - ORDERS &&
        lines | grep -q '^! mtx "reversal:journal" > mtx "reversal:pool"'
    tell learns "a run with a reversal of its own" $?
    cp ORDERS before
    echo '"pool" "journal"' >peace
    rm -f ORDERS* && learnt 0 --learn ORDERS --ignore peace -- ./reversal && [ ! -s ORDERS ]
    tell learns "orders that the user allows aren't learnt" $?
    rm -f ORDERS* && writing_all learnt 1 --learn ORDERS -- ./reversal && diff ORDERS before
    tell learns "of all requests" $?

    # Without debug information, and without a build-id.
    rm -f ORDERS*
    from_example transfer && strip -g test_transfer && banked 0 learn ORDERS -- ./test_transfer &&
        grep -q '^mtx "bank:accounts' ORDERS
    tell learns "variables have their names without debug information" $?
    rm -f ORDERS* varying.options
    compile varying
    learnt 1 --learn ORDERS -- ./varying && ! grep -q build ORDERS && grep -q '^mtx "varying:made(mutex)<run' ORDERS
    tell learns "types that are made by calls" $?
    rm -f ORDERS* varying.options && "${CC:-cc}" -pthread -o varying varying.c && learnt 1 --learn ORDERS -- ./varying &&
        id=$(readelf -n varying | sed -n 's/.*Build ID: //p') && grep -q "^mtx \"varying:.* (build $id)\" > " ORDERS
    tell learns "without debug information they are learnt with the build" $?
    rm -f ORDERS* && "${CC:-cc}" -pthread -Wl,--build-id=none -o varying varying.c &&
        learnt 0 --learn ORDERS -- ./varying && [ ! -s ORDERS ] &&
        grep -q '^record: ORDERS: 1 type of this run has no name that lasts (no debug information?): orders of it aren.t in it$' reports
    tell learns "and without a build-id they aren't, which is told" $?

    # Each held lock counts, also where one that was tried stands between.
    rm -f ORDERS*
    compile between
    learnt 1 --learn ORDERS -- ./between && grep -q '^mtx "between:pool" > mtx "between:journal"' ORDERS &&
        lines | grep -q '^! mtx "between:journal" > mtx "between:pool"' && grep -q '^lock order reversal' reports
    tell learns "an order behind a lock that was tried" $?

    # A run without nested locks is one, and a program that isn't there is none.
    rm -f ORDERS*
    learnt 0 --learn ORDERS -- true && [ -f ORDERS ] && [ ! -s ORDERS ] && echo "runs 1" | diff - ORDERS.runs &&
        learnt 1 --learn ORDERS -- ./none && echo "runs 1" | diff - ORDERS.runs && ! grep -q 'new order' reports
    tell learns "runs with nothing to learn" $?

    # What can't be done is told by its cause.
    printf 'mtx "a" > mtx "b"\n=======\n' >ORDERS
    for way in --learn --known; do
        learnt 2 $way ORDERS -- sh -c 'echo ran' && [ ! -s recorded.out ] &&
            echo "record: ORDERS: line 2: $form" | diff - reports
        tell learns "$way with a file that is none" $?
    done
    rm -f ORDERS*
    learnt 2 --known ORDERS -- sh -c 'echo ran' && [ ! -s recorded.out ] &&
        echo "record: ORDERS can't be read: No such file or directory" | diff - reports && [ ! -e ORDERS.lock ]
    tell learns "a file that isn't there" $?
    learnt 2 --learn none/ORDERS -- sh -c 'echo ran' && [ ! -s recorded.out ] &&
        echo "record: none/ORDERS can't be written: No such file or directory" | diff - reports
    tell learns "a folder that isn't there" $?
    mkdir -p folder && learnt 2 --learn folder -- sh -c 'echo ran' && [ ! -s recorded.out ] &&
        echo "record: folder can't be read: Is a directory" | diff - reports
    tell learns "a folder in the file's place" $?
    for line in "--learn ORDERS --known ORDERS true" "--learn"; do
        learnt 2 $line && [ "$(wc -l <reports)" -eq 1 ]
        tell learns "record $line" $?
    done
    for line in "known --new-exitcode 0 ORDERS true" "learn --new-exitcode 5 ORDERS true" "learn --run-name a,b ORDERS true" \
        "known --program-name a\"b ORDERS true" "learn --run-name" "learn" "known ORDERS" "known ORDERS --learn ORDERS true"; do
        "$orders" $line >recorded.out 2>reports
        [ $? -eq 2 ] && [ "$(wc -l <reports)" -eq 1 ] && [ ! -s recorded.out ]
        tell learns "orders $line" $?
    done
    from_example transfer
    banked 1 learn ORDERS -- sh -c './test_transfer; echo broken >ORDERS' &&
        grep -qx "record: ORDERS: line 1: $form: the run isn't judged with other runs" reports &&
        [ "$(cat ORDERS)" = broken ]
    tell learns "a file that was broken meanwhile" $?
    rm -f ORDERS* && banked 1 learn ORDERS -- sh -c './test_transfer; rm -f ORDERS*; mkdir ORDERS.lock' &&
        grep -qx "record: ORDERS.lock can't be written: Is a directory: nothing is learnt" reports && [ ! -e ORDERS ]
    tell learns "a lock that can't be had" $?
    rm -rf ORDERS*
    # The file is larger than what may be written by then.
    awk 'BEGIN { for (i = 100000; i < 160000; i++) print "mtx \"a_type_with_a_long_name_" i "\" > mtx \"b\"" }' >ORDERS && cp ORDERS before
    (ulimit -f 4096 && banked 1 learn ORDERS -- ./test_transfer) && cmp ORDERS before &&
        grep -qx "record: ORDERS can't be written: File too large: nothing is learnt" reports &&
        [ "$(echo ORDERS*)" = "ORDERS ORDERS.lock" ]
    tell learns "a disk that has no room" $?
    rm -f ORDERS*
    # Each run brings what the others haven't.
    for number in 1 2 3 4 5 6; do
        "$orders" learn --program-name "bank$number" --run-name "run$number" ORDERS -- ./test_transfer >/dev/null 2>"reports.$number" &
    done
    wait
    [ "$(wc -l <ORDERS)" -eq 6 ] && [ "$(head -n 1 ORDERS.runs)" = "runs 6" ] &&
        [ "$(echo ORDERS*)" = "ORDERS ORDERS.lock ORDERS.runs" ] &&
        LC_ALL=C sort -c ORDERS && cat reports.? | grep -c '1 new order learnt' | grep -qx 6
    tell learns "six runs at once" $?
    python3 "$maker" clean ORDERS 2000 && rm -f ORDERS.runs && banked 0 known ORDERS -- ./test_transfer &&
        grep -qx "record: ORDERS: 1 new order, 0 against others" reports
    tell learns "with a file of 2,000 types" $?

    # What people copy: the third test fails, and what it would bring in isn't learnt.
    mkdir -p copy && find "$example" -maxdepth 1 -type f -exec cp {} copy \; && ORDERS_COMMAND=$orders copy/ci >told 2>complaints
    [ $? -eq 1 ] && head -n 3 told >tests &&
        printf '%s\n' 'passed: transfer' 'passed: report' 'FAILED: rebuild' | diff - tests &&
        grep -qxF "! $third" complaints && cmp copy/ORDERS "$example/ORDERS"
    tell learns "the example" $?
    ORDERS_COMMAND=$orders copy/ci transfer report >told 2>&1
    tell learns "its first two tests" $?
    : >copy/ORDERS
    for test in transfer report rebuild; do
        ORDERS_COMMAND=$orders copy/ci "$test" >told 2>&1
        tell learns "its test $test, alone" $?
    done
    LEARN=1 ORDERS_COMMAND=$orders copy/ci transfer report >told 2>&1 && cmp copy/ORDERS "$example/ORDERS"
    tell learns "its file, learnt anew" $?
    printf '%s\n' "$first" "$second" "$third" >copy/ORDERS
    ORDERS_COMMAND=$orders copy/ci transfer >told 2>&1
    [ $? -eq 1 ] && grep -q '^passed: transfer$' told && grep -q '^orders: 1 order against others' told
    tell learns "two halves of a circle that two branches have brought in" $?
    if command -v git >/dev/null 2>&1; then
        status=0
        mkdir -p branches && cp "$example/.gitattributes" branches && (
            cd branches && git init -q && git config user.name test && git config user.email test@localhost &&
                echo "$first" >ORDERS && git add . && git commit -q -m first && git checkout -q -b other &&
                printf '%s\n' "$first" "$second" >ORDERS && git commit -q -a -m second && git checkout -q - &&
                printf '%s\n' "$first" "$third" >ORDERS && git commit -q -a -m third && git merge -q -m both other
        ) >/dev/null 2>&1 && "$orders" merge branches/ORDERS | diff - copy/ORDERS && ordered judge branches/ORDERS
        [ "$status" -eq 1 ]
        tell learns "git merges it by union" $?
    else
        echo "left out  learns: git isn't installed"
    fi
fi

# The orders of programs of these tests are kept in ORDERS, and what contradicts them in ORDERS.against. With LEARN=1 both are
# made anew: where names have become others, that shows in version control what they were and are.
if wanted kept; then
    way=--known
    [ -z "${LEARN:-}" ] || { way=--learn && rm -f "$here"/ORDERS*; }
    : >told
    for program in reversal cycle philosophers rwlock trysecond trythen late condition c11 helper named between handover lent \
        forking varying reused guards callbacks started with atomics bank; do
        # Lines are others than when they were learnt.
        { cp "$here/$program.c" . 2>/dev/null || cp "$here/$program.cc" . 2>/dev/null; } && sed -i '1i\
\
' "$program".c* && case $(echo "$program".c*) in
        *.cc) c++ -g -I"$recorder" -pthread -o "$program" "$program.cc" ;;
        *) "${CC:-cc}" -g -I"$recorder" -pthread -o "$program" "$program.c" ;;
        esac && "$record" $way "$here/ORDERS" -- "./$program" >/dev/null 2>reports
        [ $? -le 1 ] && lines >>told
        grep -q ': [0-9]* new orders\{0,1\}\( learnt\)\{0,1\}, [0-9]* against others$' reports
        tell kept "the orders of $program" $?
    done
    LC_ALL=C sort told >against
    if [ "$way" = --learn ]; then
        cp against "$here/ORDERS.against" && rm -f "$here/ORDERS.runs" "$here/ORDERS.lock"
    fi
    diff "$here/ORDERS.against" against
    tell kept "what is against them, and nothing new" $?
    ordered judge "$here/ORDERS"
    [ "$status" -eq 0 ] && grep -q '^orders: clean: ' told && LC_ALL=C sort -c -t "$tab" -k 1,1 "$here/ORDERS"
    tell kept "they have no circle" $?
fi
