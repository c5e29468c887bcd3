# Tests that `witness text` tells of a JSON report what `record` told of the run. Read by `run`, whose functions it uses.

# retold FRAMES WORDS OF RECORD..: whether the text of the JSON report is what stood on standard error.
retold() {
    frames=$1
    shift
    rm -f told.json
    RECORD_FRAMES=$frames recorded_by "$record" --gen-suppressions --json told.json "$@"
    "$WITNESS" text <told.json >retold && [ -s retold ] && diff recorded.err retold
}

if wanted text; then
    for program in reversal cycle kinds rwlock late condition handover guards byname nodebug; do
        compile $program && retold 8 -- ./$program
        tell text "of $program" $?
    done
    retold 1 -- ./reversal && retold 8 --brief -- ./kinds
    tell text "without stacks" $?
    printf '%s\n' '"journal" "pool"' >allowed
    retold 8 --ignore allowed -- ./reversal && grep -q 'allowed ignores 1 report' retold
    tell text "of a report that is ignored" $?
    # What is told while the program runs has no numbers by then.
    compile forking && retold 8 --quiet -- ./forking && retold 8 --quiet -- sh -c './reversal; ./handover; ./reversal; ./forking' &&
        grep -q '^==[0-9]*== record: reversal:$' retold && grep -q '^==[0-9]*== record: handover: 4 releases' retold
    tell text "of several processes, with their numbers" $?
    compile misuse && retold 8 -- ./misuse ends
    tell text "of errors" $?
    compile again && retold 8 --quiet -- timeout -s KILL 4 ./again
    tell text "of a thread that waits for itself" $?
    compile deadlock && retold 8 --quiet -- timeout -s KILL 4 ./deadlock && grep -q '^circle:' retold
    tell text "of a circle" $?
    compile single
    # What was known of them while the program ran isn't in the JSON report.
    for word in locks one alone gate readers through woken twins; do
        retold 8 --quiet -- ./single $word && grep -q '^single locks: ' retold
        tell text "of single locks, $word" $?
    done
    rm -f kept && retold 8 --quiet --learn kept -- ./reversal && retold 8 --quiet --known kept -- ./reversal && grep -q '^! mtx ' retold
    tell text "of orders of other runs" $?
    retold 8 --quiet --confirm=1 -- ./reversal && grep -q '^record: "journal" and "pool" @ reversal.c:19: ' retold
    tell text "of what a steered run has shown" $?
    retold 8 -- true && echo 'record: nothing to report: no thread asked for a lock while it held another' | diff - retold
    tell text "of nothing" $?
fi
