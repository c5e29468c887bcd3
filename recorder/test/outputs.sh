# Tests of what `record` writes for people and for machines: a page, JSON and SARIF. Read by `run`, whose functions it uses.
# outputs/driver.c writes them of a case, of which outputs/check.py says by hand what has to be in them.

check=$here/outputs/check.py

# build_driver COMPILER FOLDER OPTIONS..: from a folder that has none of the sources.
build_driver() {
    compiler=$1
    folder=$2
    shift 2
    sources=$(source_of alarms child_words describe document escape files hang json json_place line map allocation notes ignored_types lock_pairs json_writer process_orders pictures site_parts \
        place_words report run_reports schedule single source_names sources texts verdict)
    mkdir -p "$folder" && (cd "$folder" && in_folders "$compiler" -std=c11 -D_GNU_SOURCE -g -Wall -Wextra -Werror \
        "$@" -o driver "$here/outputs/driver.c" $sources)
}

# written CASE: CASE.html, CASE.json and CASE.sarif of CASE.case.
written() {
    built/driver report "$1.case" >"$1.json" 2>driver.err && built/driver pictures "$1.case" 2>>driver.err >"$1.drawn" &&
        "$WITNESS" html <"$1.drawn" >"$1.html" 2>>driver.err && "$WITNESS" sarif <"$1.json" >"$1.sarif" 2>>driver.err &&
        [ ! -s driver.err ] || { cat driver.err && return 1; }
}

# fits FILE SCHEMA: whether it meets the schema, where something is there that can tell.
fits() {
    python3 "$check" schema "$2" "$1"
    fit=$?
    [ $fit -ne 77 ] || echo "left out  outputs: python3 has no jsonschema, so $1 isn't compared with its schema"
    [ $fit -eq 0 ] || [ $fit -eq 77 ]
}

# A hundred orders of forty types, and two requests against them.
make_many() {
    awk 'BEGIN {
        OFS = "\t"
        print "program storage\nprocess 1\tstorage"
        for (i = 0; i < 39; i++)
            print "order storage::Pool" i "::lock", "storage::Pool" i + 1 "::lock", "src/pool_of_pages.cc:" i + 100
        for (i = 0; i < 61; i++) {
            from = (i * 17) % 38
            print "order storage::Pool" from "::lock", "storage::Pool" from + 2 + (i * 7) % (38 - from) "::lock", "x.c:" i
        }
        print "reversal storage::Pool20::lock", "storage::Pool5::lock", "src/x.cc:7"
        print "reversal storage::Pool39::lock", "storage::Pool0::lock", "src/x.cc:8"
    }'
}

# opened PAGE[#WORDS]: what a browser makes of the page is in `opened`, and what its console says in `console`.
opened() {
    rm -rf profile
    timeout 300 "$browser" --headless --no-sandbox --disable-gpu --no-first-run --user-data-dir="$work/profile" \
        --enable-logging=stderr --v=0 --dump-dom "file://$work/$1" >opened 2>opened.err
    opened=$?
    LC_ALL=C grep -a CONSOLE opened.err >console
    [ $opened -eq 0 ] && [ -s opened ]
}

# fits_in WIDTH REPORTS PAGE: whether so many pixels are enough for the page, which has so many reports. It stands in a frame of
# that width, and may be looked at since both are files.
fits_in() {
    cat >frame.html <<'END'
<!DOCTYPE html><title>not known</title><body><script>
const [page, width] = location.search.slice(1).split(',');
const frame = document.createElement('iframe');
frame.style = 'border: 0; height: 800px; width: ' + width + 'px';
frame.onload = () => {
    const root = frame.contentDocument.documentElement;
    const fits = root.scrollWidth > 0 && root.scrollWidth <= root.clientWidth;
    document.title = (fits ? 'fits, ' : 'is wider, ') + frame.contentDocument.querySelectorAll('article').length + ' reports';
};
frame.src = page;
document.body.append(frame);
</script>
END
    rm -rf profile
    timeout 300 "$browser" --headless --no-sandbox --disable-gpu --no-first-run --user-data-dir="$work/profile" \
        --allow-file-access-from-files --window-size=1400,900 --virtual-time-budget=20000 \
        --dump-dom "file://$work/frame.html?$3,$1" 2>/dev/null | grep -q "<title>fits, $2 reports"
}

# recorded_to NAME OPTIONS AND COMMAND..: leaves NAME.html, NAME.json and NAME.sarif of a run.
recorded_to() {
    to=$1
    shift
    rm -f "$to".[hjs]*
    RECORD_FRAMES=8 recorded_by "$record" --html "$to.html" --json "$to.json" --sarif "$to.sarif" "$@"
    [ -s "$to.html" ] && [ -s "$to.json" ] && [ -s "$to.sarif" ]
}

# is FILE PATH VALUE ..: whether that stands in the file; more pairs may follow.
is() {
    file=$1
    shift
    while [ $# -ge 2 ]; do
        python3 "$check" is "$file" "$1" "$2" || return 1
        shift 2
    done
}

# whole NAME: whether what was recorded to it is right by the schemas, and the page is whole.
whole() {
    fits "$1.json" "$recorder/schema/findings.schema.json" && fits "$1.sarif" "$here/outputs/sarif-2.1.0.schema.json" &&
        python3 "$check" page "$1.html"
}

# Of real runs.
test_runs() {
    compile reversal && compile kinds && compile deadlock && compile forking && compile handover
    recorded_to run -- ./reversal && whole run && said 0 '1 report, 0 circles, 1 process' &&
        is run.json record "\"$(sed -n 1p "$here/../../VERSION")\"" kit "\"$(sed -n 2p "$here/../../VERSION")\"" &&
        is run.sarif runs.0.tool.driver.version "\"$(sed -n 1p "$here/../../VERSION")\"" \
            runs.0.tool.driver.properties.kit "\"$(sed -n 2p "$here/../../VERSION")\"" &&
        is run.json summary '"1 report, 0 circles, 1 process"' program '"reversal"' reports.# 1 reports.0.kind '"reversal"' \
            reports.0.asked.site '"reversal.c:19"' reports.0.asked.callers.0.function '"checkpoint"' \
            reports.0.asked.thread.maker '"main"' reports.0.single.grade '"threads"' reports.0.single.apart true \
            reports.0.single.gate null reports.0.counts true processes.0.orders.# 2 processes.0.orders.0.broken true \
            processes.0.orders.1.reversal true processes.0.orders.1.site '"reversal.c:19"' &&
        is run.sarif runs.0.results.0.locations.0.physicalLocation.region.startLine 19 \
            runs.0.results.0.codeFlows.0.threadFlows.# 2 &&
        grep -q "<p class='single bad'>single locks: both orders, the same locks, threads [0-9]* and [0-9]*; apart" run.html &&
        grep -q "<mark class='row' data-line='19'>    pthread_mutex_lock(&amp;pool);" run.html
    tell outputs "of a run with a reversal" $?
    is run.json reports.0.advice.0 "\"In this run the two orders couldn't meet: ask whether the program keeps to that.\"" &&
        grep -q "<p class='origin'>record $(sed -n 1p "$here/../../VERSION"), 20[-0-9]* [0-9:]* [A-Z]*: <code>./reversal</code></p>" run.html &&
        grep -q '<td><a href=.#report-1.>1</a></td><td>Lock order reversal</td>.*the same locks, several threads; apart</td><td>yes</td>' run.html
    tell outputs "its origin, its entry and its advice" $?
    compile single && RECORDER_DEPTH=1 recorded_to run -- ./single twins && whole run &&
        is run.json reports.0.kind '"duplicate"' reports.0.counts true reports.0.single.elsewhere.# 1 \
            reports.0.single.elsewhere.0.file '"single.c"' reports.0.single.elsewhere.0.line 56 &&
        grep -q "<p class='single bad'>single locks: both orders, the same locks, .*; the other way @ single.c:56</p>" run.html
    tell outputs "of two locks of one type that were taken both ways" $?
    printf '%s\n' '"made()<main()"' '"kinds.c:8<kinds.c:25" "kinds.c:8<kinds.c:24"' >known
    recorded_to run --ignore known -- ./kinds && whole run && said 0 'known ignores 2 reports' &&
        is run.json reports.# 2 reports.0.silenced true reports.0.kind '"duplicate"' reports.1.silenced true &&
        is run.sarif runs.0.results.1.suppressions.0.kind '"external"'
    tell outputs "of reports that the ignore file has ignored" $?
    printf '%s\n' '"made()<main()" "made()<main()"' >known
    recorded_to run --ignore known -- ./kinds && whole run &&
        is run.json reports.# 2 reports.0.kind '"duplicate"' reports.0.silenced false reports.1.silenced true \
            reports.0.single.grade '"types"' reports.0.counts false \
            reports.0.advice.0 '"No single locks were taken both ways: ask whether another run can take them the other way round."' &&
        grep -q "Two locks of one type, which doesn't count for the status" run.html &&
        is run.sarif runs.0.results.0.level '"note"' runs.0.results.1.level '"warning"'
    tell outputs "of one that is ignored" $?
    recorded_to run -- timeout -s KILL 3 ./deadlock
    whole run && is run.json reports.# 2 reports.1.kind '"circle"' reports.1.waits.# 4 reports.1.waits.1.does '"holds"' &&
        is run.sarif runs.0.results.1.level '"error"'
    tell outputs "of a program that hangs" $?
    compile misuse && recorded_to run -- ./misuse ends && whole run && said 0 'nothing to report but 1 error' &&
        is run.json reports.# 1 reports.0.kind '"error"' reports.0.error.lock '"journal"' reports.0.error.site '"misuse.c:21"' \
            reports.0.description '"A thread ended that held a lock, taken here: \"journal\""' reports.0.advice.# 3 \
            reports.0.waits.# 0 reports.0.counts true &&
        is run.sarif runs.0.results.0.ruleId '"lock-error"' runs.0.results.0.ruleIndex 4 runs.0.results.0.level '"warning"' \
            runs.0.results.0.locations.0.physicalLocation.region.startLine 21 &&
        grep -q '<section id=.errors.>' run.html && ! grep -q "<p class='good'>" run.html &&
        recorded_to run --alarms no-errors -- ./misuse ends && is run.json reports.# 0
    tell outputs "of an error in the use of a lock" $?
    recorded_to run -- sh -c './reversal; ./reversal; ./forking' && whole run &&
        is run.json reports.# 2 reports.0.processes.# 2 reports.0.program '"reversal"' processes.# 4 &&
        is run.sarif runs.0.results.0.occurrenceCount 2
    tell outputs "of processes, of which two have one report" $?
    recorded_to run -- ./handover && is run.json told.0 '"handover: 4 releases by threads that did not hold the lock:"' told.# 3
    tell outputs "of what is told besides" $?
    recorded_to run -- true && cp run.html nothing.html && whole run && is run.json reports.# 0 processes.# 0 &&
        is run.json summary '"nothing to report: no thread asked for a lock while it held another"'
    tell outputs "of nothing" $?
    cp reversal moved && recorded_to run -- ./moved && cp run.json before.json && sed -i '1i #include <errno.h>' reversal.c &&
        "${CC:-cc}" -g -pthread -o moved reversal.c && recorded_to run -- ./moved &&
        is run.json reports.0.asked.site '"reversal.c:20"' && python3 "$check" same before.json run.json
    tell outputs "fingerprints of another build, whose lines have moved" $?
    touch -d '1 hour' reversal.c && recorded_to run -- ./moved && grep -q 'is newer than the program' run.html &&
        mv reversal.c away.c && recorded_to run -- ./moved && grep -q "Its source isn't here" run.html
    tell outputs "sources that are newer, or gone" $?
    mv away.c reversal.c && mkfifo pipe.c && sed 's/reversal.c:1/pipe.c:1/' kinds.case >pipe.case &&
        timeout 100 built/driver report pipe.case | "$WITNESS" html | grep -q "Its source isn't here"
    tell outputs "a source that is a pipe by now isn't waited for" $?
    for line in "--html" "--json . true" "--sarif /nowhere/x true"; do
        recorded_by "$record" $line
        said 2 'record --help'
        tell outputs "record $line" $?
    done
    recorded_by "$record" --json /dev/full -- ./reversal
    said 0 "/dev/full can't be written"
    tell outputs "a file that can't be written in the end" $?
}

if wanted outputs; then
    for compiler in gcc clang; do
        command -v $compiler >/dev/null || continue
        build_driver $compiler "by $compiler"
        tell outputs "built by $compiler" $?
    done
    build_driver "${CC:-cc}" built -fsanitize=address,undefined -fno-sanitize-recover=all
    tell outputs "built with sanitizers" $?
    sed "s|@directory@|$here|" "$here/outputs/kinds.case" >kinds.case
    sed -E 's/(\.c:)([0-9]+)/\11\2/g; s/47([0-9][0-9])/58\1/g; s/0x1a2f/0x2b30/' kinds.case >moved.case
    sed 's/^frames checkpoint/frames -/; s/\taudit\t/\t-\t/' kinds.case >nameless.case
    sed 's/checkpoint/snapshot/; s/"queue"/"line"/; s/queue/line/' kinds.case >other.case
    cp "$here/outputs/odd.case" .
    make_many >many.case
    if ! command -v python3 >/dev/null; then
        echo "left out  outputs: there is no python3"
    else
        written kinds && written moved && written other && written odd && written many
        tell outputs "findings are written" $?
        python3 "$check" json kinds.json && python3 "$check" sarif kinds.sarif && python3 "$check" shown kinds.html
        tell outputs "each kind of report, in all three" $?
        written nameless && fits nameless.json "$recorder/schema/findings.schema.json" &&
            fits nameless.sarif "$here/outputs/sarif-2.1.0.schema.json" && python3 "$check" page nameless.html &&
            grep -q '<li><code>helper\.c:28</code></li>' nameless.html && ! grep -q '(null)' nameless.html nameless.json nameless.sarif &&
            grep -q '"function": *null' nameless.json
        tell outputs "functions that aren't known" $?
        python3 "$check" odd odd.html odd.json odd.sarif
        tell outputs "names of any bytes are texts" $?
        fits kinds.json "$recorder/schema/findings.schema.json" && fits odd.json "$recorder/schema/findings.schema.json" &&
            fits many.json "$recorder/schema/findings.schema.json"
        tell outputs "JSON by its schema" $?
        fits kinds.sarif "$here/outputs/sarif-2.1.0.schema.json" && fits odd.sarif "$here/outputs/sarif-2.1.0.schema.json" &&
            fits many.sarif "$here/outputs/sarif-2.1.0.schema.json"
        tell outputs "SARIF by the part of its schema" $?
        python3 "$check" laid kinds.sarif && python3 "$check" laid odd.sarif && python3 "$check" laid many.sarif
        tell outputs "a log is laid out as one, with no result, with one and with several" $?
        python3 "$check" same kinds.json moved.json && python3 "$check" same kinds.sarif moved.sarif &&
            ! python3 "$check" same kinds.json other.json >/dev/null
        tell outputs "fingerprints last where lines move, and not where functions and locks are others" $?
        if command -v dot >/dev/null; then
            python3 "$check" picture kinds.html 7 18 && python3 "$check" picture many.html 1 102 && python3 "$check" picture odd.html 2 4
            tell outputs "pictures of orders" $?
        else
            echo "left out  outputs: there is no dot, so there are no pictures"
        fi
        "$WITNESS" html <kinds.json >plain.html && python3 "$check" page plain.html && grep -q '<details open><summary>The orders as a table' plain.html
        tell outputs "and a table where there is none" $?
        "$WITNESS" html <"$here/../../tests/reports/hang.json" >hang.html && python3 "$check" schedule hang.html
        tell outputs "how threads could have come to hang, as a table" $?
        python3 "$check" page many.html && python3 "$check" contrast many.html
        tell outputs "a page that all can read" $?
        test_runs
    fi
    browser=$(command -v chromium || command -v chromium-browser || command -v google-chrome)
    echo '<!DOCTYPE html><title>page</title>' >empty.html
    if [ -z "$browser" ] || ! opened empty.html || ! [ -f kinds.html ]; then
        echo "left out  outputs: there is no Chromium that runs here"
    else
        opened kinds.html && [ ! -s console ] && grep -q '<img' opened && grep -q '<html lang="en" class="works">' opened
        tell outputs "a browser opens the page, with its picture, and complains of nothing" $?
        opened odd.html && [ ! -s console ] && opened nothing.html && [ ! -s console ] &&
            grep -q '<p class="good">nothing to report: no thread' opened
        tell outputs "and of no names, and where there is nothing" $?
        opened 'kinds.html#kind=reversal' && grep -q '3 of 7 shown' opened && opened 'kinds.html#words=QUEUE' &&
            grep -q '1 of 7 shown' opened && opened 'kinds.html#words=journal+helper.c' && grep -q '1 of 7 shown' opened &&
            [ "$(grep -c '<article class="card[ a-z]* hidden"' opened)" -eq 6 ]
        tell outputs "reports are found by kind and by words" $?
        number=$(sed -n "s/.*<option value='\([0-9]*\)'>disk<.*/\1/p" kinds.html)
        opened "kinds.html#type=$number" && grep -q '1 of 7 shown' opened
        tell outputs "and by type" $?
        sed 's|</main>|<script>document.title = "foreign"</script><img src="http://127.0.0.1:9/x">&|' kinds.html >foreign.html
        opened foreign.html && [ "$(grep -c 'Content Security Policy' console)" -eq 2 ] && ! grep -q '<title>foreign' opened
        tell outputs "it runs no script but its own, and fetches nothing" $?
        timeout 300 "$browser" --headless --no-sandbox --disable-gpu --user-data-dir="$work/profile" --no-pdf-header-footer \
            --print-to-pdf="$work/kinds.pdf" "file://$work/kinds.html" >/dev/null 2>&1
        [ "$(head -c 5 kinds.pdf)" = %PDF- ]
        tell outputs "it can be printed" $?
        python3 -c 'import json, sys
report = json.load(sys.stdin)
report["reports"] = (report["reports"] * 15)[:100]
json.dump(report, sys.stdout)' <kinds.json | "$WITNESS" html >hundred.html
        fits_in 1280 7 kinds.html && fits_in 390 7 kinds.html && fits_in 1280 100 hundred.html && fits_in 390 100 hundred.html &&
            ! fits_in 200 7 kinds.html
        tell outputs "it fits a screen of 1280 pixels and a telephone's 390, of seven reports and of a hundred" $?
    fi
fi
