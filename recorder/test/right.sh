# Tests of orders of libraries that are known to be right: read by `run`, whose functions it uses.

# by_list WORD OPTIONS..: the program's last line, with that word, where the list `trees.known` says what is right.
by_list() {
    word=$1
    shift
    RECORD_FRAMES=8 "$record" --ignore trees.known "$@" -- ./trees $word 2>recorded.err
    tail -n 1 recorded.err
}

# is_last WHAT LINE WORD OPTIONS..: the last line is that.
is_last() {
    told_last=$2
    what=$1
    shift 2
    by_list "$@" >last
    echo "record: $told_last" | diff - last
    tell right "$what" $?
}

if wanted right; then
    cp "$here/trees.c" . && printf '%s\n' '# A copy is nobody'"'"'s yet.' 'libtre*.so "tree_new" in "tree_clone"   # trees.c' \
        'libnone.so "none" "none" in "none"' >trees.known
    for way in "-g" "-O1 -s -DSHOWN=" "-O1 -s"; do
        "${CC:-cc}" $way -fno-optimize-sibling-calls -DLIBRARY -shared -fPIC -Wl,-soname,libtrees.so.2 -o libtrees.so.2 trees.c -pthread
        "${CC:-cc}" -g -o trees trees.c ./libtrees.so.2 -Wl,-rpath,"$work" -pthread
        is_last "it is counted ($way)" "nothing to report; 1 known of libtrees.so" ""
        grep -q '^record: not clean: trees: what was reported is ignored$' recorded.err && ! grep -q 'matched nothing' recorded.err
        tell right "a run isn't called clean for it, and a line that names nothing isn't told ($way)" $?
        is_last "another report is told beside it ($way)" "1 report, 1 known of libtrees.so, 0 circles, 1 process" own
        is_last "what isn't in the function is told ($way)" "1 report, 0 circles, 1 process" moves
        is_last "the same locks both ways are told ($way)" "1 report, 0 circles, 1 process" back
    done
    RECORD_FRAMES=8 "$record" --ignore none -- ./trees 2>&1 | tail -n 1 >last
    echo "record: 1 report, 0 circles, 1 process" | diff - last
    tell right "none by --ignore none" $?
    sed -n 's/^"/"/p' recorded.err >list && RECORD_FRAMES=8 "$record" --ignore none --gen-suppressions -- ./trees own 2>&1 |
        sed -n 's/^"own"/"own"/p; s/^"other"/"other"/p' >list
    is_last "beside the user's own list" "nothing to report: list ignores 1 report; 1 known of libtrees.so" own --ignore list
    by_list "" --json run.json >last && python3 - run.json <<'END'
import json, sys
reports = json.load(open(sys.argv[1]))["reports"]
sys.exit([(each["kind"], each["silenced"]) for each in reports] != [("duplicate", True)])
END
    tell right "in JSON it is ignored" $?
    printf '%s\n' 'libtrees.so "tree_new"' >trees.known
    "$record" --ignore trees.known -- ./trees 2>recorded.err
    [ $? -eq 2 ] && grep -q '^record: trees.known: line 1 isn.t OBJECT "FUNCTION" "FUNCTION" in "FUNCTION"' recorded.err
    tell right "a bad line of a list" $?
    "$record" --ignore nowhere -- ./trees 2>recorded.err
    [ $? -eq 2 ] && grep -q "nowhere can't be read" recorded.err
    tell right "a list that isn't there" $?
    bad=0
    for list in "$recorder"/known/*.known; do "$record" --ignore "$list" -- true 2>recorded.err || bad=1; done
    [ $bad -eq 0 ] && [ -n "$list" ] && [ -z "$(awk '!/^#/ && NF && before !~ /^#/ { print FILENAME } { before = $0 }' "$recorder"/known/*.known)" ]
    tell right "the lists that come with record: each line below a reason" $?
fi
