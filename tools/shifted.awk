# Moves cases to where there are other locks, types, seats, files, orders, reports and log entries
# before theirs. Its input is the list that tools/cases.awk prints, with the files that go with it
# in the folder `work`; `kind` and `by` say what to move, and how far. Of each case that can be
# moved it writes KIND-NUMBER.in and .out, and prints
#     KIND-NUMBER STATUS WORD PLACE
# A case can be moved where each line of its trace is a good one by its form, and the header has
# room.
#
#   locks   `by` locks of one further type are made first: a lock's number is so much higher
#   types   `by` locks of as many further types are: so are the numbers of the types that are enrolled behind the prelude
#   seats   each seat is `by` higher
#   files   `by` further files are named first
#   orders  `by` orders are adopted first, between 130 further types
#   log     `by` calls are logged first, by seat 1
#   reports `by` reports are told first

# The lines that come before those of the trace, behind the prelude, and how many they are.
function prepare(    at, other, count) {
    before = told = ""
    lines = locks = types = 0
    if (kind == "locks" || kind == "types")
        for (at = 1; at <= by; at++) add("init 1 mtx - \"before " at "\"" (kind == "locks" ? " \"before all\"" : ""))
    locks = kind == "locks" || kind == "types" ? by : 0
    types = kind == "types" ? by : kind == "locks" ? 1 : 0
    if (kind == "files" || kind == "log") {
        add("init 1 mtx - \"before all\"")
        locks = types = 1
        for (at = 1; at <= by; at += kind == "files" ? 1 : 2) add("check 1 1 x - before" (kind == "files" ? at : "") ":1\ngiveup 1 1")
    }
    if (kind == "orders") {
        for (at = 1; at <= 130; at++) add("init 1 mtx - \"before " at "\"")
        locks = types = 130
        for (at = 1; at <= 130 && count < by; at++) {
            add("try 1 " at " x before:1")
            for (other = at + 1; other <= 130 && count < by; other++) {
                add("check 1 " other " x n before:2\ngiveup 1 " other)
                count++
            }
            add("unlock 1 " at " x")
        }
    }
    if (kind == "reports") {
        add("init 1 mtx - \"before all\"")
        locks = types = 1
        for (at = 1; at <= by; at++) {
            add("assert 1 1 l")
            told = told "assert \"before all\": not locked\n"
        }
    }
}

function add(text) {
    before = before text "\n"
    lines += gsub(/\n/, "\n", text) + 1
}

# A header with more room, or "" where there is none.
function moved_header(line,    part) {
    split(line, part, " ")
    part[4] += kind == "seats" ? by : 0
    part[6] += types
    part[8] += locks
    if (kind == "orders" && part[10] < 4) return ""
    if (part[4] > 256 || part[6] > 1023 || part[8] > 65536) return ""
    return part[1] " " part[2] " seats " part[4] " types " part[6] " locks " part[8] " chunks " part[10]
}

function lock_of(number) {
    return number + 0 == 0 ? number : number + locks
}

# A line as it is behind those that come first, or "" for one that can't be moved.
function moved_line(line,    part, count, at, rest) {
    count = split(line, part, " ")
    if (line !~ /^(init|destroy|check|lock|try|giveup|unlock|upgrade|downgrade|norelease|releaseok|assert|warn|define|watch) (0|[1-9][0-9]?[0-9]?) /)
        return ""
    if (kind == "seats") part[2] += by * (part[2] > 0)
    if (part[1] == "init" || part[1] == "watch") {
        if (part[1] == "init" && line !~ /^init [0-9]+ (mtx|spin|rw|sx) (-|rd?|d) "[^"]+"( "[^"]+")?$/) return ""
        # A name may have blanks, so only what stands before it is put together anew.
        rest = line
        sub(/^[a-z]+ [0-9]+/, "", rest)
        return part[1] " " part[2] rest
    }
    for (at = 3; at <= (part[1] == "define" ? 4 : 3); at++) {
        if (part[at] !~ /^(0|[1-9][0-9]?[0-9]?[0-9]?)$/) return ""
        part[at] = lock_of(part[at])
    }
    rest = part[1]
    for (at = 2; at <= count; at++) rest = rest " " part[at]
    # Two blanks, or one at an end, aren't lines of the grammar.
    return gsub(/ /, " ", line) == count - 1 ? rest : ""
}

function moved_output(line) {
    if (match(line, /^line [0-9]+: /)) return "line " substr(line, 6, RLENGTH - 7) + lines substr(line, RLENGTH - 1)
    if (kind == "seats" && match(line, /^ ?seat [0-9]+ (holds:|waits for ".*" held by seat [0-9]+)$/)) {
        return moved_seats(line)
    }
    return line
}

function moved_seats(line,    out) {
    while (match(line, /(^ ?|held by )seat [0-9]+/)) {
        out = out substr(line, 1, RSTART + RLENGTH - 1)
        line = substr(line, RSTART + RLENGTH)
        match(out, /[0-9]+$/)
        out = substr(out, 1, RSTART - 1) (substr(out, RSTART) + by)
    }
    return out line
}

# Moves a case, and says whether it could. Behind orders that were adopted first the seat's list
# has a chunk already, and listed types come before theirs.
function move(number, word,    line, in_file, out_file, body, at, good, state, lists, result) {
    in_file = work "/" number ".in"
    out_file = work "/" number ".out"
    result = ""
    good = !(kind == "orders" && word == "locks")
    at = 0
    while ((state = (getline line <in_file)) > 0) {
        at++
        if (at > 300) { good = 0; break }
        if (at == 1) {
            line = line ~ /^witness-trace 1 seats [1-9][0-9]* types [1-9][0-9]* locks [1-9][0-9]* chunks [1-9][0-9]*$/ ? moved_header(line) : ""
            result = line "\n"
        } else if (line ~ /^(order|bless) / && !body) {
            if (kind == "orders" && word == "graph") line = ""
            result = result line "\n"
        } else {
            if (!body) result = result before
            body = 1
            line = moved_line(line)
            result = result line "\n"
        }
        if (line == "") { good = 0; break }
    }
    close(in_file)
    if (!good || !body) return 0
    printf "%s", result >(work "/" kind "-" number ".in")
    close(work "/" kind "-" number ".in")
    if (word == "replay") printf "%s", told >(work "/" kind "-" number ".out")
    else printf "" >(work "/" kind "-" number ".out")
    if (word == "graph") orders_before(work "/" kind "-" number ".out")
    while ((getline line <out_file) > 0) {
        # A line of the prelude is named where it stands.
        if (line ~ /^line / && substr(line, 6) + 0 <= 1) { close(out_file); close(work "/" kind "-" number ".out"); return 0 }
        # For a bad line no view is written.
        if (word == "graph" && line ~ /^line /) { close(work "/" kind "-" number ".out"); printf "" >(work "/" kind "-" number ".out") }
        print moved_output(line) >(work "/" kind "-" number ".out")
    }
    close(out_file)
    close(work "/" kind "-" number ".out")
    return 1
}

# What a graph begins with, by the orders that were adopted first.
function orders_before(file,    at, other, count) {
    if (kind != "orders") return
    for (at = 1; at <= 130 && count < by; at++)
        for (other = at + 1; other <= 130 && count < by; other++) { print "\"before " at "\",\"before " other "\"" >file; count++ }
}

BEGIN { prepare() }
$1 != "malformed" && $3 == "-" && $4 == "-" && $5 == "-" && $6 == "-" {
    # The command is a word a line, of which the second is the view.
    file = work "/" $1 ".words"
    count = 0
    while ((getline word <file) > 0) asked[++count] = word
    close(file)
    if (count != 2 || asked[2] !~ /^(replay|graph|locks|circle)$/) next
    # The status of a replay that told something first is at least 1.
    status = kind == "reports" && asked[2] == "replay" && $2 == 0 ? 1 : $2
    if (move($1, asked[2])) print kind "-" $1, status, asked[2], $7
}
