# Writes a trace of a middle size into IN, and what is told of it, worked out here from how it was
# made, into OUT. `part` says which. The last line that is printed is the word to run it with, and
# the status.

function put(line) { print line >IN }
function tell(line) { print line >OUT }
function ends(word, status) { print word, status }

function header(seats, types, locks, chunks) {
    put("witness-trace 1 seats " seats " types " types " locks " locks " chunks " chunks)
}

# A seat asks for a lock of the name t and this number, gets it, or lets it go; sites are files of
# one name with a line.
function asks(seat, lock, site) { put("check " seat " " lock " x n f:" site) }
function gets(seat, lock, site) { asks(seat, lock, site); put("lock " seat " " lock) }
function frees(seat, lock) { put("unlock " seat " " lock " x") }

# The report of a seat that holds one lock and asks for another, which types are before through
# all those between.
function reversal(held, at, asked, site, class,    step) {
    tell("lock order reversal:")
    tell(" 1st \"t" held "\" (t" held ", " class ") @ f:" at)
    tell(" 2nd \"t" asked "\" (t" asked ", " class ") @ f:" site)
    tell("established order:")
    for (step = asked; step < held; step++) tell(" \"t" step "\" -> \"t" (step + 1) "\" @ f:" origin[step])
}

# 46 types, each taken under each before it, and then each the other way round: 1,035 orders, and
# as many reports. The least of the types that lead on is always the next one, so the path of a
# report goes through all between.
function all_against_all(    a, b, site) {
    header(2, 46, 46, 4)
    for (a = 1; a <= 46; a++) put("init 1 mtx - \"t" a "\"")
    for (a = 1; a <= 46; a++) for (b = 46; b > a; b--) {
        site++
        if (b == a + 1) origin[a] = site
        gets(1, a, 0); gets(1, b, site); frees(1, b); frees(1, a)
    }
    for (b = 46; b >= 1; b--) for (a = 1; a < b; a++) {
        site++
        gets(2, b, site); asks(2, a, site + 1); put("giveup 2 " a); frees(2, b)
        reversal(b, site, a, site + 1, "sleep mutex")
        # The second time nothing is told.
        gets(2, b, site); gets(2, a, site + 1); frees(2, b); frees(2, a)
    }
    ends("replay", 1)
}

# As many static lists, each of four types, and a blessed pair for each; each list is broken
# between its ends, and the pair may be.
function lists(count,    at, base) {
    header(1, 6 * count, 6 * count, 8)
    for (at = 1; at <= count; at++) {
        put("order mtx \"a" at "\" mtx \"b" at "\" mtx \"c" at "\" mtx \"d" at "\"")
        put("bless \"f" at "\" \"e" at "\"")
    }
    for (at = 1; at <= count; at++) {
        base = 6 * (at - 1)
        put("init 1 mtx - \"a" at "\"\ninit 1 mtx - \"b" at "\"\ninit 1 mtx - \"c" at "\"\ninit 1 mtx - \"d" at "\"")
        put("init 1 mtx - \"e" at "\"\ninit 1 mtx - \"f" at "\"")
        gets(1, base + 4, at); gets(1, base + 1, at); frees(1, base + 1); frees(1, base + 4)
        gets(1, base + 5, at); gets(1, base + 6, at); frees(1, base + 5); frees(1, base + 6)
        gets(1, base + 6, at); gets(1, base + 5, at); frees(1, base + 5); frees(1, base + 6)
        tell("lock order reversal:\n 1st \"d" at "\" (d" at ", sleep mutex) @ f:" at "\n 2nd \"a" at "\" (a" at ", sleep mutex) @ f:" at)
        tell("established order:\n \"a" at "\" -> \"b" at "\" @ listed\n \"b" at "\" -> \"c" at "\" @ listed\n \"c" at "\" -> \"d" at "\" @ listed")
    }
    ends("replay", 1)
}

# As many spin locks, all held, beside two sleep locks: warnings, assertions, and the last of them
# asked for first.
function spin_locks(count,    at) {
    header(2, count + 2, count + 2, 64)
    for (at = 1; at <= count; at++) put("init 1 spin - \"t" at "\"")
    put("init 1 mtx - \"m\"\ninit 1 sx - \"x\"")
    gets(1, count + 2, 1); gets(1, count + 1, 2)
    for (at = 1; at <= count; at++) {
        gets(1, at, at)
        if (at > 1) origin[at - 1] = at
        put("assert 1 " at " xn")
    }
    put("warn 1 1 s\nwarn 1 1 gs")
    for (at = 1; at <= 2; at++) {
        tell(count + 1 " locks held:\nexclusive sleep mutex \"m\" (m) r = 0 @ f:2")
        all_spin(count)
    }
    for (at = 2; at <= count; at += 2) frees(1, at)
    put("assert 1 2 l\nassert 1 3 u")
    tell("assert \"t2\": not locked\nassert \"t3\": locked")
    for (at = 1; at <= count; at += 2) frees(1, at)
    put("warn 1 0 s\nwarn 1 " count + 1 " s")
    tell("1 locks held:\nexclusive sleep mutex \"m\" (m) r = 0 @ f:2")
    gets(2, count, 9); asks(2, 1, 8)
    reversal(count, 9, 1, 8, "spin mutex")
    ends("replay", 1)
}

function all_spin(count,    at) {
    for (at = count; at >= 1; at--) tell("exclusive spin mutex \"t" at "\" (t" at ") r = 0 @ f:" at)
}

# A sleep chain and a spin chain of one seat, and a spin chain of another, as they are shown.
function spin_view(count,    at) {
    header(2, count + 1, count + 1, 64)
    for (at = 1; at <= count; at++) put("init 1 spin - \"t" at "\"")
    put("init 1 rw - \"r\"\ncheck 1 " count + 1 " s n f:7\nlock 1 " count + 1)
    for (at = 1; at <= count; at += 2) put("try 1 " at " x f:" at)
    for (at = 2; at <= count; at += 2) put("try 2 " at " x f:" at)
    tell("seat 1 holds:\nshared rw \"r\" (r) r = 0 @ f:7")
    for (at = count - 1; at >= 1; at -= 2) tell("exclusive spin mutex \"t" at "\" (t" at ") r = 0 @ f:" at)
    tell("seat 2 holds:")
    for (at = count; at >= 1; at -= 2) tell("exclusive spin mutex \"t" at "\" (t" at ") r = 0 @ f:" at)
    # Each list takes a chunk for five.
    tell("free chunks: " 64 - 1 - 2 * int((count / 2 + 4) / 5))
    ends("locks", 0)
}

# Orders from the first type to the last one, to one in the middle, and back by a report.
function far(word,    at) {
    header(2, 1023, 1023, 4)
    for (at = 1; at <= 1023; at++) put("init 1 mtx - \"t" at "\"")
    gets(1, 1, 1); gets(1, 1023, 2); frees(1, 1023); gets(1, 512, 3); frees(1, 512); frees(1, 1)
    gets(1, 512, 4); gets(1, 1023, 5); frees(1, 1023); frees(1, 512)
    gets(2, 1023, 6); gets(2, 1, 7); frees(2, 1); gets(2, 512, 8)
    if (word == "graph") {
        tell("\"t1\",\"t512\"\n\"t1\",\"t1023\"\n\"t512\",\"t1023\"")
        ends("graph", 0)
    } else {
        # By the least type that leads on, though there is a step for all of it.
        tell("lock order reversal:\n 1st \"t1023\" (t1023, sleep mutex) @ f:6\n 2nd \"t1\" (t1, sleep mutex) @ f:7")
        tell("established order:\n \"t1\" -> \"t512\" @ f:3\n \"t512\" -> \"t1023\" @ f:5")
        tell("lock order reversal:\n 1st \"t1023\" (t1023, sleep mutex) @ f:6\n 2nd \"t512\" (t512, sleep mutex) @ f:8")
        tell("established order:\n \"t512\" -> \"t1023\" @ f:5")
        ends("replay", 1)
    }
}

# 130,816 orders, whose graph is a text of some 4 million bytes.
function long_graph(    a, b) {
    header(1, 512, 512, 4)
    for (a = 1; a <= 512; a++) put("init 1 mtx - \"lock type " a "\"")
    for (a = 1; a <= 512; a++) {
        gets(1, a, 1)
        for (b = a + 1; b <= 512; b++) {
            asks(1, b, 2); put("giveup 1 " b)
            tell("\"lock type " a "\",\"lock type " b "\"")
        }
        frees(1, a)
    }
    ends("graph", 0)
}

# Every lock held, 256 by each seat: a text of some 4 million bytes.
function long_locks(    seat, at) {
    header(256, 1, 65536, 65536)
    for (at = 1; at <= 65536; at++) put("init 1 rw d \"lock " at "\" \"T\"")
    for (seat = 1; seat <= 256; seat++) {
        for (at = 1; at <= 256; at++) put("check " seat " " 256 * (seat - 1) + at " " (at % 2 ? "s" : "x") " nf f:" at "\nlock " seat " " 256 * (seat - 1) + at)
        tell("seat " seat " holds:")
        for (at = 256; at >= 1; at--) tell((at % 2 ? "shared" : "exclusive") " rw \"lock " 256 * (seat - 1) + at "\" (T) r = 0 @ f:" at)
    }
    tell("free chunks: " 65536 - 256 * 52)
    ends("locks", 0)
}

# 2,000,000 lines by four seats and 61 locks, 1,250,000 of them logged: acquisitions, tries,
# assertions and warnings, of which some tell.
function long(    at, seat, lock, next_one) {
    header(4, 61, 61, 16)
    for (at = 1; at <= 61; at++) put("init 1 " (at % 3 ? "mtx" : "sx") " - \"t" at "\"")
    for (at = 1; at <= 250000; at++) {
        seat = 1 + at % 4
        lock = 1 + at % 61
        next_one = 1 + lock % 61
        put("check " seat " " lock " x nf f" at % 100 ":" at "\nlock " seat " " lock "\nassert " seat " " lock " xn\nunlock " seat " " lock " x")
        put("try " seat " " next_one " x g:" at "\nassert " 1 + seat % 4 " " next_one " u")
        # At some places the answer is told.
        if (at % 1000 == 0) {
            put("warn " seat " 0 -")
            tell("1 locks held:\nexclusive " (next_one % 3 ? "sleep mutex" : "sx") " \"t" next_one "\" (t" next_one ") r = 0 @ g:" at)
        } else put("warn " seat " " next_one " -")
        put("unlock " seat " " next_one " x")
    }
    put("assert 1 1 l\nunlock 4 61 x")
    tell("assert \"t1\": not locked\nline " 1 + 61 + 8 * 250000 + 2 ": F11 NotLocked")
    ends("replay", 3)
}

BEGIN {
    if (part == "all") all_against_all()
    else if (part ~ /^lists/) lists(substr(part, 6) + 0)
    else if (part ~ /^spin/) spin_locks(substr(part, 5) + 0)
    else if (part ~ /^chains/) spin_view(substr(part, 7) + 0)
    else if (part == "far") far("replay")
    else if (part == "fargraph") far("graph")
    else if (part == "graph") long_graph()
    else if (part == "locks") long_locks()
    else if (part == "long") long()
}
