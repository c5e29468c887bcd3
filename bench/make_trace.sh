#!/bin/sh
# Writes one of the traces that are measured to standard output: make_trace.sh NAME. The names, each with what it is:
#   hot       2,000,000 lines: two seats take eight mutexes, four deep and in ascending order, and release them in
#             descending order; at any time each seat holds other mutexes than its neighbour
#   seats     256 seats, each of which takes and releases two mutexes that are its own, all at the same time
#   names     as hot, with names and type names of 63 bytes and a file of 200
#   files     60,000 files: each site is in a file of its own
#   held      a seat holds 1,022 mutexes of 1,022 types, and takes and releases one more, again and again
#   nest      a seat takes 1,023 mutexes of 1,023 types, one under the other, and releases them in reverse, again and again
#   chain     a chain of 256 types: a seat takes the first two mutexes, one under the other, then the first three, and so on, and so
#             adopts one order a round
#   narrow    every pair of 512 types is adopted, neighbours first: each later pair is in the closure already
#   wide      every pair of 512 types is adopted, neighbours last
#   random    orders among 1,023 types in a random sequence, each from the lower number to the higher
#   reports   a chain of 256 types, and then reversals whose established orders are paths of up to 255 steps
#   steps     a chain of 1,023 types, and then reversals whose established orders are paths of 100 to 109 steps
#   orders    every pair of 1,023 types is defined as an order, the nearest last
#   destroyed 65,536 mutexes, each of which is destroyed: most of them while each of 256 seats holds two others
#   ring      256 seats, each of which holds a mutex and asks for the next one's: a circle of them all
#   queue     256 seats, each of which holds a mutex, and all but the first ask for the one's before them: no circle, and the longest search
# A second word asks for another number of rounds, or for the shortest path in `reports`, the longest in `steps`, and the longest
# chain. Only `reports`, `steps` and the ring have anything to report.
name=${1:?which trace?}
exec awk -v name="$name" -v rounds="${2:-0}" '
    function times(usual) {
        return rounds > 0 ? rounds : usual
    }
    function header(seats, types, locks) {
        print "witness-trace 1 seats " seats " types " types " locks " locks " chunks 1024"
    }
    function mutexes(count, lock) {
        for (lock = 1; lock <= count; lock++)
            print "init 1 mtx - \"type " lock "\""
    }
    function take(seat, lock, file) {
        print "check " seat " " lock " x n " file ":" lock
        print "lock " seat " " lock
    }
    function drop(seat, lock) {
        print "unlock " seat " " lock " x"
    }
    # A text of so many bytes that ends with a number.
    function wide_text(bytes, number, text) {
        text = number
        while (length(text) < bytes)
            text = "n" text
        return text
    }
    function hot(file, round, depth, seat, sets, set) {
        split("1234 5678 1357 2468 1256 3478", sets)
        for (round = 0; round < times(83333); round++) {
            set[1] = sets[round % 6 + 1]
            set[2] = sets[round % 6 + (round % 2 ? 0 : 2)]
            for (depth = 1; depth <= 4; depth++)
                for (seat = 1; seat <= 2; seat++)
                    take(seat, substr(set[seat], depth, 1), file)
            for (depth = 4; depth >= 1; depth--)
                for (seat = 1; seat <= 2; seat++)
                    drop(seat, substr(set[seat], depth, 1))
        }
    }
    # One lock is taken behind another, and both are released.
    function pair(parent, child) {
        take(1, parent, "pair.c")
        take(1, child, "pair.c")
        drop(1, child)
        drop(1, parent)
    }
    function seats(round, seat) {
        header(256, 512, 512)
        mutexes(512)
        for (round = 0; round < times(1000); round++) {
            for (seat = 1; seat <= 256; seat++)
                take(seat, seat, "seats.c")
            for (seat = 1; seat <= 256; seat++)
                take(seat, 256 + seat, "seats.c")
            for (seat = 1; seat <= 256; seat++) {
                drop(seat, 256 + seat)
                drop(seat, seat)
            }
        }
    }
    function names(lock) {
        header(2, 8, 8)
        for (lock = 1; lock <= 8; lock++)
            print "init 1 mtx - \"" wide_text(63, lock) "\" \"" wide_text(63, "t" lock) "\""
        hot(wide_text(200, "names.c"))
    }
    function files(round) {
        header(1, 2, 2)
        mutexes(2)
        for (round = 1; round <= times(600000); round++) {
            take(1, 1, "src/dir" round % 300 "/file" round % 60000 ".c")
            drop(1, 1)
        }
    }
    function held(lock, round) {
        header(1, 1023, 1023)
        mutexes(1023)
        for (lock = 1; lock <= 1022; lock++)
            take(1, lock, "held.c")
        for (round = 0; round < times(200000); round++) {
            take(1, 1023, "held.c")
            drop(1, 1023)
        }
    }
    function nest(lock, round) {
        header(1, 1023, 1023)
        mutexes(1023)
        for (round = 0; round < times(196); round++) {
            for (lock = 1; lock <= 1023; lock++)
                take(1, lock, "nest.c")
            for (lock = 1023; lock >= 1; lock--)
                drop(1, lock)
        }
    }
    function chain(last, lock) {
        header(1, 256, 256)
        mutexes(256)
        for (last = 2; last <= times(256); last++) {
            for (lock = 1; lock <= last; lock++)
                take(1, lock, "chain.c")
            for (lock = last; lock >= 1; lock--)
                drop(1, lock)
        }
    }
    # Every pair by the distance of its types, the nearest or the farthest first.
    function pairs(first, step, distance, lock) {
        header(1, 512, 512)
        mutexes(512)
        for (distance = first; distance >= 1 && distance <= 511; distance += step)
            for (lock = 1; lock + distance <= 512; lock++)
                pair(lock, lock + distance)
    }
    function random(round, a, b) {
        srand(1)
        header(1, 1023, 1023)
        mutexes(1023)
        for (round = 0; round < times(100000); round++) {
            a = 1 + int(rand() * 1023)
            b = 1 + int(rand() * 1022)
            b += b >= a
            pair(a < b ? a : b, a < b ? b : a)
        }
    }
    function reports(lock, distance) {
        header(1, 256, 256)
        mutexes(256)
        for (lock = 1; lock < 256; lock++)
            pair(lock, lock + 1)
        for (distance = 255; distance >= times(200); distance--)
            for (lock = 1; lock + distance <= 256; lock++)
                pair(lock + distance, lock)
    }
    function steps(lock, distance) {
        header(1, 1023, 1023)
        mutexes(1023)
        for (lock = 1; lock < 1023; lock++)
            pair(lock, lock + 1)
        for (distance = 100; distance <= times(109); distance++)
            for (lock = 1; lock + distance <= 1023; lock++)
                pair(lock + distance, lock)
    }
    function orders(distance, lock) {
        header(1, 1023, 1023)
        mutexes(1023)
        for (distance = 1022; distance >= 1; distance--)
            for (lock = 1; lock + distance <= 1023; lock++)
                print "define 1 " lock " " lock + distance
    }
    function destroy(seat, lock) {
        print "destroy " seat " " lock
    }
    function destroyed(lock, seat) {
        header(256, 2, 65536)
        for (lock = 1; lock <= 65536; lock++)
            print "init 1 mtx - \"lock " lock "\" \"type " lock % 2 "\""
        for (seat = 1; seat <= 256; seat++) {
            take(seat, 2 * seat - 1, "held.c")
            take(seat, 2 * seat, "held.c")
        }
        for (lock = 513; lock <= 65536; lock++)
            destroy(lock % 256 + 1, lock)
        for (lock = 512; lock >= 1; lock--) {
            seat = int((lock + 1) / 2)
            drop(seat, lock)
            destroy(seat, lock)
        }
    }
    # Each seat holds a lock and asks for that of the seat so many places on, around in a ring or up to its end.
    function waits(step, is_ring, seat, next_seat) {
        header(256, 256, 256)
        mutexes(256)
        for (seat = 1; seat <= 256; seat++)
            take(seat, seat, "waits.c")
        for (seat = 1; seat <= 256; seat++) {
            next_seat = seat + step
            if (is_ring)
                next_seat = (next_seat + 255) % 256 + 1
            if (next_seat >= 1 && next_seat <= 256)
                print "check " seat " " next_seat " x n waits.c:" seat
        }
    }
    BEGIN {
        if (name == "hot") {
            header(2, 8, 8)
            mutexes(8)
            hot("shard.c")
        } else if (name == "seats")
            seats()
        else if (name == "names")
            names()
        else if (name == "files")
            files()
        else if (name == "held")
            held()
        else if (name == "nest")
            nest()
        else if (name == "chain")
            chain()
        else if (name == "narrow")
            pairs(1, 1)
        else if (name == "wide")
            pairs(511, -1)
        else if (name == "random")
            random()
        else if (name == "reports")
            reports()
        else if (name == "steps")
            steps()
        else if (name == "orders")
            orders()
        else if (name == "destroyed")
            destroyed()
        else if (name == "ring")
            waits(1, 1)
        else if (name == "queue")
            waits(-1, 0)
        else {
            print "make_trace: no trace is called " name > "/dev/stderr"
            exit 2
        }
    }'
