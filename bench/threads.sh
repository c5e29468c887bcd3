#!/bin/sh
# Measures calls through a shared verifier beside those of one that nobody shares, what a look and a
# close cost, and watched mutexes beside one of std: the least of five runs (RUNS names another
# number), and the middle one where there are several threads. The program stands below; it is
# proved and built, in some minutes, in a copy of what it stands on, which is removed in the end.
set -e
top=$(dirname "$(dirname "$(readlink -f "$0")")")
room=$(mktemp -d "${TMPDIR:-/tmp}/threads.XXXXXX")
trap 'rm -rf "$room"' EXIT
trap 'exit 130' INT TERM
for name in model table matrix held pool check known waiting core adoptions observers seats gates shared locks; do
    mkdir -p "$room/crates/wit_$name/out"
    for part in src specs proofs out/rlib; do
        [ ! -d "$top/crates/wit_$name/$part" ] ||
            cp -a "$top/crates/wit_$name/$part" "$room/crates/wit_$name/$part"
    done
    grep "^wit_$name:" "$top/crates.txt" >>"$room/crates.txt"
done
cp "$top/HANDLES" "$room"
echo 'threads_bench: wit_locks wit_shared wit_gates wit_core wit_model bitflags' >>"$room/crates.txt"
bench=$room/crates/threads_bench
mkdir -p "$bench/src" "$bench/proofs/begin"
cat >"$bench/proofs/begin/Invariants.antt" <<'PROOF'
use Rattle.threads_bench.proofs.begin.Given as goal
abbrev pub ghosts-run-J-Naming : goal.ghosts-run-J-Naming
ghosts-run-J-Naming g a = record { list = a.opened.list }
abbrev pub ghosts-run-J-Room : goal.ghosts-run-J-Room
ghosts-run-J-Room g a = record { table = a.opened.table; start = a.opened.story.start }
PROOF
mkdir -p "$bench/proofs/hire"
cat >"$bench/proofs/hire/Invariants.antt" <<'PROOF'
use Rattle.std.proofs.Common.{◌≡◌, ◌≤◌, vec_len, vec_capacity}
use Rattle.threads_bench.proofs.hire.Given as goal
abbrev pub invariant-loop : goal.invariant-loop
invariant-loop g l = (vec_len l.seats ≡ l.counter) × (4 ≤ vec_capacity l.seats)
PROOF
cat >"$bench/src/main.rt" <<'PROGRAM'
//! How long calls through a shared verifier take, and locks that it watches.
#![tactic(auto)]

ghost use Rattle.std.specs.Prelude.{◌≡◌, IfSome, length, vec_len};

use bitflags::Flags;
use std::alloc::Global;
use std::io;
use std::marker::Brand;
use std::sync::{Mutex, Wait};
use std::thread::{Threads, for_each_mut, join, map_indices};
use std::time::{Clock, Instant};
use wit_core::Verifier;
use wit_gates::{CondGate, Gate, SpinGate, Ticket};
use wit_locks::{Mtx, abandon};
use wit_model::{Class, FileNo, Limits, LockFlags, LockNo, Mode, OpFlags, SeatNo, Site, TypeNo};
use wit_shared::{Observer, OpenedVerifier, Room, Seat, Shared, abandon_all};

const TURNS: u32 = 83_333; // Of each of four threads: a turn is three calls.
const CLASS: Class = Class::SleepMutex;
const MODE: Mode = Mode::Exclusive;
const OPS: OpFlags = OpFlags(5); // `NEWORDER` and `FRESH`.
const SITE: Site = Site { file: FileNo(1), line: 1 };

fn nanoseconds<R: Clock>(rt: &R, start: io::Result<Instant>) -> Option<u128> {
    Some(start.ok()?.elapsed(rt).ok()?.as_nanos())
}

fn verifier(alloc: Global) -> Option<Verifier> {
    let limits = Limits::new(4, 4, 8, 16, 4_000_000)?;
    let mut verifier = Verifier::new(alloc, limits, Vec::new(alloc), Vec::new(alloc)).ok()?;
    let _file = verifier.file("f").ok()?;
    Some(verifier)
}

// A mutex of a verifier that nobody shares is asked for, acquired and released.
fn plain<R: Clock>(rt: &R, alloc: Global, turns: u32) -> Option<u128> {
    let (mut verifier, seat) = (verifier(alloc)?, SeatNo(1));
    let lock = verifier.init(seat, "a", None, CLASS, LockFlags::empty()).ok()?;
    let start = Instant::now(rt);
    for _ in 0..turns {
        let _asked = verifier.check(seat, lock, MODE, OPS, SITE).ok()?;
        let _noted = verifier.note(seat, lock).ok()?;
        let _freed = verifier.unlock(seat, lock, MODE).ok()?;
    }
    nanoseconds(rt, start)
}

// So is a seat's own lock of a shared one.
fn turn<J: Room, R: Wait>(rt: &R, on: &Shared<J>, seat: &mut Seat<J>, turns: u32) -> Option<()> {
    let lock = LockNo(seat.number().0 as u32);
    for _ in 0..turns {
        let _asked = on.check(rt, seat, lock, MODE, OPS, SITE).ok()?;
        let _noted = on.note(rt, seat, lock).ok()?;
        let _freed = on.unlock(rt, seat, lock, MODE).ok()?;
    }
    Some(())
}

// A watched mutex is taken and let go of.
fn take<J: Room, R: Wait, G: Gate<Ticket = Ticket>>(
    rt: &R,
    on: &Shared<J>,
    seat: &mut Seat<J>,
    mutex: &Mtx<J, G>,
) -> Option<()> {
    for _ in 0..TURNS {
        let held = mutex.lock(rt, on, seat, SITE).ok()?;
        if let Ok(Some(held)) | Err((held, _)) = mutex.unlock(rt, on, seat, held) {
            abandon(held);
        }
    }
    Some(())
}

// An unwatched one.
fn count<R: Wait>(rt: &R, mutex: &Mutex<u64>) {
    for _ in 0..TURNS {
        let mut count = mutex.lock(rt);
        *count = count.wrapping_add(1);
    }
}

fn look<J: Room, R: Clock>(rt: &R, observer: &mut Observer<J>, looks: u32) -> Option<u128> {
    let start = Instant::now(rt);
    for _ in 0..looks {
        let _known = observer.known(TypeNo(1), TypeNo(2))?;
    }
    nanoseconds(rt, start)
}

// Over which gate all threads have a mutex; or each has its own.
#[derive(Clone, Copy)]
enum Over {
    None,
    Cond,
    Spin,
}

// Threads take turns while an observer looks.
#[derive(Clone, Copy)]
struct Bench {
    what: &'static str,
    alloc: Global,
    over: Over,
    threads: u32,
    turns: u32,
    looks: u32,
}

// The mutex of all threads.
#[derive(Drop)]
enum Common<J: Room> {
    None,
    Cond(Mtx<J, CondGate>),
    Spin(Mtx<J, SpinGate>),
}

// Four seats.
fn hire<J: Room, R: Wait>(rt: &R, alloc: Global, on: &Shared<J>) -> Option<Vec<Seat<J>>>
    ensures { IfSome result (λ seats. vec_len seats ≡ 4) }
{
    let mut seats = Vec::with_capacity(alloc, 4).ok()?;
    for _ in 0..4usize {
        match on.seat(rt) {
            Ok(seat) => seats.push_reserved(seat),
            Err(_) => {
                abandon_all(seats);
                return None;
            }
        }
    }
    Some(seats)
}

fn mutex<J: Room, R: Wait, G: Gate<Ticket = Ticket> + Drop>(
    rt: &R,
    on: &Shared<J>,
    seat: &mut Seat<J>,
    gate: G,
) -> Option<Mtx<J, G>> {
    match Mtx::new(rt, on, seat, "m", None, LockFlags::empty(), gate) {
        Ok(mutex) => Some(mutex),
        Err(_) => None,
    }
}

fn made<J: Room, R: Wait>(
    rt: &R,
    on: &Shared<J>,
    seat: &mut Seat<J>,
    bench: Bench,
) -> Option<Common<J>> {
    Some(match bench.over {
        Over::None => Common::None,
        Over::Cond => Common::Cond(mutex(rt, on, seat, CondGate::new(bench.alloc).ok()?)?),
        Over::Spin => Common::Spin(mutex(rt, on, seat, SpinGate::new(bench.alloc).ok()?)?),
    })
}

// Each of these seats takes its turns, in a thread of its own.
fn work_all<J: Room + Send + Sync, R: Threads + Wait + Sync>(
    rt: &R,
    on: &Shared<J>,
    seats: &mut [Seat<J>],
    common: &Common<J>,
    turns: u32,
) {
    for_each_mut(
        rt,
        seats,
        4,
        &|_, seat| {
            let _done = match common {
                Common::None => turn(rt, on, seat, turns),
                Common::Cond(mutex) => take(rt, on, seat, mutex),
                Common::Spin(mutex) => take(rt, on, seat, mutex),
            };
        },
    );
}

// How long the turns and the looks took.
fn measure<J: Room + Send + Sync, R: Threads + Wait + Clock + Sync>(
    rt: &R,
    on: &Shared<J>,
    mut observers: Vec<Observer<J>>,
    seats: &mut [Seat<J>],
    bench: Bench,
) -> Option<(u128, u128)>
    requires { length seats.old ≡ 4 }
{
    let (turns, looks, mut observer) = (bench.turns, bench.looks, observers.pop()?);
    for seat in seats.iter_mut() {
        let _own = on.init(rt, seat, "a", None, CLASS, LockFlags::empty()).ok()?;
    }
    let common = made(rt, on, &mut seats[0], bench)?;
    let count = if bench.threads < 4 { bench.threads as usize } else { 4 };
    let at_work = &mut seats[..count];
    let start = Instant::now(rt);
    let looking = || look(rt, &mut observer, looks);
    let (looked, ()) = join(rt, looking, || work_all(rt, on, at_work, &common, turns));
    Some((nanoseconds(rt, start)?, looked?))
}

fn run<J: Room + Send + Sync, R: Threads + Wait + Clock + Print + Sync>(
    rt: &R,
    opened: OpenedVerifier,
    bench: Bench,
) -> Option<()>
    requires { (opened.story.start ≡ J.start) × (opened.table ≡ J.table) × (opened.list ≡ J.list) }
{
    let (what, alloc, threads, looks) = (bench.what, bench.alloc, bench.threads, bench.looks);
    let (on, observers) = opened.named::<J, R>(rt, 1).ok()?;
    let Some(mut seats) = hire(rt, alloc, &on) else {
        on.abandon(rt);
        return None;
    };
    let Some((took, looked)) = measure(rt, &on, observers, seats.as_mut_slice(), bench) else {
        abandon_all(seats);
        on.abandon(rt);
        return None;
    };
    let start = Instant::now(rt);
    let verifier = match on.close(rt, seats) {
        Ok(verifier) => verifier,
        Err(unclosed) => {
            unclosed.abandon(rt);
            return None;
        }
    };
    let (closed, entries) = (nanoseconds(rt, start)?, verifier.history().len());
    let start = Instant::now(rt);
    drop(verifier);
    let dropped = nanoseconds(rt, start)?;
    println!(rt; "{what} {threads} {entries} {took} {looks} {looked} {closed} {dropped}").ok()
}

fn begin<R: Threads + Wait + Clock + Print + Sync>(rt: &R, bench: Bench) -> Option<()> {
    let opened = OpenedVerifier::new(bench.alloc, verifier(bench.alloc)?).ok()?;
    run::<Brand, R>(rt, opened, bench)
}

fn main(rt: HostRuntime) -> io::Result<()> {
    let alloc = rt.alloc();
    let (few, all, looks) = (33_333, 4 * TURNS, 5_000_000);
    println!(rt; "plain 1 {} {}", 3 * all, plain(&rt, alloc, all).unwrap_or(0))?;
    // Few turns twice, since the first close takes longer.
    let runs = [(1, few, 0), (1, few, 0), (1, all, 0), (4, TURNS, 0), (0, 0, looks), (3, all, looks)];
    for (threads, turns, looks) in runs {
        begin(&rt, Bench { what: "calls", alloc, over: Over::None, threads, turns, looks });
    }
    for threads in [1, 4] {
        let (mutex, start) = (&Mutex::new(0), Instant::now(&rt));
        let _done = map_indices(&rt, alloc, threads as usize, &|_| count(&rt, mutex)).ok();
        let took = nanoseconds(&rt, start).unwrap_or(0);
        println!(rt; "std {threads} {} {took}", 3 * TURNS * threads)?;
        for (what, over) in [("cond", Over::Cond), ("spin", Over::Spin)] {
            begin(&rt, Bench { what, alloc, over, threads, turns: TURNS, looks: 0 });
        }
    }
    Ok(())
}
PROGRAM
(cd "$bench" && rt run) >"$room/log" 2>&1 || :
[ -x "$bench/out/threads_bench" ] || { tail -n 20 "$room/log" >&2; exit 1; }
for _ in $(seq "${RUNS:-5}"); do "$bench/out/threads_bench"; done | awk '
    function keep(key, value,    at) {
        for (at = ++runs[key]; at > 1 && of[key, at - 1] > value; at--) of[key, at] = of[key, at - 1]
        of[key, at] = value
    }
    function figure(key,    at) {
        at = key ~ / [34]$/ ? int((runs[key] + 1) / 2) : 1
        return key in runs ? sprintf("%.1f", of[key, at]) : key
    }
    function row(name, one, four) { printf "| %s | %s | %s |\n", name, figure(one), figure(four) }
    $5 { keep("look " $2, $6 / $5); next }
    $3 > 200000 { keep($1 " " $2, 3 * $4 / $3) }
    /^calls 1 / { keep("close " length($3 + 9), $7 / 1000); keep("drop " length($3 + 9), $8 / $3) }
    END {
        print "| Turn of all threads together, ns | 1 thread | 4 threads |"
        print "|---|---|---|"
        row("check, note and unlock of a mutex, by a verifier that nobody shares", "plain 1", "")
        row("by a shared one, each thread with a mutex of its own", "calls 1", "calls 4")
        row("lock and unlock of a `std::sync::Mutex`, one for all", "std 1", "std 4")
        row("of a watched `Mtx` over `CondGate`, one for all", "cond 1", "cond 4")
        row("of a watched `Mtx` over `SpinGate`, one for all", "spin 1", "spin 4")
        row("`Observer::known`; beside three threads that make calls", "look 0", "look 3")
        row("a close, microseconds: of 100,000 entries; of 1,000,000", "close 6", "close 7")
        row("to let these go, for each entry", "drop 6", "drop 7")
    }'
