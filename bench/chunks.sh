#!/bin/sh
# Measures the verifier's lists in chunks (`wit_pool`): nanoseconds for a push with its remove over
# four lists, beside plain vectors (the least of three runs; RUNS names another number). The program
# stands below. It is proved and built in a copy of the crates that it stands on, which is removed
# in the end.
set -e
top=$(dirname "$(dirname "$(readlink -f "$0")")")
room=$(mktemp -d "${TMPDIR:-/tmp}/chunks.XXXXXX")
trap 'rm -rf "$room"' EXIT
trap 'exit 130' INT TERM
for name in wit_model wit_pool; do
    mkdir -p "$room/crates/$name/out"
    for part in src specs proofs out/rlib; do
        [ ! -d "$top/crates/$name/$part" ] || cp -a "$top/crates/$name/$part" "$room/crates/$name/$part"
    done
done
cp "$top/HANDLES" "$room"
grep '^wit_model:\|^wit_pool:' "$top/crates.txt" >"$room/crates.txt"
echo 'pool_bench: wit_pool wit_model' >>"$room/crates.txt"
mkdir -p "$room/crates/pool_bench/src"

cat >"$room/crates/pool_bench/src/main.rt" <<'PROGRAM'
//! How long a push with its remove takes.
#![tactic(auto)]

use std::alloc::{AllocError, Global};
use std::time::Instant;
use std::io;
use wit_model::chunks::Lists;
use wit_model::{FileNo, Instance, LockNo, Mode, Site};
use wit_pool::Pool;

const TURNS: u32 = 20_000_000;

fn held(lock: u32) -> Instance {
    Instance {
        lock: LockNo(lock),
        mode: Mode::Exclusive,
        norelease: false,
        count: 0,
        site: Site {
            file: FileNo(1),
            line: 1,
        },
    }
}

fn push(lists: &mut Pool, list: u16, lock: u32) -> bool {
    list > 0 && list as usize <= lists.lists() && lists.push(list, held(lock))
}

fn take(lists: &mut Pool, list: u16, lock: u32) -> bool {
    if list == 0 || list as usize > lists.lists() {
        return false;
    }
    match lists.find(list, LockNo(lock)) {
        Some(place) => {
            lists.remove(list, place);
            true
        }
        None => false,
    }
}

fn take_plain(chain: &mut Vec<Instance>, lock: u32) -> bool {
    match chain.iter().position(|held| held.lock.0 == lock) {
        Some(place) if place < chain.len() => {
            let _lock = chain.remove(place);
            true
        }
        _ => false,
    }
}

// Four lists that hold this many locks each.
fn lists_of(alloc: Global, depth: u32) -> io::Result<Pool> {
    let Ok(mut lists) = Pool::new(alloc, 64, 4) else {
        return Err(io::Error::from(AllocError));
    };
    for list in 1..5 {
        for lock in 0..depth {
            let _room = push(&mut lists, list, lock);
        }
    }
    Ok(lists)
}

fn plain_of(alloc: Global, depth: u32) -> Result<Vec<Vec<Instance>>, AllocError> {
    let mut plain = Vec::new(alloc);
    for _list in 0..4 {
        let mut chain = Vec::with_capacity(alloc, 64)?;
        for lock in 0..depth {
            chain.push(held(lock))?;
        }
        plain.push(chain)?;
    }
    Ok(plain)
}

fn turn_lists(lists: &mut Pool, depth: u32) -> bool {
    for turn in 0..TURNS {
        let list = (turn % 4) as u16 + 1;
        if !(push(lists, list, depth) && take(lists, list, depth)) {
            return false;
        }
    }
    true
}

fn turn_plain(plain: &mut Vec<Vec<Instance>>, depth: u32) -> Result<bool, AllocError> {
    for turn in 0..TURNS {
        let Some(chain) = plain.get_mut((turn % 4) as usize) else {
            return Ok(false);
        };
        chain.push(held(depth))?;
        if !take_plain(chain, depth) {
            return Ok(false);
        }
    }
    Ok(true)
}

// In tenths.
fn nanoseconds_a_turn(rt: &HostRuntime, start: Instant) -> io::Result<u128> {
    Ok(start.elapsed(rt)?.as_nanos() * 10 / TURNS as u128)
}

fn main(rt: HostRuntime) -> io::Result<()> {
    for depth in [0, 3, 5, 23] {
        let mut lists = lists_of(rt.alloc(), depth)?;
        let start = Instant::now(&rt)?;
        let whole = turn_lists(&mut lists, depth);
        let chunked = nanoseconds_a_turn(&rt, start)?;
        let mut plain = plain_of(rt.alloc(), depth)?;
        let start = Instant::now(&rt)?;
        let whole = turn_plain(&mut plain, depth)? && whole;
        let vectors = nanoseconds_a_turn(&rt, start)?;
        if whole {
            println!(rt; "turns {depth} {chunked} {vectors}")?;
        }
    }
    Ok(())
}
PROGRAM
bench=$room/crates/pool_bench
(cd "$bench" && rt run) >"$room/log" 2>&1 || :
if [ ! -x "$bench/out/pool_bench" ]; then
    tail -n 20 "$room/log" >&2
    exit 1
fi
for _ in $(seq "${RUNS:-3}"); do
    "$bench/out/pool_bench"
done >"$room/times"
awk '
    function least_of(column, depth, value) {
        if (!((column, depth) in least) || value < least[column, depth])
            least[column, depth] = value
    }
    $1 == "turns" {
        least_of("pool", $2, $3)
        least_of("vectors", $2, $4)
        if (!seen[$2]++)
            depths[++count] = $2
    }
    END {
        print "| Locks in each list | The pool, ns | Plain vectors, ns |"
        print "|---|---|---|"
        for (k = 1; k <= count; k++)
            printf "| %d | %.1f | %.1f |\n", depths[k], least["pool", depths[k]] / 10, least["vectors", depths[k]] / 10
    }' "$room/times"
