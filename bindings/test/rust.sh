# The crate `witness`. It is copied, so that nothing is built in the repository.

# A program that uses tokio's locks, of Debian's sources: they are named as not seen, by what stands in the program's file.
of_tokio() {
    mkdir -p tokio/src tokio/.cargo && cp "$here/tokio.rs" tokio/src/main.rs
    printf '[source.crates-io]\nreplace-with = "debian"\n[source.debian]\ndirectory = "/usr/share/cargo/registry"\n' >tokio/.cargo/config.toml
    printf '[package]\nname = "uses_tokio"\nversion = "0.1.0"\nedition = "2021"\n[workspace]\n[dependencies]\n%s\n' \
        'tokio = { version = "1", features = ["sync", "rt"] }' >tokio/Cargo.toml
    for kind in debug release; do
        (cd tokio && case $kind in
            debug) cargo build -q --offline ;;
            release) RUSTFLAGS="-C strip=symbols" cargo build -q --offline --release ;;
        esac) >../cargo.log 2>&1 || { cat ../cargo.log && false; }
        "$record" -- "$work/target/$kind/uses_tokio" >out 2>err && echo 3 | diff - out &&
            tail -n 1 err | grep -q "not seen: locks of Rust's std, locks of tokio " || { cat err && false; }
        tell rust "locks of tokio are named, $kind" $?
    done
}

# A program that uses parking_lot's locks, of Debian's sources, by the macro that makes its types: the lines are the program's, and not
# those of lock_api, which doesn't pass on where it was called.
of_parking_lot() {
    mkdir -p parked/src parked/.cargo && cp "$here/parked.rs" parked/src/main.rs
    printf '[source.crates-io]\nreplace-with = "debian"\n[source.debian]\ndirectory = "/usr/share/cargo/registry"\n' >parked/.cargo/config.toml
    printf '[package]\nname = "parked"\nversion = "0.1.0"\nedition = "2021"\n[workspace]\n[dependencies]\n%s\n%s\n[profile.release]\ndebug = true\n' \
        "witness = { path = \"$work/rust\" }" 'parking_lot = "0.12"' >parked/Cargo.toml
    for kind in debug release; do
        case $kind in debug) profile= ;; *) profile=--release ;; esac
        (cd parked && cargo build -q --offline $profile) >../cargo.log 2>&1 || { cat ../cargo.log && false; }
        (cd parked && RECORD_FRAMES=8 "$record" -- "$work/target/$kind/parked" >../out 2>../err)
        echo transfer | diff - out && sed -n 's/^ 1st ".*" (.*, \(.*\)) @ /1st \1 @ /p; s/^ 2nd ".*" (.*, \(.*\)) @ /2nd \1 @ /p
            s/^ ".*" -> ".*" @ /order @ /p; s/^  \(parked::[a-z]*\) (/\1 (/p' err >told.parked
        printf '%s\n' '1st rw @ src/main.rs:22' '2nd sleep mutex @ src/main.rs:23' 'order @ src/main.rs:17' \
            'parked::audit (src/main.rs:22)' 'parked::audit (src/main.rs:23)' 'parked::transfer (src/main.rs:17)' | diff - told.parked
        tell rust "locks of parking_lot, $kind" $?
    done
}

if wanted rust cargo; then
    cp -R "$top/bindings/rust" rust && rm -rf rust/target
    cd rust || exit 4
    export CARGO_TARGET_DIR="$work/target"
    RUSTFLAGS="-D warnings" RUSTDOCFLAGS="-D warnings" cargo test -q --offline >../cargo.log 2>&1 || { cat ../cargo.log && false; }
    tell rust "cargo test: what is told, what a panic does, what rustc refuses" $?
    RUSTFLAGS="-D warnings" cargo test -q --offline --no-default-features --test told >../cargo.log 2>&1 || { cat ../cargo.log && false; }
    tell rust "cargo test, for older compilers" $?
    RUSTDOCFLAGS="-D warnings" cargo doc -q --offline >../cargo.log 2>&1 || { cat ../cargo.log && false; }
    tell rust "cargo doc" $?
    cargo build -q --offline --examples && RUSTFLAGS="-C strip=symbols" cargo build -q --offline --release --examples
    tell rust "examples, with debug information and stripped" $?
    for kind in debug release; do
        told "$([ $kind = debug ] && echo bank.fields || echo bank)" "$work/target/$kind/examples/bank"
        tell rust "two locks in opposite orders, $kind" $?
        told orders "$work/target/$kind/examples/orders"
        tell rust "other kinds of locks, $kind" $?
        told oneline "$work/target/$kind/examples/oneline"
        tell rust "two locks that one line makes, $kind" $?
    done
    RECORD_FRAMES=8 "$record" --gen-suppressions -- "$work/target/debug/examples/shelf" 2>&1 | sed -n '2,3p; /^"/p' >told.fields
    printf '%s\n' ' 1st "Shelf::index" (Shelf::index, rw) @ examples/shelf.rs:32' \
        ' 2nd "Shelf::books" (Shelf::books, sleep mutex) @ examples/shelf.rs:33' '"Shelf::index" "Shelf::books"' | diff - told.fields
    tell rust "locks in fields, which debug information has" $?
    printf '%s\n' '"RwLock<usize> (shelf.rs)" "Mutex<Vec<i32>> (shelf.rs)"' >list
    RECORD_FRAMES=8 "$record" --ignore list -- "$work/target/debug/examples/shelf" 2>&1 | tail -n 1 >told.fields
    grep -q '^record: nothing in what was recorded: list ignores 1 report; not seen: ' told.fields
    tell rust "and by their labels in the ignore file" $?
    # Each line of a trace stands where the real step can have been.
    options="-o kept" told contend "$work/target/release/examples/contend" && [ "$(cat recorded.out)" = "8000 2000 8000" ] && is_of_locks kept
    tell rust "threads that contend, whose trace is one of locks" $?
    RECORD_FRAMES=4 options="--gen-suppressions" told bank.callers "$work/target/debug/examples/bank"
    tell rust "threads, and lines for the ignore file" $?
    if [ -n "$(find /usr/share/cargo/registry -maxdepth 1 -name 'tokio-[0-9]*' 2>/dev/null)" ]; then
        of_tokio
    else
        echo "left out  rust: tokio isn't installed (Debian: librust-tokio-dev)"
    fi
    if [ -n "$(find /usr/share/cargo/registry -maxdepth 1 -name 'parking_lot-[0-9]*' 2>/dev/null)" ]; then
        of_parking_lot
    else
        echo "left out  rust: parking_lot isn't installed (Debian: librust-parking-lot-dev)"
    fi
    "$work/target/release/examples/cost" >cost || { cat cost && false; }
    tell rust "what a call costs without the recorder" $?
    cd "$work" || exit 4
fi
