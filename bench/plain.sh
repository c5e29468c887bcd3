#!/bin/sh
# Measures `witness replay` beside plain/plain.rs, a replay in Rust of which nothing is proved, on the traces named,
# or on those that docs/SPEED.md has of it. What the two write must be the same. It writes a table: the least processor
# time of three runs of each, in turn, what that makes a line, and the ratio. A name with a 2 after it (hot2) is that
# of the trace in version 2, as the program migrates it; the trace itself is replayed in turn with it, and what is
# written must be the same again. Two columns are the times of version 2 over those of version 1, and a third that
# of `migrate` over the replay of the trace. WITNESS names another program to measure, RUNS how often each runs, TRACES a
# folder in which the traces stay for the next time, and RUSTC another compiler.
set -e
here=$(dirname "$(readlink -f "$0")")
program=${WITNESS:-$here/../crates/witness/out/witness}
if [ ! -x "$program" ]; then
    echo "bench: there is no program yet: run make" >&2
    exit 1
fi
folder=$(mktemp -d)
trap 'rm -rf "$folder"' EXIT
traces=${TRACES:-$folder}
[ $# -gt 0 ] || set -- hot hot2 seats seats2 names names2 held held2 nest nest2 files chain reports reports2 steps random
# Aligned, so that it doesn't matter where a loop comes to lie: a change elsewhere makes up to a third of the time.
"${RUSTC:-rustc}" --edition 2021 -O -C llvm-args=-align-all-nofallthru-blocks=5 \
    -o "$folder/plain" "$here/plain/plain.rs"

cat >"$folder/measure.py" <<'END_OF_PYTHON'
import filecmp, os, sys
name, folder, runs, program, plain, *traces = sys.argv[1:]
with open(traces[0], "rb") as it:
    lines = sum(block.count(b"\n") for block in iter(lambda: it.read(1 << 20), b""))


def run(words, trace, text):
    """Runs a command on a trace, and gives its processor seconds."""
    opens = [(os.POSIX_SPAWN_OPEN, 0, trace, os.O_RDONLY, 0),
             (os.POSIX_SPAWN_OPEN, 1, text, os.O_WRONLY | os.O_CREAT | os.O_TRUNC, 0o600)]
    pid = os.posix_spawnp(words[0], words, os.environ, file_actions=opens)
    _, status, used = os.wait4(pid, 0)
    if os.waitstatus_to_exitcode(status) not in (0, 1):
        sys.exit(f"bench: {name}: {words[0]} ended with status {os.waitstatus_to_exitcode(status)}")
    return used.ru_utime + used.ru_stime


# Version 2 comes first where there are both.
commands = [(words, trace) for trace in traces for words in ([program, "replay"], [plain])]
texts = [os.path.join(folder, f"text{place}") for place in range(len(commands))]
for command, text in zip(commands, texts):
    run(*command, text)
if not all(filecmp.cmp(texts[0], text, shallow=False) for text in texts[1:]):
    sys.exit(f"bench: {name}: different texts are written")
if len(traces) > 1:
    commands.append(([program, "migrate"], traces[1]))
used = [min(each) for each in zip(*([run(*it, "/dev/null") for it in commands] for _ in range(int(runs))))]
growth = " | | "
if len(traces) > 1:
    new, plain_new, old, plain_old, migrated = used
    growth = f"{new / old:.2f} | {plain_new / plain_old:.2f} | {migrated / old:.2f}"
print(f"| {name} | {lines:,} | {used[0] / lines * 1e9:.0f} | {used[1] / lines * 1e9:.0f} | {used[0] / used[1]:.2f}"
      f" | {growth} |", flush=True)
END_OF_PYTHON

echo '| Trace | Lines | `witness`, ns a line | Plain, ns | Ratio | Version 2 to 1 | Plain, version 2 to 1 | `migrate` to replay |'
echo '|---|---|---|---|---|---|---|---|'
for name; do
    first=${name%2}
    [ -f "$traces/$first" ] || "$here/make_trace.sh" "$first" >"$traces/$first"
    set -- "$traces/$first"
    if [ "$name" != "$first" ]; then
        [ -f "$traces/$name" ] || "$program" migrate <"$traces/$first" >"$traces/$name"
        set -- "$traces/$name" "$@"
    fi
    python3 "$folder/measure.py" "$name" "$folder" "${RUNS:-3}" "$program" "$folder/plain" "$@"
    [ -n "${TRACES:-}" ] || rm "$@"
done
