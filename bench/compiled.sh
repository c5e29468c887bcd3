#!/bin/sh
# bench/compiled.sh [RECORDER.SO..]: programs that open many libraries, or compile code while they run, by themselves and with
# each of these recorders (this tree's own by default): Mono, Firefox, VLC and code of bench/compiled.py. It writes the
# seconds of wall and processor time, the least of three runs, and leaves out what isn't installed. VLC runs as nobody.
set -u
here=$(dirname "$(readlink -f "$0")")
[ $# -gt 0 ] || set -- "$("$here/../recorder/build")/recorder.so"
work=$(mktemp -d) || exit 4
trap 'rm -rf "$work"' EXIT
chmod 777 "$work"
cd "$work" || exit 4

cat >threads.cs <<'END'
using System; using System.Collections.Generic; using System.Linq; using System.Threading;
class Threads {
  static readonly object held = new object();
  static void Work() { var seen = new Dictionary<string, int>(); for (int i = 0; i < 200000; i++) lock (held) seen["k" + i % 100] = i; }
  static void Main() { var all = Enumerable.Range(0, 5).Select(i => new Thread(Work)).ToList(); all.ForEach(t => t.Start()); all.ForEach(t => t.Join()); }
}
END
command -v mcs >/dev/null 2>&1 && mcs threads.cs >/dev/null 2>&1
python3 -c 'import wave; w = wave.open("sound.wav", "wb"); w.setparams((2, 2, 44100, 0, "NONE", "")); w.writeframes(bytes(44100 * 4 * 60))'

# least COMMAND..: of three runs.
least() {
    for run in 1 2 3; do
        rm -rf recording home && mkdir -m 777 recording home
        HOME=$work/home RECORDER_DIRECTORY=$work/recording timeout 300 bash -c 'TIMEFORMAT="%R %U %S"; time "$@" >/dev/null 2>&1' - "$@" 2>&1
    done | awk '{ s = $2 + $3; if (NR == 1 || $1 < wall) wall = $1; if (NR == 1 || s < own) own = s } END { printf "%.2f (%.2f)", wall, own }'
}

# row NAME COMMAND..
row() {
    name=$1
    shift
    printf '| %s | %s |' "$name" "$(least "$@")"
    for recorder in $recorders; do
        printf ' %s |' "$(least env LD_PRELOAD="$recorder" "$@")"
    done
    echo
}

recorders=$*
echo "| Seconds, of a processor in brackets | Plain |$(printf ' Recorded |%.0s' "$@")"
echo "|---|---|$(printf -- '---|%.0s' "$@")"
[ -f threads.exe ] && row "Mono: five threads that take one lock 200,000 times each" mono threads.exe
command -v firefox-esr >/dev/null 2>&1 && row "Firefox ESR: a page without a window" firefox-esr --headless --screenshot page.png about:license
command -v cvlc >/dev/null 2>&1 && row "VLC: a minute of sound transcoded" setpriv --reuid=65534 --clear-groups cvlc sound.wav \
    --sout '#transcode{acodec=mpga}:std{access=file,mux=raw,dst=/dev/null}' vlc://quit
row "\`bench/compiled.py\`: 20,000 functions that were compiled just then" "$(python3 -c 'import sys; print(sys.executable)')" "$here/compiled.py"
