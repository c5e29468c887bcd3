# Tests of what makes the traces of recorder's files, by itself: read by `run`, whose functions it uses.

# Leaves `resolved`, under AddressSanitizer and UBSan; where something is wrong with it, it ends with status 99.
compile_resolved() {
    in_folders "${CC:-cc}" -std=c11 -D_GNU_SOURCE -g -O1 -fsanitize=address,undefined -fno-sanitize-recover=undefined \
        -Wall -Wextra -Werror -o resolved "$here/resolved.c" \
        $(source_of allocation columns files texts map line source_names demangle symbols stream_file notes declarations sites frames types ignore_file trace verifier_lines stream_locks lock_pairs ignored_types single \
            progress site_parts object_file source_lines source_text lock_expression call_words call_choice lasting_variables type_names \
            function_names place_words fields right_orders right_requests \
            libdw debug_frames debug_info debug_units debug_types scopes expression_values members variables lock_names steps lasting_names resolve) -ldl
}
export ASAN_OPTIONS=exitcode=99 UBSAN_OPTIONS=exitcode=99

# record_stream FRAMES COMMAND..: leaves the stream in `stream`.
record_stream() {
    frames=$1
    shift
    "$record" -- true 2>/dev/null
    rm -rf records && mkdir records
    env RECORDER_DIRECTORY="$work/records" RECORDER_FRAMES="$frames" \
        LD_PRELOAD="$recorder/out/recorder.so" "$@" && cat records/*.0 >stream
}

if wanted names; then
    in_folders "${CC:-cc}" -std=c11 -D_GNU_SOURCE -Wall -Wextra -Werror -o names "$here/names.c" \
        $(source_of source_names files allocation) && ./names | diff "$here/names.want" -
    tell names "functions as their sources name them, and files of libraries" $?
    in_folders "${CC:-cc}" -std=c11 -D_GNU_SOURCE -Wall -Wextra -Werror -o placewords "$here/placewords.c" \
        "$recorder/symbols/place_words.c" "$recorder/run/allocation.c" && ./placewords | diff "$here/placewords.want" -
    tell names "places and locks as they are told" $?
fi

# library: standard input is the body of a library libdw.so.1, which is found first; without one it is an empty file.
library() {
    rm -rf libraries && mkdir libraries
    if [ $# -gt 0 ]; then
        "${CC:-cc}" -shared -o libraries/libdw.so.1 -x c - <<END
$1
END
    else
        : >libraries/libdw.so.1
    fi
}

# Where debug information can't be read, places have no lines.
if wanted symbols; then
    compile reversal
    compile_resolved && record_stream 8 ./reversal
    tell symbols "a resolver by itself" $?
    ./resolved 1 stream >lines.trace
    grep -q '^check 1 2 x n [^ ]*/reversal\.c:10$' lines.trace
    tell symbols "places with their lines" $?
    library && LD_LIBRARY_PATH="$work/libraries" ./resolved 1 stream >bare.trace
    [ $? -eq 0 ] && grep -q '^check 1 2 x n reversal+0x[0-9a-f]*(commit):0$' bare.trace && ! grep -q 'reversal\.c' bare.trace
    tell symbols "a library that is none" $?
    library 'int dwfl_begin;' && LD_LIBRARY_PATH="$work/libraries" ./resolved 1 stream >other.trace
    [ $? -eq 0 ] && cmp bare.trace other.trace
    tell symbols "a library that lacks functions" $?
    PATH=/nonexistent "$work/resolved" 1 stream >again.trace
    [ $? -eq 0 ] && cmp lines.trace again.trace
    tell symbols "no program is asked" $?
    if echo '#include <elfutils/libdwfl.h>' | "${CC:-cc}" -fsyntax-only -x c - 2>/dev/null; then
        in_folders "${CC:-cc}" -std=c11 -D_GNU_SOURCE -Wall -Wextra -Werror -fsyntax-only "$here/libdw_header.c"
        tell symbols "libdw's functions as its header has them" $?
    else
        echo "left out  symbols: elfutils/libdwfl.h isn't there"
    fi
    LD_LIBRARY_PATH="$work/libraries" "$record" -- ./reversal 2>bare.err
    grep -q '^ 2nd "pool" (sleep mutex) in checkpoint (reversal)$' bare.err &&
        grep -qx "record: lines of the sources aren't known: the library libdw isn't there (Debian: libdw1)" bare.err
    tell symbols "that they aren't known is told" $?
    odd="$work/a b" && mkdir -p "$odd" && odd="$odd/\"$(printf '\377').c"
    cp "$here/reversal.c" "$odd" && "${CC:-cc}" -g -pthread -o reversal "$odd" && record_stream 8 ./reversal &&
        ./resolved 8 stream >odd.trace
    [ $? -eq 0 ] && grep -qx "  commit ([^ ]*/a_b/'?\.c:10)" odd.trace
    tell symbols "names with any byte" $?
fi

# What is wrong in debug information leaves lines out, or makes them wrong, and no more.
if wanted rotten; then
    compile reversal
    compile_resolved && record_stream 8 ./reversal && cp reversal whole.reversal
    bad=0
    for section in info abbrev line str; do
        objcopy -O binary --only-section=".debug_$section" --set-section-flags ".debug_$section=alloc" whole.reversal section
        for seed in 1 2 3 4 5 6 7 8; do
            python3 - section rotten "$seed" <<'END'
import random, sys
random.seed(int(sys.argv[3]))
data = bytearray(open(sys.argv[1], "rb").read())
for _ in range(max(1, len(data) // 100)):
    data[random.randrange(len(data))] = random.randrange(256)
open(sys.argv[2], "wb").write(data)
END
            objcopy --update-section ".debug_$section=rotten" whole.reversal reversal && timeout 20 ./resolved 8 stream >rotten.trace || bad=1
        done
    done
    tell rotten "debug information that is damaged" $bad
fi

# answers FRAMES STATUS..: of `stream`, and nothing is wrong with the resolver.
answers() {
    ./resolved "$1" stream >damaged.trace 2>damaged.err
    status=$?
    shift
    case " $* " in *" $status "*) return 0 ;; esac
    cat damaged.err
    return 1
}

if wanted damaged; then
    compile reversal
    compile_resolved && record_stream 8 ./reversal
    tr -d '\000' <stream >whole
    size=$(wc -c <whole)
    bad=0
    cut=0
    while [ $cut -lt "$size" ]; do
        head -c $cut whole >stream
        answers 8 0 || bad=1
        cut=$((cut + 97))
    done
    tell damaged "a file that is cut anywhere" $bad
    bad=0
    while read -r line; do
        { cat whole && echo "$line"; } >stream
        answers 8 4 || { bad=1 && echo "$line"; }
    done <<'END'
place 4294967296 1 10 f 1
place 1048576 1 10 f 1
place -1 1 10 f 1
place 70000 1 0x10 f 1
either 70000 70000 70000
either 70000 1
site 70000 - 1 f
site 70000 a.py -1 f
site 70000 a.py 4294967296 f
site 1048576 a.py 1 f
stack 99999999999999999999 1
stack 1 1 x
object x /bin/true
type 70000000 made 1
type 5 variable 1
init 1 mtx - 70000000 1
check 5000 1 x n 1
check x 1 x n 1
check 1 1 x n 1 x
thread x name 1 5
foreign 1 70000000 1
END
    tell damaged "numbers that no recorder writes" $bad
    { cat whole && printf 'holder 7 1\nagain 1 9 99\nplace\nsite\nsite 9\ntype 9 named\ncheck\ncheck 1\ninit\n\n \nsomething else\nplace 9 1 aa f\001 \377" g 1\n'; } >stream
    answers 8 0 4
    tell damaged "lines without what they should have" $?
    { head -c 300 whole && head -c 4096 /dev/zero && tail -c +301 whole; } >stream
    ./resolved 1 stream >damaged.trace && ./resolved 1 whole | cmp - damaged.trace
    tell damaged "zeroes within a file" $?
    : >stream
    answers 1 0 4
    tell damaged "an empty file" $?
fi

# The library's functions between a thread's beginning and its function don't name a type, whatever was inlined.
if wanted bank; then
    compile_resolved
    printf 'bank.cc:%s\n' 11 12 >wanted.types
    for level in -O0 -O1 -O2; do
        compile bank $level && record_stream 1 ./bank && ./resolved types stream | cut -f 3 | diff wanted.types -
        tell bank "types by the user's functions alone ($level)" $?
    done
fi

# A lambda that was inlined into the library's function isn't called by that one's name.
if wanted lambdas; then
    cat >lambdas.cc <<'END'
#include <mutex>
#include <thread>
static std::mutex journal, pool;
__attribute__((noinline)) static void take(std::mutex &first, std::mutex &second)
{
    std::lock_guard<std::mutex> outer(first);
    std::lock_guard<std::mutex> inner(second);
}
int main()
{
    std::thread([] { take(journal, pool); take(journal, pool); }).join();
    std::thread([] { take(pool, journal); take(pool, journal); }).join();
}
END
    for level in -O0 -O1 -O2 -O3; do
        c++ -std=c++17 -g $level -pthread -o lambdas lambdas.cc && RECORD_FRAMES=8 "$record" --gen-suppressions -- ./lambdas 2>recorded.err
        grep -q '^  .*operator() (lambdas.cc:1[12])$' recorded.err && ! grep -q '_M_run\|?::' recorded.err
        tell lambdas "a thread's lambda ($level)" $?
    done
fi

# An array is one type from its first element on, where debug information tells it, and each other member is one by itself.
if wanted arrays && has_libdw arrays; then
    compile arrays
    compile_resolved && record_stream 1 ./arrays
    { printf '%s\n' 'few[3]' 'few[7]' 'grid[]' outer 'shelves[].lock' 'shelves[].other' 'table[]' &&
        printf 'wide.%s\n' a b c d e f g h i j k l m n o p q; } | LC_ALL=C sort >wanted.types
    ./resolved types stream | cut -f 2 | LC_ALL=C sort | diff wanted.types -
    tell arrays "types of arrays, of which few elements are used" $?
    ./resolved 8 stream >lines && grep -q '^lock [0-9]* is table\[7\] of table\[\]$' lines && grep -q '^lock [0-9]* is grid\[14\] of grid\[\]$' lines
    tell arrays "a lock is told with its index" $?
fi

# A file that is read as it grows is read as one that is whole. Leaks aren't looked for (lasting.sh).
if wanted pieces; then
    compile_resolved
    for program in reversal oneline bank arrays; do
        compile $program && record_stream 8 ./$program
        ASAN_OPTIONS=$ASAN_OPTIONS:detect_leaks=0 ./resolved 8 stream >whole.lines
        for pieces in 1 7 50; do
            ASAN_OPTIONS=$ASAN_OPTIONS:detect_leaks=0 PIECES=$pieces ./resolved 8 stream 2>anew | cmp - whole.lines && grep -qx '0 anew' anew
            tell pieces "$program, of which $pieces lines come at once" $?
        done
    done
    # Without debug information elements come to be an array.
    "${CC:-cc}" -pthread -o arrays "$here/arrays.c" && record_stream 8 ./arrays && ./resolved 8 stream >whole.lines
    PIECES=7 ./resolved 8 stream 2>anew | cmp - whole.lines && grep -qx '[1-9][0-9]* anew' anew
    tell pieces "types that come to be one" $?
fi
