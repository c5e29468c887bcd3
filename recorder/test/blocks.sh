# Tests of --blocks, locks by their blocks of memory: read by `run`, whose functions it uses.

# as CASE WANTED WHAT [OPTIONS..]: what is told of `blocks CASE` with these options.
as() {
    words=$1
    want=$2
    what=$3
    shift 3
    example blocks "$what" "$@"
    words=
    want=
}

as members blocks.members "two mutexes that one call makes"
as members blocks.none "two mutexes that one call makes" --blocks
writing_all as members blocks.none "two mutexes that one call makes" --blocks
as crossed blocks.members "two threads lock them in both orders"
as crossed blocks.crossed "two threads lock them in both orders" --blocks
writing_all as crossed blocks.crossed "two threads lock them in both orders" --blocks
as places blocks.none "two kinds that are first used at two places"
as places blocks.places "two kinds that are first used at two places" --blocks
writing_all as places blocks.places "two kinds that are first used at two places" --blocks
as row blocks.row "an array of objects" --blocks
writing_all as row blocks.row "an array of objects" --blocks
as free blocks.none "memory that another thread gives back" --blocks
as grown blocks.places "a block that has grown" --blocks
as moved blocks.none "a block that has moved" --blocks
as child blocks.none "an order of the parent's, and one of its child's" --blocks
as "child both" blocks.places "a child's orders, in its parent's blocks" --blocks
for flags in -O0 -O2; do
    words=many want=vectors.many writing_all example vectors "a vector of a hundred objects" --blocks
    words=grown want=blocks.none example vectors "a vector that grows" --blocks
    words=both want=blocks.none example vectors "two classes, whose lines tell no member"
    words=both want=vectors.both example vectors "two classes, whose lines tell no member" --blocks
done
flags=
words=
# Where the member is told by the source, or the call makes all, blocks change nothing.
example reused "mutexes at reused addresses, by blocks" --blocks
example signals "a handler that takes locks, by blocks" --blocks
example forks "children that come about while threads lock, by blocks" --blocks
example threads "four hundred threads, by blocks" --blocks
example cancel "a wait that ends by a cancellation, by blocks" --blocks
if wanted accounts; then
    compile accounts
    "$record" -- ./accounts both 2>plain.err
    "$record" --blocks -- ./accounts both 2>&1 | diff plain.err - && grep -q '^record: 1 report' plain.err
    tell accounts "members, by blocks" $?
fi

if wanted blocktable; then
    build_table() {
        "${CC:-cc}" -std=c11 -D_GNU_SOURCE -g -O1 -Wall -Wextra -Werror -I"$recorder" "$@" -pthread -o blocktable "$here/blocktable.c"
    }
    for sanitizer in "" -fsanitize=thread -fsanitize=address,undefined; do
        if ! echo 'int main(void) { return 0; }' | "${CC:-cc}" $sanitizer -x c -o probe - 2>/dev/null || ! ./probe; then
            echo "left out  blocktable: there is no $sanitizer"
            continue
        fi
        build_table $sanitizer && echo "0 wrong, all known, empty" >wanted.out && ./blocktable 4 60000 2>&1 | diff wanted.out -
        tell blocktable "four threads take blocks and give them back${sanitizer:+ ($sanitizer)}" $?
    done
    build_table && echo "0 wrong, some not known, empty" >wanted.out && ./blocktable 4 1000 800000 2>&1 | diff wanted.out -
    tell blocktable "more blocks than there is room for" $?
fi

# A table with little room: what isn't known of locks is told, and they are as without the option. A large one knows all.
if wanted fewblocks; then
    copy_recorder few
    sed 's/LINE_BITS = 19,/LINE_BITS = 12,/; s/UNITS_BITS = 24,/UNITS_BITS = 17,/' "$recorder/runtime/blocks.c" >few/runtime/blocks.c
    [ "$(diff "$recorder/runtime/blocks.c" few/runtime/blocks.c | grep -c '^>')" -eq 1 ] && few/record -- true 2>/dev/null
    tell fewblocks "a small table is built" $?
    compile blocks
    few/record --blocks -- ./blocks lost 2>recorded.err
    grep -q '^record: blocks: --blocks: of [1-9][0-9]* locks the block of memory isn.t known; they are told as without it$' recorded.err &&
        grep -q '^acquiring duplicate lock of same type: "made(all\[\])<lost(pages\[\])"$' recorded.err
    tell fewblocks "locks whose blocks had no room" $?
    "$record" --blocks -- ./blocks lost 2>&1 | diff "$here/blocks.none.want" -
    tell fewblocks "a large table" $?
fi

# Without the option nothing of it is in the program; with it, it is in what the program starts.
if wanted withblocks; then
    "$record" -- sh -c 'case $LD_PRELOAD in *blocks.so*) exit 1 ;; esac; [ -z "${RECORDER_BLOCKS-}" ]' 2>/dev/null
    tell withblocks "not without the option" $?
    RECORDER_BLOCKS=1 "$record" -- sh -c '[ -z "${RECORDER_BLOCKS-}" ]' 2>/dev/null
    tell withblocks "not by what was in the environment" $?
    "$record" --blocks -- sh -c 'cat /proc/self/maps' 2>/dev/null | grep -q 'blocks\.so$'
    tell withblocks "in a program that another one starts" $?
    compile blocks
    "$record" --blocks --gen-suppressions -- ./blocks crossed 2>&1 | grep '^"' >list
    echo '"made(all[])<new_page(malloc(sizeof(structpage)))+0x38" "made(all[])<new_page(malloc(sizeof(structpage)))+0x8"' | diff - list
    tell withblocks "names that last" $?
    "$record" --blocks --ignore list -- ./blocks crossed 2>&1 | tail -n 1 >last
    echo 'record: nothing to report: list ignores 1 report' | diff - last
    tell withblocks "an ignore file" $?
fi
