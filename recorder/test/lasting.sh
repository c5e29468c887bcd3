# Tests of what locks are called in each run, and of which of them are one type by their member: read by `run`, whose
# functions it uses.

# lasting_names WORDS..: the lasting names of the types of a run of these words, sorted. Leaks aren't looked for: LeakSanitizer
# may itself crash at the end of a process that has opened the C++ library, one time in sixty.
lasting_names() {
    rm -rf records && mkdir records
    env RECORDER_DIRECTORY="$work/records" LD_PRELOAD="$(object_of all)" "$@" >/dev/null 2>&1
    ASAN_OPTIONS=exitcode=99:detect_leaks=0 ./resolved types "$(echo records/*.0)" >types && cut -f 1 types | LC_ALL=C sort -u
}

# told_names WORDS..: what the reports of a run of these words call types, and the locks that they are of, without numbers,
# sorted.
told_names() {
    "$record" -- "$@" 2>recorded.err >recorded.out
    sed -n 's/^ [12][a-z]* "\([^"]*\)" (\(.*\), [a-z ]*) @ .*/\1\n\2/p; s/^ "\([^"]*\)" -> "\([^"]*\)" @ .*/\1\n\2/p' recorded.err |
        sed 's,/[0-9]*$,,; s/^\(made\|table\)\[[0-9]*\]$/\1[]/' | LC_ALL=C sort -u
}

if wanted lasting && has_libdw lasting; then
    "$record" -- true 2>/dev/null
    compile_resolved
    sed 's/^lasting://' "$here/lasting.want" >told.want
    for compiler in g++ clang++; do
        command -v $compiler >/dev/null || continue
        seed=0
        for level in -O0 -O1 -O2 -O3; do
            cp "$here/lasting.cc" . && $compiler -std=c++17 $level -g -pthread -o lasting lasting.cc && same=0 && told=0
            for run in 1 2 3 4 5; do
                seed=$((seed + 1))
                lasting_names ./lasting $seed | diff "$here/lasting.want" - || same=1
                told_names ./lasting $seed back | diff told.want - || told=1
            done
            tell lasting "the same names in five schedules ($compiler $level)" $same
            tell lasting "and in their reports ($compiler $level)" $told
        done
        sed -i 's/^static \|^class \|^int main/\n\n\n&/' lasting.cc && $compiler -std=c++17 -O1 -g -pthread -o lasting lasting.cc &&
            lasting_names ./lasting 6 | diff "$here/lasting.want" - && told_names ./lasting 6 back | diff told.want -
        tell lasting "after lines have moved ($compiler)" $?
    done
    # The places stand in functions still, but what their lines say isn't known.
    rm lasting.cc && lasting_names ./lasting 7 >away && grep -qx 'lasting:server.few\[1\]' away &&
        grep -qx 'lasting:make_cache(+3)<main(+10)' away && lasting_names ./lasting 8 | diff away -
    tell lasting "without the sources" $?
    cp "$here/lasting.cc" . && g++ -std=c++17 -O0 -pthread -Wl,--build-id=0x5eed -o lasting lasting.cc
    lasting_names ./lasting 1 >bare && grep -qx 'lasting:all' bare && grep make_cache bare >made &&
        grep -q '^lasting:make_cache+0x[0-9a-f]*<main+0x[0-9a-f]* of 5eed$' made &&
        lasting_names ./lasting 2 | grep make_cache | diff made -
    tell lasting "without debug information names hold for one build" $?
    cat >shelf.c <<'ANY'
#include <pthread.h>
#include <stdlib.h>
struct shelf {
    pthread_mutex_t lock;
};
void use_shelf(void)
{
    static pthread_mutex_t own = PTHREAD_MUTEX_INITIALIZER;
    struct shelf *shelf = malloc(sizeof *shelf);
    pthread_mutex_init(&shelf->lock, NULL);
    pthread_mutex_lock(&own);
    pthread_mutex_lock(&shelf->lock);
    pthread_mutex_unlock(&shelf->lock);
    pthread_mutex_unlock(&own);
}
ANY
    echo 'void use_shelf(void); int main(void) { use_shelf(); return 0; }' >uses.c
    same=0
    for compiler in gcc clang; do
        command -v $compiler >/dev/null || continue
        for level in -O0 -O2; do
            $compiler $level -g -shared -fPIC -Wl,-soname,libshelf.so.1 -o libshelf.so.1 shelf.c && mkdir -p elsewhere &&
                cp libshelf.so.1 elsewhere/libshelf.so.1.2.3 && ln -sf libshelf.so.1.2.3 elsewhere/libshelf.so.1 &&
                $compiler -g -o uses uses.c ./libshelf.so.1 -Wl,-rpath,"$work/elsewhere" -pthread && rm libshelf.so.1
            lasting_names ./uses | sed 's/^own$/use_shelf::own/' >shelf.names
            printf '%s\n' 'libshelf.so.1:use_shelf(shelf::lock (shelf.c))<main()' 'libshelf.so.1:use_shelf::own' |
                diff - shelf.names || same=1
        done
    done
    tell lasting "a library by its own name" $same
fi

if wanted locked; then
    in_folders "${CC:-cc}" -std=c11 -D_GNU_SOURCE -g -O1 -fsanitize=address,undefined -fno-sanitize-recover=undefined -Wall -Wextra -Werror \
        -o locked "$here/locked.c" \
        $(source_of lock_expression call_words source_text source_names files allocation) &&
        grep -v '^  ' "$here/locked.want" | ./locked | diff "$here/locked.want" -
    tell locked "the lock that a source line names" $?
fi

# Locks of one member of a class are one type, wherever they are first used; and others aren't.
if wanted accounts && has_libdw accounts; then
    for compiler in g++ clang++; do
        command -v $compiler >/dev/null || continue
        for level in -O0 -O2; do
            cp "$here/accounts.cc" . && $compiler $level -g -pthread -o accounts accounts.cc
            "$record" -- ./accounts both 2>recorded.err
            sed 's/<accounts.cc:[0-9]*//g' recorded.err | diff "$here/accounts.want" -
            tell accounts "an account and the audit, the audit and another account ($compiler $level)" $?
            for case in members classes globals guards elements lockers; do
                "$record" -- ./accounts $case 2>recorded.err
                tail -n 1 recorded.err | grep -qx 'record: nothing to report'
                tell accounts "no order of other locks: $case ($compiler $level)" $?
            done
        done
    done
    # The names of types that are one with others are understood, too.
    g++ -g -pthread -o accounts accounts.cc
    for line in '"Audit::mutex" "Account::mutex"' '"accounts:Account::mutex" "accounts:Audit::mutex"' \
        '"accounts.cc:82<accounts.cc:172" "accounts.cc:75<accounts.cc:171"' '"report()<main()" "deposit()<main()"'; do
        echo "$line" >list
        "$record" --ignore list -- ./accounts both 2>recorded.err
        tail -n 1 recorded.err | grep -qx 'record: nothing to report: list ignores 1 report'
        tell accounts "in the ignore file: $line" $?
    done
    "$record" --gen-suppressions -- ./accounts both 2>&1 | grep '^"' >recorded.err
    echo '"Audit::mutex" "Account::mutex"' | diff - recorded.err
    tell accounts "the line for the ignore file" $?
fi

# What the words of a line don't tell apart has a number by the source, a file, or an object; never by what a run did first.
if wanted alike && has_libdw alike; then
    for compiler in gcc clang; do
        command -v $compiler >/dev/null || continue
        for level in -O0 -O2; do
            cp "$here/alike.c" . && $compiler $level -g -pthread -o alike alike.c
            "$record" -- ./alike 2>&1 | diff "$here/alike.want" -
            tell alike "lines that look alike, and variables that several lines make ($compiler $level)" $?
            "$record" -- ./alike second 2>&1 | grep -qxF ' "all" -> "page_new(page::lock (alike.c))<take_pages(pages[]#2)" @ alike.c:26'
            tell alike "a later one alone ($compiler $level)" $?
        done
    done
    for line in '"page_new(page::lock (alike.c))<take_pages(pages[]#2)" "page_new(page::lock (alike.c))<take_pages(pages[])"' \
        '"page_new(page::lock (alike.c))<take_pages(pages[])" "alike:page_new(page::lock (alike.c))<take_pages(pages[])"' \
        '"alike.c:19<alike.c:43" "alike.c:19<alike.c:42"' '"row[1]" "row[0]"' '"row" "row+0x28"' \
        '"all" "queue<make_again(queue)<main()"'; do
        echo "$line" >list
        "$record" --ignore list -- ./alike 2>&1 | tail -n 1 | grep -qx 'record: 3 reports, 0 circles, 1 process'
        tell alike "in the ignore file: $line" $?
    done
    mkdir -p one other
    cat >one/pool.c <<'ANY'
#include <pthread.h>
#include <stdlib.h>
static pthread_mutex_t *fresh(void)
{
    pthread_mutex_t *mutex = malloc(sizeof *mutex);
    pthread_mutex_init(mutex, NULL);
    return mutex;
}
static pthread_mutex_t *make(void)
{
    return fresh();
}
pthread_mutex_t *MAKES(void)
{
    return make();
}
ANY
    cp one/pool.c other/heap.c
    cat >pools.c <<'ANY'
#include <pthread.h>
pthread_mutex_t *one(void), *other(void);
int main(void)
{
    pthread_mutex_t *lock[] = {one(), other(), NULL};
    for (int i = 0; i < 2; i++) {
        pthread_mutex_lock(lock[i]);
        pthread_mutex_lock(lock[1 - i]);
        pthread_mutex_unlock(lock[1 - i]);
        pthread_mutex_unlock(lock[i]);
    }
    return 0;
}
ANY
    "${CC:-cc}" -g -c -DMAKES=one -o one.o one/pool.c && "${CC:-cc}" -g -c -DMAKES=other -o other.o other/heap.c &&
        "${CC:-cc}" -g -pthread -o pools pools.c one.o other.o && told_names ./pools >pools.names
    printf 'fresh(mutex)<make() (%s.c)\n' heap pool | diff - pools.names
    tell alike "functions of one name in two files" $?
    cat >labels.c <<'ANY'
#define WITNESS_BY_NAME
#include "witness.h"
static void take(const void *lock, unsigned line)
{
    witness_asked_at(lock, WITNESS_MUTEX, "use.py", line, "use");
    witness_acquired(lock);
}
static void either(const void *one, const void *other, unsigned line)
{
    for (unsigned i = 0; i < 4; i += 2) {
        take(i ? other : one, line + i);
        take(i ? one : other, line + i + 1);
        witness_released(one);
        witness_released(other);
    }
}
int main(void)
{
    static const char *const made[][2] = {{"one/bank.py", "Account.lock"}, {"two/shop.py", "Account.lock"}, {"c.py", "Log.lock"},
        {"c.py", "Log.lock"}, {"b.rs", "Mutex (b.rs:9)"}, {"b.rs", "Mutex (b.rs:10)"}};
    const void *lock[6];
    for (unsigned i = 0; i < 6; i++) {
        lock[i] = witness_handle();
        witness_made_at(lock[i], WITNESS_MUTEX, made[i][0], 7 + i, "make", made[i][1]);
    }
    for (unsigned i = 0; i < 6; i += 2)
        either(lock[i], lock[i + 1], 10 * i);
    return 0;
}
ANY
    "${CC:-cc}" -g -I"$recorder" -o labels labels.c && told_names ./labels >labels.names
    printf '%s\n' 'Account.lock (bank.py)' 'Account.lock (shop.py)' Log.lock 'Log.lock#2' 'Mutex (b.rs:10)' 'Mutex (b.rs:9)' | diff - labels.names
    tell alike "what the program names alike" $?
    sed -n 's/^ "\(Log[^"]*\)" -> .*/\1/p' recorded.err | grep -qx Log.lock
    tell alike "numbers by the sequence of lines" $?
fi

# Names of any length are told whole. A trace, which has room for 63 bytes, keeps them apart.
if wanted whole && has_libdw whole; then
    cat >whole.cc <<'ANY'
#include <mutex>
namespace a_namespace_with_a_long_name { namespace and_one_in_it_that_is_longer_still {
struct Account { std::mutex first, second; };
struct Audit { std::mutex first; };
}}
using namespace a_namespace_with_a_long_name::and_one_in_it_that_is_longer_still;
static void front(Account *account)
{
    std::lock_guard<std::mutex> outer(account->first);
    std::lock_guard<std::mutex> inner(account->second);
}
static void back(Account *account)
{
    std::lock_guard<std::mutex> outer(account->second);
    std::lock_guard<std::mutex> inner(account->first);
}
int main()
{
    front(new Account);
    back(new Account);
    return 0;
}
ANY
    g++ -g -pthread -o whole whole.cc
    "$record" -o kept --html whole.html --json whole.json -- ./whole 2>recorded.err
    name=a_namespace_with_a_long_name::and_one_in_it_that_is_longer_still::Account::
    diff - recorded.err <<ANY
lock order reversal:
 1st "${name}second/2" (${name}second, sleep mutex) @ whole.cc:14
 2nd "${name}first/2" (${name}first, sleep mutex) @ whole.cc:15
established order:
 "${name}first" -> "${name}second" @ whole.cc:10
record: 1 report, 0 circles, 1 process
ANY
    tell whole "in a report" $?
    grep -qF "${name}first" whole.html && grep -qF "${name}second" whole.html && grep -qF "\"${name}second/2\"" whole.json
    tell whole "in a page and in JSON" $?
    head=$(printf '%.54s' $name)
    [ "$(sed -n 's/^init 1 mtx - "\([^"]*\)".*/\1/p' kept | sort -u | grep -cx "$head~[0-9a-f]\{8\}")" -eq 4 ] &&
        "$WITNESS" replay <kept >replayed
    [ $? -eq 1 ] && [ "$(grep -c '^lock order reversal' replayed)" -eq 1 ]
    tell whole "cut in a trace, and apart" $?
    printf '"%sfirst" "%ssecond"\n' $name $name >list
    "$record" --ignore list -- ./whole 2>&1 | tail -n 1 | grep -qx 'record: nothing to report: list ignores 1 report'
    tell whole "in the ignore file" $?
    "$record" --learn whole.orders -- ./whole 2>recorded.err
    grep -qF "mtx \"whole:${name}first\" > mtx \"whole:${name}second\"" whole.orders
    tell whole "in a file of orders" $?
fi

# What was told while the program ran is told by that name at the end, though another object's lock would have it, too.
if wanted stays && has_libdw stays; then
    cat >second.c <<'ANY'
#include <pthread.h>
static pthread_mutex_t lock = PTHREAD_MUTEX_INITIALIZER;
pthread_mutex_t *of_second(void) { return &lock; }
ANY
    cat >stays.c <<'ANY'
#include <pthread.h>
#include <stdio.h>
pthread_mutex_t *of_second(void);
static pthread_mutex_t lock = PTHREAD_MUTEX_INITIALIZER, other = PTHREAD_MUTEX_INITIALIZER;
static void both(pthread_mutex_t *first, pthread_mutex_t *second)
{
    pthread_mutex_lock(first);
    pthread_mutex_lock(second);
    pthread_mutex_unlock(second);
    pthread_mutex_unlock(first);
}
int main(void)
{
    both(&lock, &other);
    both(&other, &lock);
    getchar();
    both(of_second(), &other);
    both(&other, of_second());
    return 0;
}
ANY
    "${CC:-cc}" -g -shared -fPIC -o libsecond.so second.c &&
        "${CC:-cc}" -g -pthread -o stays stays.c ./libsecond.so
    cat >second.want <<'ANY'
lock order reversal:
 1st "other" (other, sleep mutex) @ stays.c:7
 2nd "lock" (lock, sleep mutex) @ stays.c:8
established order:
 "lock" -> "other" @ stays.c:8
lock order reversal:
 1st "other" (other, sleep mutex) @ stays.c:7
 2nd "libsecond.so:lock" (libsecond.so:lock, sleep mutex) @ stays.c:8
established order:
 "libsecond.so:lock" -> "other" @ stays.c:8
record: 2 reports, 0 circles, 1 process
ANY
    rm -f held-open && mkfifo held-open
    "$record" -- ./stays 2>recorded.err <held-open &
    exec 8>held-open
    within grep -q '^ "lock" -> "other"' recorded.err
    live=$?
    echo >&8
    exec 8>&-
    wait $!
    [ $live -eq 0 ] && diff second.want recorded.err
    tell stays "a name that was told before another lock had it" $?
    # Nobody was told of it here: both say their objects.
    echo | "$record" --quiet -- ./stays 2>recorded.err
    sed 's/"lock"/"stays:lock"/g; s/(lock,/(stays:lock,/' second.want | diff - recorded.err
    tell stays "names of two objects" $?
    cat >merges.cc <<'ANY'
#include <cstdio>
#include <mutex>
struct Account {
    std::mutex mutex;
};
static std::mutex audit;
static void deposit(Account &account)
{
    std::lock_guard<std::mutex> outer(account.mutex);
    std::lock_guard<std::mutex> inner(audit);
}
static void report(Account &account)
{
    std::lock_guard<std::mutex> outer(audit);
    std::lock_guard<std::mutex> inner(account.mutex);
}
static void check(Account &account)
{
    std::lock_guard<std::mutex> guard(account.mutex);
}
int main()
{
    Account *accounts = new Account[8];
    for (int i = 0; i < 5; i++)
        check(accounts[i]);
    report(accounts[4]);
    deposit(accounts[4]);
    std::getchar();
    report(accounts[6]);
    return 0;
}
ANY
    g++ -g -pthread -o merges merges.cc && rm -f held-open && mkfifo held-open
    "$record" -- ./merges 2>recorded.err <held-open &
    exec 8>held-open
    within grep -q '^ "audit" -> "Account::mutex"' recorded.err
    live=$?
    echo >&8
    exec 8>&-
    wait $!
    [ $live -eq 0 ] && diff - recorded.err <<'ANY'
lock order reversal:
 1st "Account::mutex" (Account::mutex, sleep mutex) @ merges.cc:9
 2nd "audit" (audit, sleep mutex) @ merges.cc:10
established order:
 "audit" -> "Account::mutex" @ merges.cc:15
record: 1 report, 0 circles, 1 process
ANY
    tell stays "a member's lock, when further first uses are one type with the first" $?
fi
