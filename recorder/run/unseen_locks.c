#include "unseen_locks.h"

#include <regex.h>
#include <stdbool.h>
#include <stdlib.h>
#include <string.h>
#include <unistd.h>

#include "allocation.h"
#include "files.h"
#include "format.h"
#include "text_search.h"

enum { CHUNK_BYTES = 1 << 20, PYTHON = 2 };

/* Kinds of locks: how a library that has them is called, and what stands in files that have them. */
static const struct kind {
    const char *what, *file;
    const char *const *texts;
    enum {
        ALWAYS,
        BY_SEMAPHORES, /* they are a language's, which waits for semaphores of the C library itself */
        OF_ATOMICS,    /* they wait for atomics of C++20 */
        ATOMICS,       /* told where none of those that wait so is told */
    } how;
} kinds[] = {
#define TEXTS(...)                                                                                                     \
    (const char *const[])                                                                                              \
    {                                                                                                                  \
        __VA_ARGS__, NULL                                                                                              \
    }
    {"locks of Rust's std", "^libstd-[0-9a-f]+\\.so$",
        TEXTS("library/std/src/", "3std3sys4sync5mutex5futex", "3std3sys4sync6rwlock5futex", "11futex_mutex5Mutex"),
        ALWAYS},
    {"locks of Go", NULL, TEXTS("Go buildinf:"), ALWAYS},
    [PYTHON] = {"locks of Python", "^libpython[0-9.a-z]*\\.so", TEXTS("PyThread_acquire_lock"), BY_SEMAPHORES},
    {"locks of Java", "^libjvm\\.so", TEXTS(NULL), BY_SEMAPHORES},
    {"locks of Ruby", "^libruby[-0-9.a-z]*\\.so", TEXTS("rb_mutex_lock"), ALWAYS},
    {"locks of Mono", "^libmono(sgen)?-2\\.0\\.so", TEXTS("mono_monitor_enter"), BY_SEMAPHORES},
    {"locks of .NET", "^libcoreclr\\.so", TEXTS("JIT_MonEnter"), BY_SEMAPHORES},
    {"locks of SBCL", NULL, TEXTS("SBCL_HOME"), BY_SEMAPHORES},
    {"locks of Guile", "^libguile-[0-9.]*\\.so", TEXTS("scm_lock_mutex"), ALWAYS},
    {"locks of ECL", "^libecl\\.so", TEXTS("mp_get_lock_wait"), BY_SEMAPHORES},
    {"locks of Perl's threads::shared", NULL, TEXTS("boot_threads__shared"), ALWAYS},
    {"locks of D", "^lib(gphobos|phobos2|gdruntime|druntime-ldc-shared)\\.so", TEXTS("_d_monitorenter"), ALWAYS},
    {"locks of Erlang", NULL, TEXTS("ethr_mutex_lock"), ALWAYS},
    {"MVars of Haskell", NULL, TEXTS("stg_takeMVarzh"), ALWAYS},
    {"critical sections of clang's OpenMP", NULL, TEXTS("__kmpc_critical"), ALWAYS},
    {"semaphores of C++20", NULL, TEXTS("18__atomic_semaphore", "18counting_semaphore"), OF_ATOMICS},
    {"latches of C++20", NULL, TEXTS("NKSt5latch", "__15latch"), OF_ATOMICS},
    {"barriers of C++20", NULL, TEXTS("17__barrier_phase_t", "14__tree_barrier", "14__barrier_base"), OF_ATOMICS},
    {"waits for atomics of C++20", NULL, TEXTS("__atomic_wait_address", "18__waiter_pool_base", "__libcpp_atomic_wait"),
        ATOMICS},
    {"locks of tokio", NULL, TEXTS("4sync15batch_semaphore9Semaphore", "src/sync/batch_semaphore.rs"), ALWAYS},
    {"absl::Mutex", "^libabsl_synchronization\\.so", TEXTS("AbslInternalPerThreadSemWait"), ALWAYS},
    {"locks of folly", "^libfolly\\.so", TEXTS("5folly6detail13futexWaitImpl", "5folly15SharedMutexImpl"), ALWAYS},
    {"QMutex", "^libQt[0-9]Core[a-z]*\\.so", TEXTS("6QMutex4lockEv", "11QBasicMutex12lockInternalEv"), ALWAYS},
    {"locks of GAsyncQueue", NULL, TEXTS("g_async_queue_lock"), ALWAYS},
    {"more objects than there is room for", "^[" STATUS_MORE_OBJECTS "]$", TEXTS(NULL), ALWAYS},
#undef TEXTS
};
enum { KINDS = sizeof kinds / sizeof *kinds };

/*
 * The C library's own, C++'s, the compiler's and the recorder have none that count; GLib and OpenMP have, for whoever calls
 * them.
 */
static const char plain[] =
    "^(ld-linux-x86-64|lib(c|m|dl|rt|pthread|resolv|gcc_s|stdc\\+\\+|c\\+\\+|c\\+\\+abi|glib-2[.]0|gomp|omp|"
    "omp5|iomp5)|recorder)\\.so";

/* What is looked for, and what was found of it. */
struct look {
    struct search search;
    size_t kind_of[SEARCH_MOST]; /* by the number of a text */
    bool found[KINDS];
    regex_t file[KINDS], plain;
    char *chunk;
};

static void found_text(void *what, size_t number)
{
    struct look *look = what;
    look->found[look->kind_of[number]] = true;
}

static void begin(struct look *look)
{
    for (size_t i = 0; i < KINDS; i++) {
        if (kinds[i].file)
            regcomp(&look->file[i], kinds[i].file, REG_EXTENDED | REG_NOSUB);
        for (const char *const *text = kinds[i].texts; *text; text++) {
            look->kind_of[look->search.texts] = i;
            search_add(&look->search, *text);
        }
    }
    regcomp(&look->plain, plain, REG_EXTENDED | REG_NOSUB);
    look->chunk = take(CHUNK_BYTES);
}

static void end(struct look *look)
{
    for (size_t i = 0; i < KINDS; i++)
        if (kinds[i].file)
            regfree(&look->file[i]);
    regfree(&look->plain);
    free(look->chunk);
    free(look);
}

/* It is read, and not mapped: a file that is cut meanwhile does no harm. Pieces of it overlap. */
static void look_into(struct look *look, const char *path)
{
    struct stat found;
    size_t kept = 0;
    ssize_t got;
    int file = file_open_regular(path, &found);
    if (file < 0)
        return;
    while ((got = read(file, look->chunk + kept, CHUNK_BYTES - kept)) > 0) {
        size_t length = kept + (size_t)got;
        search_in(&look->search, look->chunk, length, found_text, look);
        kept = length < look->search.longest ? length : look->search.longest - 1;
        memmove(look->chunk, look->chunk + length - kept, kept);
    }
    close(file);
}

static void look_at(struct look *look, const char *object)
{
    const char *base = file_base(object);
    for (size_t i = 0; i < KINDS; i++)
        if (kinds[i].file && regexec(&look->file[i], base, 0, NULL, 0) == 0)
            look->found[i] = true;
    if (base != object && regexec(&look->plain, base, 0, NULL, 0) != 0)
        look_into(look, object);
}

/* Whether any of that sort was found. */
static bool has_found(const struct look *look, int how)
{
    for (size_t i = 0; i < KINDS; i++)
        if (look->found[i] && (int)kinds[i].how == how)
            return true;
    return false;
}

/* The list, which it frees, with what is named after it: a text of one's own. */
static char * and (char *list, const char *what)
{
    char *longer = say_text("%s%s%s", list, *list ? ", " : "", what);
    free(list);
    return longer;
}

char *unseen_locks(const char *const *object, size_t objects, bool has_semaphores, bool python_tells)
{
    struct look *look = take(sizeof *look);
    char *text = copy("");
    begin(look);
    for (size_t i = 0; i < objects; i++)
        look_at(look, object[i]);
    for (size_t i = 0; i < KINDS; i++)
        if (look->found[i] && !(kinds[i].how == ATOMICS && has_found(look, OF_ATOMICS)) && !(python_tells && i == PYTHON))
            text = and(text, kinds[i].what);
    if (has_semaphores && !has_found(look, BY_SEMAPHORES))
        text = and(text, "semaphores");
    end(look);
    return text;
}
