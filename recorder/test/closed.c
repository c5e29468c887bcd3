/*
 * A library is closed, and another comes to lie at its addresses: its mutex is another one. The first takes its own
 * behind `pool`, the second its own before it, so that there is nothing to report. Then the first comes back; with a word
 * it takes its own before `pool` after all.
 */
#include <dlfcn.h>
#include <pthread.h>
#include <stdio.h>
#include <stdlib.h>

#ifdef LOCK
static pthread_mutex_t LOCK = PTHREAD_MUTEX_INITIALIZER;

void take(pthread_mutex_t *pool, int before)
{
    pthread_mutex_lock(before ? &LOCK : pool);
    pthread_mutex_lock(before ? pool : &LOCK);
    pthread_mutex_unlock(pool);
    pthread_mutex_unlock(&LOCK);
}
#else
static pthread_mutex_t pool = PTHREAD_MUTEX_INITIALIZER;

static void *use(const char *path, int before)
{
    void *library = dlopen(path, RTLD_NOW);
    void *symbol = library ? dlsym(library, "take") : NULL;
    void (*take)(pthread_mutex_t *, int) = (void (*)(pthread_mutex_t *, int))symbol;
    if (!take) {
        puts(dlerror());
        exit(1);
    }
    take(&pool, before);
    dlclose(library);
    return symbol;
}

int main(int count, char **words)
{
    (void)words;
    void *first = use("./closed_journal.so", 0);
    void *second = use("./closed_table.so", 1);
    puts(first == second ? "at one address" : "at two addresses");
    use("./closed_journal.so", count > 1);
    return 0;
}
#endif
