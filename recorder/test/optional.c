/*
 * Uses GLib and OpenMP where they are there, by weak names and by dlsym, and says which are. With the name of a library it
 * opens that one, which needs GLib, and has it take two mutexes in both orders. With LIBRARY it is that library.
 */
#include <dlfcn.h>
#include <stdint.h>
#include <stdio.h>

typedef struct { uintptr_t word; } GMutex;

#ifdef LIBRARY
void g_mutex_lock(GMutex *mutex);
void g_mutex_unlock(GMutex *mutex);

static GMutex account, audit;

static void take(GMutex *first, GMutex *second)
{
    g_mutex_lock(first);
    g_mutex_lock(second);
    g_mutex_unlock(second);
    g_mutex_unlock(first);
}

void work(void)
{
    take(&account, &audit);
    take(&audit, &account);
}
#else
void g_mutex_lock(GMutex *mutex) __attribute__((weak));
void omp_set_lock(void *lock) __attribute__((weak));
void GOMP_critical_start(void) __attribute__((weak));

static const char *is_there(const void *function)
{
    return function ? "there" : "absent";
}

static void *named(const char *name)
{
    return dlsym(RTLD_DEFAULT, name);
}

int main(int count, char **words)
{
    printf("weak: %s %s %s\n", is_there((void *)g_mutex_lock), is_there((void *)omp_set_lock),
        is_there((void *)GOMP_critical_start));
    printf("by name: %s %s %s\n", is_there(named("g_mutex_lock")), is_there(named("omp_set_lock")),
        is_there(named("GOMP_critical_start")));
    if (omp_set_lock) {
        static long lock[8];
        omp_set_lock(lock);
    }
    void *library = count > 1 ? dlopen(words[1], RTLD_NOW) : NULL;
    void (*work)(void) = library ? (void (*)(void))dlsym(library, "work") : NULL;
    if (work)
        work();
    printf("by name: %s\n", is_there(named("g_mutex_lock")));
    return count > 1 && !work;
}
#endif
