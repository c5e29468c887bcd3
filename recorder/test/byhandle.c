/* byhandle LIBRARY: takes its locks both ways by calls that dlsym finds: all of them by a handle of that library, or of the program. */
#include <dlfcn.h>
#include <pthread.h>
#include <string.h>

static pthread_mutex_t first = PTHREAD_MUTEX_INITIALIZER, second = PTHREAD_MUTEX_INITIALIZER;

typedef int call(pthread_mutex_t *);

int main(int count, char **word)
{
    void *handle = dlopen(count > 1 && strcmp(word[1], "program") != 0 ? word[1] : NULL, RTLD_NOW);
    if (!handle)
        return 3;
    call *lock = (call *)dlsym(handle, "pthread_mutex_lock"), *unlock = (call *)dlsym(handle, "pthread_mutex_unlock");
    lock(&first);
    lock(&second);
    unlock(&second);
    unlock(&first);
    lock(&second);
    lock(&first);
    unlock(&first);
    unlock(&second);
    return 0;
}
