/* Three threads, one after the other, close a cycle of three orders. */
#include <pthread.h>

static pthread_mutex_t inode = PTHREAD_MUTEX_INITIALIZER;
static pthread_mutex_t buffer = PTHREAD_MUTEX_INITIALIZER;
static pthread_mutex_t disk = PTHREAD_MUTEX_INITIALIZER;

static struct pair {
    pthread_mutex_t *first, *second;
} pairs[] = {{&inode, &buffer}, {&buffer, &disk}, {&disk, &inode}};

static void *take(void *argument)
{
    struct pair *pair = argument;
    pthread_mutex_lock(pair->first);
    pthread_mutex_lock(pair->second);
    pthread_mutex_unlock(pair->second);
    pthread_mutex_unlock(pair->first);
    return NULL;
}

int main(void)
{
    for (int i = 0; i < 3; i++) {
        pthread_t thread;
        pthread_create(&thread, NULL, take, &pairs[i]);
        pthread_join(thread, NULL);
    }
    return 0;
}
