/* Cuts its own recorder's file, and lets it grow again with other lines in it, over and over for two seconds. Its status is 7. */
#include <fcntl.h>
#include <pthread.h>
#include <stdio.h>
#include <stdlib.h>
#include <string.h>
#include <time.h>
#include <unistd.h>

enum { BYTES = 1 << 20 };

static pthread_mutex_t a = PTHREAD_MUTEX_INITIALIZER, b = PTHREAD_MUTEX_INITIALIZER;

int main(void)
{
    char path[600];
    const char *folder = getenv("RECORDER_DIRECTORY");
    char *lines = malloc(BYTES);
    pthread_mutex_lock(&a);
    pthread_mutex_lock(&b);
    pthread_mutex_unlock(&b);
    pthread_mutex_unlock(&a);
    snprintf(path, sizeof path, "%s/%d.0", folder ? folder : "", (int)getpid());
    int file = open(path, O_RDWR);
    if (file < 0 || pread(file, lines, BYTES, 0) != BYTES)
        return 1;
    memset(lines + 300, 'x', BYTES - 600);
    for (int i = 1000; i < BYTES; i += 997)
        lines[i] = '\n';
    for (time_t end = time(NULL) + 2; time(NULL) < end; usleep(200))
        if (ftruncate(file, 0) != 0 || ftruncate(file, BYTES) != 0 || pwrite(file, lines, BYTES, 0) != BYTES)
            return 2;
    puts("done");
    return 7;
}
