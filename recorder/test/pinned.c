/* Has all of its memory locked, and says what that was answered, and whether a block that it had before is locked by now. */
#include <errno.h>
#include <pthread.h>
#include <stdio.h>
#include <stdlib.h>
#include <string.h>
#include <sys/mman.h>

static pthread_mutex_t mutex = PTHREAD_MUTEX_INITIALIZER;

/* How many kB of the process's memory are locked. */
static long locked(void)
{
    char line[256];
    long found = -1;
    FILE *status = fopen("/proc/self/status", "r");
    while (status && fgets(line, sizeof line, status))
        if (strncmp(line, "VmLck:", 6) == 0)
            found = atol(line + 6);
    if (status)
        fclose(status);
    return found;
}

int main(int count, char **words)
{
    enum { BLOCK = 1 << 20 };
    int flags = count > 1 && strcmp(words[1], "now") == 0 ? MCL_CURRENT : MCL_CURRENT | MCL_FUTURE;
    unsigned char there[BLOCK / 4096];
    size_t missing = 0;
    void *block = mmap(NULL, BLOCK, PROT_READ | PROT_WRITE, MAP_PRIVATE | MAP_ANONYMOUS, -1, 0);
    pthread_mutex_lock(&mutex);
    int answer = mlockall(flags);
    printf("%s\n", answer == 0 ? "locked" : strerror(errno));
    pthread_mutex_unlock(&mutex);
    if (block == MAP_FAILED || mincore(block, BLOCK, there) != 0)
        return 2;
    for (size_t i = 0; i < sizeof there; i++)
        missing += !(there[i] & 1);
    printf("%s\n", missing ? "not there" : "there");
    printf("%s\n", locked() >= BLOCK / 1024 ? "counted" : "not counted");
    block = mmap(NULL, BLOCK, PROT_READ | PROT_WRITE, MAP_PRIVATE | MAP_ANONYMOUS, -1, 0);
    printf("%s\n", block == MAP_FAILED ? strerror(errno) : mincore(block, BLOCK, there) == 0 && (there[0] & 1) ? "there" : "later");
    return answer != 0;
}
