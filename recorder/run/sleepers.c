#include "sleepers.h"

#include <ctype.h>
#include <dirent.h>
#include <fcntl.h>
#include <stdbool.h>
#include <stddef.h>
#include <stdio.h>
#include <stdlib.h>
#include <sys/syscall.h>
#include <unistd.h>

#include "allocation.h"
#include "plan.h"

enum { THREADS_MOST = 256, TIME_LIMIT = 3, WORDS = 4 };

/* What a thread is in: the number of its call, and the first words that it was given. */
struct call_made {
    long number;
    unsigned long long word[WORDS];
};

/* False of a thread that runs, and where the kernel doesn't tell. */
static bool read_call(int folder, const char *thread, struct call_made *call)
{
    char path[300], text[256] = "", *at = text;
    snprintf(path, sizeof path, "%s/syscall", thread);
    int file = openat(folder, path, O_RDONLY | O_CLOEXEC);
    ssize_t length = file >= 0 ? read(file, text, sizeof text - 1) : -1;
    if (file >= 0)
        close(file);
    if (length <= 0 || !isdigit((unsigned char)*text))
        return false;
    call->number = strtol(text, &at, 10);
    for (int i = 0; i < WORDS; i++)
        call->word[i] = strtoull(at, &at, 16);
    return true;
}

/* In a wait for a word, without a time limit or where it pauses. */
static bool sleeps(const struct call_made *call, const struct plan *plan)
{
    bool pauses = call->word[0] >= plan->words_from && call->word[0] < plan->words_to;
    return call->number == SYS_futex && (pauses || call->word[TIME_LIMIT] == 0);
}

static bool all_sleep(const struct plan *plan)
{
    char *path = say_text("/proc/%d/task", (int)plan->process);
    DIR *threads = opendir(path);
    struct dirent *thread;
    int count = 0;
    bool all = threads != NULL;
    free(path);
    while (all && (thread = readdir(threads)) != NULL) {
        struct call_made call;
        if (isdigit((unsigned char)*thread->d_name))
            all = ++count <= THREADS_MOST && read_call(dirfd(threads), thread->d_name, &call) && sleeps(&call, plan);
    }
    if (threads)
        closedir(threads);
    return all && count > 0;
}

void asleep_look(int file)
{
    struct plan *plan = take(sizeof *plan);
    if (pread(file, plan, sizeof *plan, 0) == (ssize_t)sizeof *plan && plan->processes == 1 && plan->begun > 0) {
        uint32_t seen = all_sleep(plan) ? plan->begun : 0;
        if (pwrite(file, &seen, sizeof seen, offsetof(struct plan, all_sleep)) != (ssize_t)sizeof seen)
            fprintf(stderr, "record: a plan can't be written\n");
    }
    free(plan);
}
