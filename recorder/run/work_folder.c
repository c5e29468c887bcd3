#include "work_folder.h"

#include <fcntl.h>
#include <signal.h>
#include <stdbool.h>
#include <stddef.h>
#include <string.h>
#include <sys/syscall.h>
#include <unistd.h>

#include "allocation.h"

/* An entry of a folder, as the kernel tells it. */
struct entry {
    unsigned long long node;
    long long offset;
    unsigned short length;
    unsigned char type;
    char name[];
};

static char *work_folder;
static volatile sig_atomic_t is_removed; /* when `record` ends */

/* Removes what such entries name; how many. */
static int remove_entries(int folder, char *entries, long length);

/*
 * Removes what is in the folder, until nothing more can be. A handler of signals does it, too: there the C library's
 * readers of folders mayn't be called.
 */
static void empty(int folder)
{
    char entries[4096] __attribute__((aligned(8)));
    int removed;
    do {
        long length;
        removed = 0;
        lseek(folder, 0, SEEK_SET);
        while ((length = syscall(SYS_getdents64, folder, entries, sizeof entries)) > 0)
            removed += remove_entries(folder, entries, length);
    } while (removed > 0);
}

static int remove_entry(int folder, const char *name)
{
    if (strcmp(name, ".") == 0 || strcmp(name, "..") == 0)
        return 0;
    if (unlinkat(folder, name, 0) == 0)
        return 1;
    int inner = openat(folder, name, O_RDONLY | O_DIRECTORY | O_NOFOLLOW | O_CLOEXEC);
    if (inner >= 0) {
        empty(inner);
        close(inner);
    }
    return unlinkat(folder, name, AT_REMOVEDIR) == 0;
}

static int remove_entries(int folder, char *entries, long length)
{
    int removed = 0;
    for (long at = 0; at < length;) {
        struct entry *entry = (struct entry *)(void *)(entries + at);
        at += entry->length;
        removed += remove_entry(folder, entry->name);
    }
    return removed;
}

void folder_remove(const char *path)
{
    int folder = open(path, O_RDONLY | O_DIRECTORY | O_NOFOLLOW | O_CLOEXEC);
    if (folder < 0)
        return;
    empty(folder);
    close(folder);
    rmdir(path);
}

static void remove_it(void)
{
    bool is_there = is_removed;
    is_removed = 0;
    if (is_there)
        folder_remove(work_folder);
}

static void interrupted(int number)
{
    remove_it();
    _exit(128 + number);
}

void work_folder_begin(const char *folder)
{
    struct sigaction before, ends = {.sa_handler = interrupted};
    work_folder = copy(folder);
    is_removed = 1;
    if (sigaction(SIGINT, NULL, &before) == 0 && before.sa_handler != SIG_IGN)
        sigaction(SIGINT, &ends, NULL);
}

void work_folder_keep(void)
{
    is_removed = 0;
}

void work_folder_end(void)
{
    remove_it();
}
