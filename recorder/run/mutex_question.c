#include "mutex_question.h"

#include <fcntl.h>
#include <stdbool.h>
#include <stdio.h>
#include <stdlib.h>
#include <sys/stat.h>
#include <time.h>
#include <unistd.h>

#include "allocation.h"
#include "files.h"
#include "format.h"
#include "interrupts.h"

/* How often the byte is looked at, and how many nanoseconds lie between. */
enum { LOOKS = 10, PAUSE = 100000000 };

static char byte_of(const char *path, off_t at)
{
    char byte = '\0';
    int file = open(path, O_RDONLY | O_CLOEXEC);
    if (file >= 0 && pread(file, &byte, 1, at) != 1)
        byte = '\0';
    if (file >= 0)
        close(file);
    return byte;
}

static void put(const char *path, char byte)
{
    int file = open(path, O_WRONLY | O_CLOEXEC);
    if (file < 0)
        return;
    if (pwrite(file, &byte, 1, ASKED_AT) != 1)
        perror(path);
    close(file);
}

/* The file's name begins with the number of its process. A file that has no bytes has no such byte either. */
static bool can_be_asked(const char *path)
{
    struct stat found;
    char *process = say_text("/proc/%ld", strtol(file_base(path), NULL, 10));
    bool can = stat(process, &found) == 0 && access(path, W_OK) == 0 && stat(path, &found) == 0 && found.st_size > 0;
    free(process);
    return can;
}

static bool is_asked(const char *path)
{
    return byte_of(path, ASKED_AT) == ASKED_NOW;
}

static bool all_answered(char *const *files, size_t count)
{
    for (size_t i = 0; i < count; i++)
        if (is_asked(files[i]))
            return false;
    return true;
}

void ask(char *const *files, size_t count)
{
    const struct timespec pause = {0, PAUSE};
    for (size_t i = 0; i < count; i++)
        if (can_be_asked(files[i]))
            put(files[i], ASKED_NOW);
    for (int look = 0; look < LOOKS && !all_answered(files, count); look++) {
        nanosleep(&pause, NULL);
        interrupts_heed();
    }
}

/* Where no line is written, the byte was none before. */
void ask_no_more(char *const *files, size_t count)
{
    for (size_t i = 0; i < count; i++)
        if (is_asked(files[i]))
            put(files[i], byte_of(files[i], 0) ? ASKED_NOT : '\0');
}
