#include "output_files.h"

#include <errno.h>
#include <fcntl.h>
#include <limits.h>
#include <stdlib.h>
#include <sys/stat.h>
#include <unistd.h>

#include "allocation.h"
#include "files.h"
#include "usage.h"

/* The kernel follows no more of them. */
enum { LINKS_MOST = 40 };

void written_name_check(const char *option, const char *name)
{
    if (*name == '\0')
        refuse("%s takes a file, and its name is empty", option);
    if (*name == '-')
        refuse("%s takes a file, and %s begins with -: ./%s is a file of that name", option, name, name);
}

/* Where the symbolic link leads to, a text of one's own; NULL where it is none. */
static char *next_of(const char *path)
{
    char to[PATH_MAX];
    ssize_t length = readlink(path, to, sizeof to);
    if (length <= 0 || length == (ssize_t)sizeof to)
        return NULL;
    if (*to == '/')
        return copy_bytes(to, (size_t)length);
    char *folder = file_folder(path), *next = say_text("%s/%.*s", folder, (int)length, to);
    free(folder);
    return next;
}

char *written_end(const char *path)
{
    char *at = copy(path), *next;
    for (int links = 0; links < LINKS_MOST && (next = next_of(at)) != NULL; links++) {
        free(at);
        at = next;
    }
    return at;
}

/* A file may be open and have no name, which a link of /proc leads to all the same. */
static bool stands_there(const struct stat *found, const char *path)
{
    struct stat at_end;
    char *end = written_end(path);
    bool stands = stat(end, &at_end) == 0 && at_end.st_dev == found->st_dev && at_end.st_ino == found->st_ino;
    free(end);
    return stands;
}

bool written_is_special(const char *path)
{
    struct stat found;
    if (stat(path, &found) != 0 || S_ISDIR(found.st_mode))
        return false;
    return !S_ISREG(found.st_mode) || !stands_there(&found, path);
}

/* Whether a file can be made there, where none is. */
static bool can_be_made(const char *path)
{
    char *end = written_end(path);
    int file = open(end, O_WRONLY | O_CREAT | O_EXCL | O_CLOEXEC, 0666);
    if (file >= 0) {
        close(file);
        unlink(end);
    }
    free(end);
    return file >= 0;
}

void written_check(const char *path)
{
    struct stat found;
    bool is_there = stat(path, &found) == 0;
    if (is_there && S_ISDIR(found.st_mode))
        refuse("%s is a directory", path);
    if (is_there ? S_ISSOCK(found.st_mode) || access(path, W_OK) != 0 : !can_be_made(path))
        refuse("%s can't be written", path);
}

int written_open(const char *path, enum written_from from)
{
    /* Of two that write to one file neither writes over the other's lines. */
    return open(path, O_WRONLY | O_CREAT | O_APPEND | O_NOCTTY | O_CLOEXEC | (from == WRITTEN_ANEW ? O_TRUNC : 0), 0666);
}

FILE *written_file(const char *path)
{
    int file = written_open(path, WRITTEN_ANEW);
    FILE *to = file >= 0 ? fdopen(file, "w") : NULL;
    if (!to && file >= 0)
        close(file);
    return to;
}

/* The rights of the file that is there, else those of a new one. */
static mode_t rights_of(const char *path)
{
    struct stat found;
    mode_t hidden = umask(0);
    umask(hidden);
    return stat(path, &found) == 0 ? found.st_mode & 07777 : 0666 & ~hidden;
}

static void let_go(struct written *written)
{
    free(written->path);
    free(written->beside);
}

int written_begins(struct written *written, const char *path)
{
    int file;
    *written = (struct written){.path = written_end(path)};
    if (written_is_special(path)) {
        file = written_open(path, WRITTEN_ANEW);
    } else {
        written->beside = say_text("%s.XXXXXX", written->path);
        file = mkostemp(written->beside, O_CLOEXEC);
    }
    written->to = file >= 0 ? fdopen(file, "w") : NULL;
    if (written->to)
        return 0;
    int why = errno;
    let_go(written);
    return why;
}

/* What is beside it is all there, and has its rights. */
static bool is_whole(const struct written *written)
{
    int file = fileno(written->to);
    return fchmod(file, rights_of(written->path)) == 0 && fsync(file) == 0;
}

int written_ends(struct written *written)
{
    int why = 0;
    errno = 0;
    if (fflush(written->to) != 0 || ferror(written->to) || (written->beside && !is_whole(written)))
        why = errno ? errno : EIO;
    if (fclose(written->to) != 0 && why == 0)
        why = errno;
    if (written->beside && why == 0 && rename(written->beside, written->path) != 0)
        why = errno;
    if (written->beside && why != 0)
        unlink(written->beside);
    let_go(written);
    return why;
}
