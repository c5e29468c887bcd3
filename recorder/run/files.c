#include "files.h"

#include <fcntl.h>
#include <stdlib.h>
#include <string.h>
#include <unistd.h>

#include "allocation.h"

const char *file_base(const char *path)
{
    const char *slash = strrchr(path, '/');
    return slash ? slash + 1 : path;
}

char *file_folder(const char *path)
{
    const char *slash = strrchr(path, '/');
    if (!slash)
        return copy(".");
    return slash == path ? copy("/") : copy_bytes(path, (size_t)(slash - path));
}

static bool is_program(const char *path)
{
    struct stat found;
    return stat(path, &found) == 0 && S_ISREG(found.st_mode) && access(path, X_OK) == 0;
}

char *file_of(const char *program)
{
    if (strchr(program, '/'))
        return copy(program);
    const char *at = getenv("PATH");
    while (at && *program) {
        size_t length = strcspn(at, ":");
        char *path = say_text("%.*s%s/%s", (int)length, at, length ? "" : ".", program);
        if (is_program(path))
            return path;
        free(path);
        at = at[length] ? at + length + 1 : NULL;
    }
    return NULL;
}

bool file_is_command(const char *program)
{
    char *path = file_of(program);
    bool is = path && is_program(path);
    free(path);
    return is;
}

const char *file_temporary(void)
{
    const char *folder = getenv("TMPDIR");
    return folder && *folder ? folder : "/tmp";
}

int file_open_regular(const char *path, struct stat *found)
{
    int file = open(path, O_RDONLY | O_NONBLOCK | O_NOCTTY | O_CLOEXEC);
    if (file >= 0 && fstat(file, found) == 0 && S_ISREG(found->st_mode))
        return file;
    if (file >= 0)
        close(file);
    return -1;
}

size_t file_read(int file, char *bytes, size_t length)
{
    size_t got = 0;
    for (ssize_t more; got < length && (more = read(file, bytes + got, length - got)) > 0;)
        got += (size_t)more;
    return got;
}

bool file_fill(const char *path, size_t bytes)
{
    static const char zeroes[1 << 16];
    int file = open(path, O_WRONLY | O_CREAT | O_TRUNC | O_CLOEXEC, 0666);
    if (file < 0)
        return false;
    while (bytes > 0) {
        ssize_t written = write(file, zeroes, bytes < sizeof zeroes ? bytes : sizeof zeroes);
        if (written <= 0)
            break;
        bytes -= (size_t)written;
    }
    return close(file) == 0 && bytes == 0;
}

const char *program_called(const char *here, const char *variable, const char *name)
{
    const char *named = getenv(variable);
    if (named && *named)
        return named;
    char *top = file_folder(here), *program = say_text("%s/%s", top, name);
    char *built = say_text("%s/crates/%s/out/%s", top, name, name);
    bool is_built = access(program, X_OK) != 0 && access(built, X_OK) == 0;
    free(top);
    free(is_built ? program : built);
    return is_built ? built : program;
}
