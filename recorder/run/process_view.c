#include "process_view.h"

#include <dirent.h>
#include <errno.h>
#include <fcntl.h>
#include <fnmatch.h>
#include <stdio.h>
#include <stdlib.h>
#include <string.h>
#include <sys/stat.h>
#include <unistd.h>

#include "allocation.h"
#include "files.h"
#include "interrupts.h"
#include "mutex_question.h"
#include "prepare.h"
#include "settings_file.h"
#include "show.h"
#include "usage.h"
#include "version.h"

enum { STATUS_ENOUGH = 1 << 16 };

/* What is looked at. */
struct view {
    const char *target;
    bool is_process;
    char *folder;
    char **file;
    size_t files, room;
};

static bool is_folder(const char *path)
{
    struct stat found;
    return stat(path, &found) == 0 && S_ISDIR(found.st_mode);
}

/* The folder of the file, if that is the status of a recording or a stream of the process; else NULL. */
static char *folder_by(const char *path, const char *process)
{
    char *folder = file_folder(path);
    const char *name = file_base(path), *drawn = file_base(folder);
    size_t length = strlen(process);
    if (strncmp(name, "status", 6) == 0 && strncmp(drawn, "records.", 8) == 0
        && drawn[8 + strspn(drawn + 8, "0123456789abcdef")] == '\0')
        return folder;
    if (strncmp(name, process, length) == 0 && fnmatch(".[0-9]*", name + length, 0) == 0)
        return folder;
    free(folder);
    return NULL;
}

/*
 * The folder of the recorder's files that the process has mapped, as the kernel tells: what was begun by `record` has a
 * folder of a certain name, and its own number is the name of its stream.
 */
static char *mapped_by(const char *process)
{
    char *path = say_text("/proc/%s/maps", process), *line = NULL, *folder = NULL;
    size_t room = 0;
    FILE *maps = fopen(path, "re");
    free(path);
    while (maps && !folder && getline(&line, &room, maps) > 0) {
        char *name = strchr(line, '/');
        const char *rights = strchr(line, ' ');
        line[strcspn(line, "\n")] = '\0';
        if (name && rights && strncmp(rights, " rw-s ", 6) == 0)
            folder = folder_by(name, process);
    }
    free(line);
    if (maps)
        fclose(maps);
    return folder;
}

/* Why can't be said by the user alone: root may lack the right, and a process may keep to itself what is its user's. */
static _Noreturn void refuse_unreadable(const char *process)
{
    int why = errno;
    struct stat found;
    char *path = say_text("/proc/%s", process);
    if (geteuid() != 0 && stat(path, &found) == 0 && found.st_uid != geteuid())
        refuse_target("process %s is another user's: only he and root can look at it", process);
    refuse_target("process %s can't be looked at: %s", process, strerror(why));
}

/* The folder that the process was begun with. */
static char *begun_with(const char *process)
{
    static const char name[] = "RECORDER_DIRECTORY=";
    char *path = say_text("/proc/%s/environ", process), *word = NULL, *folder = NULL;
    size_t room = 0;
    FILE *environment = fopen(path, "re");
    free(path);
    if (!environment)
        refuse_unreadable(process);
    while (!folder && getdelim(&word, &room, '\0', environment) > 0)
        if (strncmp(word, name, sizeof name - 1) == 0 && word[sizeof name - 1])
            folder = copy(word + sizeof name - 1);
    free(word);
    fclose(environment);
    return folder;
}

/* The folder that the process writes to: the one of which it has files, else the one that it was begun with. */
static char *folder_of(const char *process)
{
    char *path = say_text("/proc/%s", process);
    if (!is_folder(path))
        refuse_target("there is no process %s", process);
    free(path);
    char *folder = mapped_by(process);
    if (!folder)
        folder = begun_with(process);
    if (!folder)
        refuse_target("process %s isn't recorded", process);
    if (!is_folder(folder))
        refuse_target("the recording of process %s isn't there any more", process);
    return folder;
}

/* All files of the folder whose names match the pattern. */
static void add_files(struct view *view, const char *pattern)
{
    struct dirent **found;
    int count = scandir(view->folder, &found, NULL, alphasort);
    for (int i = 0; i < count; i++) {
        if (fnmatch(pattern, found[i]->d_name, 0) == 0)
            ADD(view->file, view->files, view->room) = say_text("%s/%s", view->folder, found[i]->d_name);
        free(found[i]);
    }
    if (count >= 0)
        free(found);
}

static void find_files(struct view *view)
{
    static const char digits[] = "0123456789";
    const char *target = view->target;
    view->is_process = target[strspn(target, digits)] == '\0';
    if (view->is_process) {
        char *own = say_text("%s.*", target);
        view->folder = folder_of(target);
        add_files(view, own);
        free(own);
        /* `record` itself, a shell before it or a program that has left its files to others: all of them. */
        if (view->files == 0)
            add_files(view, "[0-9]*");
    } else if (is_folder(target)) {
        view->folder = copy(target);
        add_files(view, "[0-9]*");
    } else {
        if (access(target, F_OK) != 0)
            refuse_target("%s isn't there", target);
        view->folder = file_folder(target);
        ADD(view->file, view->files, view->room) = copy(target);
    }
    if (view->files == 0 || access(view->file[0], R_OK) != 0)
        refuse_target("nothing of %s can be read", target);
}

/* Of the bytes, those that are written and in whole lines. A last line that no zero follows may go on. */
static size_t whole_lines(const char *bytes, size_t length)
{
    const char *end = memchr(bytes, '\0', length);
    size_t written = end ? (size_t)(end - bytes) : length;
    if (!end && written > 0)
        written--;
    const char *last = memrchr(bytes, '\n', written);
    return last ? (size_t)(last - bytes) + 1 : 0;
}

/* Reads all up to the first zero, and something of the zeroes. The process writes on meanwhile. */
static char *read_written(const char *path, size_t *length)
{
    enum { PIECE = 1 << 16 };
    size_t room = PIECE;
    char *bytes = take(room);
    ssize_t got = 1;
    int file = open(path, O_RDONLY | O_CLOEXEC);
    *length = 0;
    while (file >= 0 && got > 0 && !(*length > 0 && memchr(bytes + *length - got, '\0', (size_t)got))) {
        if (room - *length < PIECE)
            bytes = grow(bytes, room = 2 * room + PIECE, 1);
        got = read(file, bytes + *length, PIECE);
        *length += got > 0 ? (size_t)got : 0;
    }
    if (file >= 0)
        close(file);
    return bytes;
}

static void write_file(const char *path, const char *bytes, size_t length)
{
    FILE *file = fopen(path, "we");
    bool whole = file && fwrite(bytes, 1, length, file) == length;
    if (!file || fclose(file) != 0 || !whole)
        fail_for_room();
}

/* Whether anything is told there by now. */
static bool copy_file(const char *path, const char *records)
{
    size_t length;
    char *bytes = read_written(path, &length), *to = say_text("%s/%s", records, file_base(path));
    version_check(path, bytes, length);
    length = whole_lines(bytes, length);
    write_file(to, bytes, length);
    free(bytes);
    free(to);
    return length > 0;
}

/* What another user's processes couldn't write isn't known here: then the status is one of nothing. */
static void copy_status(const char *folder, const char *records)
{
    char *from = say_text("%s/status", folder), *to = say_text("%s/status", records);
    char *bytes = NULL;
    size_t room = 0;
    FILE *file = fopen(from, "re");
    ssize_t length = file ? getdelim(&bytes, &room, EOF, file) : -1;
    if (file)
        fclose(file);
    if (length > 0)
        write_file(to, bytes, (size_t)length);
    else if (!file_fill(to, file ? 0 : STATUS_ENOUGH))
        fail_for_room();
    free(bytes);
    free(from);
    free(to);
}

/* A copy of what there is, that changes no more. */
static char *copy_view(struct view *view, const char *work)
{
    char *records = say_text("%s/records", work), *started = say_text("%s/started", records);
    bool is_told = false;
    if (mkdir(records, 0700) != 0)
        fail_for_room();
    write_file(started, "", 0);
    free(started);
    if (view->is_process)
        ask(view->file, view->files);
    for (size_t i = 0; i < view->files; i++)
        if (fnmatch("*.trace", view->file[i], 0) != 0)
            is_told |= copy_file(view->file[i], records);
    if (view->is_process)
        ask_no_more(view->file, view->files);
    else if (!is_told)
        refuse_target("there is nothing of a recorder in %s", view->target);
    copy_status(view->folder, records);
    return records;
}

int look(struct options *options, const char *work)
{
    struct settings *settings = &options->settings;
    struct ending running = {.how = HOW_RUNNING};
    struct view view = {.target = options->target};
    find_files(&view);
    char *records = copy_view(&view, work);
    kept_read(settings, view.folder);
    if (*settings->program == '\0')
        settings->program = view.target;
    if (view.is_process)
        running.process = (pid_t)strtol(view.target, NULL, 10);
    if (!kept_write(settings, work))
        fail_for_room();
    interrupts_leave();
    prepare_hands_over();
    for (size_t i = 0; i < view.files; i++)
        free(view.file[i]);
    free(view.file);
    free(view.folder);
    int status = show_ends(show_begins(settings, work, records), &running);
    free(records);
    return status;
}
