#include "survivors.h"

#include <ctype.h>
#include <dirent.h>
#include <stdio.h>
#include <stdlib.h>
#include <string.h>
#include <unistd.h>

#include "allocation.h"
#include "texts.h"

enum { TOLD_MOST = 8 };

/* What the process has mapped; NULL where that can't be read. */
static FILE *maps_of(long process)
{
    char path[64];
    snprintf(path, sizeof path, "/proc/%ld/maps", process);
    return fopen(path, "re");
}

static bool has_mapped(long process, const char *folder)
{
    char *line = NULL;
    size_t room = 0;
    bool found = false;
    FILE *maps = maps_of(process);
    while (maps && !found && getline(&line, &room, maps) >= 0)
        found = strstr(line, folder) != NULL;
    if (maps)
        fclose(maps);
    free(line);
    return found;
}

/* Those that have files of the recording mapped. */
static void add_mapping(struct run *run)
{
    const char *slash = strrchr(run->records, '/');
    char *folder = say_text("/%s/", slash ? slash + 1 : run->records);
    DIR *processes = opendir("/proc");
    struct dirent *entry;
    while (processes && (entry = readdir(processes)) != NULL) {
        long process = isdigit((unsigned char)*entry->d_name) ? strtol(entry->d_name, NULL, 10) : 0;
        if (process > 0 && has_mapped(process, folder))
            ADD(run->going, run->goings, run->going_room) = process;
    }
    if (processes)
        closedir(processes);
    free(folder);
}

/* What a process keeps to itself can't be read: then it is one that was recorded. */
static void add_hidden(struct run *run)
{
    for (size_t i = 0; i < run->status.loads; i++) {
        long process = run->status.loaded[i];
        char path[64];
        snprintf(path, sizeof path, "/proc/%ld", process);
        FILE *maps = maps_of(process);
        if (maps)
            fclose(maps);
        else if (access(path, F_OK) == 0)
            ADD(run->going, run->goings, run->going_room) = process;
    }
}

static int compare_numbers(const void *one, const void *other)
{
    long first = *(const long *)one, second = *(const long *)other;
    return (first > second) - (first < second);
}

static void sort_numbers(long *number, size_t *count)
{
    size_t kept = 0;
    if (*count > 0)
        qsort(number, *count, sizeof *number, compare_numbers);
    for (size_t i = 0; i < *count; i++)
        if (kept == 0 || number[kept - 1] != number[i])
            number[kept++] = number[i];
    *count = kept;
}

/* Whether what was left goes on still: then it is a child of this process. Where the kernel doesn't tell, it may. */
static bool has_children(void)
{
    char path[64];
    snprintf(path, sizeof path, "/proc/%d/task/%d/children", (int)getpid(), (int)getpid());
    FILE *children = fopen(path, "re");
    int first = children ? getc(children) : '?';
    if (children)
        fclose(children);
    return first != EOF;
}

void find_going(struct run *run)
{
    run->left = run->ending->left;
    if (!run->left)
        return;
    add_mapping(run);
    add_hidden(run);
    sort_numbers(run->going, &run->goings);
    if (run->goings == 0 && !has_children())
        run->left = false;
}

char *task_name(long process, long thread)
{
    char name[64] = "";
    char *path = say_text("/proc/%ld/task/%ld/comm", process, thread);
    FILE *from = fopen(path, "re");
    free(path);
    if (!from)
        return NULL;
    if (!fgets(name, sizeof name, from))
        name[0] = '\0';
    fclose(from);
    name[strcspn(name, "\n")] = '\0';
    return copy(name);
}

void tell_going(struct run *run)
{
    if (run->goings == 0) {
        if (run->left) {
            run->partly = true;
            say(&run->output, "what goes on now isn't recorded");
        }
        return;
    }
    keep_recording(run);
    for (size_t i = 0; i < run->goings && i < TOLD_MOST; i++) {
        char *name = task_name(run->going[i], run->going[i]);
        say(&run->output, "%s (process %ld) goes on: record --show %ld tells of it", name ? name : "", run->going[i],
            run->going[i]);
        free(name);
    }
    if (run->goings > TOLD_MOST)
        say(&run->output, "%zu more processes go on", run->goings - TOLD_MOST);
}

struct objects {
    char **name;
    size_t count, room;
};

/* The files from which the process runs code: it may have opened others since it was looked at. */
static void add_mapped(struct objects *objects, long process)
{
    char *line = NULL;
    size_t room = 0;
    FILE *maps = maps_of(process);
    while (maps && getline(&line, &room, maps) >= 0) {
        char *rights = strchr(line, ' '), *path = rights ? strchr(rights, '/') : NULL;
        line[strcspn(line, "\n")] = '\0';
        if (path && strncmp(rights, " r-x", 4) == 0)
            ADD(objects->name, objects->count, objects->room) = copy(path);
    }
    if (maps)
        fclose(maps);
    free(line);
}

char **objects_of_run(const struct run *run, size_t *count)
{
    struct objects objects = {0};
    size_t kept = 0;
    for (size_t i = 0; i < run->status.objects; i++)
        ADD(objects.name, objects.count, objects.room) = copy(run->status.object[i]);
    for (size_t i = 0; i < run->goings; i++)
        add_mapped(&objects, run->going[i]);
    if (run->ending->how == HOW_RUNNING)
        add_mapped(&objects, run->ending->process);
    if (objects.count > 0)
        qsort(objects.name, objects.count, sizeof *objects.name, compare_texts);
    for (size_t i = 0; i < objects.count; i++) {
        if (kept > 0 && strcmp(objects.name[kept - 1], objects.name[i]) == 0)
            free(objects.name[i]);
        else
            objects.name[kept++] = objects.name[i];
    }
    *count = kept;
    return objects.name;
}
