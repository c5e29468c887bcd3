#include "prepare.h"

#include <fcntl.h>
#include <stdint.h>
#include <stdio.h>
#include <stdlib.h>
#include <string.h>
#include <sys/mman.h>
#include <sys/random.h>
#include <sys/resource.h>
#include <sys/stat.h>
#include <unistd.h>

#include "allocation.h"
#include "files.h"
#include "format.h"
#include "ignore_file.h"
#include "learn.h"
#include "output.h"
#include "output_files.h"
#include "right_orders.h"
#include "steering_plan.h"
#include "usage.h"
#include "work_folder.h"

/* The reserve is what replaying needs where the recording fills the disk. */
enum { RESERVE_BYTES = 1 << 18, MAPPED_BYTES = 4096, LOT = 12 };

static const char *removed; /* when `record` ends */
static void *mapped = MAP_FAILED;

static void check_ignore(const char *path)
{
    struct stat found;
    struct ignore_file ignore = {.is_unread = true};
    unsigned long bad = 0;
    if (stat(path, &found) == 0 && S_ISREG(found.st_mode))
        bad = ignore_file_read(&ignore, path);
    if (ignore.is_unread)
        refuse("%s can't be read", path);
    if (bad)
        refuse("%s: line %lu isn't \"TYPE\" or \"TYPE\" \"TYPE\"", path, bad);
    ignore_file_end(&ignore);
}

static void check_right(const char *path)
{
    struct right_orders right = {0};
    size_t bad = right_orders_read(&right, path);
    right_orders_end(&right);
    if (bad)
        refuse("%s: line %zu isn't OBJECT \"FUNCTION\" \"FUNCTION\" in \"FUNCTION\"", path, bad);
    if (access(path, R_OK) != 0)
        refuse("%s can't be read", path);
}

void prepare_files(const struct settings *settings)
{
    if (is_asked(settings->ignore))
        check_ignore(settings->ignore);
    if (is_asked(settings->right) && strcmp(settings->right, "-") != 0)
        check_right(settings->right);
    if (is_asked(settings->keep))
        written_check(settings->keep);
    if (is_asked(settings->graph))
        written_check(settings->graph);
    if (is_asked(settings->html))
        written_check(settings->html);
    if (is_asked(settings->sarif))
        written_check(settings->sarif);
    if (is_asked(settings->json))
        written_check(settings->json);
    if (learn_is_wanted(settings))
        learn_check(settings);
    if (is_asked(settings->log)) {
        char *name = output_name(settings->log, getpid());
        written_check(name);
        free(name);
    }
}

static void remove_work(void)
{
    if (removed)
        folder_remove(removed);
}

void prepare_removes(const char *work)
{
    removed = work;
    atexit(remove_work);
}

void prepare_hands_over(void)
{
    removed = NULL;
}

void fail_for_room(void)
{
    fail("there is no room for a recording in %s", file_temporary());
}

char *prepare_work(void)
{
    char *work = say_text("%s/tmp.XXXXXX", file_temporary());
    char *whole = mkdtemp(work) ? realpath(work, NULL) : NULL;
    free(work);
    if (!whole)
        fail_for_room();
    prepare_removes(whole);
    return whole;
}

static void map_status(const char *path)
{
    int file = open(path, O_RDWR | O_CREAT | O_CLOEXEC, 0666);
    if (file < 0)
        return;
    mapped = mmap(NULL, MAPPED_BYTES, PROT_READ | PROT_WRITE, MAP_SHARED, file, 0);
    close(file);
}

void prepare_lets_go(void)
{
    if (mapped != MAP_FAILED)
        munmap(mapped, MAPPED_BYTES);
    mapped = MAP_FAILED;
}

/* Here processes count what they can't write: the room is taken now. Without it, it's told that not all is known. */
static const char *take_status(const char *records)
{
    struct rlimit limit;
    char *path = say_text("%s/status", records);
    const char *little = NULL;
    map_status(path);
    if (!file_fill(path, STATUS_BYTES) || chmod(path, 0666) != 0) {
        little = "a full disk";
        if (getrlimit(RLIMIT_FSIZE, &limit) == 0 && limit.rlim_cur < STATUS_BYTES)
            little = "a limit on the size of files";
        /* What is mapped would keep its room. */
        if (truncate(path, 0) == 0)
            unlink(path);
    }
    free(path);
    return little;
}

static void take_reserve(const char *work)
{
    char *path = say_text("%s/reserve", work);
    if (!file_fill(path, RESERVE_BYTES))
        unlink(path);
    free(path);
}

/* Programs that change their user write their files there too; nobody else finds its name. */
char *prepare_records(struct settings *settings, const char *work)
{
    unsigned char lot[LOT];
    char *records = say_text("%s/records.%*s", work, 2 * LOT, "");
    char *at = records + strlen(records) - 2 * LOT;
    if (getrandom(lot, sizeof lot, 0) != (ssize_t)sizeof lot)
        fail_for_room();
    for (size_t i = 0; i < LOT; i++, at += 2) {
        at[0] = "0123456789abcdef"[lot[i] >> 4];
        at[1] = "0123456789abcdef"[lot[i] & 15];
    }
    if (mkdir(records, 0700) != 0 || chmod(records, 01733) != 0 || chmod(work, 0711) != 0)
        fail_for_room();
    settings->little = take_status(records);
    take_reserve(work);
    return records;
}

void prepare_environment(const struct options *options, const char *records)
{
    char depth[16], frames[16];
    snprintf(depth, sizeof depth, "%d", options->depth);
    snprintf(frames, sizeof frames, "%d", options->settings.frames);
    setenv("RECORDER_DIRECTORY", records, 1);
    setenv("RECORDER_DEPTH", depth, 1);
    setenv("RECORDER_FRAMES", frames, 1);
    setenv("RECORDER_SKIP", options->settings.skip ? options->settings.skip : "", 1);
    unsetenv("RECORDER_HELD");
    unsetenv("RECORDER_SEMAPHORES");
    unsetenv("RECORDER_BLOCKS");
    unsetenv("RECORDER_PLAN");
    if (options->held)
        setenv("RECORDER_HELD", "1", 1);
    if (options->semaphores)
        setenv("RECORDER_SEMAPHORES", "1", 1);
    if (options->blocks)
        setenv("RECORDER_BLOCKS", "1", 1);
}

void prepare_noise(const struct options *options, const char *records)
{
    struct plan plan = plan_of_noise((uint32_t)options->settings.noise);
    char *path = say_text("%s/plan", records);
    if (!plan_write(&plan, path))
        fail_for_room();
    setenv("RECORDER_PLAN", path, 1);
    free(path);
}
