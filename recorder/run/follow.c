#include "follow.h"

#include <fcntl.h>
#include <stdlib.h>
#include <string.h>
#include <unistd.h>

#include "allocation.h"
#include "clock.h"
#include "deadlock_watch.h"
#include "live_verdict.h"
#include "replay.h"
#include "tell_process.h"
#include "version.h"

/*
 * So many processes have a verifier that goes on. A stream without one is read from its beginning each time: one of more bytes
 * is left until the end. So many times as long as a look took nothing is looked at, at most so many microseconds where
 * nothing was read twice.
 */
enum { GOING_MOST = 8, BYTES_MOST = 1 << 25, PAUSE = 4, PAUSE_MOST = 20000 };

/* A report that was told, and what was said of its single locks. */
struct told_report {
    char *text, *alarm;
};

/* How far a stream was read. */
struct followed {
    char *name, *program;
    size_t length;
    struct told_report *told;
    size_t tolds, told_room;
    struct deadlock deadlock;
    struct live_verdict *going; /* it stays where it is: it is written to */
};

static struct followed *followed_of(struct run *run, const char *name)
{
    for (size_t i = 0; i < run->followeds; i++)
        if (strcmp(run->followed[i].name, name) == 0)
            return &run->followed[i];
    ADD(run->followed, run->followeds, run->followed_room) =
        (struct followed){.name = copy(name), .going = take(sizeof(struct live_verdict))};
    return &run->followed[run->followeds - 1];
}

static const struct followed *known(const struct run *run, const char *name)
{
    static const struct followed nothing;
    for (size_t i = 0; i < run->followeds; i++)
        if (strcmp(run->followed[i].name, name) == 0)
            return &run->followed[i];
    return &nothing;
}

void follow_keeps(struct run *run, const char *recording, char *report, char *alarm)
{
    struct followed *followed = followed_of(run, recording);
    ADD(followed->told, followed->tolds, followed->told_room) = (struct told_report){report, alarm};
}

const char *follow_alarm(const struct run *run, const char *recording, const char *report)
{
    const struct followed *followed = known(run, recording);
    for (size_t i = 0; i < followed->tolds; i++)
        if (strcmp(followed->told[i].text, report) == 0)
            return followed->told[i].alarm;
    return NULL;
}

void follow_end(struct run *run)
{
    for (size_t i = 0; i < run->followeds; i++) {
        for (size_t at = 0; at < run->followed[i].tolds; at++) {
            free(run->followed[i].told[at].text);
            free(run->followed[i].told[at].alarm);
        }
        deadlock_end(&run->followed[i].deadlock);
        going_leaves(run->followed[i].going);
        free(run->followed[i].going);
        free(run->followed[i].told);
        free(run->followed[i].name);
        free(run->followed[i].program);
    }
    free(run->followed);
}

/* Whether a byte stands there that wasn't there when the stream was read last. */
static bool has_grown(const char *path, size_t length)
{
    char byte = 0;
    int file = open(path, O_RDONLY | O_NONBLOCK | O_CLOEXEC);
    if (file < 0)
        return false;
    bool is_there = pread(file, &byte, 1, (off_t)length) == 1 && byte != 0;
    close(file);
    return is_there;
}

/* Tells what the stream has by now. */
static void tell_of(struct process *process, struct followed *followed)
{
    followed->length = process->stream.before + process->stream.length;
    process->name = followed->program ? followed->program : "";
    replay(process);
    if (!process->run->watched)
        tell_new_reports(process);
    deadlock_look(process, &followed->deadlock, microseconds());
    process_end(process);
}

/* The lines that weren't read, where the verifier goes on, else all. */
static bool open_stream(struct process *process, struct followed *followed, const char *path)
{
    if (followed->going->verifier.is_begun)
        return stream_open_after(&process->stream, path, followed->length, true);
    if (stream_room(path) > BYTES_MOST || !stream_open(&process->stream, path, true))
        return false;
    if (!followed->program)
        followed->program = copy(process->stream.program);
    if (version_is_own(process->stream.bytes, process->stream.length))
        return true;
    stream_close(&process->stream);
    return false;
}

static void read_stream(struct run *run, const struct recording *recording, struct followed *followed)
{
    struct process process = {.run = run, .recording = recording, .is_followed = true};
    char *path = say_text("%s/%s", run->records, recording->name);
    bool is_due = deadlock_is_due(&followed->deadlock, microseconds());
    if ((is_due || has_grown(path, followed->length)) && open_stream(&process, followed, path)) {
        if (is_due || process.stream.before + process.stream.length > followed->length)
            tell_of(&process, followed);
        stream_close(&process.stream);
    }
    free(path);
}

struct live_verdict *follow_verdict(struct run *run, const struct process *process)
{
    size_t going = 0;
    struct followed *mine = NULL;
    for (size_t i = 0; i < run->followeds; i++) {
        going += run->followed[i].going->verifier.is_begun;
        if (strcmp(run->followed[i].name, process->recording->name) == 0)
            mine = &run->followed[i];
    }
    return mine && (mine->going->verifier.is_begun || (process->is_followed && going < GOING_MOST)) ? mine->going : NULL;
}

/* The verifier of the stream ends with what there is of it. */
static void stop(struct run *run, const struct recording *recording, struct followed *followed)
{
    struct process process = {.run = run, .recording = recording, .is_followed = true, .is_last_look = true};
    char *path = say_text("%s/%s", run->records, recording->name);
    if (stream_open_after(&process.stream, path, followed->length, true)) {
        replay(&process);
        process_end(&process);
        stream_close(&process.stream);
    } else {
        going_leaves(followed->going);
    }
    free(path);
}

/* What goes on after this was begun by the program. */
void follow_stops(struct run *run)
{
    find_recordings(run);
    for (size_t i = 0; i < run->recordings; i++) {
        struct followed *followed = followed_of(run, run->recording[i].name);
        if (followed->going->verifier.is_begun)
            stop(run, &run->recording[i], followed);
    }
    forget_recordings(run);
    answers_stop(&run->answers);
}

void follow(struct run *run)
{
    long long begun = microseconds(), anew = 0;
    if (begun < run->follow_next)
        return;
    find_recordings(run);
    for (size_t i = 0; i < run->recordings; i++) {
        struct followed *followed = followed_of(run, run->recording[i].name);
        long long before = microseconds();
        read_stream(run, &run->recording[i], followed);
        anew += followed->going->verifier.is_begun ? 0 : microseconds() - before;
    }
    forget_recordings(run);
    long long now = microseconds(), pause = PAUSE * (now - begun - anew);
    run->follow_next = now + PAUSE * anew + (pause < PAUSE_MOST ? pause : PAUSE_MOST);
}
