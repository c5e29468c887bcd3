#include "thread_locks.h"

#include <stdlib.h>

#include "allocation.h"
#include "place_words.h"
#include "survivors.h"
#include "thread_label.h"

/* What is told of each seat, and which locks that names. */
struct scene {
    struct process *process;
    char *text[SEATS_MOST + 1]; /* NULL where there is nothing */
    const char **name;
    size_t names, room;
};

/* A line of the seat. The first one says which thread it is. What is told there is let go. */
static void add(struct scene *scene, unsigned seat, char *what, size_t spot)
{
    const struct notes *notes = &scene->process->notes;
    char *before = scene->text[seat];
    char *label = thread_label(before ? NULL : notes_thread(notes, seat, notes->events));
    char *told = place_told(notes_site(notes, spot));
    scene->text[seat] = say_text("%s seat %u%s %s %s\n", before ? before : "", seat, label, what, told);
    free(told);
    free(label);
    free(before);
    free(what);
}

/* What the seat holds, newest first, and what it asks for. */
static void add_seat(struct scene *scene, unsigned number)
{
    const struct notes *notes = &scene->process->notes;
    const struct seat *seat = &scene->process->state.seat[number];
    for (size_t i = seat->count; i > 0; i--) {
        const struct holding *held = &seat->held[i - 1];
        const char *name = notes_lock(notes, held->lock)->name;
        ADD(scene->name, scene->names, scene->room) = copy(name);
        add(scene, number, say_text("holds \"%s\"%s", name, held->shared ? " (shared)" : ""), held->spot);
    }
    if (seat->asked)
        add(scene, number, say_text("waits for \"%s\"", notes_lock(notes, seat->asked)->name), seat->asked_at);
}

/*
 * What the program has answered of mutexes, as far as the trace doesn't have it and the thread is one of the process: after
 * a fork a mutex may be held by one of the parent.
 */
static void write_answer(FILE *to, const struct scene *scene)
{
    const struct notes *notes = &scene->process->notes;
    size_t from = 0;
    for (size_t i = 0; i < notes->events; i++)
        if (notes->event[i].kind == EVENT_ANSWER)
            from = i;
    for (size_t i = from; i < notes->events; i++) {
        const struct event *holder = &notes->event[i];
        const char *name = holder->name ? holder->name : "";
        if (holder->kind != EVENT_HOLDER || has_text(scene->name, scene->names, name))
            continue;
        char *task = task_name(scene->process->recording->process, holder->thread);
        if (task)
            fprintf(to, " thread %ld (%s) holds \"%s\"\n", holder->thread, task, name);
        free(task);
    }
}

static void end_scene(struct scene *scene)
{
    for (size_t i = 0; i <= SEATS_MOST; i++)
        free(scene->text[i]);
    for (size_t i = 0; i < scene->names; i++)
        free((char *)scene->name[i]);
    free(scene->name);
    free(scene);
}

static void tell_scene(const struct scene *scene)
{
    static const char head[] = "held now:\n";
    const struct process *process = scene->process;
    char *text = NULL;
    size_t length = 0;
    FILE *to = open_memstream(&text, &length);
    if (!to)
        return;
    fputs(head, to);
    for (size_t i = 0; i <= SEATS_MOST; i++)
        if (scene->text[i])
            fputs(scene->text[i], to);
    if (process->stream.answered)
        write_answer(to, scene);
    fclose(to);
    if (length > sizeof head - 1)
        tell(&process->run->output, text, length);
    free(text);
}

void tell_held(struct process *process)
{
    if (process->run->ending->how != HOW_RUNNING || !process->state.is_whole)
        return;
    struct scene *scene = take(sizeof *scene);
    scene->process = process;
    for (unsigned seat = 1; seat <= SEATS_MOST; seat++)
        add_seat(scene, seat);
    tell_scene(scene);
    end_scene(scene);
    if (!process->stream.answered)
        say(&process->run->output,
            "%s: no thread asked for a lock meanwhile, so of what is held only what the trace has is told",
            process->name);
}
