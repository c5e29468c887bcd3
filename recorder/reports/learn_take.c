#include "learn.h"

#include <stdlib.h>
#include <string.h>

#include "allocation.h"
#include "order_place.h"
#include "texts.h"

/* A process, and what is known of it by now. */
struct taking {
    const struct process *process;
    struct learning *learning;
    const char **type; /* by locks: CLASS "NAME" of the type, NULL where no name lasts */
    struct map named;  /* by classes and types: the number of the first lock, from 1 on */
    char *run;         /* what the run is called */
};

/* The build of one of these objects isn't known. */
static bool has_unknown(const char *builds)
{
    for (const char *at = builds; at; at = strchr(at, '+'), at = at ? at + 1 : NULL)
        if (*at == '-')
            return true;
    return !builds;
}

/* The type's name that lasts, with the name of the program's own object that the user wants: a text of one's own. */
static char *lasting_name(const struct taking *taking, const char *name)
{
    const char *wanted = taking->process->run->settings.program_name, *own = taking->process->name;
    size_t length = strlen(own);
    if (is_asked(wanted) && strncmp(name, own, length) == 0 && name[length] == ':')
        return say_text("%s%s", wanted, name + length);
    return copy(name);
}

/* The lock's type by its name that lasts; by that and its build, where it lasts no longer than the build. */
static const char *type_of(struct taking *taking, const struct lock_name *lock)
{
    const struct alias *alias = notes_alias(&taking->process->notes, lock->type);
    const struct lasting *lasting = alias ? &alias->lasting : NULL;
    if (!lasting || !lasting->name || (!lasting->lasts && has_unknown(lasting->build_id)))
        return NULL;
    char *name = lasting_name(taking, lasting->name);
    const char *build = lasting->lasts ? "" : lasting->build_id;
    const char *type = texts_say(taking->learning->met.texts, *build ? "%s \"%s (build %s)\"" : "%s \"%s%s\"",
        lock->class, name, build);
    free(name);
    return type;
}

/* Gives all locks their types. */
static void type_locks(struct taking *taking)
{
    const struct notes *notes = &taking->process->notes;
    taking->type = take((notes->locks + 1) * sizeof *taking->type);
    for (size_t i = 0; i < notes->locks; i++) {
        char *word = say_text("%s %s", notes->lock[i].class, notes->lock[i].type);
        size_t *first = map_add_text(&taking->named, word);
        taking->type[i] = *first ? taking->type[*first - 1] : type_of(taking, &notes->lock[i]);
        if (*first == 0)
            *first = i + 1;
        free(word);
    }
}

/* Either order of the locks' types is allowed. */
static bool is_allowed(const struct taking *taking, unsigned held, unsigned asked)
{
    const struct notes *notes = &taking->process->notes;
    const char *one = notes->lock[held - 1].type, *other = notes->lock[asked - 1].type;
    return strcmp(one, other) != 0 && why_ignored(&notes->ignored, one, other) != NOT_IGNORED;
}

/* The order as a file has it; without its origin where there is no room for that. NULL where no file can have it. */
static struct run_order *add_line(const struct taking *taking, const char *key, const char *asked, const char *held)
{
    struct run_orders *met = &taking->learning->met;
    char *line = say_text("%s\t# %s while %s, %s", key, asked, held, taking->run);
    struct run_order *order = run_orders_add(met, line);
    free(line);
    return order ? order : run_orders_add(met, key);
}

static void add_order(struct taking *taking, const char *key, size_t held_at, size_t asked_at)
{
    struct learning *learning = taking->learning;
    const struct notes *notes = &taking->process->notes;
    char *asked = order_place(notes, asked_at, false), *held = order_place(notes, held_at, false);
    struct run_order *order = add_line(taking, key, asked, held);
    if (order) {
        struct here asked_here = here_of(notes, asked_at), held_here = here_of(notes, held_at);
        run_orders_note_here(&learning->met, order, asked_here, held_here);
        here_end(&asked_here);
        here_end(&held_here);
    } else {
        learning->long_names++;
    }
    free(asked);
    free(held);
}

static void note_nameless(struct taking *taking, unsigned lock)
{
    if (!taking->type[lock - 1])
        *map_add_text(&taking->learning->nameless, taking->process->notes.lock[lock - 1].type) = 1;
}

static bool is_known(const struct taking *taking, unsigned lock)
{
    return lock > 0 && lock <= taking->process->notes.locks;
}

/* The order of two types; NULL where one has no name, or they are one. */
static char *key_of(const char *from, const char *to)
{
    return from && to && strcmp(from, to) != 0 ? say_text("%s > %s", from, to) : NULL;
}

static void take_pair(struct taking *taking, const struct lock_pair *pair)
{
    if (!is_known(taking, pair->held) || !is_known(taking, pair->asked) || is_allowed(taking, pair->held, pair->asked))
        return;
    note_nameless(taking, pair->held);
    note_nameless(taking, pair->asked);
    char *key = key_of(taking->type[pair->held - 1], taking->type[pair->asked - 1]);
    if (key && !run_orders_find(&taking->learning->met, key))
        add_order(taking, key, pair->held_at, pair->asked_at);
    free(key);
}

/* The type that has the name; NULL where there is none. */
static const char *type_called(const struct taking *taking, const char *name)
{
    const struct notes *notes = &taking->process->notes;
    for (size_t i = 0; name && i < notes->locks; i++)
        if (strcmp(notes->lock[i].type, name) == 0)
            return taking->type[i];
    return NULL;
}

/* What the run itself reports needn't be told again. */
static void note_reports(struct taking *taking)
{
    const struct reports *reports = &taking->process->reports;
    for (size_t i = 0; i < reports->count; i++) {
        const struct report *report = &reports->report[i];
        if (report->kind != REPORT_REVERSAL || report->first == 0)
            continue;
        char *key = key_of(type_called(taking, report->line[report->first].type),
            type_called(taking, report->line[report->last].type));
        struct run_order *order = key ? run_orders_find(&taking->learning->met, key) : NULL;
        if (order)
            order->is_told = true;
        free(key);
    }
}

static char *run_name(const struct process *process)
{
    const char *named = process->run->settings.run_name;
    char *name = plain_text(copy(is_asked(named) ? named : process->name));
    for (char *at = name; *at; at++)
        if (*at == ',')
            *at = '_';
    return name;
}

void learn_take(struct process *process)
{
    struct run *run = process->run;
    if (!learn_is_wanted(&run->settings))
        return;
    if (!run->learning)
        run->learning = take(sizeof *run->learning);
    if (!run->learning->met.texts)
        run->learning->met.texts = texts_new();
    struct taking taking = {.process = process, .learning = run->learning};
    const struct lock_pairs *pairs = &process->notes.pairs;
    taking.run = run_name(process);
    type_locks(&taking);
    for (size_t i = 0; i < pairs->count; i++)
        take_pair(&taking, &pairs->pair[i]);
    note_reports(&taking);
    free(taking.run);
    free(taking.type);
    map_end(&taking.named);
}
