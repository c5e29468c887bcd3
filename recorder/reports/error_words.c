#include "error_words.h"

#include "place_words.h"

#include <stdlib.h>
#include <string.h>

/* What is said of each before the lock's name. The place is that of the call, or where the lock was taken. */
static const struct {
    const char *word, *text;
} texts[] = {
    {"ended", "a thread ended that held a lock, taken here:"},
    {"destroyed", "a lock was destroyed while it was held:"},
    {"freed", "the memory of a lock was freed while it was held, taken here:"},
    {"remade", "a lock was made anew while it was held:"},
    {"waited", "a condition was waited for without its mutex:"},
    {"reread", "a lock was read again by a thread that read it, and a writer that waits in between stops both:"},
};

const char *error_text(const struct event *event)
{
    for (size_t at = 0; event->kind == EVENT_ERROR && at < sizeof texts / sizeof *texts; at++)
        if (strcmp(event->what, texts[at].word) == 0)
            return texts[at].text;
    return NULL;
}

void tell_errors(struct process *process)
{
    struct run *run = process->run;
    for (size_t i = 0; i < process->notes.events && !run->settings.no_errors; i++) {
        const struct event *event = &process->notes.event[i];
        const char *text = error_text(event);
        if (!text)
            continue;
        run->errors++;
        char *place = place_told(event->site);
        char *lock = lock_told_at(&process->notes, event->name ? event->name : "", event->site ? event->site : "");
        say(&run->output, "%s: %s %s %s", process->name, text, lock, place);
        free(lock);
        free(place);
    }
}
