#include "thread_label.h"

#include <stdlib.h>

#include "allocation.h"
#include "place_words.h"

char *thread_name(const struct event *thread)
{
    return thread && thread->name ? say_text(" (%s)", thread->name) : copy("");
}

char *thread_label(const struct event *thread)
{
    struct code_words code;
    if (!thread || !thread->site)
        return thread_name(thread);
    /* A place without a line has the function itself. */
    bool has_maker = thread->maker && !code_words_read(&code, thread->site);
    char *place = place_told(thread->site);
    char *label = say_text(" (%s%smade %s%s%s%s)", thread->name ? thread->name : "", thread->name ? ", " : "",
        has_maker ? "by " : "", has_maker ? thread->maker : "", has_maker ? " " : "", place);
    free(place);
    return label;
}
