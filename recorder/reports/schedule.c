#include "schedule.h"

#include <stdlib.h>

#include "allocation.h"

const char *schedule_word(const struct schedule *schedule)
{
    static const char *const words[] = {[SCHEDULE_UNANSWERED] = "unanswered",
        [SCHEDULE_UNDECIDED] = "undecided",
        [SCHEDULE_HANGS] = "hangs",
        [SCHEDULE_BARRED] = "barred",
        [SCHEDULE_GATE] = "gate",
        [SCHEDULE_READERS] = "readers",
        [SCHEDULE_APART] = "apart",
        [SCHEDULE_CUT] = "cut",
        [SCHEDULE_UNTOLD] = "untold"};
    return words[schedule->result];
}

char *schedule_line(const struct schedule *schedule)
{
    if (!schedule || !schedule->text || !*schedule->text)
        return copy("");
    return say_text("%s: %s", schedule->result == SCHEDULE_HANGS ? "hangs so" : "no schedule", schedule->text);
}

void schedule_is_apart(struct schedule *schedule)
{
    free(schedule->text);
    schedule->result = SCHEDULE_APART;
    schedule->rows = schedule->rests_on = 0;
    schedule->copies = false;
    schedule->text = copy("when they came on these ways, they weren't there at one time");
}

void schedule_end(struct schedule *schedule)
{
    if (!schedule)
        return;
    free(schedule->row);
    free(schedule->text);
    free(schedule);
}
