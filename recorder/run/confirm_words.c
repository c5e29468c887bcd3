#include "confirm_words.h"

#include <stdio.h>
#include <stdlib.h>

#include "allocation.h"
#include "place_words.h"

static void add_place(struct counted_place *place, const struct plan_met *met)
{
    place->times += met->times;
    if (met->thread == PLAN_SEVERAL_THREADS)
        place->several = true;
    else if (met->thread)
        place->thread = met->thread;
}

void counted_adds(struct counted *counted, const struct plan *plan)
{
    for (uint32_t i = 0; i < plan->orders; i++)
        add_place(&counted->asked[i], &plan->order[i].asked);
    counted->met += plan->met;
}

static void write_thread(FILE *to, const struct hung_thread *thread)
{
    fprintf(to, "thread %ld ", thread->thread);
    char *took = place_told(thread->took_at), *wants = place_told(thread->wants_at);
    if (thread->took)
        fprintf(to, "took \"%s\" %s and ", thread->took, took);
    fprintf(to, "waits for \"%s\" %s", thread->wants, wants);
    free(took);
    free(wants);
}

char *hung_text(const struct hang *hang, unsigned run)
{
    char *text = NULL;
    size_t length = 0;
    FILE *to = open_memstream(&text, &length);
    if (!to)
        return copy("");
    if (hang->is_certain)
        fprintf(to, "confirmed: hung in run %u after %.2f s: ", run, hang->seconds);
    else
        fprintf(to, "not confirmed: seemed to hang in run %u, but not each lock says who holds it: ", run);
    for (size_t i = 0; i < hang->threads; i++) {
        fputs(i ? "; " : "", to);
        write_thread(to, &hang->thread[i]);
    }
    fclose(to);
    return text;
}

/* The one thread that came to all of the places; 0 where there were others. */
static long lone_thread(const struct planned *planned, const struct counted *counted)
{
    long thread = counted->asked[0].thread;
    for (uint32_t i = 0; i < planned->plan.orders; i++)
        if (counted->asked[i].several || counted->asked[i].thread != thread)
            return 0;
    return thread;
}

static void write_times(FILE *to, const struct planned *planned, const struct counted *counted)
{
    for (uint32_t i = 0; i < planned->plan.orders; i++) {
        unsigned long times = counted->asked[i].times;
        char *place = place_told(planned->ask_site[i]);
        fprintf(to, "%s%s %s%lu time%s", i ? ", " : "", place, i ? "" : "was reached ", times, times == 1 ? "" : "s");
        free(place);
    }
    if (counted->met)
        fprintf(to, ", crosswise %lu time%s, and the threads went on", counted->met, counted->met == 1 ? "" : "s");
    else
        fputs(", never with the same locks crosswise", to);
}

static void write_why(FILE *to, const struct planned *planned, const struct counted *counted)
{
    for (uint32_t i = 0; i < planned->plan.orders; i++)
        if (counted->asked[i].times == 0) {
            char *place = place_told(planned->ask_site[i]);
            fprintf(to, "%s was never reached", place);
            free(place);
            return;
        }
    long thread = lone_thread(planned, counted);
    if (thread)
        fprintf(to, "thread %ld alone came %s", thread,
            planned->plan.orders == 1       ? "there"
                : planned->plan.orders == 2 ? "to both places"
                                            : "to all places");
    else
        write_times(to, planned, counted);
}

char *unconfirmed_text(unsigned runs, const struct planned *planned, const struct counted *counted)
{
    char *text = NULL;
    size_t length = 0;
    if (!planned)
        return copy("not tried: its places can't be found again");
    if (runs == 0)
        return copy("not tried: the time was over");
    FILE *to = open_memstream(&text, &length);
    if (!to)
        return copy("");
    fprintf(to, "not confirmed in %u run%s: ", runs, runs == 1 ? "" : "s");
    write_why(to, planned, counted);
    if (counted->late)
        fprintf(to, "; %lu of the runs took too long, and %s ended", counted->late, counted->late == 1 ? "was" : "were");
    fclose(to);
    return text;
}
