#include "order_reports.h"

#include <stdlib.h>
#include <string.h>

#include "allocation.h"
#include "texts.h"

/* The number that stands for the place; with the site where it is one of the run that ended just now. */
static size_t spot(struct notes *notes, const char *place, const char *site)
{
    if (!notes->texts)
        notes->texts = texts_new();
    const char *told = texts_copy(notes->texts, place, strlen(place));
    ADD(notes->spot, notes->spots, notes->spot_room) =
        (struct spot){.site = site ? texts_copy(notes->texts, site, strlen(site)) : told, .told = told};
    return notes->spots;
}

/* The runs that met the order, by the one of which its origin tells. */
static char *runs_of(const struct run_order *order, const char *run)
{
    unsigned long more = order->runs > 1 ? order->runs - 1 : 0;
    if (*run && more > 0)
        return say_text(", in %s and %lu more run%s", run, more, more == 1 ? "" : "s");
    if (*run)
        return say_text(", in %s", run);
    return more > 0 ? say_text(", in %lu runs", more + 1) : copy("");
}

/* Where the order's two types were asked for, and in which run, as texts of one's own. */
static void places_of(const struct run_order *order, char **held, char **asked)
{
    const char *whole = order->origin, *middle = strstr(whole, " while "), *run = middle ? strrchr(middle, ',') : NULL;
    if (!run || run[1] != ' ')
        run = whole + strlen(whole);
    char *runs = runs_of(order, *run ? run + 2 : run);
    if (order->asked.place) {
        *asked = say_text("%s%s", order->asked.place, runs);
        *held = say_text("%s%s", order->held.place, runs);
    } else if (*whole == '\0') {
        *asked = say_text("?%s", runs);
        *held = copy(*asked);
    } else if (middle) {
        *asked = say_text("%.*s%s", (int)(middle - whole), whole, runs);
        *held = say_text("%.*s%s", (int)(run - middle - 7), middle + 7, runs);
    } else {
        *asked = say_text("%s%s", whole, runs);
        *held = copy(*asked);
    }
    free(runs);
}

/* The only lock of the type. */
static void add_lock(struct reports *reports, const struct order_type *type, size_t spot)
{
    const struct lock_name lock = {.name = type->name, .type = type->name, .class = type->class};
    reports_add_lock(reports, &lock, spot);
}

static void add_locks(struct reports *reports, struct notes *notes, const struct run_order *order)
{
    char *held, *asked;
    places_of(order, &held, &asked);
    add_lock(reports, &order->from, spot(notes, held, order->held.site));
    add_lock(reports, &order->to, spot(notes, asked, order->asked.site));
    free(held);
    free(asked);
}

static void add_step(struct reports *reports, struct notes *notes, const struct run_order *order)
{
    char *held, *asked;
    places_of(order, &held, &asked);
    reports_add_step(reports, order->from.name, order->to.name, spot(notes, asked, order->asked.site));
    free(held);
    free(asked);
}

void order_report(struct reports *reports, struct notes *notes, const struct run_orders *orders, size_t order,
    const size_t *way, size_t count)
{
    reports->notes = notes;
    notes->has_callers = true;
    struct report *report = reports_add(reports, REPORT_REVERSAL, "lock order reversal:");
    add_locks(reports, notes, &orders->order[order]);
    reports_add_words(reports, "established order:");
    for (size_t i = 0; i < count; i++)
        add_step(reports, notes, &orders->order[way[i]]);
    report_names_ignore_line(report, notes);
}
