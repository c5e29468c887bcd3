#include "orders_verdict.h"

#include <stdlib.h>
#include <string.h>

#include "allocation.h"
#include "order_reports.h"
#include "orders_question.h"

enum { INSET = 4 };

static int by_trust(const void *one, const void *other, void *with)
{
    const struct run_orders *orders = with;
    size_t first = *(const size_t *)one, second = *(const size_t *)other;
    const struct run_order *left = &orders->order[first], *right = &orders->order[second];
    if (left->is_new != right->is_new)
        return left->is_new ? 1 : -1;
    if (left->runs != right->runs)
        return left->runs > right->runs ? -1 : 1;
    /* New ones stay as the run asked for them, and others by their keys. */
    size_t one_at = left->is_new ? left->asked_as : first, other_at = right->is_new ? right->asked_as : second;
    return (one_at > other_at) - (one_at < other_at);
}

/* The numbers of the orders that aren't left in ignored, in the sequence of judging: a list of one's own. */
static size_t *in_sequence(struct run_orders *orders, size_t *count)
{
    size_t *sequence = take(orders->count * sizeof *sequence);
    *count = 0;
    for (size_t i = 0; i < orders->count; i++)
        if (!orders->order[i].is_ignored)
            sequence[(*count)++] = i;
    if (*count > 0)
        qsort_r(sequence, *count, sizeof *sequence, by_trust, orders);
    return sequence;
}

/* An order that is told, and the way back. */
struct circle {
    size_t order, *way, count, room;
    bool is_begun;
};

static void end_circle(struct judgement *judgement, struct run_orders *orders, struct circle *circle)
{
    if (!circle->is_begun)
        return;
    orders->order[circle->order].is_against = true;
    ADD(judgement->closing, judgement->against, judgement->room) = circle->order;
    order_report(&judgement->reports, &judgement->notes, orders, circle->order, circle->way, circle->count);
    circle->is_begun = false;
    circle->count = 0;
}

/* A line is an order, or set in a step of its way back. False where it is neither. */
static bool read_line(struct judgement *judgement, struct run_orders *orders, struct circle *circle, const char *line)
{
    bool is_step = strncmp(line, "    ", INSET) == 0;
    const struct run_order *order = run_orders_find(orders, is_step ? line + INSET : line);
    if (!order || (is_step && !circle->is_begun))
        return false;
    size_t number = (size_t)(order - orders->order);
    if (is_step) {
        ADD(circle->way, circle->count, circle->room) = number;
        return true;
    }
    end_circle(judgement, orders, circle);
    circle->order = number;
    circle->is_begun = true;
    return true;
}

/* Whether all was told of so many orders: the last line counts them. */
static bool read_told(struct judgement *judgement, struct run_orders *orders, char *told, size_t count)
{
    struct circle circle = {0};
    char *rest, *line = strtok_r(told, "\n", &rest);
    while (line && read_line(judgement, orders, &circle, line))
        line = strtok_r(NULL, "\n", &rest);
    end_circle(judgement, orders, &circle);
    free(circle.way);
    char *last = say_text("against: %zu of %zu orders, ", judgement->against, count);
    bool is_whole = line && strncmp(line, last, strlen(last)) == 0;
    free(last);
    return is_whole;
}

void run_orders_judge(struct run_orders *orders, const char *witness, struct judgement *judgement)
{
    struct orders_question question;
    size_t count = 0, *sequence = in_sequence(orders, &count);
    *judgement = (struct judgement){0};
    question_begin(&question, witness, "judge", NULL);
    for (size_t i = 0; i < count; i++)
        question_line(&question, orders->order[sequence[i]].key);
    free(sequence);
    judgement->failed = question_answer(&question);
    if (!judgement->failed && !read_told(judgement, orders, question.told, count))
        judgement->failed = say_text("%s answers something else than what is against them", witness);
    question_end(&question);
}

void judgement_end(struct judgement *judgement)
{
    reports_end(&judgement->reports);
    notes_end(&judgement->notes);
    free(judgement->closing);
    free(judgement->failed);
    *judgement = (struct judgement){0};
}
