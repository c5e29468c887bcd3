#include "process_orders.h"

#include <stdlib.h>

#include "allocation.h"
#include "show_run.h"

/* An order that was adopted. */
static void add_adopted(struct order_list *orders, const struct process *process, const struct known_order *known)
{
    ADD(orders->order, orders->count, orders->room) = (struct order){
        .from = copy(known->from),
        .to = copy(known->into),
        .site = copy(notes_site(&process->notes, known->spot)),
        .is_broken = reports_break(&process->reports, known->from, known->into),
    };
}

/* What a report is about, where it is a reversal or asks for a second lock of a type. */
static void add_reported(struct order_list *orders, const struct report *report)
{
    bool is_double = report->kind == REPORT_DUPLICATE;
    if (report->last == 0 || (!is_double && (report->kind != REPORT_REVERSAL || report->first == 0)))
        return;
    const struct report_line *last = &report->line[report->last];
    ADD(orders->order, orders->count, orders->room) = (struct order){
        .from = copy(is_double ? last->type : report->line[report->first].type),
        .to = copy(last->type),
        .site = copy(last->site),
        .is_reversal = true,
    };
}

void orders_read(const struct process *process, struct order_list *orders)
{
    for (size_t i = 0; i < process->state.orders; i++)
        add_adopted(orders, process, &process->state.order[i]);
    for (size_t i = 0; i < process->reports.count; i++)
        add_reported(orders, &process->reports.report[i]);
}

void orders_end(struct order_list *orders)
{
    for (size_t i = 0; i < orders->count; i++) {
        free(orders->order[i].from);
        free(orders->order[i].to);
        free(orders->order[i].site);
    }
    free(orders->order);
    *orders = (struct order_list){0};
}
