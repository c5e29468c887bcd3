#include "run_orders_picture.h"

#include <stdio.h>
#include <stdlib.h>
#include <string.h>

#include "allocation.h"
#include "document.h"
#include "graph.h"
#include "output_files.h"
#include "pictures.h"
#include "prepare.h"
#include "run_reports.h"
#include "witness.h"

void drawing_check(const struct drawing *drawing)
{
    const struct settings settings = {.graph = drawing->graph, .html = drawing->html};
    if (drawing->graph)
        graph_check(drawing->graph);
    prepare_files(&settings);
}

/* Where its second type was asked for. */
static char *site_of(const struct run_order *order)
{
    const char *end = strstr(order->origin, " while ");
    return copy_bytes(order->origin, end ? (size_t)(end - order->origin) : strlen(order->origin));
}

static void add_orders(struct order_list *list, const struct run_orders *orders, const struct reports *reports)
{
    for (size_t i = 0; i < orders->count; i++) {
        const struct run_order *order = &orders->order[i];
        const char *from = order->from.name, *to = order->to.name;
        if (order->is_ignored)
            continue;
        ADD(list->order, list->count, list->room) = (struct order){
            .from = copy(from),
            .to = copy(to),
            .site = site_of(order),
            .is_reversal = order->is_against,
            .is_broken = !order->is_against && reports_break(reports, from, to),
        };
    }
}

/* The report that both are made of. The judgement's reports are its own from here on. */
static void begin_report(struct run_reports *gathered, const struct run_orders *orders, struct judgement *judgement,
    const char *summary)
{
    *gathered = (struct run_reports){.command = "orders",
        .version = WITNESS_VERSION,
        .program = "all files together",
        .ended = time(NULL)};
    struct found *found = run_reports_add(gathered, gathered->program, 0);
    add_orders(&found->orders, orders, &judgement->reports);
    found->has_orders = true;
    found->notes = judgement->notes;
    found->reports = judgement->reports;
    judgement->notes = (struct notes){0};
    judgement->reports = (struct reports){0};
    run_reports_tell(gathered, 0, summary);
    run_reports_gather(gathered);
}

static bool write_page(const char *path, const char *witness, struct run_reports *gathered, const char *report,
    size_t length)
{
    pictures_draw(gathered, witness, report, length);
    char *drawn = document_report(gathered, &length);
    FILE *to = drawn ? written_file(path) : NULL;
    bool is_written = to && document_write(to, witness, "html", drawn, length) == 0 && !ferror(to);
    free(drawn);
    return to && fclose(to) == 0 && is_written;
}

bool run_orders_draw(const struct drawing *drawing, const struct run_orders *orders, struct judgement *judgement,
    const char *summary)
{
    struct run_reports gathered;
    size_t length = 0;
    if (!drawing->graph && !drawing->html)
        return true;
    begin_report(&gathered, orders, judgement, summary);
    char *report = document_report(&gathered, &length);
    char *failed = drawing->graph ? graphs_draw(drawing->graph, drawing->witness, &gathered, report, length) : NULL;
    bool is_page = !drawing->html || write_page(drawing->html, drawing->witness, &gathered, report, length);
    if (failed)
        fprintf(stderr, "orders: %s: the orders aren't drawn\n", failed);
    if (!is_page)
        fprintf(stderr, "orders: %s can't be written\n", drawing->html);
    bool is_good = !failed && is_page;
    free(failed);
    free(report);
    run_reports_end(&gathered);
    return is_good;
}
