#include "run_orders.h"

#include <stdlib.h>
#include <string.h>

#include "allocation.h"
#include "ignore_file.h"
#include "texts.h"

/* `witness orders` reads no longer line. */
enum { LINE_MOST = 4096, QUOTES = 4 };

/* Where the quotation marks stand before the tab or the end. False where they are others than an order has. */
static bool find_quotes(const char *line, const char *end, const char *quote[QUOTES])
{
    const char *at = line;
    for (size_t i = 0; i < QUOTES; i++, at++) {
        at = memchr(at, '"', (size_t)(end - at));
        if (!at)
            return false;
        quote[i] = at;
    }
    return at == end && quote[0] > line && strncmp(quote[1], "\" > ", 4) == 0;
}

/* Whether no byte would end a line or a column, for whoever reads it. */
static bool is_text(const char *bytes, const char *end)
{
    for (; bytes < end; bytes++)
        if ((unsigned char)*bytes < ' ' || *bytes == 127)
            return false;
    return true;
}

/* The type whose class begins there, and whose name is between these marks. */
static struct order_type type_at(struct run_orders *orders, const char *class, const char *first, const char *last)
{
    *map_add(&orders->types, class, (size_t)(last + 1 - class)) = 1;
    return (struct order_type){texts_copy(orders->texts, class, (size_t)(first - 1 - class)),
        texts_copy(orders->texts, first + 1, (size_t)(last - first - 1))};
}

struct run_order *run_orders_add(struct run_orders *orders, const char *line)
{
    const char *quote[QUOTES], *end = strchrnul(line, '\t'), *last = line + strlen(line);
    if (last - line > LINE_MOST || !find_quotes(line, end, quote) || !is_text(line, end) || !is_text(end + 1, last))
        return NULL;
    size_t *number = map_add(&orders->numbers, line, (size_t)(end - line));
    if (*number)
        return &orders->order[*number - 1];
    *number = orders->count + 1;
    if (!orders->texts)
        orders->texts = texts_new();
    const char *origin = *end ? end + 3 : end;
    struct run_order *order = &ADD(orders->order, orders->count, orders->room);
    *order = (struct run_order){
        .key = texts_copy(orders->texts, line, (size_t)(end - line)),
        .origin = texts_copy(orders->texts, origin, strlen(origin)),
        .from = type_at(orders, line, quote[0], quote[1]),
        .to = type_at(orders, quote[1] + 4, quote[2], quote[3]),
    };
    return order;
}

struct run_order *run_orders_find(const struct run_orders *orders, const char *key)
{
    size_t number = map_find_text(&orders->numbers, key);
    return number ? &orders->order[number - 1] : NULL;
}

static struct here kept(struct run_orders *orders, struct here here)
{
    struct texts *texts = orders->texts;
    const char *place = texts_copy(texts, here.place, strlen(here.place));
    return (struct here){place, texts_copy(texts, here.site, strlen(here.site))};
}

void run_orders_note_here(struct run_orders *orders, struct run_order *order, struct here asked, struct here held)
{
    order->asked = kept(orders, asked);
    order->held = kept(orders, held);
}

/* Whether the user means the type by that: its name, or that without its object, OBJECT:NAME. */
static bool is_called(const struct order_type *type, const char *name)
{
    const char *colon = strchr(type->name, ':');
    return strcmp(type->name, name) == 0 || (colon && colon[1] != ':' && strcmp(colon + 1, name) == 0);
}

static bool are_called(const struct run_order *order, const char *first, const char *second)
{
    return is_called(&order->from, first) && is_called(&order->to, second);
}

void run_orders_ignore(struct run_orders *orders, const char *path)
{
    struct ignore_file ignore;
    ignore_file_read(&ignore, path);
    for (size_t i = 0; i < ignore.pairs * orders->count; i++) {
        struct run_order *order = &orders->order[i % orders->count];
        const char *first = ignore.pair[i / orders->count].first, *second = ignore.pair[i / orders->count].second;
        order->is_ignored |= are_called(order, first, second) || are_called(order, second, first);
    }
    ignore_file_end(&ignore);
}

void run_orders_end(struct run_orders *orders)
{
    map_end(&orders->types);
    map_end(&orders->numbers);
    texts_end(orders->texts);
    free(orders->order);
    *orders = (struct run_orders){0};
}
