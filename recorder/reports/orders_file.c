#include "orders_file.h"

#include <ctype.h>
#include <errno.h>
#include <fcntl.h>
#include <stdlib.h>
#include <string.h>
#include <sys/file.h>
#include <unistd.h>

#include "allocation.h"
#include "orders_question.h"
#include "output_files.h"

/* `COUNT [LAST] ORDER` as the program writes it. False where it is something else. */
static bool take_row(struct run_orders *orders, const char *line)
{
    char *at;
    unsigned long runs = strtoul(line, &at, 10), last = 0;
    if (*at == ' ' && isdigit((unsigned char)at[1]))
        last = strtoul(at + 1, &at, 10);
    struct run_order *order = runs > 0 && *at == ' ' ? run_orders_add(orders, at + 1) : NULL;
    if (!order)
        return false;
    order->runs = runs;
    order->last = last;
    return true;
}

static bool take_rows(struct run_orders *orders, char *told)
{
    char *rest, *line = strtok_r(told, "\n", &rest);
    if (!line || sscanf(line, "runs %lu", &orders->runs) != 1)
        return false;
    while ((line = strtok_r(NULL, "\n", &rest)) && take_row(orders, line))
        ;
    return !line;
}

/* A run that met orders is the last one. */
static void give_met(struct orders_question *question, const struct run_orders *met)
{
    question_line(question, "\tfile");
    for (size_t i = 0; i < met->count; i++) {
        const struct run_order *order = &met->order[i];
        char *line = say_text("%s%s%s", order->key, *order->origin ? "\t# " : "", order->origin);
        question_line(question, line);
        free(line);
    }
}

/* What the run that ended just now knows of its orders. An order that only one run met is new. */
static void join(struct run_orders *orders, const struct run_orders *met)
{
    for (size_t i = 0; i < met->count; i++) {
        const struct run_order *mine = &met->order[i];
        struct run_order *order = run_orders_find(orders, mine->key);
        if (!order)
            continue;
        order->is_met = true;
        order->is_new = order->runs == 1;
        order->asked_as = i;
        order->is_told = mine->is_told;
        if (order->is_new)
            run_orders_note_here(orders, order, mine->asked, mine->held);
    }
}

char *run_orders_read(struct run_orders *orders, const char *witness, char *const *files, const struct run_orders *met)
{
    struct orders_question question;
    question_begin(&question, witness, "merge", NULL);
    for (; *files; files++)
        question_file(&question, *files);
    if (met)
        give_met(&question, met);
    char *why = question_answer(&question);
    orders->has_failed = question.has_failed;
    if (!why && !take_rows(orders, question.told)) {
        why = say_text("%s answers something else than the orders", witness);
        orders->has_failed = true;
    }
    if (!why && met)
        join(orders, met);
    question_end(&question);
    return why;
}

char *orders_file_path(const char *path)
{
    return written_is_special(path) ? copy(path) : written_end(path);
}

bool orders_file_lock(const char *path, int *lock)
{
    *lock = -1;
    if (written_is_special(path))
        return true;
    char *beside = say_text("%s.lock", path);
    *lock = open(beside, O_RDWR | O_CREAT | O_CLOEXEC | O_NOFOLLOW, 0666);
    free(beside);
    int answer = *lock < 0 ? -1 : flock(*lock, LOCK_EX);
    while (answer != 0 && *lock >= 0 && errno == EINTR)
        answer = flock(*lock, LOCK_EX);
    if (answer != 0 && *lock >= 0) {
        int why = errno;
        close(*lock);
        errno = why;
        *lock = -1;
    }
    return *lock >= 0;
}

static bool is_kept(const struct run_order *order)
{
    return !(order->is_new && order->is_against);
}

void orders_file_print(FILE *to, const struct run_orders *orders)
{
    for (size_t i = 0; i < orders->count; i++) {
        const struct run_order *order = &orders->order[i];
        if (is_kept(order))
            fprintf(to, "%s%s%s\n", order->key, *order->origin ? "\t# " : "", order->origin);
    }
}

/* `runs N`, then `COUNT LAST ORDER` for each. */
static void print_counts(FILE *to, const struct run_orders *orders)
{
    fprintf(to, "runs %lu\n", orders->runs ? orders->runs : 1);
    for (size_t i = 0; i < orders->count; i++) {
        const struct run_order *order = &orders->order[i];
        if (is_kept(order) && order->last)
            fprintf(to, "%lu %lu %s\n", order->runs, order->last, order->key);
        else if (is_kept(order))
            fprintf(to, "%lu %s\n", order->runs, order->key);
    }
}

/* 0, or why that can't be. */
static int write_to(const char *path, const struct run_orders *orders, void (*print)(FILE *, const struct run_orders *))
{
    struct written written;
    int why = written_begins(&written, path);
    if (why)
        return why;
    print(written.to, orders);
    return written_ends(&written);
}

char *orders_file_write(const struct run_orders *orders, const char *path)
{
    char *beside = say_text("%s.runs", path), *told = NULL;
    int why = write_to(path, orders, orders_file_print);
    if (why)
        told = say_text("%s can't be written: %s", path, strerror(why));
    else if (!written_is_special(path) && (why = write_to(beside, orders, print_counts)) != 0)
        told = say_text("%s can't be written: %s", beside, strerror(why));
    free(beside);
    return told;
}
