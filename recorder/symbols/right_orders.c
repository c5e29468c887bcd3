#include "right_orders.h"

#include "allocation.h"
#include "texts.h"

#include <dirent.h>
#include <stdio.h>
#include <stdlib.h>
#include <string.h>
#include <sys/stat.h>

static const char ending[] = ".known";

/* What stands in quotes at *at, which becomes what follows and its blanks. NULL where there is none. */
static const char *quoted(struct texts *texts, const char **at)
{
    const char *from = *at + 1, *end = **at == '"' ? strchr(from, '"') : NULL;
    if (!end || end == from)
        return NULL;
    *at = end + 1 + strspn(end + 1, " \t");
    return texts_copy(texts, from, (size_t)(end - from));
}

/* False where the line is none of a list. */
static bool read_line(struct right_orders *right, const char *at)
{
    struct right_order order = {0};
    at += strspn(at, " \t");
    if (*at == '\0' || *at == '#')
        return true;
    size_t length = strcspn(at, " \t\"");
    order.object = texts_copy(right->texts, at, length);
    at += length + strspn(at + length, " \t");
    order.held = quoted(right->texts, &at);
    order.asked = *at == '"' ? quoted(right->texts, &at) : order.held;
    if (length == 0 || !order.held || !order.asked || strncmp(at, "in ", 3) != 0)
        return false;
    at += 3;
    while (*at == '"' && order.functions < RIGHT_FUNCTIONS) {
        const char *function = quoted(right->texts, &at);
        if (!function)
            return false;
        order.function[order.functions++] = function;
    }
    if (order.functions == 0 || (*at != '\0' && *at != '#'))
        return false;
    ADD(right->order, right->count, right->room) = order;
    return true;
}

static size_t read_file(struct right_orders *right, const char *path)
{
    FILE *file = fopen(path, "re");
    char *line = NULL;
    size_t room = 0, bad = 0;
    for (size_t number = 1; file && bad == 0 && getline(&line, &room, file) >= 0; number++) {
        line[strcspn(line, "\n")] = '\0';
        if (!read_line(right, line))
            bad = number;
    }
    free(line);
    if (file)
        fclose(file);
    return bad;
}

static int is_list(const struct dirent *entry)
{
    size_t length = strlen(entry->d_name), end = sizeof ending - 1;
    return *entry->d_name != '.' && length > end && strcmp(entry->d_name + length - end, ending) == 0;
}

size_t right_orders_read(struct right_orders *right, const char *path)
{
    struct dirent **list = NULL;
    size_t bad = 0;
    if (!right->texts)
        right->texts = texts_new();
    int lists = scandir(path, &list, is_list, alphasort);
    if (lists < 0)
        return read_file(right, path);
    for (int i = 0; i < lists; i++) {
        char *file = say_text("%s/%s", path, list[i]->d_name);
        bad = bad ? bad : read_file(right, file);
        free(file);
        free(list[i]);
    }
    free(list);
    return bad;
}

void right_orders_end(struct right_orders *right)
{
    free(right->order);
    texts_end(right->texts);
    *right = (struct right_orders){0};
}

char *right_orders_folder(const char *here)
{
    static const char *const places[] = {"known", "../../../share/witness/known"};
    for (size_t i = 0; i < sizeof places / sizeof *places; i++) {
        struct stat found;
        char *path = say_text("%s/%s", here, places[i]);
        if (stat(path, &found) == 0 && S_ISDIR(found.st_mode))
            return path;
        free(path);
    }
    return NULL;
}
