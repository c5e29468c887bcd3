#include "graph.h"

#include <stdio.h>
#include <stdlib.h>
#include <string.h>

#include "allocation.h"
#include "document.h"
#include "files.h"
#include "output_files.h"
#include "usage.h"

/* What stands from the last dot on. */
static const char *ending_of(const char *file)
{
    size_t length = strlen(file);
    return length < 4 ? "" : file + length - 4;
}

void graph_check(const char *file)
{
    const char *ending = ending_of(file);
    if (strcmp(ending, ".dot") != 0 && strcmp(ending, ".svg") != 0)
        refuse("--graph takes FILE.svg or FILE.dot, not %s", file);
    if (strcmp(ending, ".svg") == 0 && !file_is_command("dot"))
        refuse("--graph %s needs dot (Graphviz), which isn't there; FILE.dot doesn't", file);
}

/* The text itself, or what dot makes of it. */
static bool draw(const char *file, const char *text, size_t length)
{
    FILE *to = written_file(file);
    bool is_text = strcmp(ending_of(file), ".dot") == 0, is_drawn = to != NULL;
    if (to && is_text)
        fwrite(text, 1, length, to);
    else if (to)
        is_drawn = document_write(to, "dot", "-Tsvg", text, length) == 0;
    is_drawn = is_drawn && !ferror(to);
    return to && fclose(to) == 0 && is_drawn;
}

/* That of the process with this number among them, from 0 on. Its name where that failed, as a text of one's own. */
static char *draw_one(const char *file, size_t number, const char *text, size_t length)
{
    const char *ending = ending_of(file);
    char *name = number > 0 ? say_text("%.*s.%zu%s", (int)(ending - file), file, number, ending) : copy(file);
    if (!draw(name, text, length))
        return name;
    free(name);
    return NULL;
}

char *graphs_draw(const char *file, const char *witness, const struct run_reports *gathered, const char *report,
    size_t length)
{
    static const char end[] = "\n}\n";
    char *text = document_text(witness, "dot", report, length), *failed = text ? NULL : copy(file);
    const char *from = text, *after;
    for (size_t i = 0; from && i < gathered->count && (after = strstr(from, end)) != NULL; i++, from = after) {
        after += strlen(end);
        char *name = gathered->found[i].has_orders ? draw_one(file, i, from, (size_t)(after - from)) : NULL;
        if (failed)
            free(name);
        else
            failed = name;
    }
    free(text);
    return failed;
}
