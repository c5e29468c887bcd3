#include "pictures.h"

#include <stdlib.h>
#include <string.h>

#include "allocation.h"
#include "document.h"
#include "files.h"

/*
 * The pictures come one after the other: those of reports, then those of the first processes. What stands before the element
 * is left out, and so is a picture without an arrow.
 */
static void part(struct run_reports *gathered, const char *all)
{
    static const char begin[] = "<svg", end[] = "</svg>", arrow[] = "class=\"edge\"";
    for (size_t i = 0; i < gathered->reports + gathered->count; i++) {
        const char *from = strstr(all, begin), *to = from ? strstr(from, end) : NULL;
        if (!to)
            return;
        all = to + strlen(end);
        char *picture = copy_bytes(from, (size_t)(all - from));
        if (!strstr(picture, arrow)) {
            free(picture);
            picture = NULL;
        }
        if (i < gathered->reports)
            gathered->report[i].picture = picture;
        else
            gathered->found[i - gathered->reports].picture = picture;
    }
}

void pictures_draw(struct run_reports *gathered, const char *witness, const char *report, size_t length)
{
    if (!file_is_command("dot"))
        return;
    char *text = document_text(witness, "pictures", report, length);
    char *all = text ? document_text("dot", "-Tsvg", text, strlen(text)) : NULL;
    if (all)
        part(gathered, all);
    free(all);
    free(text);
}
