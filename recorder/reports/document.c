#include "document.h"

#include <stdlib.h>

#include "json.h"
#include "verdict.h"

enum { BAD_USAGE = 2 };

int document_write(FILE *to, const char *program, const char *word, const char *bytes, size_t length)
{
    struct verdict made;
    verdict_begin(&made, program, word, to);
    verdict_feed(&made, bytes, length);
    return verdict_end(&made);
}

/* Closes the stream of a text, which goes where it isn't whole. */
static char *ended(FILE *to, char **text, bool is_whole)
{
    is_whole = is_whole && !ferror(to);
    if (fclose(to) == 0 && is_whole)
        return *text;
    free(*text);
    return NULL;
}

char *document_text(const char *program, const char *word, const char *bytes, size_t length)
{
    char *text = NULL;
    size_t size;
    FILE *to = bytes ? open_memstream(&text, &size) : NULL;
    return to ? ended(to, &text, document_write(to, program, word, bytes, length) == 0) : NULL;
}

char *document_report(const struct run_reports *gathered, size_t *length)
{
    char *report = NULL;
    FILE *to = open_memstream(&report, length);
    if (!to)
        return NULL;
    json_write(to, gathered);
    return ended(to, &report, true);
}

bool document_is_known(const char *witness, const char *form)
{
    const char *words[] = {witness, form, NULL};
    return verdict_status(words, "", true) != BAD_USAGE;
}
