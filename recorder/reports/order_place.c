#include "order_place.h"

#include <stdio.h>
#include <stdlib.h>
#include <string.h>

#include "allocation.h"
#include "code_words.h"
#include "site_parts.h"

/* `FUNCTION (FILE)`, or what is known of it; with the line in the file where that is wanted. */
static void put_place(FILE *to, const struct notes *notes, size_t number, bool with_line)
{
    struct site_parts parts;
    const struct frames *frames = notes_frames(notes, number);
    const char *function = frames && frames->count > 0 ? frames->frame[0].function : NULL;
    const char *site = notes_site(notes, number);
    bool is_line = site_parts_read(&parts, site) && parts.line > 0;
    struct code_words code = {0};
    bool has_function = code_words_read(&code, site) && code.function_length > 0;
    int file = is_line ? (int)parts.length : (int)strcspn(site, "+(:");
    if (function)
        fprintf(to, "%s (", function);
    else if (has_function)
        fprintf(to, "%.*s (", (int)code.function_length, code.function);
    fprintf(to, "%.*s", file, site);
    if (is_line && with_line)
        fprintf(to, ":%ld", parts.line);
    if (function || has_function)
        putc(')', to);
}

char *plain_text(char *text)
{
    for (char *at = text; *at; at++)
        if ((unsigned char)*at < ' ' || *at == 127)
            *at = '_';
    return text;
}

char *order_place(const struct notes *notes, size_t spot, bool with_line)
{
    char *text = NULL;
    size_t length = 0;
    FILE *to = open_memstream(&text, &length);
    if (!to)
        return copy("?");
    put_place(to, notes, spot, with_line);
    fclose(to);
    return plain_text(text);
}

struct here here_of(const struct notes *notes, size_t spot)
{
    return (struct here){order_place(notes, spot, true), copy(notes_site(notes, spot))};
}

void here_end(struct here *here)
{
    free((char *)here->place);
    free((char *)here->site);
}
