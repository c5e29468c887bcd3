/*
 * The parts of a site, FILE:LINE.
 */
#ifndef RECORD_SITE_PARTS_H
#define RECORD_SITE_PARTS_H

#include <stdbool.h>
#include <stddef.h>

struct site_parts {
    const char *file; /* not ended by a zero */
    size_t length;
    long line; /* 0 where it isn't known: then the file is an object, with an offset in it */
};

/* False where the text is no site: of an order that was listed, or where nothing is known. */
bool site_parts_read(struct site_parts *parts, const char *site);

#endif
