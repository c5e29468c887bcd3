/*
 * Looks for several texts at once. Where the last two bytes of a place that the shortest of them would have stand in none
 * of them, or only further on, so much is passed over.
 */
#ifndef RECORD_TEXT_SEARCH_H
#define RECORD_TEXT_SEARCH_H

#include <stddef.h>
#include <stdint.h>

enum { SEARCH_MOST = 64, SEARCH_PAIRS = 1 << 16 };

/* A new struct is all zeroes. */
struct search {
    const char *text[SEARCH_MOST];
    size_t length[SEARCH_MOST];
    size_t texts, shortest, longest;
    uint8_t skip[SEARCH_PAIRS]; /* by two bytes: how far it is to the next place where a text may end */
    size_t prepared;            /* for so many texts */
};

/* The text has at least two bytes and at most 255. Its number is how many there were before. */
void search_add(struct search *search, const char *text);

/* Says of each text that is there its number, maybe more than once. */
void search_in(struct search *search, const char *bytes, size_t length, void (*found)(void *, size_t), void *what);

#endif
