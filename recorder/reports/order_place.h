/*
 * Places as files of orders have them: FUNCTION (FILE), without the line, so that they last.
 */
#ifndef RECORD_ORDER_PLACE_H
#define RECORD_ORDER_PLACE_H

#include "notes.h"
#include "run_orders.h"

/* Makes each byte part of a text that ends no line and no word of it, in place. */
char *plain_text(char *text);

/* The place of that number, with its line or without: a text of one's own. */
char *order_place(const struct notes *notes, size_t spot, bool with_line);

/* The place with its line, and by its site: texts of one's own. */
struct here here_of(const struct notes *notes, size_t spot);
void here_end(struct here *here);

#endif
