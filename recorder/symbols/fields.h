/*
 * The field of a structure that a lock is made for, of a program in Rust: `Bank::accounts`, by the source where it is made and
 * by debug information, which has to have that field.
 */
#ifndef RECORD_FIELDS_H
#define RECORD_FIELDS_H

struct declared;
struct type;

/* Of a type that the program names, with a line and a column in that: a text of one's own, NULL where it isn't known. */
char *field_of_label(const struct declared *declared, const struct type *type);

#endif
