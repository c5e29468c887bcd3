/* The names of types, locks and places (names.c). All calls are under the mutex, but for those of places. */
#ifndef WITNESS_NAMES_H
#define WITNESS_NAMES_H

#include "recorder.h"

/* Names have up to 63 bytes, those of places up to 255; and a zero. */
enum { NAME_ROOM = 64, PLACE_ROOM = 256 };

/* Names the type, which has that number in the stream, as no other is named. Types are named by their numbers, from 1. */
const char *name_type(const struct type *type, uint32_t number);
const char *type_name(uint32_t number);
void names_forgotten(void);
/* Names a lock and its type, whether they have numbers or not. */
void name_any(char to[NAME_ROOM], char of[NAME_ROOM], const struct lock *lock);
/* Names a lock of which nothing is known but its address. */
void name_unmet(char to[NAME_ROOM], uintptr_t address);
/* Names a lock, whose type has that name. */
void name_lock(char to[NAME_ROOM], const struct lock *lock, const char *name_of_type);
/* The number by which a lock is told from others of its type, `TYPE/NUMBER`; 0 of one that has another name. */
uint32_t number_in_type(const struct lock *lock);
/*
 * Names a place: FUNCTION+0xWITHIN (OBJECT), without a function OBJECT+0xOFFSET, and FILE:LINE(FUNCTION) of a place by
 * name; `?` for none. Where there is no room for the first of these, it is OBJECT+0xOFFSET(FUNCTION, as far as that goes.
 */
void name_place(char to[PLACE_ROOM], uint32_t number);
/* FILE:LINE of a place by name; any other as name_place. */
void name_site(char to[PLACE_ROOM], uint32_t number);
/* Whether it is told by its function or offset, and not by a file and a line. */
bool is_place_in_code(uint32_t number);
/* The function that the place is in, or an empty name. */
const char *place_function(uint32_t number);
bool is_place_by_name(uint32_t number);
/* The name that this thread was given. */
void name_thread(char to[THREAD_NAME_ROOM]);

#endif
