/*
 * Which one of several calls in a function a line is, where the source's words don't part them.
 */
#ifndef RECORD_CALL_CHOICE_H
#define RECORD_CALL_CHOICE_H

#include <stddef.h>

struct alike;
struct declared;
struct lock_name_in_source;
struct step;

/* What has been read of sources for that. It is one with the names of locks (lock_names.h). */
struct alike *alike_new(void);
void alike_end(struct alike *alike);

/*
 * How many lines of the step's function, before its own one, call that function with the same word (call_words.h), which is
 * NULL where it has none. 0 where that isn't known.
 */
size_t calls_alike_before(const struct declared *declared, const struct step *step, const char *function,
    const char *word);

/* How many of them name a lock by the same words as the step's line does, and make it where that one does. */
size_t locks_alike_before(const struct declared *declared, const struct step *step,
    const struct lock_name_in_source *lock);

#endif
