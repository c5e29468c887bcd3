/*
 * Which locks aren't seen, by the objects that a run had loaded. Libraries with such locks are known by their names. Others
 * are known by what such locks leave in the files of programs and libraries: names of functions, and where those are
 * stripped, the names of sources that messages have.
 */
#ifndef RECORD_UNSEEN_LOCKS_H
#define RECORD_UNSEEN_LOCKS_H

#include <stdbool.h>
#include <stddef.h>

/*
 * The kinds of locks that the objects of these names have, by commas: a text of one's own, empty where there are none.
 * HAS_SEMAPHORES: some were waited for; they are named unless they may be of a language whose locks are. PYTHON_TELLS: each
 * Python that ran has told of all of its program's locks, so they aren't named.
 */
char *unseen_locks(const char *const *object, size_t objects, bool has_semaphores, bool python_tells);

#endif
