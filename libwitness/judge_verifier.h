/* What the library's files share of the verifier (judge.c). All of it is under the recorder's mutex. */
#ifndef WITNESS_JUDGE_VERIFIER_H
#define WITNESS_JUDGE_VERIFIER_H

#include "recorder.h"
#include "verifier.h"

/* The verifier, NULL where nothing is judged any more. */
struct wit_place *judge_verifier(void);

/* The class that a lock has with the verifier; and the number in its type (names.h) of the lock with that number. */
uint8_t judged_class(const struct lock *lock);
uint32_t judged_number(uint32_t lock);

/* What is told once, when the mutex is left. After these come the stream's own limits (judge.c). */
enum news { NEWS_OVER = MISSES, NEWS_LISTS, NEWS_AGAINST, NEWS_ONE_TYPE, NEWS_UNDEFINED };
void judge_has_news(enum news what);

/* Orders that the program names: a lock was made there, with that number in the stream; and in a child none has one. */
void orders_made(const struct thread *thread, uintptr_t address, uint32_t number);
void orders_forked(void);

/* What WITNESS_ORDERS names: read once, outside the mutex, and kept. */
struct lists {
    struct wit_list lists[256];
    struct wit_listed types[2048];
    struct wit_pair pairs[1024];
    struct wit_pair doubled[1024]; /* the first name of each alone */
    size_t lists_count, types_count, pairs_count, doubled_count;
};
void lists_begin(void);
const struct lists *lists_named(void); /* an empty one where nothing is named */
bool is_doubled(const char *type);

#endif
