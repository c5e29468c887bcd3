/* Eleven hundred mutexes, each a variable of its own, and so a type: m000 to m999, then n00 to n99. */
#include <pthread.h>

#define EACH_DIGIT(what, name)                                                                                         \
    what(name##0) what(name##1) what(name##2) what(name##3) what(name##4) what(name##5) what(name##6) what(name##7)    \
        what(name##8) what(name##9)
#define EACH_TEN(what, name)                                                                                           \
    EACH_DIGIT(what, name##0) EACH_DIGIT(what, name##1) EACH_DIGIT(what, name##2) EACH_DIGIT(what, name##3)            \
        EACH_DIGIT(what, name##4) EACH_DIGIT(what, name##5) EACH_DIGIT(what, name##6) EACH_DIGIT(what, name##7)        \
            EACH_DIGIT(what, name##8) EACH_DIGIT(what, name##9)
#define EACH_HUNDRED(what, name)                                                                                       \
    EACH_TEN(what, name##0) EACH_TEN(what, name##1) EACH_TEN(what, name##2) EACH_TEN(what, name##3)                    \
        EACH_TEN(what, name##4) EACH_TEN(what, name##5) EACH_TEN(what, name##6) EACH_TEN(what, name##7)                \
            EACH_TEN(what, name##8) EACH_TEN(what, name##9)
#define EACH_MUTEX(what) EACH_HUNDRED(what, m) EACH_TEN(what, n)

#define MUTEX(name) static pthread_mutex_t name = PTHREAD_MUTEX_INITIALIZER;
#define ADDRESS(name) &name,
EACH_MUTEX(MUTEX)
static pthread_mutex_t *const many[] = {EACH_MUTEX(ADDRESS)};
