/*
 * Annotations for locks that the recorder doesn't know: those of the program's own, on futexes or atomics. A program
 * that calls these is recorded as if its locks were pthread's; without the recorder each is a test of a pointer that is
 * NULL. For C and C++, with GCC or Clang, and with no library to link.
 *
 *   witness_made(lock, how)      when the lock is made (may be left out: then the place of its first use names its type)
 *   witness_asked(lock, how)     before a call that may block
 *   witness_acquired(lock)       after it, where the lock was got
 *   witness_gave_up(lock)        after it, where it wasn't
 *   witness_tried(lock, how)     after a try that got the lock
 *   witness_released(lock)       before the lock is released
 *   witness_destroyed(lock)      before its memory is used for something else
 *
 * LOCK is any address of the lock's own; of a lock that may move it is what witness_handle() has answered once, which is
 * NULL without the recorder. HOW is WITNESS_MUTEX, or WITNESS_READ or WITNESS_WRITE of a lock for readers and writers; it
 * is made as either of the two. Each `asked` is followed by `acquired` or `gave_up` of the same thread, and what the
 * thread does with other locks in between isn't recorded.
 *
 * Where a call comes from is found by its address and the program's debug information. Where there is none, or the
 * source is in another language, it is told:
 *
 *   witness_made_at(lock, how, file, line, function, type)   TYPE names the lock's type, or is NULL
 *   witness_asked_at(lock, how, file, line, function)
 *   witness_tried_at(lock, how, file, line, function)
 *   witness_released_at(lock, file, line, function)
 *   witness_makes_at(file, line, function)   before this thread makes a further one
 *
 * These are strings that are read during the call alone. With WITNESS_BY_NAME defined, the four without `_at` tell the
 * file, the line and the function that they stand in. The functions below are for other languages: they take the number of
 * a place, which is the same until the process ends, or 0. By witness_recorder_callers such places are told as the callers
 * of this thread's next request, innermost first. A place whose function is empty has the callers of the call instead.
 */
#ifndef WITNESS_H
#define WITNESS_H

/* The version of all that comes with this header, and the kit by which it is proved. */
#define WITNESS_VERSION "0.5.0"
#define WITNESS_KIT "rattle-kit-13f logic dac8208d650f15bf"

enum { WITNESS_MUTEX, WITNESS_READ, WITNESS_WRITE };

#ifdef __cplusplus
extern "C" {
#endif

void witness_recorder_made(const volatile void *lock, int how) __attribute__((weak));
void witness_recorder_asked(const volatile void *lock, int how) __attribute__((weak));
void witness_recorder_acquired(const volatile void *lock) __attribute__((weak));
void witness_recorder_gave_up(const volatile void *lock) __attribute__((weak));
void witness_recorder_tried(const volatile void *lock, int how) __attribute__((weak));
void witness_recorder_released(const volatile void *lock) __attribute__((weak));
void witness_recorder_destroyed(const volatile void *lock) __attribute__((weak));
const void *witness_recorder_handle(void) __attribute__((weak));
unsigned witness_recorder_place(const char *file, unsigned line, const char *function) __attribute__((weak));
void witness_recorder_made_at(const volatile void *lock, int how, unsigned place, const char *type) __attribute__((weak));
void witness_recorder_asked_at(const volatile void *lock, int how, unsigned place) __attribute__((weak));
void witness_recorder_tried_at(const volatile void *lock, int how, unsigned place) __attribute__((weak));
void witness_recorder_released_at(const volatile void *lock, unsigned place) __attribute__((weak));
void witness_recorder_makes_at(unsigned place) __attribute__((weak));
void witness_recorder_callers(const unsigned *places, unsigned count) __attribute__((weak));

#ifdef __cplusplus
}
#endif

#define witness_handle() (witness_recorder_handle ? witness_recorder_handle() : (const void *)0)
#define witness_made_at(lock, how, file, line, function, type)                                                         \
    (witness_recorder_made_at                                                                                          \
            ? witness_recorder_made_at((lock), (how), witness_recorder_place((file), (line), (function)), (type))      \
            : (void)0)
#define witness_asked_at(lock, how, file, line, function)                                                              \
    (witness_recorder_asked_at                                                                                         \
            ? witness_recorder_asked_at((lock), (how), witness_recorder_place((file), (line), (function)))             \
            : (void)0)
#define witness_tried_at(lock, how, file, line, function)                                                              \
    (witness_recorder_tried_at                                                                                         \
            ? witness_recorder_tried_at((lock), (how), witness_recorder_place((file), (line), (function)))             \
            : (void)0)
#define witness_released_at(lock, file, line, function)                                                                \
    (witness_recorder_released_at                                                                                      \
            ? witness_recorder_released_at((lock), witness_recorder_place((file), (line), (function)))                 \
            : (void)0)
#define witness_makes_at(file, line, function)                                                                         \
    (witness_recorder_makes_at ? witness_recorder_makes_at(witness_recorder_place((file), (line), (function)))         \
                               : (void)0)

#ifdef WITNESS_BY_NAME
#define witness_made(lock, how) witness_made_at(lock, how, __FILE__, __LINE__, __func__, (const char *)0)
#define witness_asked(lock, how) witness_asked_at(lock, how, __FILE__, __LINE__, __func__)
#define witness_tried(lock, how) witness_tried_at(lock, how, __FILE__, __LINE__, __func__)
#define witness_released(lock) witness_released_at(lock, __FILE__, __LINE__, __func__)
#else
#define witness_made(lock, how) (witness_recorder_made ? witness_recorder_made((lock), (how)) : (void)0)
#define witness_asked(lock, how) (witness_recorder_asked ? witness_recorder_asked((lock), (how)) : (void)0)
#define witness_tried(lock, how) (witness_recorder_tried ? witness_recorder_tried((lock), (how)) : (void)0)
#define witness_released(lock) (witness_recorder_released ? witness_recorder_released(lock) : (void)0)
#endif
#define witness_acquired(lock) (witness_recorder_acquired ? witness_recorder_acquired(lock) : (void)0)
#define witness_gave_up(lock) (witness_recorder_gave_up ? witness_recorder_gave_up(lock) : (void)0)
#define witness_destroyed(lock) (witness_recorder_destroyed ? witness_recorder_destroyed(lock) : (void)0)

#endif
