/*
 * What `record --show` asks of a program that goes on: which mutexes are held, and by whom. It sets a byte in the first
 * line of the stream, and that page is mapped where each request looks in any case (asked_page). So a request that finds
 * the byte set takes the long way and writes the answer: `answer`, then a line `holder LOCK THREAD` for each mutex. Nobody
 * is stopped, no signal is sent, and as long as nothing is asked it costs nothing.
 *
 * A mutex itself says who holds it. It is read by the kernel, since its memory may be gone.
 */
#include "recorder.h"

#include <sys/uio.h>

bool lock_read(const struct lock *lock, void *to, size_t bytes)
{
    struct iovec here = {to, bytes}, there = {(void *)atomic_load(&lock->address), bytes};
    return process_vm_readv(getpid(), &here, 1, &there, 1, 0) == (ssize_t)bytes;
}

int32_t lock_holder(const struct lock *lock)
{
    pthread_mutex_t mutex;
    pthread_rwlock_t rwlock;
    if (lock->type->class == MUTEX && lock_read(lock, &mutex, sizeof mutex))
        return mutex.__data.__lock == 0 ? 0 : mutex.__data.__owner;
    return lock->type->class == RWLOCK && lock_read(lock, &rwlock, sizeof rwlock) ? (int32_t)rwlock.__data.__cur_writer
                                                                                  : 0;
}

static void write_answer(struct thread *thread)
{
    int32_t holder;
    SEATED_OR(thread) return;
    write_line(WORD_ANSWER);
    for (uint32_t at = 0; at < LOCKS_ALIVE; at++) {
        struct lock *lock = lock_held_from(&at, &holder);
        uint32_t number = lock ? lock_number(thread, lock) : 0;
        if (number != 0)
            write_line(WORD_HOLDER " %u %u", number, (uint32_t)holder);
    }
}

/* The thread is inside the recorder, and asks for nothing yet. */
COLD void answer(struct thread *thread)
{
    if (!stream_is_asked())
        return;
    ENTERS_OR return;
    if (!stream_is_asked())
        return;
    write_answer(thread);
    stream_is_answered();
}
