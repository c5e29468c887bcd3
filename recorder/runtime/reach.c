/*
 * Memory that may not be there: it isn't the recorder's, or of a file that others may cut. The kernel is asked to read it,
 * which is refused where it can't be read, and does nothing else: no call is stopped by so few rules as one that blocks
 * signals. So nothing is known of the moment after.
 */
#include "recorder.h"

#include <errno.h>
#include <sys/syscall.h>

bool is_readable(const void *address)
{
    int before = errno;
    uintptr_t word = (uintptr_t)address & ~(uintptr_t)7;
    /* What is to be done with the signals is nothing that there is. */
    bool is_there = word && (syscall(SYS_rt_sigprocmask, -1, word, NULL, sizeof(uint64_t)) == 0 || errno != EFAULT);
    errno = before;
    return is_there;
}

bool is_all_readable(const void *from, size_t bytes)
{
    for (uintptr_t at = (uintptr_t)from, end = at + bytes; at < end; at = (at / PAGE_BYTES + 1) * PAGE_BYTES)
        if (!is_readable((const void *)at))
            return false;
    return true;
}
