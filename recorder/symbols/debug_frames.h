/*
 * The functions at an address of code, by debug information: the one that has the code, and those that were inlined there.
 */
#ifndef RECORD_DEBUG_FRAMES_H
#define RECORD_DEBUG_FRAMES_H

#include <stddef.h>
#include <stdint.h>

#include "debug_info.h"

/* One of them: texts of one's own. */
struct debug_frame {
    char *function; /* as the source has it, with what it takes where that is known; NULL where it has no name */
    char *site;     /* FILE:LINE, of the call where another one was inlined; NULL where that isn't known */
};

/* Fills in so many of them at most, innermost first. The answer is how many there are; 0 where none is known. */
size_t debug_info_frames(struct debug_info *info, uint64_t address, struct debug_frame *frame, size_t most);

#endif
