/*
 * The frames of stacks, for the notes.
 */
#ifndef RECORD_FRAMES_H
#define RECORD_FRAMES_H

#include <stdint.h>

#include "notes.h"
#include "sites.h"

/* What stands in the object at that offset, as it is found again in a later run. */
struct code_place code_place_in(struct sites *sites, uint32_t object, uint64_t offset);

/* Adds the frames of the stack of that number to the notes, at most so many; of a stack 0 those of the place. */
void frames_add(struct notes *notes, struct sites *sites, uint32_t place, uint32_t stack, size_t most);

#endif
