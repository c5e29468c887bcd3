/*
 * Which part of a variable stands at an address, by debug information.
 */
#ifndef RECORD_VARIABLES_H
#define RECORD_VARIABLES_H

#include <stdbool.h>
#include <stdint.h>

#include "debug_info.h"

struct part_of_variable {
    char *variable; /* its name, with the function that it is of; NULL where nothing is known */
    char *path; /* from there to the part: `.lock`, `[3]`; of more than `few` elements, of arrays in arrays too, `[]` */
};

/* Both are texts of one's own. Where any element is meant `[]` stands for each. */
struct part_of_variable part_of_variable(struct debug_info *info, uint64_t address, uint64_t few, bool is_any_element);
void part_of_variable_end(struct part_of_variable *part);

#endif
