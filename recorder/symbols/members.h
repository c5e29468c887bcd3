/*
 * Which member of which class, or which variable, an expression of the source names, by debug information.
 */
#ifndef RECORD_MEMBERS_H
#define RECORD_MEMBERS_H

#include <stdbool.h>
#include <stdint.h>

#include "scopes.h"

struct member {
    char *name; /* `Account::m`; of what a variable points to `journal->m`: a text of one's own. NULL where it isn't known */
    char *identity;   /* the name, with the file that declares the class or the variable: no other member has it */
    uint64_t size;    /* of the member, in bytes; 0 where that isn't known */
    bool is_variable; /* the expression is of a variable that is always at the same address, and of no object elsewhere */
};

/*
 * The member is that of the object which the last pointer or reference on the way leads to, with the class that declares it:
 * `Account::m` of `a.m`, `v[i]->m` and `this->m`; `Bank::audit.m` where the object has another one in it. Where one variable
 * that isn't a function's own leads to the object, that is told in place of the class. What is a pointer itself is no member.
 */
struct member member_of(struct debug_info *info, const struct spot_of_code *spot, const char *expression);
void member_end(struct member *member);

#endif
