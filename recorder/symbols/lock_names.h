/*
 * What a source line names the lock by that it asks for, or makes: by the line's text, and by debug information.
 */
#ifndef RECORD_LOCK_NAMES_H
#define RECORD_LOCK_NAMES_H

#include <stdbool.h>
#include <stdint.h>

struct alike;
struct declared;
struct step;
struct lock_names;
struct type;

struct lock_name_in_source {
    /* The one expression that it can be; NULL where there isn't one, or the source was changed after the object. */
    const char *expression;
    /* The member that all expressions name which it can be (members.h); NULL where that isn't known. */
    const char *member, *identity;
    uint64_t size; /* of the member, in bytes */
    bool is_kept;  /* the function may keep it when it returns: neither a guard nor a call lets the lock go */
};

struct lock_names *lock_names_new(void);
void lock_names_end(struct lock_names *names);

/* What is known of lines that look alike (call_choice.h). */
struct alike *lock_names_alike(const struct lock_names *names);

/*
 * What tells the step's call of that function from others in its own function: a text of one's own, NULL where nothing does.
 */
char *call_name_at(const struct declared *declared, const struct step *step, const char *function);

/* Whether the text of the step's line is known. */
bool has_text_at(const struct declared *declared, const struct step *step);

/* The step's function in the source. */
struct function_in_source {
    const char *name; /* by debug information, where the step has another one; else NULL */
    long lines;       /* how many lines the step is below the one that declares it; negative where that isn't known */
};

/* That of the step. Never NULL; it is looked for once, and ends with the symbols. */
const struct function_in_source *function_at_step(const struct declared *declared, const struct step *step);

/* As field_of_label (fields.h), looked for once; it ends with the symbols. NULL where it isn't known. */
const char *lock_field_of(const struct declared *declared, const struct type *type);

/* That of the step. Never NULL; it is looked for once, and ends with the symbols. */
const struct lock_name_in_source *lock_name_at(const struct declared *declared, const struct step *step);

#endif
