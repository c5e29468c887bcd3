#include "verifier_process.h"

#include <stdlib.h>
#include <string.h>

#include "allocation.h"
#include "finding_lines.h"

enum { LOOK_PATIENCE = 30000 };

void verifier_hears(struct verifier *verifier, const char *witness)
{
    if (verifier->to)
        fclose(verifier->to);
    free(verifier->told);
    verifier->told = NULL;
    verifier->to = open_memstream(&verifier->told, &verifier->length);
    if (!verifier->to)
        abort();
    if (!verifier->is_begun)
        verdict_begin(&verifier->verdict, witness, "findings", verifier->to);
    verifier->is_begun = true;
    verifier->verdict.told = verifier->to;
}

/* Whether what it has told ends with all of a moment. */
static bool has_moment(const struct verifier *verifier)
{
    const char *told = verifier->told;
    size_t length = verifier->length;
    const char *last = length > 0 && told[length - 1] == '\n' ? memrchr(told, '\n', length - 1) : NULL;
    last = last ? last + 1 : told;
    return length > 0 && told[length - 1] == '\n' && IS_FINDING(last, "clean");
}

/* Waits for what it tells next. False where it tells no more. */
static bool hears_more(struct verifier *verifier)
{
    bool goes_on = verdict_hears(&verifier->verdict);
    fflush(verifier->to);
    return goes_on;
}

/* What stands for the verifier may wait for the end of its input: so it is waited for as long as for a grade at most. */
bool verifier_looks(struct verifier *verifier)
{
    static const char look[] = "look\n";
    bool goes_on;
    verdict_feed(&verifier->verdict, look, sizeof look - 1);
    verifier->verdict.had_little = false;
    verifier->verdict.patience = LOOK_PATIENCE;
    do
        goes_on = hears_more(verifier);
    while (goes_on && !has_moment(verifier));
    verifier->verdict.patience = -1;
    return goes_on;
}

static size_t lines_after(const struct verifier *verifier, size_t from)
{
    size_t lines = 0;
    for (; from < verifier->length; from++)
        lines += verifier->told[from] == '\n';
    return lines;
}

/* Each line that asks is answered by one. */
void verifier_grades(struct verifier *verifier, const struct grades_wanted *wanted, const char *told, size_t length)
{
    struct verdict *verdict = &verifier->verdict;
    const struct text *single = &wanted->notes->single.told;
    char *question = NULL;
    size_t moment = verifier->length, questions = 0;
    FILE *to = open_memstream(&question, &questions);
    size_t grades = to ? grades_ask(to, wanted, told, length) : 0;
    if (to)
        fclose(to);
    verdict->patience = wanted->patience;
    if (grades > 0) {
        verdict_feed(verdict, single->bytes + verifier->single, single->length - verifier->single);
        verdict_feed(verdict, question, questions);
        verifier->single = single->length;
    }
    verdict->had_little = false;
    while (lines_after(verifier, moment) < grades && hears_more(verifier))
        ;
    verdict->patience = -1;
    free(question);
}

bool verifier_goes_on(const struct verifier *verifier)
{
    return verifier->verdict.out >= 0;
}

void verifier_leaves(struct verifier *verifier)
{
    if (verifier->is_begun)
        verdict_leaves(&verifier->verdict);
    if (verifier->to)
        fclose(verifier->to);
    free(verifier->told);
    *verifier = (struct verifier){0};
}
