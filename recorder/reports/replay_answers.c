#include "replay_answers.h"

#include <stdlib.h>
#include <string.h>

#include "finding_lines.h"

/* The shared one keeps what it knows of each process to its end: after so many another one is begun. */
enum { SHORT_BYTES = 1 << 20, ANSWERS_BYTES = 1 << 26, DEATH = 126, PROCESSES_MOST = 64 };

void answers_stop(struct answers *answers)
{
    verifier_leaves(&answers->shared);
}

void answers_end(struct answers *answers)
{
    for (size_t i = 0; i < answers->count; i++) {
        free(answers->answer[i].lines.bytes);
        free(answers->answer[i].told.bytes);
    }
    free(answers->answer);
    answers_stop(answers);
    *answers = (struct answers){0};
}

void replaying_begin(struct replaying *replaying, struct answers *answers, const char *witness, bool shares)
{
    *replaying = (struct replaying){.answers = answers, .witness = witness, .shares = shares};
}

/* Begins the verifier, with what has come so far. */
static void begin(struct replaying *replaying)
{
    verifier_hears(&replaying->own, replaying->witness);
    verdict_feed(&replaying->own.verdict, replaying->lines.bytes, replaying->lines.length);
}

void replaying_takes(struct replaying *replaying, const char *bytes, size_t length)
{
    if (!replaying->own.is_begun && replaying->lines.length + length > SHORT_BYTES)
        begin(replaying);
    if (replaying->own.is_begun)
        verdict_feed(&replaying->own.verdict, bytes, length);
    else
        text_add(&replaying->lines, bytes, length);
}

/* What it told of those lines before; NULL where it wasn't asked. */
static const struct answer *known(const struct answers *answers, const struct text *lines)
{
    for (size_t i = 0; i < answers->count; i++) {
        const struct answer *answer = &answers->answer[i];
        if (answer->lines.length == lines->length
            && (lines->length == 0 || memcmp(answer->lines.bytes, lines->bytes, lines->length) == 0))
            return answer;
    }
    return NULL;
}

/*
 * Keeps the answer for other lines that are alike. One that couldn't be run isn't kept: it may be another time. Nor are reports,
 * since each process has grades of its own.
 */
static void keep(struct replaying *replaying, int status)
{
    struct answers *answers = replaying->answers;
    const struct text *told = &replaying->told;
    size_t bytes = replaying->lines.length + told->length;
    if (status >= DEATH || bytes > ANSWERS_BYTES - answers->bytes || told->length == 0
        || memmem(told->bytes, told->length, FINDING("report"), sizeof FINDING("report") - 1))
        return;
    struct answer *answer = &ADD(answers->answer, answers->count, answers->room);
    *answer = (struct answer){.lines = replaying->lines, .status = status};
    text_add(&answer->told, told->bytes, told->length);
    answers->bytes += bytes;
    replaying->lines = (struct text){0};
}

/* What the verifier knows of the process, with the grades that are wanted. False where it ends before. */
static bool has_told(struct replaying *replaying, struct verifier *verifier, const struct grades_wanted *wanted)
{
    if (!verifier_looks(verifier))
        return false;
    verifier_grades(verifier, wanted, verifier->told, verifier->length);
    text_add(&replaying->told, verifier->told, verifier->length);
    return true;
}

/* The verifier has all lines. One that isn't to grade may wait for their end before it answers. */
static int end(struct replaying *replaying, const struct grades_wanted *wanted)
{
    struct verifier *own = &replaying->own;
    int status = 0;
    if (wanted->patience == 0 || !has_told(replaying, own, wanted)) {
        status = verdict_end(&own->verdict);
        fflush(own->to);
        text_add(&replaying->told, own->told, own->length);
    }
    verifier_leaves(own);
    return status;
}

/* Asks the verifier that others are asked, too. False where it can't be asked, or ends at these lines. */
static bool share(struct replaying *replaying, const struct grades_wanted *wanted)
{
    struct answers *answers = replaying->answers;
    struct verifier *shared = &answers->shared;
    const struct text *lines = &replaying->lines;
    if (!replaying->shares || answers->is_one_by_one || (lines->length > 0 && lines->bytes[lines->length - 1] != '\n'))
        return false;
    if (++answers->processes % PROCESSES_MOST == 0)
        verifier_leaves(shared);
    verifier_hears(shared, replaying->witness);
    answers->is_one_by_one = shared->verdict.process == 0;
    char *process = say_text("process %u\n", answers->processes);
    verdict_feed(&shared->verdict, process, strlen(process));
    free(process);
    verdict_feed(&shared->verdict, lines->bytes, lines->length);
    shared->single = 0;
    bool is_told = has_told(replaying, shared, wanted);
    if (!verifier_goes_on(shared))
        verifier_leaves(shared);
    return is_told;
}

/* All lines have come, few of them. Where the others' verifier can't be asked, one of their own is. */
static int ask(struct replaying *replaying, const struct grades_wanted *wanted)
{
    int status = 0;
    if (!share(replaying, wanted)) {
        begin(replaying);
        status = end(replaying, wanted);
    }
    keep(replaying, status);
    return status;
}

int replaying_end(struct replaying *replaying, const struct grades_wanted *wanted)
{
    bool is_short = !replaying->own.is_begun;
    const struct answer *before = is_short ? known(replaying->answers, &replaying->lines) : NULL;
    int status = before ? before->status : is_short ? ask(replaying, wanted) : end(replaying, wanted);
    if (before)
        text_add(&replaying->told, before->told.bytes, before->told.length);
    free(replaying->lines.bytes);
    return status;
}
