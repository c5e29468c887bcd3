/*
 * What a program asserts of the locks that its thread holds. The stream hasn't all of these: what a thread holds that
 * asks for nothing isn't written, and the verifier isn't told. So what an assertion comes to is asked by how the thread
 * itself says that it holds the lock, and no verifier is needed for that.
 */
#include "judge.h"
#include "lock_lines.h"
#include "names.h"
#include "report_action.h"

struct question {
    enum witness_kind kind;
    const char *text;
    const volatile void *address; /* NULL where no lock is asked about */
    uint8_t flags;
    int64_t answer;
};

static const struct held *held_by(const struct thread *thread, const struct lock *lock)
{
    for (uint32_t i = 0; lock && i < thread->count; i++)
        if (thread->held[i].lock == lock)
            return &thread->held[i];
    return NULL;
}

static int64_t asserted(const struct held *held, uint8_t flags)
{
    uint32_t again = held ? held->count - 1 : 0, most = UINT16_MAX;
    return wit_asserted(held, held && held->mode == EXCLUSIVE, (uint16_t)(again < most ? again : most), flags);
}

static void put_answer(struct lines *lines, const struct question *question, const struct thread *thread)
{
    char name[NAME_ROOM], of[NAME_ROOM];
    /* The program's own words come first, if there are any. */
    if (question->text)
        put_words(lines, "%s: ", question->text);
    if (question->kind == WITNESS_HELD) {
        put_words(lines, "%u locks held:\n", thread->count);
        put_thread(lines, thread);
        return;
    }
    const struct lock *lock = lock_at((const void *)question->address);
    if (lock)
        name_any(name, of, lock);
    else
        name_unmet(name, (uintptr_t)question->address);
    put_assertion(lines, name, question->answer);
}

static void keep_answer(const struct question *question, const struct thread *thread)
{
    struct lines lines = {NULL, 0, 0};
    put_answer(&lines, question, thread);
    lines = (struct lines){report_kept(question->kind, lines.length), lines.length + 1, 0};
    if (lines.to)
        put_answer(&lines, question, thread);
}

static void ask_inside(void *argument)
{
    struct question *question = argument;
    ENTERS_OR return;
    if (question->kind == WITNESS_HELD)
        question->answer = self.count;
    else if (question->address)
        question->answer = asserted(held_by(&self, lock_at((const void *)question->address)), question->flags);
    if (question->answer > 0)
        keep_answer(question, &self);
}

/* What it came to; 0 where that can't be asked. */
static int64_t answer_to(struct question *question, struct caller caller)
{
    if (!chain_opens(caller.stack))
        return 0;
    aside(ask_inside, question);
    judge_tells(caller);
    self.state = OPEN;
    return question->answer;
}

EXPORT int witness_assert(const volatile void *lock, int how)
{
    /* What no set of flags has is an invalid one. */
    uint8_t flags = how >= 0 && how < UINT8_MAX ? (uint8_t)how : UINT8_MAX;
    struct question question = {.kind = WITNESS_ASSERTION, .address = lock, .flags = flags};
    return answer_to(&question, CALLER) == 0;
}

EXPORT int witness_warn(const char *text)
{
    struct question question = {.kind = WITNESS_HELD, .text = text};
    return (int)answer_to(&question, CALLER);
}
