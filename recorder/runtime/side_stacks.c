/*
 * Stacks of the recorder's own.
 *
 * A call that isn't known yet takes the unwinder, which needs some kilobytes. A coroutine or a handler of signals may have
 * fewer than that left, and nothing tells how many. So what takes more than a few hundred bytes is done elsewhere, whoever
 * calls. No handler of the program's runs meanwhile: it might need more stack than there is here, or leave by a jump. But a
 * fault may be one that the program sees to by itself. Its handler runs there, unless it has a stack of its own: on that one
 * the thread may be just now, and the kernel, which doesn't see it there, would begin at its top again.
 */
#include "recorder.h"

#include <errno.h>
#include <sys/syscall.h>

/* As many as may be needed at once: others wait for the recorder's mutex on theirs. They are made when they are. */
enum { STACKS = 256, STACK_BYTES = 1 << 16 };

_Atomic bool has_small_stacks;
static struct own_stack {
    _Atomic bool taken;
    char *from;
} stacks[STACKS];

/* Calls the function with the argument, with the stack pointer at the top. The unwinder finds the caller by its frame pointer. */
void switch_stack(void (*function)(void *), void *argument, char *top) __attribute__((visibility("hidden")));
__asm__(".text\n"
        ".hidden switch_stack\n"
        ".globl switch_stack\n"
        ".type switch_stack, @function\n"
        "switch_stack:\n"
        ".cfi_startproc\n"
        "push %rbp\n"
        ".cfi_def_cfa_offset 16\n"
        ".cfi_offset %rbp, -16\n"
        "mov %rsp, %rbp\n"
        ".cfi_def_cfa_register %rbp\n"
        "mov %rdx, %rsp\n"
        "mov %rdi, %rax\n"
        "mov %rsi, %rdi\n"
        "call *%rax\n"
        "mov %rbp, %rsp\n"
        "pop %rbp\n"
        ".cfi_def_cfa %rsp, 8\n"
        "ret\n"
        ".cfi_endproc\n"
        ".size switch_stack, . - switch_stack\n");

bool is_aside(uintptr_t stack)
{
    return self.own_stack && stack - self.own_stack < STACK_BYTES;
}

/* Below it lies a page that nobody may touch. */
static bool is_made(struct own_stack *stack)
{
    char *from = stack->from ? NULL : table(PAGE_BYTES + STACK_BYTES);
    if (from && mprotect(from, PAGE_BYTES, PROT_NONE) == 0)
        stack->from = from + PAGE_BYTES;
    else if (from)
        table_goes(from, PAGE_BYTES + STACK_BYTES);
    return stack->from != NULL;
}

/* NULL where there is none left, or no memory for it. */
static struct own_stack *stack_taken(void)
{
    for (struct own_stack *stack = stacks; stack < stacks + STACKS; stack++) {
        if (atomic_load_explicit(&stack->taken, memory_order_relaxed) || atomic_exchange(&stack->taken, true))
            continue;
        if (is_made(stack))
            return stack;
        atomic_store(&stack->taken, false);
        break;
    }
    return NULL;
}

static void call_elsewhere(void (*function)(void *), void *argument)
{
    struct own_stack *stack = stack_taken();
    uintptr_t before = self.own_stack;
    if (!stack) {
        function(argument);
        return;
    }
    self.own_stack = (uintptr_t)stack->from;
    switch_stack(function, argument, stack->from + STACK_BYTES);
    self.own_stack = before;
    atomic_store_explicit(&stack->taken, false, memory_order_release);
}

/* The kernel's call: the C library's takes more stack, and keeps two of its own signals from being blocked. */
void change_signals(int how, uint64_t wanted, uint64_t *before)
{
    syscall(SYS_rt_sigprocmask, how, &wanted, before, sizeof wanted);
}

void aside(void (*function)(void *), void *argument)
{
    int before = errno, cancellation;
    uint64_t signals;
    if (is_aside((uintptr_t)__builtin_frame_address(0))) {
        function(argument);
        return;
    }
    pthread_setcancelstate(PTHREAD_CANCEL_DISABLE, &cancellation);
    bool disturbs = atomic_load_explicit(&has_handlers, memory_order_relaxed) && !self.keeps_signals;
    if (disturbs)
        change_signals(SIG_SETMASK, atomic_load(&has_small_stacks) ? UINT64_MAX : ~FAULTS, &signals);
    self.keeps_signals |= disturbs;
    call_elsewhere(function, argument);
    if (disturbs) {
        self.keeps_signals = false;
        change_signals(SIG_SETMASK, signals, NULL);
    }
    pthread_setcancelstate(cancellation, NULL);
    errno = before;
}

/* Where the thread's stack for handlers lies is remembered: to ask the kernel at each call would take too long. */
EXPORT int sigaltstack(const stack_t *restrict given, stack_t *restrict before)
{
    start();
    int answer = real.sigaltstack(given, before);
    if (answer == 0 && given) {
        self.other_stack = (uintptr_t)given->ss_sp;
        self.other_size = given->ss_flags & SS_DISABLE ? 0 : given->ss_size;
    }
    return answer;
}

/* The child's other threads are no more. */
void aside_forked(void)
{
    for (struct own_stack *stack = stacks; stack < stacks + STACKS; stack++)
        if (!is_aside((uintptr_t)stack->from))
            atomic_store(&stack->taken, false);
}
