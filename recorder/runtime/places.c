/*
 * Where calls come from: return addresses, and the callers behind them.
 *
 * A function whose only work is to lock (std::mutex::lock, uv_mutex_lock) says nothing about its call, so its caller is
 * wanted. Another function of the C++ library, or of Rust's, says nothing either, unless a function of the program was
 * inlined there (a lambda in std::sort). That can't be told here. So the two, it and the caller after it, are one place
 * together, and `record` takes the one that says something, by their files.
 *
 * To unwind the stack at each call would take too long. But at one return address a function's frame is found
 * always in the same way: it lies at a distance from the stack pointer that is always the same, or at the frame
 * pointer, which a function has that takes memory from the stack. So the unwinder is asked once for each return
 * address, and from then on the callers are read from the stack. Where neither is so, or the frame pointer isn't
 * known, the unwinder is asked each time: no other address is ever read.
 */
#include "steer.h"

#include <string.h>
#include <strings.h>
#include <sys/auxv.h>
#include <unwind.h>

enum { FRAMES = 24, WRAPPER_BYTES = 256, WORD_MOST = 64, LIBRARY_MOST = 8, LEFT_MOST = 4096 };

/* The stack pointer and the frame pointer are those that the function has once the call has returned. */
struct frame {
    uintptr_t pc, stack, base;
    bool has_base; /* the frame pointer is known */
};

struct stack {
    struct caller wanted; /* the first frame to be kept */
    uint32_t count;
    struct frame frames[FRAMES];
};

/* The frame pointer's number among the registers. */
enum { FRAME_POINTER = 6 };

struct place *places;
static uint32_t places_met;

bool places_made(void)
{
    places = table(PLACES * sizeof *places);
    return places != NULL;
}

/* What follows in the name after the first of these that it begins with, NULL where it begins with none. */
static const char *after_one_of(const char *name, const char *const *beginnings)
{
    for (; *beginnings; beginnings++)
        if (strncmp(name, *beginnings, strlen(*beginnings)) == 0)
            return name + strlen(*beginnings);
    return NULL;
}

/* Whether the word ends with one of these, in letters of any case. */
static bool ends_with_one_of(const char *word, const char *const *ends)
{
    bool does = false;
    for (size_t length = strlen(word); *ends && !does; ends++)
        does = length >= strlen(*ends) && strcasecmp(word + length - strlen(*ends), *ends) == 0;
    return does;
}

/* The last word of a C++ name: `lock` of Mutex::lock, `Mutex` of Mutex's constructor; any other name as it is. */
static void last_word(const char *name, char word[WORD_MOST])
{
    const char *at = name, *last = name;
    size_t length = strlen(name);
    if (strncmp(name, "_Z", 2) == 0) {
        at += strcspn(name, "0123456789");
        while (*at >= '1' && *at <= '9') {
            char *behind;
            size_t stated = strtoul(at, &behind, 10);
            if (stated > strlen(behind))
                break;
            last = behind;
            length = stated;
            at = behind + stated;
        }
    }
    if (length >= WORD_MOST)
        length = 0;
    memcpy(word, last, length);
    word[length] = '\0';
}

/* Whether the pattern, which ends at a colon or a zero, is for the word: * stands for any bytes, ? for one. */
static bool is_for(const char *pattern, const char *word)
{
    for (; *pattern && *pattern != ':'; pattern++, word++) {
        if (*pattern == '*') {
            for (; *word; word++)
                if (is_for(pattern + 1, word))
                    return true;
            return is_for(pattern + 1, word);
        }
        if (*word == '\0' || (*pattern != '?' && *pattern != *word))
            return false;
    }
    return *word == '\0';
}

/* Whether the user said that the function is to be passed over. */
static bool is_passed_over(const char *name, const char *word)
{
    for (const char *at = skipped; *at; at += strcspn(at, ":"), at += *at == ':')
        if (is_for(at, word) || is_for(at, name))
            return true;
    return false;
}

/*
 * By the name of a function and its size: whether it does something with a lock and little else. What stands in for one of
 * pthread's, as ThreadSanitizer does, may do more.
 */
static bool is_wrapper(const char *name, const char *word, uint64_t size)
{
    static const char *const within[] = {LIBRARY_WRAPPERS};
    static const char *const others[] = {NO_WRAPPER_ENDS, NULL}, *const ends[] = {WRAPPER_ENDS, NULL};
    for (size_t i = 0; i < sizeof within / sizeof *within; i++)
        if (strstr(name, within[i]))
            return true;
    return !ends_with_one_of(word, others) && ends_with_one_of(word, ends)
        && (size <= WRAPPER_BYTES || strncmp(word, "pthread_", 8) == 0);
}

/* Whether the function is one of Rust's own libraries, or of the crates that annotate locks, by its mangled name. */
static bool is_of_rust(const char *name)
{
    static const char *const crates[] = {"3std", "4core", "5alloc", "7witness", "8lock_api"};
    if (strcmp(name, "__rust_try") == 0 || strstr(name, "$u20$as$u20$lock_api.."))
        return true;
    const char *crate = strncmp(name, "_R", 2) == 0 ? strstr(name, "Cs") : NULL;
    crate = crate ? strchr(crate, '_') : NULL;
    size_t length = strlen(name);
    if (strncmp(name, "_ZN", 3) == 0 && length > 20 && strncmp(name + length - 20, "17h", 3) == 0)
        crate = name + 2;
    /* A trait's function: `66_$LT$witness..recorder..Recorder$u20$as$u20$..`. */
    const char *trait = crate ? strstr(crate, "_$LT$") : NULL;
    bool is_trait = trait && strspn(crate + 1, "0123456789") == (size_t)(trait - crate - 1);
    for (size_t i = 0; crate && i < sizeof crates / sizeof *crates; i++)
        if (strncmp(is_trait ? trait + 5 : crate + 1, crates[i] + is_trait, strlen(crates[i]) - is_trait) == 0)
            return true;
    return false;
}

/* Whether the function does little else than take memory for its caller: operator new, xmalloc. */
static bool is_taker(const char *name, const char *word, uint64_t size)
{
    static const char *const news[] = {"_Znw", "_Zna", NULL}, *const ends[] = {TAKER_ENDS, NULL};
    return after_one_of(name, news) || (size <= WRAPPER_BYTES && ends_with_one_of(word, ends));
}

static uint8_t detour_of(const char *name, const char *word, uint64_t size)
{
    static const char *const library[] = {"_ZNSt3__1", "_ZNKSt3__1", "_ZNSt", "_ZNKSt", "_ZSt", NULL};
    static const char *const of_compiler[] = {"_ZN9__gnu_cxx", "_ZNK9__gnu_cxx", NULL};
    /* A thread's way to its function, which is often inlined there: behind it there is nothing of the program. */
    static const char *const runs[] = {"6thread11_State_impl", "14__thread_proxy", NULL};
    static const char *const locks[] = {"5mutex", "10lock_guard", "11unique_lock", "11scoped_lock", "11shared_lock",
        "11timed_mutex", "12shared_mutex", "12__mutex_base", "15recursive_mutex", "18shared_timed_mutex",
        "21recursive_timed_mutex", "22__shared_mutex_pthread", NULL};
    const char *in_library = after_one_of(name, library);
    if (is_passed_over(name, word))
        return DETOUR_WRAPPER;
    if (is_of_rust(name) || after_one_of(name, of_compiler))
        return DETOUR_LIBRARY;
    if (in_library)
        return after_one_of(in_library, runs) ? DETOUR_NONE
            : after_one_of(in_library, locks) ? DETOUR_WRAPPER
                                              : DETOUR_LIBRARY;
    return is_wrapper(name, word, size) ? DETOUR_WRAPPER : DETOUR_NONE;
}

/* What its object knows of the place, and what that says of the call. */
static void look_up(struct place *place, uintptr_t pc)
{
    uintptr_t from;
    uint64_t size;
    char word[WORD_MOST];
    place->offset = object_offset(place->object, pc);
    if (!object_symbol(place->object, pc - 1, true, &from, &size, &place->name))
        return;
    place->within = pc - from;
    last_word(place->name, word);
    place->takes_memory = is_taker(place->name, word, size);
    uint8_t detour = detour_of(place->name, word, size);
    if (detour != DETOUR_NONE)
        place->detour = detour;
}

/* The number of the place, which is made as GIVEN where it wasn't met; 0 without room for it. Under the mutex. */
static uint32_t place_made(uintptr_t pc, const struct place *given)
{
    uint32_t number = place_at_pc(pc), slot = place_slot(pc);
    if (number || places_met >= PLACES / 4 * 3)
        return number;
    for (uintptr_t met; (met = atomic_load_explicit(&places[slot].pc, memory_order_relaxed)) != 0;) {
        if (met == PC_CLOSED && places[slot].closed == pc && places[slot].object == given->object)
            break;
        slot = (slot + 1) % PLACES;
    }
    struct place *place = &places[slot];
    if (atomic_load_explicit(&place->pc, memory_order_relaxed) == 0) {
        *place = *given;
        place->detour = frames_shown > 1 ? DETOUR_STACKS : DETOUR_NONE;
        if (place->object)
            look_up(place, pc);
        if (UNLIKELY(steers))
            steer_place(place);
        places_met++;
    }
    atomic_store_explicit(&place->pc, pc, memory_order_release);
    return slot + 1;
}

static void add(uintptr_t pc, int32_t step, bool leaves_base)
{
    uint32_t number = place_at_pc(pc);
    if (!number) {
        uint16_t object = (uint16_t)object_of(pc - 1, true);
        place_made(pc, &(struct place){.step = step, .leaves_base = leaves_base, .name = "", .object = object});
        return;
    }
    if (place_at(number)->step != step)
        place_at(number)->step = STEP_VARIES;
    place_at(number)->leaves_base |= leaves_base;
}

uint32_t place_named(uintptr_t pc, const char *file, unsigned line, const char *function)
{
    return place_made(pc, &(struct place){.step = STEP_LAST, .name = function, .offset = line, .file = file});
}

/* The object is mapped no longer: at its addresses there may be another. Its places stay, with their numbers. */
void places_closed(uintptr_t from, uintptr_t to)
{
    for (uint32_t slot = 0; slot < PLACES; slot++) {
        uintptr_t pc = atomic_load_explicit(&places[slot].pc, memory_order_relaxed);
        if (pc > from && pc <= to && pc != PC_CLOSED) {
            places[slot].closed = pc;
            atomic_store_explicit(&places[slot].pc, PC_CLOSED, memory_order_release);
        }
    }
}

static _Unwind_Reason_Code keep_frame(struct _Unwind_Context *context, void *argument)
{
    struct stack *stack = argument;
    struct frame frame = {_Unwind_GetIP(context), _Unwind_GetCFA(context), _Unwind_GetGR(context, FRAME_POINTER), true};
    if (stack->count == 0 && (frame.pc != stack->wanted.pc || frame.stack != stack->wanted.stack))
        return _URC_NO_REASON;
    if (frame.pc == 0)
        return _URC_END_OF_STACK;
    stack->frames[stack->count++] = frame;
    return stack->count == FRAMES ? _URC_END_OF_STACK : _URC_NO_REASON;
}

/* Of the unwinder: what the object has to unwind the function at that address by, NULL for nothing. */
struct dwarf_eh_bases {
    void *text, *data, *function;
};
extern const void *_Unwind_Find_FDE(void *pc, struct dwarf_eh_bases *bases);

static bool has_tables(uintptr_t pc)
{
    struct dwarf_eh_bases bases;
    return _Unwind_Find_FDE((void *)(pc - 1), &bases) != NULL;
}

/*
 * Whether the stack ends where nobody needs to know more: in the dynamic linker, which begins a process, or in the
 * function of the compiler's that ends an object. Neither has tables.
 */
static bool is_complete(const struct stack *stack)
{
    uint32_t linker = object_of(getauxval(AT_BASE), true);
    if (linker && object_of(stack->frames[stack->count - 1].pc - 1, true) == linker)
        return true;
    uintptr_t called = stack->count > 1 ? stack->frames[stack->count - 2].pc - 1 : 0, from;
    uint32_t object = called ? object_of(called, true) : 0;
    const char *name;
    return object && object_symbol(object, called, true, &from, NULL, &name) && strcmp(name, "__cxa_finalize") == 0;
}

static uintptr_t word_at(uintptr_t address)
{
    uintptr_t word;
    memcpy(&word, (const void *)address, sizeof word);
    return word;
}

/* The return address into a frame stands a word below its stack pointer on x86-64. */
static uintptr_t return_address(uintptr_t stack)
{
    return word_at(stack - sizeof(uintptr_t));
}

/* How the frame's own caller is found from it, whenever it is met. A frame pointer into the middle of a frame stands in
 * one that is aligned by hand, and so is of varying size. */
static int32_t step_between(const struct frame *frame, const struct frame *next)
{
    uintptr_t distance = next->stack - frame->stack;
    if (distance == 0 || distance >= INT32_MAX || return_address(next->stack) != next->pc)
        return STEP_VARIES;
    if (frame->base == next->stack - 2 * sizeof(uintptr_t))
        return STEP_FRAME;
    return frame->base >= frame->stack && frame->base < next->stack ? STEP_VARIES : (int32_t)distance;
}

/*
 * Whether the function has left its caller's frame pointer where it was, up to that call: it is the same, and stands in no
 * word of the function's frame, where it would have been saved. At that address it is always so.
 */
static bool leaves_base(const struct frame *frame, const struct frame *next)
{
    if (!frame->has_base || frame->base != next->base || next->stack - frame->stack > LEFT_MOST)
        return false;
    for (uintptr_t at = frame->stack; at < next->stack; at += sizeof at)
        if (word_at(at) == frame->base)
            return false;
    return true;
}

/* All callers by the unwinder; what is new in them is learnt. */
COLD static void unwind(struct caller caller, struct stack *stack)
{
    stack->wanted = caller;
    stack->count = 0;
    /* From code that was compiled while the program ran no way leads on. */
    if (has_tables(caller.pc))
        _Unwind_Backtrace(keep_frame, stack);
    if (stack->count == 0)
        stack->frames[stack->count++] = (struct frame){caller.pc, caller.stack, caller.base, false};
    uintptr_t last = stack->frames[stack->count - 1].pc;
    bool blind = stack->count < FRAMES && !has_tables(last);
    if (!objects_are_found())
        objects_look();
    ENTERS_OR return;
    if (blind && !is_complete(stack))
        object_ends_stacks(object_of(last - 1, true));
    for (uint32_t i = 0; i + 1 < stack->count; i++)
        add(stack->frames[i].pc, step_between(&stack->frames[i], &stack->frames[i + 1]),
            leaves_base(&stack->frames[i], &stack->frames[i + 1]));
    if (stack->count < FRAMES)
        add(stack->frames[stack->count - 1].pc, STEP_LAST, false);
}

/* Goes to the frame's own caller. False where the unwinder has to be asked. */
static inline bool climb(struct frame *frame, const struct place *place)
{
    int32_t step = place->step;
    if (step == STEP_VARIES || (step == STEP_FRAME && !frame->has_base))
        return false;
    frame->stack = step == STEP_FRAME ? frame->base + 2 * sizeof(uintptr_t) : frame->stack + (uintptr_t)step;
    frame->pc = return_address(frame->stack);
    /* Below the return address a function saves its caller's frame pointer, if it is to have one of its own. */
    if (step == STEP_FRAME)
        frame->base = word_at(frame->stack - 2 * sizeof(uintptr_t));
    else
        frame->has_base = frame->has_base && place->leaves_base;
    return true;
}

/* What was found of the callers that are wanted. */
struct search {
    struct caller caller;
    uint32_t wanted, count, *found;
    uint32_t library[LIBRARY_MOST]; /* the library's functions since the last one that was found */
    uint32_t libraries;
};

/* No address has the first bit, so a place that stands for two has this for its return address. */
static uintptr_t pair_pc(uint32_t library, uint32_t rest)
{
    return (uintptr_t)1 << 63 | (uintptr_t)library << 32 | rest;
}

/* Makes the place that stands for the two. Without room for it, the second one. */
COLD static uint32_t pair_made(uint32_t library, uint32_t rest)
{
    ENTERS_OR return rest;
    uint32_t number = place_made(pair_pc(library, rest), &(struct place){.name = "", .library = library, .rest = rest});
    return number ? number : rest;
}

/*
 * A further caller: one of the library is joined to the first one after it that isn't. False where a place that stands for
 * two would have to be made and isn't to be.
 */
static inline bool take(struct search *search, uint32_t number, bool makes)
{
    uint8_t detour = detour_at(number);
    if (detour == DETOUR_WRAPPER)
        return true;
    if (detour == DETOUR_LIBRARY) {
        if (search->libraries < LIBRARY_MOST)
            search->library[search->libraries++] = number;
        return true;
    }
    while (search->libraries > 0) {
        uint32_t library = search->library[--search->libraries];
        uint32_t pair = place_at_pc(pair_pc(library, number));
        if (!pair && !makes)
            return false;
        number = pair ? pair : pair_made(library, number);
    }
    search->found[search->count++] = number;
    return true;
}

/* Follows the steps that are known. False where one isn't, or isn't always the same. */
static bool follow(struct caller caller, struct search *search)
{
    struct frame frame = {caller.pc, caller.stack, caller.base, true};
    for (uint32_t frames = 0; frames < FRAMES - 1; frames++) {
        uint32_t number = place_at_pc(frame.pc);
        if (!number)
            return false;
        const struct place *place = place_at(number);
        if (!take(search, number, false))
            return false;
        if (search->count == search->wanted || place->step == STEP_LAST)
            return true;
        if (!climb(&frame, place))
            return false;
    }
    return true;
}

/* Asks the unwinder. */
COLD static void look_far(void *argument)
{
    struct search *search = argument;
    struct stack stack;
    unwind(search->caller, &stack);
    search->count = search->libraries = 0;
    for (uint32_t i = 0; i < stack.count && search->count < search->wanted; i++) {
        uint32_t number = place_at_pc(stack.frames[i].pc);
        if (number)
            take(search, number, true);
    }
}

/* Those of a place by name: they begin with it. */
static uint32_t site_with_callers(struct caller caller, uint32_t wanted, uint32_t *found)
{
    found[0] = place_at_pc(caller.pc);
    uint32_t count = 1 + site_callers(wanted - 1, found + 1);
    if (count > 1 || wanted == 1 || *place_at(found[0])->name)
        return count;
    return 1 + callers(site_told_from(caller), wanted - 1, found + 1);
}

/* The first callers that aren't wrappers, at most as many as wanted; where all are, the first of all. */
uint32_t callers(struct caller caller, uint32_t wanted, uint32_t *found)
{
    if (is_site(caller))
        return site_with_callers(caller, wanted, found);
    struct search search; /* the way goes by here often: the library's functions aren't set before they are counted */
    search.caller = caller;
    search.wanted = wanted;
    search.found = found;
    search.count = search.libraries = 0;
    if (!follow(caller, &search))
        aside(look_far, &search);
    if (search.count == 0)
        found[search.count++] = search.libraries ? search.library[0] : place_at_pc(caller.pc);
    return search.count;
}

bool takers_known(uintptr_t pc, uintptr_t stack, uintptr_t base, uint32_t wanted, uint32_t *found)
{
    struct frame frame = {pc, stack, base, true};
    uint32_t count = 0;
    for (uint32_t frames = 0; frames < FRAMES - 1 && count < wanted; frames++) {
        uint32_t number = place_at_pc(frame.pc);
        if (!number)
            return false;
        const struct place *place = place_at(number);
        if (!place->takes_memory && !is_wrapper_at(number))
            found[count++] = number;
        if (place->step == STEP_LAST || !climb(&frame, place))
            break;
    }
    if (count == 0)
        found[0] = place_at_pc(pc);
    return true;
}

bool takers_unwound(struct caller caller, uint32_t wanted, uint32_t *found)
{
    struct stack stack;
    if (places_met >= PLACES / 2)
        return false;
    unwind(caller, &stack);
    return takers_known(caller.pc, caller.stack, caller.base, wanted, found);
}

uint32_t first_caller(struct caller caller)
{
    uint32_t number;
    callers(caller, 1, &number);
    return number;
}

/* As first_caller; 0 where the acquisition is to have its stack, for which it takes the long way. */
uint32_t place_passed(struct caller caller)
{
    uint32_t number = first_caller(caller);
    uint8_t detour = number ? detour_at(number) : DETOUR_NONE;
    return detour == DETOUR_NONE || detour >= DETOUR_LIBRARY ? number : 0;
}

/* The recorder's own functions in memory: those of its object, and in libwitness those of a section. */
#ifdef LIBWITNESS
#define OWN_BEGIN __start_witness_text
#define OWN_END __stop_witness_text
#else
#define OWN_BEGIN __ehdr_start
#define OWN_END _end
#endif
extern const char OWN_BEGIN[] __attribute__((visibility("hidden")));
extern const char OWN_END[] __attribute__((visibility("hidden")));

struct look {
    uintptr_t stack; /* of the caller that is looked for */
    bool is_inside;  /* the function that was seen last is the recorder's */
    bool is_left;
};

static _Unwind_Reason_Code look_at(struct _Unwind_Context *context, void *argument)
{
    struct look *look = argument;
    uintptr_t stack = _Unwind_GetCFA(context), pc = _Unwind_GetIP(context);
    if (stack < look->stack || is_aside(stack)) {
        look->is_inside = pc >= (uintptr_t)OWN_BEGIN && pc < (uintptr_t)OWN_END;
        return _URC_NO_REASON;
    }
    look->is_left = stack > look->stack || !look->is_inside;
    return _URC_END_OF_STACK;
}

static void look_back(void *look)
{
    _Unwind_Backtrace(look_at, look);
}

/*
 * Whether the recorder's function that was called with that stack pointer has yet to return: it stands among the
 * callers. It has, too, where that can't be told.
 */
COLD bool call_goes_on(uintptr_t stack)
{
    struct look look = {.stack = stack};
    aside(look_back, &look);
    return !look.is_left;
}

/* As many callers as name a type. */
uint32_t places_of(struct caller caller, uint32_t found[DEPTH_MOST])
{
    return callers(caller, is_site(caller) ? 1 : depth, found);
}
