/*
 * Puts the recorder's own functions in the place of those of library_locks.h, in the objects that need their library.
 *
 * An object calls a function of another one by a word in its memory, which the dynamic linker fills, or will at the first
 * call. Where that word leads to the library's function, or will, the own one's address is put there. So what the program
 * finds by name is what it finds without the recorder. Where it is told by name in another object than those that name the
 * library among what they need, it isn't recorded.
 *
 * This is done when the recorder begins. What the program opens after that is looked at before its next dlsym or dlopen:
 * dlopen itself goes by who has called it, so nothing can be done at its end.
 */
#include "elf_symbols.h"
#include "library_locks.h"

#include <elf.h>
#include <errno.h>
#include <limits.h>
#include <link.h>
#include <linux/futex.h>
#include <string.h>
#include <sys/syscall.h>

static _Atomic bool may_have_come, looks;
/* So many objects, of those that are there, were looked at; and how many were gone by then. */
static uint32_t looked_at;
static unsigned long long gone;
/* Libraries that were met among them, a bit for each; and where the file of each is. */
enum { LIBRARIES_MOST = 8 };
static uint32_t met;
static char paths[LIBRARIES_MOST][PATH_MAX];

void library_comes(void)
{
    if (atomic_load(&may_have_come))
        others_rebound();
    atomic_store(&may_have_come, true);
}

/* What is to be done with each object, and how many there were by now. */
struct walk {
    bool (*each)(const struct dl_phdr_info *info); /* false where it can't be done yet */
    uint32_t count;
};

/* Once an object has gone, it isn't known any more which ones were looked at: none was. */
static int walk_on(struct dl_phdr_info *info, size_t size, void *argument)
{
    struct walk *walk = argument;
    (void)size;
    if (walk->count == 0 && info->dlpi_subs != gone) {
        gone = info->dlpi_subs;
        looked_at = met = 0;
    }
    if (walk->count >= looked_at && !walk->each(info))
        return 1;
    walk->count++;
    return 0;
}

static bool is_named(const struct other_library *library, const char *name)
{
    for (const char *const *each = library->names; *each; each++) {
        size_t length = strlen(*each);
        if (strncmp(*each, name, length) == 0 && (name[length] == '.' || name[length] == '-'))
            return true;
    }
    return false;
}

static uint32_t new_ones;

static bool meet(const struct dl_phdr_info *info)
{
    for (uint32_t i = 0; i < others_count; i++) {
        if ((met >> i & 1) || !is_named(&others[i], basename(info->dlpi_name)) || strlen(info->dlpi_name) >= PATH_MAX)
            continue;
        strcpy(paths[i], info->dlpi_name);
        new_ones |= 1u << i;
        met |= 1u << i;
    }
    return true;
}

/*
 * The library's functions. Where a program's scope has another one of that name, an object that hasn't called it yet may
 * come to call that one: then the function is left alone.
 */
static void find_functions(struct other_library *library, const char *path)
{
    void *handle = real.dlopen(path, RTLD_LAZY | RTLD_NOLOAD);
    for (uint32_t i = 0; handle && i < library->count; i++) {
        struct other *function = &library->functions[i];
        void *first = dlsym(RTLD_DEFAULT, function->name), *found = dlsym(handle, function->name);
        atomic_store(&function->real, !first || first == found ? found : NULL);
    }
    if (handle)
        real.dlclose(handle);
}

/* What an object says of itself. */
struct dynamic {
    uintptr_t base;
    const ElfW(Dyn) * entries;
    const ElfW(Sym) * symbols;
    const char *strings;
    const ElfW(Rela) * words, *calls;
    size_t words_count, calls_count, relative_count;
    uintptr_t kept_from, kept_to; /* what can't be written any more once the object is ready */
    bool is_open;
};

static bool dynamic_read(struct dynamic *object, const struct dl_phdr_info *info)
{
    *object = (struct dynamic){.base = info->dlpi_addr};
    for (uint32_t i = 0; i < info->dlpi_phnum; i++) {
        const ElfW(Phdr) *segment = &info->dlpi_phdr[i];
        uintptr_t from = info->dlpi_addr + segment->p_vaddr;
        if (segment->p_type == PT_DYNAMIC)
            object->entries = (const void *)from;
        if (segment->p_type == PT_GNU_RELRO) {
            object->kept_from = from & ~(uintptr_t)(PAGE_BYTES - 1);
            object->kept_to = (from + segment->p_memsz) & ~(uintptr_t)(PAGE_BYTES - 1);
        }
    }
    const ElfW(Dyn) *entries = object->entries;
    if (!entries)
        return false;
    object->symbols = dynamic_pointer(entries, DT_SYMTAB, object->base);
    object->strings = dynamic_pointer(entries, DT_STRTAB, object->base);
    object->words = dynamic_pointer(entries, DT_RELA, object->base);
    object->calls = dynamic_pointer(entries, DT_JMPREL, object->base);
    object->words_count = dynamic_word(entries, DT_RELASZ) / sizeof *object->words;
    object->calls_count = dynamic_word(entries, DT_PLTRELSZ) / sizeof *object->calls;
    object->relative_count = dynamic_word(entries, DT_RELACOUNT);
    return object->symbols && object->strings;
}

static bool needs(const struct dynamic *object, const struct other_library *library)
{
    for (const ElfW(Dyn) *entry = object->entries; entry->d_tag != DT_NULL; entry++)
        if (entry->d_tag == DT_NEEDED && is_named(library, object->strings + entry->d_un.d_val))
            return true;
    return false;
}

/*
 * Whether the dynamic linker has filled the object's words: after that it lets no more be written there. The kernel is asked
 * to add nothing to one of them, which it refuses where it can't be written.
 */
static bool is_ready(const struct dynamic *object)
{
    static uint32_t nobody_waits;
    if (object->kept_from >= object->kept_to)
        return true;
    return syscall(SYS_futex, &nobody_waits, FUTEX_WAKE_OP | FUTEX_PRIVATE_FLAG, 0, 0, object->kept_from,
               FUTEX_OP(FUTEX_OP_ADD, 0, FUTEX_OP_CMP_EQ, 0))
        < 0;
}

static bool is_code_of(const struct dl_phdr_info *info, uintptr_t address)
{
    for (uint32_t i = 0; i < info->dlpi_phnum; i++) {
        const ElfW(Phdr) *segment = &info->dlpi_phdr[i];
        if (segment->p_type == PT_LOAD && (segment->p_flags & PF_X)
            && address - info->dlpi_addr - segment->p_vaddr < segment->p_memsz)
            return true;
    }
    return false;
}

static bool may_be_written(struct dynamic *object, uintptr_t word)
{
    if (object->is_open || word < object->kept_from || word >= object->kept_to)
        return true;
    object->is_open =
        mprotect((void *)object->kept_from, object->kept_to - object->kept_from, PROT_READ | PROT_WRITE) == 0;
    return object->is_open;
}

static void rebind_word(struct dynamic *object, const struct dl_phdr_info *info, struct other_library *library,
    const ElfW(Rela) * entry)
{
    uint64_t kind = ELF64_R_TYPE(entry->r_info);
    const ElfW(Sym) *symbol = &object->symbols[ELF64_R_SYM(entry->r_info)];
    if ((kind != R_X86_64_JUMP_SLOT && kind != R_X86_64_GLOB_DAT && kind != R_X86_64_64)
        || symbol->st_shndx != SHN_UNDEF || entry->r_addend != 0)
        return;
    struct other *function = library->functions, *end = function + library->count;
    while (function < end && strcmp(function->name, object->strings + symbol->st_name) != 0)
        function++;
    void *there = function < end ? atomic_load(&function->real) : NULL;
    if (!there)
        return;
    _Atomic(void *) *word = (_Atomic(void *) *)(object->base + entry->r_offset);
    void *now = atomic_load(word);
    bool is_bound = now == there, will_be = kind == R_X86_64_JUMP_SLOT && is_code_of(info, (uintptr_t)now);
    if ((is_bound || will_be) && may_be_written(object, (uintptr_t)word))
        atomic_store(word, function->own);
}

static void rebind_all(struct dynamic *object, const struct dl_phdr_info *info, struct other_library *library)
{
    for (size_t i = object->relative_count; object->words && i < object->words_count; i++)
        rebind_word(object, info, library, &object->words[i]);
    for (size_t i = 0; object->calls && i < object->calls_count; i++)
        rebind_word(object, info, library, &object->calls[i]);
    if (object->is_open)
        mprotect((void *)object->kept_from, object->kept_to - object->kept_from, PROT_READ);
    object->is_open = false;
}

/* False of an object that another thread opens just now. */
static bool rebind(const struct dl_phdr_info *info)
{
    struct dynamic object;
    if (!dynamic_read(&object, info))
        return true;
    for (uint32_t i = 0; i < others_count; i++) {
        if (!(met >> i & 1) || !needs(&object, &others[i]))
            continue;
        if (!is_ready(&object))
            return false;
        rebind_all(&object, info, &others[i]);
    }
    return true;
}

void others_rebound(void)
{
    int before = errno;
    if (is_asleep() || atomic_exchange(&looks, true))
        return;
    atomic_store(&may_have_come, false);
    struct walk to_meet = {.each = meet}, to_rebind = {.each = rebind};
    new_ones = 0;
    dl_iterate_phdr(walk_on, &to_meet);
    for (uint32_t i = 0; i < others_count; i++)
        if (new_ones >> i & 1)
            find_functions(&others[i], paths[i]);
    unsigned long long gone_before = gone;
    bool is_whole = dl_iterate_phdr(walk_on, &to_rebind) == 0 && gone == gone_before;
    if (!is_whole)
        atomic_store(&may_have_come, true);
    looked_at = gone == gone_before ? to_rebind.count : 0;
    atomic_store(&looks, false);
    errno = before;
}

typedef void *symbol_finder(void *restrict, const char *restrict);

/* Under the version that all of these C libraries have. */
static symbol_finder *real_finder(void)
{
    static _Atomic(symbol_finder *) kept;
    symbol_finder *found = atomic_load_explicit(&kept, memory_order_relaxed);
    if (UNLIKELY(!found)) {
        void *function = dlvsym(RTLD_NEXT, "dlsym", "GLIBC_2.2.5");
        memcpy(&found, &function, sizeof found);
        atomic_store_explicit(&kept, found, memory_order_relaxed);
    }
    return found;
}

/* The real function goes by who has called it, unless it gets a handle: so it is come to by a jump then. */
EXPORT void *dlsym(void *restrict handle, const char *restrict name)
{
    if (UNLIKELY(atomic_load_explicit(&may_have_come, memory_order_relaxed)))
        others_rebound();
    if (handle == RTLD_DEFAULT || handle == RTLD_NEXT)
        return real_finder()(handle, name);
    void *found = real_finder()(handle, name);
    library_finds(found, CALLER.pc, CALLER.stack);
    return found;
}
