/*
 * The symbol of an address is the same whether the object's symbols are sorted or not: for the C library's functions and
 * variables, at the ends of each, between them, and beyond all.
 */
#include "../runtime/elf_symbols.c"

#include <stdio.h>
#include <stdlib.h>
#include <sys/mman.h>

void *table(size_t bytes)
{
    return calloc(1, bytes);
}

void *mapped(size_t bytes, int protection, int how, int file, off_t from)
{
    void *memory = mmap(NULL, bytes, protection, how, file, from);
    return memory == MAP_FAILED ? NULL : memory;
}

static int open_libc(struct dl_phdr_info *info, size_t size, void *elf)
{
    (void)size;
    if (!strstr(info->dlpi_name, "/libc.so"))
        return 0;
    elf_opens(elf, info->dlpi_name, info->dlpi_phdr, info->dlpi_phnum);
    return 1;
}

static long number_of(const struct symbol *symbol)
{
    return symbol ? (long)symbol->number : -1;
}

/* How many of these addresses have another symbol where it is looked for without a sequence. */
static int compare(const struct elf *unread, struct elf *sorted, uint64_t address, int kind)
{
    int wrong = 0;
    for (uint64_t at = address - 1; at <= address + 1; at++) {
        struct elf fresh = *unread;
        long early = number_of(elf_symbol(&fresh, at, kind)), late = number_of(elf_symbol(sorted, at, kind));
        wrong += early != late;
    }
    return wrong;
}

int main(void)
{
    struct elf unread = {0};
    dl_iterate_phdr(open_libc, &unread);
    struct elf sorted = unread;
    for (int i = 0; i <= UNSORTED; i++)
        elf_symbol(&sorted, 0, FUNCTIONS);
    int wrong = 0;
    for (int kind = 0; kind < KINDS; kind++) {
        const struct symbols *symbols = &sorted.kind[kind];
        for (uint32_t i = 0; i < symbols->count; i++)
            wrong += compare(&unread, &sorted, symbols->symbol[i].from, kind)
                + compare(&unread, &sorted, symbols->symbol[i].to, kind);
        printf("%s %s, %d wrong\n", symbols->count > 100 ? "many" : "few", kind == FUNCTIONS ? "functions" : "variables",
            wrong);
    }
    return 0;
}
