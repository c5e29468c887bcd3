#include "elf_symbols.h"

#include <elf.h>
#include <fcntl.h>
#include <string.h>

enum { TEXT_BYTES = 1 << 22, NAME_MOST = 200, UNSORTED = 8 };

static char *text;
static size_t text_used;

const char *keep_text(const char *from, size_t length)
{
    if (!text && !(text = table(TEXT_BYTES)))
        return "";
    if (length + 1 > TEXT_BYTES - text_used)
        return "";
    char *kept = text + text_used;
    memcpy(kept, from, length);
    text_used += length + 1;
    return kept;
}

bool file_marked(const char *path, struct file_mark *mark)
{
    struct stat found;
    if (stat(path, &found) != 0)
        return false;
    *mark = (struct file_mark){found.st_dev, found.st_ino, found.st_size, found.st_mtim};
    return true;
}

/* So many bytes at that offset, NULL where the file hasn't them. */
static const void *part(const struct elf *elf, uint64_t offset, uint64_t size)
{
    return offset <= elf->size && size <= elf->size - offset ? elf->bytes + offset : NULL;
}

/*
 * Whether the file has the program headers that stand in memory: it is the object's, and no other one was put in its place.
 * They are read, not mapped: another file may have holes that the disk has no room for.
 */
static bool is_file_of(int file, const ElfW(Phdr) * segments, uint32_t count)
{
    enum { SEGMENTS_MOST = 64 };
    static ElfW(Phdr) found[SEGMENTS_MOST];
    ElfW(Ehdr) header;
    size_t bytes = count * sizeof *found;
    return count <= SEGMENTS_MOST && pread(file, &header, sizeof header, 0) == (ssize_t)sizeof header
        && memcmp(header.e_ident, ELFMAG, SELFMAG) == 0 && header.e_phnum == count
        && pread(file, found, bytes, (off_t)header.e_phoff) == (ssize_t)bytes && memcmp(found, segments, bytes) == 0;
}

void elf_opens(struct elf *elf, const char *path, const ElfW(Phdr) * segments, uint32_t count)
{
    struct stat found;
    int file = open(path, O_RDONLY | O_CLOEXEC | O_NONBLOCK);
    if (file < 0)
        return;
    if (fstat(file, &found) == 0 && S_ISREG(found.st_mode) && is_file_of(file, segments, count)) {
        elf->bytes = mapped((size_t)found.st_size, PROT_READ, MAP_PRIVATE, file, 0);
        elf->size = elf->bytes ? (size_t)found.st_size : 0;
    }
    close(file);
}

static const ElfW(Shdr) * symbol_section(const struct elf *elf, const ElfW(Shdr) * sections, uint32_t count)
{
    const ElfW(Shdr) *best = NULL;
    for (uint32_t i = 0; i < count; i++)
        if (sections[i].sh_type == SHT_SYMTAB || (sections[i].sh_type == SHT_DYNSYM && !best))
            best = &sections[i];
    return best && best->sh_link < count && part(elf, best->sh_offset, best->sh_size) ? best : NULL;
}

/* Finds the table of symbols in the file. False where it has none. */
static bool found_in_file(struct elf *elf)
{
    const ElfW(Ehdr) *header = (const void *)elf->bytes;
    const ElfW(Shdr) *sections = part(elf, header->e_shoff, (uint64_t)header->e_shnum * sizeof *sections);
    const ElfW(Shdr) *table = sections ? symbol_section(elf, sections, header->e_shnum) : NULL;
    if (!table)
        return false;
    const ElfW(Shdr) *strings = &sections[table->sh_link];
    elf->strings = part(elf, strings->sh_offset, strings->sh_size);
    elf->strings_size = strings->sh_size;
    elf->table = part(elf, table->sh_offset, table->sh_size);
    elf->table_count = table->sh_size / sizeof(ElfW(Sym));
    return elf->strings && elf->table_count > 0 && elf->table_count < UINT32_MAX;
}

uintptr_t dynamic_word(const ElfW(Dyn) * entry, ElfW(Sxword) tag)
{
    while (entry->d_tag != tag && entry->d_tag != DT_NULL)
        entry++;
    return entry->d_tag == tag ? entry->d_un.d_val : 0;
}

const void *dynamic_pointer(const ElfW(Dyn) * entries, ElfW(Sxword) tag, uintptr_t bias)
{
    uintptr_t address = dynamic_word(entries, tag);
    return (const void *)(address && address < bias ? address + bias : address);
}

/* How many symbols the table has that this one is for: the last one of a bucket ends with a word that is odd. */
static uint32_t count_by_hash(const uint32_t *hash)
{
    uint32_t buckets = hash[0], first = hash[1], words = hash[2] * (sizeof(ElfW(Addr)) / sizeof *hash), last = 0;
    const uint32_t *bucket = hash + 4 + words, *chain = bucket + buckets;
    for (uint32_t i = 0; i < buckets; i++)
        if (bucket[i] > last)
            last = bucket[i];
    if (last < first)
        return first;
    while (!(chain[last - first] & 1))
        last++;
    return last + 1;
}

/* Finds the table that the linker goes by. False where there is none. */
static bool found_in_memory(struct elf *elf)
{
    const ElfW(Dyn) *entries = elf->dynamic;
    if (!entries)
        return false;
    const uint32_t *hash = dynamic_pointer(entries, DT_GNU_HASH, elf->bias);
    const uint32_t *old = dynamic_pointer(entries, DT_HASH, elf->bias);
    elf->table = dynamic_pointer(entries, DT_SYMTAB, elf->bias);
    elf->strings = dynamic_pointer(entries, DT_STRTAB, elf->bias);
    elf->strings_size = dynamic_word(entries, DT_STRSZ);
    elf->table_count = hash ? count_by_hash(hash) : old ? old[1] : 0;
    return elf->table && elf->strings && elf->table_count > 0;
}

static bool is_kept(const ElfW(Sym) * symbol, int kind)
{
    return ELF64_ST_TYPE(symbol->st_info) == (kind == FUNCTIONS ? STT_FUNC : STT_OBJECT)
        && symbol->st_shndx != SHN_UNDEF && symbol->st_size > 0;
}

/* Sorts by `from`, in Shell's way: it takes no memory. */
static void sort(struct symbol *symbols, uint32_t count)
{
    for (uint32_t gap = count / 2; gap > 0; gap = gap == 2 ? 1 : (uint32_t)(gap * 5ull / 11))
        for (uint32_t i = gap; i < count; i++) {
            struct symbol moved = symbols[i];
            uint32_t at = i;
            for (; at >= gap && symbols[at - gap].from > moved.from; at -= gap)
                symbols[at] = symbols[at - gap];
            symbols[at] = moved;
        }
}

static struct symbol symbol_of(const struct elf *elf, uint32_t number)
{
    const ElfW(Sym) *symbol = &elf->table[number];
    return (struct symbol){symbol->st_value, symbol->st_value + symbol->st_size, 0, number, symbol->st_name};
}

static void read_kind(struct elf *elf, int kind)
{
    uint32_t count = 0, at = 0;
    for (uint32_t i = 0; i < elf->table_count; i++)
        count += is_kept(&elf->table[i], kind);
    struct symbol *symbols = count ? table(count * sizeof *symbols) : NULL;
    if (!symbols)
        return;
    for (uint32_t i = 0; i < elf->table_count; i++)
        if (is_kept(&elf->table[i], kind))
            symbols[at++] = symbol_of(elf, i);
    sort(symbols, count);
    uint64_t furthest = 0;
    for (uint32_t i = 0; i < count; i++) {
        if (symbols[i].to > furthest)
            furthest = symbols[i].to;
        symbols[i].furthest = furthest;
    }
    elf->kind[kind] = (struct symbols){symbols, count};
}

/* Finds the table of symbols, once. */
static void find_table(struct elf *elf)
{
    if (elf->is_found)
        return;
    elf->is_found = true;
    if (!(elf->bytes && found_in_file(elf)) && !found_in_memory(elf))
        elf->table_count = 0;
}

/* The first one in the table that the address is in. */
static const struct symbol *look_through(struct elf *elf, uint64_t address, int kind)
{
    for (uint32_t i = 0; i < elf->table_count; i++)
        if (is_kept(&elf->table[i], kind) && address - elf->table[i].st_value < elf->table[i].st_size) {
            elf->found = symbol_of(elf, i);
            return &elf->found;
        }
    return NULL;
}

static const struct symbol *search(const struct symbols *symbols, uint64_t address)
{
    uint32_t low = 0, high = symbols->count;
    while (low < high) {
        uint32_t middle = low + (high - low) / 2;
        if (symbols->symbol[middle].from <= address)
            low = middle + 1;
        else
            high = middle;
    }
    const struct symbol *best = NULL;
    while (low-- > 0 && symbols->symbol[low].furthest > address) {
        const struct symbol *symbol = &symbols->symbol[low];
        if (address < symbol->to && (!best || symbol->number < best->number))
            best = symbol;
    }
    return best;
}

/*
 * There may be a hundred thousand symbols, and a name is asked for at each place. So they are sorted, but not for the first
 * few: of most libraries one function is asked for, as of the one that calls main.
 */
const struct symbol *elf_symbol(struct elf *elf, uint64_t address, int kind)
{
    find_table(elf);
    if (elf->asked < UNSORTED) {
        elf->asked++;
        return look_through(elf, address, kind);
    }
    if (!elf->is_sorted) {
        elf->is_sorted = true;
        read_kind(elf, VARIABLES);
        read_kind(elf, FUNCTIONS);
    }
    return search(&elf->kind[kind], address);
}

const char *elf_name(const struct elf *elf, uint32_t name)
{
    if (name >= elf->strings_size)
        return "";
    uint64_t most = elf->strings_size - name;
    return keep_text(elf->strings + name, strnlen(elf->strings + name, most < NAME_MOST ? most : NAME_MOST));
}

const char *elf_file_of(const struct elf *elf, const struct symbol *symbol)
{
    bool shared = false;
    if (ELF64_ST_BIND(elf->table[symbol->number].st_info) != STB_LOCAL)
        return "";
    for (uint32_t i = 0; i < elf->table_count && !shared; i++)
        shared = is_kept(&elf->table[i], VARIABLES) && elf->table[i].st_name == symbol->name
            && elf->table[i].st_value != symbol->from;
    for (uint32_t i = symbol->number; shared && i-- > 0;)
        if (ELF64_ST_TYPE(elf->table[i].st_info) == STT_FILE)
            return elf_name(elf, elf->table[i].st_name);
    return "";
}
