/*
 * The symbols of an object: those of its file where that was read, else those that the dynamic linker goes by, which stand
 * in memory and are fewer. All of this is done under the mutex.
 */
#ifndef RECORDER_ELF_SYMBOLS_H
#define RECORDER_ELF_SYMBOLS_H

#include "recorder.h"

#include <link.h>
#include <sys/stat.h>

#pragma GCC visibility push(hidden)

/* Which file it is, and as of when. */
struct file_mark {
    dev_t device;
    ino_t inode;
    off_t size;
    struct timespec changed;
};

/* A function or variable of an object: its addresses and name as the object has them, and its number in the table. */
struct symbol {
    uint64_t from, to;
    uint64_t furthest; /* the greatest `to` from the first symbol on up to this one */
    uint32_t number, name;
};

/* All functions of an object, or all variables, by where they begin. */
struct symbols {
    struct symbol *symbol;
    uint32_t count;
};
enum { VARIABLES, FUNCTIONS, KINDS };

struct elf {
    const char *bytes; /* the file, which stays mapped; NULL where it wasn't read */
    size_t size;
    uintptr_t bias;            /* from addresses as the file counts them to those in memory */
    const ElfW(Dyn) * dynamic; /* what the dynamic linker goes by, in memory; NULL where there is none */
    const ElfW(Sym) * table;
    uint64_t table_count;
    const char *strings;
    uint64_t strings_size;
    bool is_found;       /* the table was looked for */
    bool is_sorted;      /* its symbols stand in `kind` */
    uint32_t asked;      /* how often before that */
    struct symbol found; /* the last answer before that */
    struct symbols kind[KINDS];
};

/* False where there is no such file. */
bool file_marked(const char *path, struct file_mark *mark);

/*
 * Reads the object's file: at once, since later the program may not be allowed to open it. It is opened and closed, so
 * this is only done where the process has no lock of fcntl on it. Left out where its program headers aren't these.
 */
void elf_opens(struct elf *elf, const char *path, const ElfW(Phdr) * segments, uint32_t count);

/*
 * The word of that tag among the dynamic linker's, 0 where there is none; and what it points to. Most objects have addresses
 * there, some what is to be added to where they begin.
 */
uintptr_t dynamic_word(const ElfW(Dyn) * entries, ElfW(Sxword) tag);
const void *dynamic_pointer(const ElfW(Dyn) * entries, ElfW(Sxword) tag, uintptr_t bias);

/*
 * The symbol that the address is in, NULL where there is none; of several, the first in the object's table. It stays up to
 * the next call.
 */
const struct symbol *elf_symbol(struct elf *elf, uint64_t address, int kind);

/* The symbol's name, kept. */
const char *elf_name(const struct elf *elf, uint32_t name);

/*
 * The source file of a variable that is its file's alone, where the object has another one of its name; else an empty
 * name. Equal names stand in an object once. A file's own symbols stand after the file's.
 */
const char *elf_file_of(const struct elf *elf, const struct symbol *symbol);

/* A copy of so many bytes, as a text that stays; an empty one where there is no room. */
const char *keep_text(const char *from, size_t length);

#pragma GCC visibility pop

#endif
