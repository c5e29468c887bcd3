#include "misfit.h"

#include <elf.h>
#include <stdint.h>
#include <stdlib.h>
#include <string.h>
#include <unistd.h>

#include "allocation.h"
#include "files.h"

/* So much of a file is read; a script's script's script is one, and no more. */
enum { HEAD = 1 << 16, SCRIPTS = 4 };

struct head {
    size_t length;
    char bytes[HEAD + 1]; /* a zero follows */
};

/* So many bytes of the head; false where they don't stand in it. */
static bool get(const struct head *head, uint64_t at, void *to, size_t bytes)
{
    if (at > head->length || bytes > head->length - at)
        return false;
    memcpy(to, head->bytes + at, bytes);
    return true;
}

static const char *by_linker(const struct head *head, const Elf64_Phdr *part)
{
    if (part->p_offset >= head->length || part->p_filesz == 0)
        return NULL;
    const char *linker = head->bytes + part->p_offset;
    size_t length = strnlen(linker, part->p_filesz < HEAD ? part->p_filesz : HEAD);
    char *name = copy_bytes(linker, length), *why = NULL;
    if (*name && !strstr(name, "/ld-linux-x86-64.so"))
        why = say_text("it is for another C library than glibc (%s)", name);
    free(name);
    return why;
}

static struct misfit by_head(const struct head *head)
{
    Elf64_Ehdr elf;
    Elf64_Phdr part;
    if (head->length < EI_NIDENT || memcmp(head->bytes, ELFMAG, SELFMAG) != 0)
        return (struct misfit){NULL, false};
    if (head->bytes[EI_CLASS] != ELFCLASS64)
        return (struct misfit){"it is a program of 32 bits", true};
    if (!get(head, 0, &elf, sizeof elf) || elf.e_machine != EM_X86_64)
        return (struct misfit){"it is for another processor", true};
    for (unsigned i = 0; i < elf.e_phnum; i++) {
        if (!get(head, elf.e_phoff + (uint64_t)i * elf.e_phentsize, &part, sizeof part))
            break;
        if (part.p_type == PT_INTERP) {
            const char *why = by_linker(head, &part);
            return (struct misfit){why, why};
        }
    }
    return (struct misfit){"it is linked statically", false};
}

/* What a script's first line says that it is run by; NULL where it says nothing. */
static char *interpreter_of(const struct head *head)
{
    const char *at = head->bytes + 2;
    at += strspn(at, " ");
    size_t length = strcspn(at, " \t\n");
    return length ? copy_bytes(at, length) : NULL;
}

static bool read_program(const char *program, struct stat *found, struct head *head)
{
    char *path = file_of(program);
    int file = path ? file_open_regular(path, found) : -1;
    free(path);
    if (file < 0)
        return false;
    head->length = file_read(file, head->bytes, HEAD);
    memset(head->bytes + head->length, 0, sizeof head->bytes - head->length);
    close(file);
    return true;
}

static struct misfit misfit_below(const char *program, struct head *head, int depth)
{
    struct stat found;
    struct misfit misfit = {NULL, false};
    if (!read_program(program, &found, head))
        return misfit;
    if (head->bytes[0] == '#' && head->bytes[1] == '!') {
        char *interpreter = interpreter_of(head);
        if (interpreter && depth < SCRIPTS)
            misfit = misfit_below(interpreter, head, depth + 1);
        free(interpreter);
        return misfit;
    }
    misfit = by_head(head);
    if (!misfit.why
        && ((found.st_mode & S_ISUID && found.st_uid != geteuid())
            || (found.st_mode & S_ISGID && found.st_gid != getegid())))
        misfit.why = "it runs as another user (setuid)";
    return misfit;
}

struct misfit misfit_of(const char *program)
{
    struct head *head = take(sizeof *head);
    struct misfit misfit = misfit_below(program, head, 0);
    free(head);
    return misfit;
}
