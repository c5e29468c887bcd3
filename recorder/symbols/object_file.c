#include "object_file.h"

#include <elf.h>
#include <stdbool.h>
#include <stdint.h>
#include <stdio.h>
#include <string.h>
#include <sys/mman.h>
#include <unistd.h>

#include "files.h"

enum { BUILD_ID_MOST = 64 };

/* A file's bytes. All that it says of offsets and sizes is looked at before it is believed. */
struct image {
    const unsigned char *bytes;
    size_t length;
    time_t changed;
};

static const void *bytes_at(const struct image *image, uint64_t offset, uint64_t size)
{
    return offset <= image->length && size <= image->length - offset ? image->bytes + offset : NULL;
}

static bool map_image(struct image *image, const char *path)
{
    struct stat status;
    int file = file_open_regular(path, &status);
    *image = (struct image){0};
    if (file < 0)
        return false;
    if (status.st_size >= (off_t)sizeof(Elf64_Ehdr)) {
        void *bytes = mmap(NULL, (size_t)status.st_size, PROT_READ, MAP_PRIVATE, file, 0);
        if (bytes != MAP_FAILED)
            *image = (struct image){bytes, (size_t)status.st_size, status.st_mtime};
    }
    close(file);
    return image->bytes != NULL;
}

/* The head of the segment of that number; false where there is none. */
static bool segment_at(const struct image *image, unsigned number, Elf64_Phdr *segment)
{
    Elf64_Ehdr head;
    memcpy(&head, image->bytes, sizeof head);
    if (memcmp(head.e_ident, ELFMAG, SELFMAG) != 0 || head.e_ident[EI_CLASS] != ELFCLASS64
        || head.e_ident[EI_DATA] != ELFDATA2LSB || number >= head.e_phnum || head.e_phentsize < sizeof *segment)
        return false;
    const void *at = head.e_phoff > image->length
        ? NULL
        : bytes_at(image, head.e_phoff + (uint64_t)number * head.e_phentsize, sizeof *segment);
    if (at)
        memcpy(segment, at, sizeof *segment);
    return at != NULL;
}

/* Where in the file an address of it stands; one after its end where it is in no segment. */
static uint64_t offset_of(const struct image *image, uint64_t address)
{
    Elf64_Phdr segment;
    for (unsigned i = 0; segment_at(image, i, &segment); i++)
        if (segment.p_type == PT_LOAD && address >= segment.p_vaddr && address - segment.p_vaddr < segment.p_filesz)
            return segment.p_offset + (address - segment.p_vaddr);
    return image->length + 1;
}

static const char *text_at(const struct image *image, uint64_t offset, struct texts *texts)
{
    const char *text = bytes_at(image, offset, 1);
    size_t length = text ? strnlen(text, image->length - offset) : 0;
    return length > 0 && length < image->length - offset ? texts_copy(texts, text, length) : NULL;
}

static const char *soname_in(const struct image *image, const Elf64_Phdr *segment, struct texts *texts)
{
    uint64_t names = 0, soname = 0;
    Elf64_Dyn entry;
    bool has_soname = false;
    for (uint64_t at = 0; at + sizeof entry <= segment->p_filesz; at += sizeof entry) {
        const void *bytes =
            segment->p_offset > image->length ? NULL : bytes_at(image, segment->p_offset + at, sizeof entry);
        if (!bytes)
            return NULL;
        memcpy(&entry, bytes, sizeof entry);
        if (entry.d_tag == DT_NULL)
            break;
        if (entry.d_tag == DT_STRTAB)
            names = entry.d_un.d_ptr;
        if (entry.d_tag == DT_SONAME) {
            has_soname = true;
            soname = entry.d_un.d_val;
        }
    }
    return has_soname && soname < image->length ? text_at(image, offset_of(image, names + soname), texts) : NULL;
}

static const char *hexadecimal(const unsigned char *bytes, size_t length, struct texts *texts)
{
    char digits[2 * BUILD_ID_MOST + 1];
    for (size_t i = 0; i < length; i++)
        snprintf(digits + 2 * i, 3, "%02x", bytes[i]);
    return texts_copy(texts, digits, 2 * length);
}

static uint64_t padded(uint64_t size)
{
    return (size + 3) & ~(uint64_t)3;
}

static const char *build_id_in(const struct image *image, const Elf64_Phdr *segment, struct texts *texts)
{
    Elf64_Nhdr note;
    const unsigned char *bytes = bytes_at(image, segment->p_offset, segment->p_filesz);
    for (uint64_t at = 0; bytes && at + sizeof note <= segment->p_filesz;) {
        memcpy(&note, bytes + at, sizeof note);
        uint64_t name = at + sizeof note, value = name + padded(note.n_namesz), end = value + padded(note.n_descsz);
        if (end > segment->p_filesz)
            return NULL;
        if (note.n_type == NT_GNU_BUILD_ID && note.n_namesz == 4 && memcmp(bytes + name, "GNU", 4) == 0
            && note.n_descsz > 0 && note.n_descsz <= BUILD_ID_MOST)
            return hexadecimal(bytes + value, note.n_descsz, texts);
        at = end;
    }
    return NULL;
}

struct object_file object_file_read(const char *path, struct texts *texts)
{
    struct object_file found = {0};
    struct image image;
    Elf64_Phdr segment;
    if (!path || !map_image(&image, path))
        return found;
    found.changed = image.changed;
    for (unsigned i = 0; segment_at(&image, i, &segment); i++) {
        if (segment.p_type == PT_DYNAMIC && !found.soname)
            found.soname = soname_in(&image, &segment, texts);
        if (segment.p_type == PT_NOTE && !found.build_id)
            found.build_id = build_id_in(&image, &segment, texts);
    }
    munmap((void *)image.bytes, image.length);
    return found;
}
