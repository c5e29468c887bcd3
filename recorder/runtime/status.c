/*
 * What outlives a process, in a file that all processes share: `status` in the folder of the streams. It is mapped when
 * the program is loaded, so that nothing has to be opened later. Each process has a slot in it, a line: which program it
 * is, whether that has loaded the recorder, and what failed. One that executes another program goes on in the same slot,
 * and there it says beforehand which program it starts: a slot whose program hasn't loaded the recorder is one of which
 * nothing is known. Below the slots stand the objects that processes had loaded, each once.
 *
 * Any process of the run may cut the file. What isn't there any more isn't written to.
 */
#include "recorder.h"

#include <fcntl.h>
#include <stdio.h>
#include <string.h>
#include <sys/resource.h>
#include <sys/stat.h>

enum { SLOT_BYTES = 256, SLOTS = 3072, DIGITS = 10 };
/*
 * Where a slot has its parts; what isn't written is zeros. Its first bytes are the process's number, by which it is
 * found and taken at once.
 */
enum { NAME_AT = 8, STARTED_AT = 56, LOADED_AT = 104, COUNTS_AT = 116, NAME_BYTES = STARTED_AT - NAME_AT };
/* The names of objects, and before them their hashes. Last stands what says that slots, or names, were too many. */
enum { HASHES_AT = SLOTS * SLOT_BYTES, HASHES = 1 << 13, OBJECTS_AT = HASHES_AT + HASHES * 8 };
enum { FULL_AT = STATUS_BYTES - 32, FULL_OBJECTS_AT = STATUS_BYTES - 16 };
static const char full[] = "\n" STATUS_FULL "\n", full_objects[] = "\n" WORD_OBJECT " " STATUS_MORE_OBJECTS "\n";

#define NAME_OF(number, name) name,
static const char *const failure_names[FAILURES] = {EACH_FAILURE(NAME_OF)};
static char *status;
static char *counts[FAILURES]; /* where the process's line has each count; NULL where it has no line */

int status_file(const char *name, int how, mode_t mode)
{
    char path[512];
    const char *directory = secure_getenv("RECORDER_DIRECTORY");
    bool fits = directory && snprintf(path, sizeof path, "%s/%s", directory, name) < (int)sizeof path;
    return fits ? open(path, how, mode) : -1;
}

bool file_may_have(uint64_t size)
{
    struct rlimit limit;
    return getrlimit(RLIMIT_FSIZE, &limit) != 0 || limit.rlim_cur == RLIM_INFINITY || size <= limit.rlim_cur;
}

/* The file is made by `record`; a recorder that runs by itself makes it here. */
static bool has_size(int file)
{
    struct stat found;
    return fstat(file, &found) == 0
        && (found.st_size >= STATUS_BYTES
            || (file_may_have(STATUS_BYTES) && posix_fallocate(file, 0, STATUS_BYTES) == 0));
}

static void put_at(size_t at, const char *text, size_t length)
{
    if (status && is_all_readable(status + at, length))
        memcpy(status + at, text, length);
}

/*
 * The slot of the process of that number, or a free one for it; NULL where there is none. Slots aren't given back, so
 * that two who look for one number find one slot.
 */
static char *slot_of(pid_t process)
{
    char text[2 + STATUS_DIGITS];
    uint64_t mark;
    snprintf(text, sizeof text, "%c%0*d", STATUS_PROCESS, STATUS_DIGITS, process);
    memcpy(&mark, text, sizeof mark);
    for (uint32_t i = 0; status && i < SLOTS; i++) {
        char *slot = status + ((uint32_t)process + i) % SLOTS * SLOT_BYTES;
        uint64_t found = 0;
        if (!is_readable(slot))
            return NULL;
        if (__atomic_compare_exchange_n((uint64_t *)(void *)slot, &found, mark, false, __ATOMIC_SEQ_CST, __ATOMIC_SEQ_CST)
            || found == mark) {
            slot[SLOT_BYTES - 1] = '\n';
            return slot;
        }
    }
    put_at(FULL_AT, full, sizeof full - 1);
    return NULL;
}

/* A word, and after it a name, in as many bytes as a name has. */
static void write_name(char *to, const char *word, const char *name)
{
    char text[NAME_BYTES] = "";
    size_t length = (size_t)sprintf(text, "%s%s", word, *name ? "" : "?");
    for (; *name && length < sizeof text; name++)
        text[length++] = *name <= ' ' || *name > '~' ? '_' : *name;
    memcpy(to, text, sizeof text);
}

/* The counts of the slot, which begin with nothing where it hasn't any. */
static void take_counts(char *slot)
{
    char text[SLOT_BYTES - COUNTS_AT];
    int length = snprintf(text, sizeof text, " " WORD_MISSED);
    for (int what = 0; what < FAILURES; what++) {
        length += snprintf(text + length, sizeof text - (size_t)length, " %s ", failure_names[what]);
        counts[what] = slot + COUNTS_AT + length;
        length += snprintf(text + length, sizeof text - (size_t)length, "%0*d", DIGITS, 0);
    }
    if (slot[COUNTS_AT] == '\0')
        memcpy(slot + COUNTS_AT, text, (size_t)length);
}

void status_begins(void)
{
    char *slot = slot_of(getpid());
    memset(counts, 0, sizeof counts);
    if (!slot)
        return;
    write_name(slot + NAME_AT, " " STATUS_NAME " ", program_name);
    take_counts(slot);
    status_loaded(LOADED);
}

void status_made(void)
{
    int file = status_file("status", O_RDWR | O_CREAT | O_CLOEXEC, 0666);
    if (file >= 0 && has_size(file))
        status = mapped(STATUS_BYTES, PROT_READ | PROT_WRITE, MAP_SHARED, file, 0);
    if (file >= 0)
        close(file);
    if (status)
        status_begins();
}

void status_loaded(const char *how)
{
    static const char word[] = " " STATUS_LOADED " ";
    char *slot = slot_of(getpid());
    if (!slot)
        return;
    memcpy(slot + LOADED_AT, word, sizeof word - 1);
    slot[LOADED_AT + sizeof word - 1] = *how;
}

void status_started(pid_t process, const char *program)
{
    char *slot = slot_of(process);
    if (slot)
        write_name(slot + STARTED_AT, " " STATUS_STARTED " ", basename(program));
}

static uint64_t hash_of(const char *word, const char *text)
{
    uint64_t hash = 0xcbf29ce484222325u + (unsigned char)*word; /* words differ there */
    for (; *text; text++)
        hash = (hash ^ (unsigned char)*text) * 0x100000001b3u;
    return hash | 1;
}

/* Whether no process has noted the object by that word. With too many of them, none is new. */
static bool is_new(const char *word, const char *path)
{
    uint64_t hash = hash_of(word, path), *hashes = (void *)(status + HASHES_AT);
    for (uint32_t i = 0; i < HASHES; i++) {
        uint64_t found = 0;
        if (!is_readable(&hashes[(hash + i) % HASHES]))
            return false;
        if (__atomic_compare_exchange_n(&hashes[(hash + i) % HASHES], &found, hash, false, __ATOMIC_SEQ_CST,
                __ATOMIC_SEQ_CST))
            return true;
        if (found == hash)
            return false;
    }
    put_at(FULL_OBJECTS_AT, full_objects, sizeof full_objects - 1);
    return false;
}

/* Room for so many bytes among the names of objects, NULL where there is none. */
static char *object_room(size_t bytes)
{
    uint64_t *used = (void *)(status + OBJECTS_AT);
    if (!is_readable(used))
        return NULL;
    size_t at = OBJECTS_AT + sizeof *used + __atomic_fetch_add(used, bytes, __ATOMIC_SEQ_CST);
    if (at + bytes <= FULL_AT)
        return is_all_readable(status + at, bytes) ? status + at : NULL;
    put_at(FULL_OBJECTS_AT, full_objects, sizeof full_objects - 1);
    return NULL;
}

void status_notes(const char *word, const char *name)
{
    if (!status || !is_new(word, name))
        return;
    const char *between = *name ? " " : "";
    size_t head = 1 + strlen(word) + strlen(between), length = word_escaped(name, NULL, 0);
    char *room = object_room(head + length + 1);
    if (!room)
        return;
    stpcpy(stpcpy(stpcpy(room, "\n"), word), between);
    word_escaped(name, room + head, length);
    room[head + length] = '\n';
}

/* Adds one to a number in decimal digits. */
void count_digits(char *digits)
{
    for (int i = DIGITS - 1; i >= 0; i--) {
        if (digits[i] != '9') {
            digits[i]++;
            return;
        }
        digits[i] = '0';
    }
}

/* Under the mutex. */
void count_failure(enum failure what)
{
    if (counts[what] && is_readable(counts[what]))
        count_digits(counts[what]);
}
