#include "missed_calls.h"

#include <stdlib.h>
#include <string.h>

#include "allocation.h"
#include "format.h"

#define AS_NUMBER(number, name) number,
#define AS_NAME(number, name) name,
enum what { EACH_MISSED(AS_NUMBER) EACH_FAILURE(AS_NUMBER) WHATS };
static const char *const names[WHATS] = {EACH_MISSED(AS_NAME) EACH_FAILURE(AS_NAME)};

/* Those that have none are told elsewhere. */
static const char *const meanings[WHATS] = {
    [MISSED_SEATS] = "requests (256 threads were busy at once)",
    [MISSED_TYPES] = "types (a trace has room for 1,023)",
    [MISSED_LOCKS] = "locks (a trace has room for 65,536)",
    [MISSED_HELD] = "acquisitions (by a thread that holds 512 locks)",
    [MISSED_LONG] = "lines (a name was too long for them)",
    [MISSED_LOG] = "requests (a trace has room for 16,777,216 calls)",
    [FAILED_ROOM] = "lines (no room: the disk is full)",
    [FAILED_LIMIT] = "lines (no room: a limit on the size of files)",
    [FAILED_FILES] = "lines (no file descriptor was left)",
    [FAILED_OPEN] = "lines (its file could not be opened)",
    [FAILED_BARE] = "shells that were started without the recorder",
    [FAILED_FORKED] = "process whose fork was not seen (a bare call of the kernel, or fork() in a handler of signals)",
    [FAILED_JUMPED] = "calls of a lock that were left by a jump or a cancellation",
};

/* What the count means; NULL where it is told elsewhere. */
static const char *said(const char *name)
{
    for (size_t i = 0; i < WHATS; i++)
        if (strcmp(names[i], name) == 0)
            return meanings[i];
    return name;
}

char *missed_of(const char *line)
{
    char *text = copy(""), *words = copy(line), *rest, *name, *count;
    for (name = strtok_r(words, " \t\n", &rest); name && strcmp(name, WORD_MISSED) != 0;)
        name = strtok_r(NULL, " \t\n", &rest);
    while ((name = strtok_r(NULL, " \t\n", &rest)) != NULL && (count = strtok_r(NULL, " \t\n", &rest)) != NULL) {
        unsigned long number = strtoul(count, NULL, 10);
        const char *meaning = said(name);
        if (!meaning || number == 0)
            continue;
        char *longer = say_text("%s%s%lu %s", text, *text ? ", " : "", number, meaning);
        free(text);
        text = longer;
    }
    free(words);
    return text;
}
