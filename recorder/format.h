/*
 * What the recorder writes and `record` reads, said once for both: the words of a stream, and those of the status that all
 * processes of a run share. recorder/README.md tells what the lines mean. What changes here, or in what a line means, takes
 * the next version: a stream of another one is told, and never misread.
 */
#ifndef RECORDER_FORMAT_H
#define RECORDER_FORMAT_H

/* The first line of a stream is `asked 0 version N missed`, then the names of the counts, each with its count. */
#define FORMAT_VERSION 8
#define WORD_ASKED "asked"
#define WORD_VERSION "version"
#define WORD_MISSED "missed"
/* The second one. */
#define WORD_PROGRAM "program"

/*
 * Where the first line has the byte by which `record --show` asks: nothing is asked, or it is. The third one stands in the
 * recorder's own memory: all calls take the way on which that is looked for.
 */
enum { ASKED_AT = 6, ASKED_NOT = '0', ASKED_NOW = '1', ASKED_ALWAYS = '3' };

/* What lines declare: objects, places and stacks of the code, types of locks, locks, and the threads of seats. */
#define WORD_OBJECT "object"
#define WORD_CALLED "called"
#define WORD_BLIND "blind"
#define WORD_PLACE "place"
#define WORD_EITHER "either"
#define WORD_SITE "site"
#define WORD_STACK "stack"
#define WORD_TYPE "type"
#define WORD_VARIABLE "variable"
#define WORD_MADE "made"
#define WORD_MET "met"
#define WORD_PART "part"
#define WORD_CROWDED "crowded"
#define WORD_NAMED "named"
#define WORD_INIT "init"
/* Its flags: the lock is recursive; other processes may have it, too. */
#define INIT_RECURSIVE "r"
#define INIT_SHARED "s"
#define WORD_THREAD "thread"
#define WORD_LENT "lent"
/* What stands where there is no name. */
#define NO_NAME "-"
/*
 * In a word that isn't the recorder's own (words.c) a byte that would end it is this and two hexadecimal digits, as is this
 * one itself.
 */
#define ESCAPE '%'

/* Calls of the trace. */
#define WORD_CHECK "check"
#define WORD_LOCK "lock"
#define WORD_UNLOCK "unlock"
#define WORD_TRY "try"
#define WORD_GIVEUP "giveup"
/* Of a `check`: the stream needs it; or it doesn't, since each of its pairs was told, as a build for tests writes it (write.c). */
#define CHECK_ASKS "n"
#define CHECK_KNOWN "k"

/* What a trace has no line for. */
#define WORD_AGAIN "again"
#define WORD_WENT "went"
#define WORD_FOREIGN "foreign"
#define WORD_ANSWER "answer"
#define WORD_HOLDER "holder"
#define WORD_OWNER "owner"
#define WORD_TIME "time"

/* Errors in the use of locks: this word, then what was done to a held lock, or without it. */
#define WORD_ERROR "error"
#define EACH_ERROR(EACH)                                                                                               \
    EACH(ERROR_ENDED, "ended")                                                                                         \
    EACH(ERROR_DESTROYED, "destroyed")                                                                                 \
    EACH(ERROR_FREED, "freed")                                                                                         \
    EACH(ERROR_REMADE, "remade")                                                                                       \
    EACH(ERROR_WAITED, "waited")                                                                                       \
    EACH(ERROR_REREAD, "reread")

/*
 * The pairs of single locks (single_pairs.c), and when threads were made and joined (thread_lives.c). A thread tells of its
 * pair again when it has made another thread; so often it tells of it at most.
 */
#define PAIR_TELLINGS 8
#define WORD_PAIR "pair"
/* Its fields, from 0 on: where the words of its two locks begin, and which of these are a lock's serial number, its type and its mode. */
enum { PAIR_HELD = 6, PAIR_ASKED = 10, PAIR_SERIAL = 1, PAIR_TYPE = 2, PAIR_MODE = 3 };
/*
 * What its thread got and let go since it had nothing (errand.h), of a pair that has the last letter: each lock that it got by
 * its mode, with the second letter where it was tried, and each that it let go by the word. Or that not all of it is known.
 */
#define WORD_ERRAND "errand"
#define ERRAND_LETS_GO "-"
#define ERRAND_TRIED 't'
#define ERRAND_CUT "cut"
#define PAIR_HAS_ERRAND "y"
#define WORD_MANY "many"
#define WORD_LIFE "life"
#define WORD_JOINED "joined"

/*
 * The counts of a stream: calls that it lacks; two of which it has a line for each place alone; locks in blocks of memory
 * that aren't known; those that were read again by a thread that read them, where a writer may come in between; and lines
 * that were left out, since a name made them too long.
 */
#define EACH_MISSED(EACH)                                                                                              \
    EACH(MISSED_SEATS, "seats")                                                                                        \
    EACH(MISSED_TYPES, "types")                                                                                        \
    EACH(MISSED_LOCKS, "locks")                                                                                        \
    EACH(MISSED_HELD, "held")                                                                                          \
    EACH(MISSED_LOG, "log")                                                                                            \
    EACH(MISSED_RELEASES, "releases")                                                                                  \
    EACH(MISSED_AGAIN, "again")                                                                                        \
    EACH(MISSED_BLOCKS, "blocks")                                                                                      \
    EACH(MISSED_REREADS, "rereads")                                                                                    \
    EACH(MISSED_LONG, "long")

/*
 * The counts of a process, in the status. What failed outside the streams: lines for which the file couldn't be opened,
 * the disk had no room, a limit on the size of files was met, or there was no file descriptor; calls that were left; a
 * fork that wasn't seen; and programs that were begun without what loads the recorder.
 */
#define EACH_FAILURE(EACH)                                                                                             \
    EACH(FAILED_OPEN, "open")                                                                                          \
    EACH(FAILED_ROOM, "room")                                                                                          \
    EACH(FAILED_LIMIT, "limit")                                                                                        \
    EACH(FAILED_FILES, "files")                                                                                        \
    EACH(FAILED_JUMPED, "jumped")                                                                                      \
    EACH(FAILED_FORKED, "forked")                                                                                      \
    EACH(FAILED_BARE, "bare")

/* The status: a process's line is its number after this letter, then its name, what it starts, and its counts. */
#define STATUS_PROCESS 'P'
#define STATUS_NAME "name"
#define STATUS_STARTED "started"
#define STATUS_LOADED "loaded"
/* What stands after it: whether the program has loaded the recorder; it has, and there was no memory for that. */
#define NOT_LOADED "0"
#define LOADED "1"
#define LOADED_WITHOUT_MEMORY "2"
/* There were too many processes for it. */
#define STATUS_FULL "full"
/* Objects stand there too; this is one where there were too many. */
#define STATUS_MORE_OBJECTS "?"
/* And those that were opened so that their calls go past the recorder (libraries.c); and that semaphores were waited for. */
#define STATUS_PAST "past"
#define STATUS_SEMAPHORES "semaphores"
enum { STATUS_BYTES = 1 << 20, STATUS_DIGITS = 7 };

/* Of the locks of one call, or of one allocation, so many offsets in blocks are types of their own (docs/names.md). */
enum { OFFSETS_MOST = 16 };

/*
 * Functions whose only work is to lock, by the ends of their last word in small letters, and those that only seem so. The
 * recorder passes such callers over, and `record` those that were inlined.
 */
#define WRAPPER_ENDS                                                                                                   \
    "lock", "mutex", "monitor", "mutex_enter", "mutexenter", "mutex_acquire", "lock_acquire", "mutex_init",            \
        "lock_init", "mutexinit", "lockinit", "mutex_create", "mutex_new", "mutex_alloc", "cond_wait", "condwait",     \
        "cond_timedwait"
#define NO_WRAPPER_ENDS "unlock", "clock", "block"
/* Functions that take memory for others, by the ends of their last word. */
#define TAKER_ENDS "malloc", "calloc", "realloc", "zalloc", "malloc0", "memalign"
/* Of the C++ library's. */
#define LIBRARY_WRAPPERS "__gthread_", "__glibcxx_rwlock"

#endif
