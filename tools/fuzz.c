/*
 * fuzz PROGRAM SECONDS SEED FOLDER TRACE..: changes the traces here and there, replays each with
 * all four words, migrates it where the program can, and looks for what must never be. See
 * tools/fuzz, which calls it. A trace that is kept goes into the folder.
 */
#define _GNU_SOURCE
#include <fcntl.h>
#include <signal.h>
#include <stdint.h>
#include <stdio.h>
#include <stdlib.h>
#include <string.h>
#include <sys/wait.h>
#include <time.h>
#include <unistd.h>

#define MOST 200000

struct text {
    char *bytes;
    size_t size;
};

static const char *const words[] = {"replay", "graph", "locks", "circle"};
static const char *program;
static uint64_t state;
static int migrates; /* the program has the word `migrate` */

/* A number below the bound, by xorshift: the same from the same seed everywhere. */
static size_t below(size_t bound)
{
    state ^= state << 13;
    state ^= state >> 7;
    state ^= state << 17;
    return (size_t)((state >> 11) % (bound > 0 ? bound : 1));
}

static void *have(void *place)
{
    if (place == NULL) {
        perror("fuzz");
        exit(2);
    }
    return place;
}

static struct text read_file(const char *name)
{
    struct text text = {have(malloc(MOST)), 0};
    int file = open(name, O_RDONLY);
    ssize_t got;
    if (file < 0) {
        perror(name);
        exit(2);
    }
    while (text.size < MOST && (got = read(file, text.bytes + text.size, MOST - text.size)) > 0)
        text.size += (size_t)got;
    close(file);
    return text;
}

/* Puts other bytes in the place of some. */
static void replace(struct text *text, size_t at, size_t size, const char *bytes, size_t count)
{
    if (at > text->size || size > text->size - at || text->size - size + count > MOST)
        return;
    memmove(text->bytes + at + count, text->bytes + at + size, text->size - at - size);
    memmove(text->bytes + at, bytes, count);
    text->size += count - size;
}

/* Where some line begins, and how long it is with its line feed. */
static size_t some_line(const struct text *text, size_t *size)
{
    size_t at = below(text->size), end;
    while (at > 0 && text->bytes[at - 1] != '\n')
        at--;
    end = at;
    while (end < text->size && text->bytes[end++] != '\n')
        ;
    *size = end - at;
    return at;
}

/* Another number in the place of one: one at a limit, or a small one. */
static void change_number(struct text *text)
{
    static const char *const limits[] = {"0",     "1",     "2",     "3",     "4",          "5",          "6",   "8",  "16",
                                         "255",   "256",   "257",   "1022",  "1023",       "1024",       "00",  "01", "-1",
                                         "65534", "65535", "65536", "65537", "4294967295", "4294967296", "+1", "",   "18446744073709551616"};
    size_t at = below(text->size), end;
    const char *number = limits[below(sizeof limits / sizeof *limits)];
    while (at < text->size && (text->bytes[at] < '0' || text->bytes[at] > '9'))
        at++;
    end = at;
    while (end < text->size && text->bytes[end] >= '0' && text->bytes[end] <= '9')
        end++;
    replace(text, at, end - at, number, strlen(number));
}

/* A call of any kind with small numbers. */
static size_t make_call(char *line, size_t room)
{
    unsigned seat = (unsigned)below(3) + (below(20) == 0 ? 0 : 1), lock = (unsigned)below(6) + (below(20) == 0 ? 0 : 1);
    unsigned other = (unsigned)below(6) + 1, site = (unsigned)below(100);
    const char *mode = below(3) == 0 ? "s" : "x";
    static const char *const ops[] = {"n", "n", "n", "-", "nd", "nf", "f", "d", "ndf", "dn"};
    static const char *const classes[] = {"mtx", "mtx", "rw", "sx", "spin"};
    static const char *const flags[] = {"-", "-", "r", "d", "rd", "dr"};
    static const char *const asserts[] = {"-", "u", "l", "x", "s", "lr", "xn", "ux", "sr", "lrn"};
    static const char *const types[] = {"A", "B", "C", "D", "Giant", "a longer name of a type"};
    const char *type = types[below(6)];
    switch (below(20)) {
    case 0:
    case 1:
    case 2:
        return (size_t)snprintf(line, room, "init %u %s %s \"%s\" \"%s\"\n", seat, classes[below(5)], flags[below(6)], types[below(6)], type);
    case 3:
        return (size_t)snprintf(line, room, "init %u %s %s \"%s\"\n", seat, classes[below(5)], flags[below(6)], type);
    case 4:
        return (size_t)snprintf(line, room, "destroy %u %u\n", seat, lock);
    case 5:
    case 6:
    case 7:
        return (size_t)snprintf(line, room, "check %u %u %s %s f:%u\nlock %u %u\n", seat, lock, mode, ops[below(10)], site, seat, lock);
    case 8:
        return (size_t)snprintf(line, room, "check %u %u %s %s g:%u\n", seat, lock, mode, ops[below(10)], site);
    case 9:
        return (size_t)snprintf(line, room, "lock %u %u\n", seat, lock);
    case 10:
        return (size_t)snprintf(line, room, "giveup %u %u\n", seat, lock);
    case 11:
        return (size_t)snprintf(line, room, "try %u %u %s f:%u\n", seat, lock, mode, site);
    case 12:
    case 13:
        return (size_t)snprintf(line, room, "unlock %u %u %s\n", seat, lock, mode);
    case 14:
        return (size_t)snprintf(line, room, "%s %u %u\n", below(2) ? "upgrade" : "downgrade", seat, lock);
    case 15:
        return (size_t)snprintf(line, room, "%s %u %u\n", below(2) ? "norelease" : "releaseok", seat, lock);
    case 16:
        return (size_t)snprintf(line, room, "assert %u %u %s\n", seat, lock, asserts[below(10)]);
    case 17:
        return (size_t)snprintf(line, room, "warn %u %u %s\n", seat, lock - (lock > 0 && below(2)), below(2) ? "-" : "gs");
    case 18:
        return (size_t)snprintf(line, room, "define %u %u %u\n", seat, lock, other);
    default:
        return (size_t)snprintf(line, room, "watch %u %s\n", seat, below(4) == 0 ? "-1" : below(2) ? "0" : "1");
    }
}

static void change(struct text *text, const struct text *other)
{
    static const char bytes[] = "\n \"\t\r:-0129rdnfsxulg\0\377\177~";
    char line[400], *copy;
    size_t at, size;
    switch (below(12)) {
    case 0: /* one byte */
        at = below(text->size);
        line[0] = below(2) ? bytes[below(sizeof bytes - 1)] : (char)below(256);
        replace(text, at, below(3), line, below(2));
        break;
    case 1:
        at = below(text->size + 1);
        line[0] = bytes[below(sizeof bytes - 1)];
        replace(text, at, 0, line, 1);
        break;
    case 2: /* a line less, or once more, or further on */
        at = some_line(text, &size);
        replace(text, at, size, "", 0);
        break;
    case 3:
    case 4:
        at = some_line(text, &size);
        copy = have(malloc(size + 1));
        memcpy(copy, text->bytes + at, size);
        at = some_line(text, &(size_t){0});
        replace(text, at, 0, copy, size);
        free(copy);
        break;
    case 5: /* lines of another trace */
        if (other->size > 0) {
            size_t from = some_line(other, &size), into = some_line(text, &(size_t){0});
            for (at = below(8); at > 0 && from + size < other->size; at--)
                while (from + size < other->size && other->bytes[from + size++] != '\n')
                    ;
            replace(text, into, 0, other->bytes + from, size);
        }
        break;
    case 6: /* an end */
        if (below(4) == 0)
            text->size = below(text->size + 1);
        break;
    case 7: /* a long line */
        if (below(10) == 0) {
            size = 4000 + below(200);
            copy = have(malloc(size));
            memset(copy, below(2) ? 'x' : ' ', size);
            replace(text, below(text->size + 1), 0, copy, size);
            free(copy);
        }
        break;
    case 8:
    case 9:
        change_number(text);
        break;
    default: /* a few calls, mostly at the end */
        for (size = below(12) + 1; size > 0; size--) {
            size_t into = below(3) == 0 ? some_line(text, &(size_t){0}) : text->size;
            size_t count = make_call(line, sizeof line);
            replace(text, into, 0, line, count);
        }
    }
}

/* Runs the program over the file. What it writes is in `out`; what it says aside goes to `err`. Below 0: it ended by that signal. */
static int run_over(const char *from, const char *word, struct text *out, size_t *aside)
{
    int status, file;
    pid_t child = fork();
    if (child == 0) {
        int in = open(from, O_RDONLY), to = open("out", O_WRONLY | O_CREAT | O_TRUNC, 0666);
        int err = open("err", O_WRONLY | O_CREAT | O_TRUNC, 0666);
        if (dup2(in, 0) < 0 || dup2(to, 1) < 0 || dup2(err, 2) < 0)
            _exit(99);
        alarm(20);
        execl(program, "witness", word, (char *)NULL);
        _exit(98);
    }
    if (child < 0 || waitpid(child, &status, 0) != child) {
        perror("fuzz");
        exit(2);
    }
    *out = read_file("out");
    file = open("err", O_RDONLY);
    *aside = (size_t)lseek(file, 0, SEEK_END);
    close(file);
    return WIFEXITED(status) ? WEXITSTATUS(status) : -WTERMSIG(status);
}

static int run(const char *word, struct text *out, size_t *aside)
{
    return run_over("in", word, out, aside);
}

/* Where the last line begins. */
static size_t last_line(const struct text *text)
{
    size_t at = text->size > 0 ? text->size - 1 : 0;
    while (at > 0 && text->bytes[at - 1] != '\n')
        at--;
    return at;
}

static int begins(const struct text *text, size_t at, const char *words_of)
{
    return text->size - at >= strlen(words_of) && memcmp(text->bytes + at, words_of, strlen(words_of)) == 0;
}

static int same(const struct text *a, const struct text *b, size_t from)
{
    return a->size == b->size - from && memcmp(a->bytes, b->bytes + from, a->size) == 0;
}

static void write_file(const char *name, const struct text *text)
{
    int file = open(name, O_WRONLY | O_CREAT | O_TRUNC, 0666);
    size_t done = 0;
    while (file >= 0 && done < text->size) {
        ssize_t put = write(file, text->bytes + done, text->size - done);
        if (put <= 0)
            break;
        done += (size_t)put;
    }
    if (file < 0 || done < text->size) {
        perror(name);
        exit(2);
    }
    close(file);
}

static int ends(const struct text *text, const char *words_of)
{
    return text->size >= strlen(words_of) && begins(text, text->size - strlen(words_of), words_of);
}

/* What is wrong with the trace's migration, or NULL. A bad line is that of replay, or one before it that only raw steps
 * are at odds with; where there is none, what is migrated tells the same. */
static const char *judge_migration(const struct text *bad, const char **word)
{
    struct text moved, shown, again;
    size_t aside;
    const char *why = NULL;
    *word = "migrate";
    int status = run(*word, &moved, &aside);
    if (status < 0)
        why = "it ended by a signal";
    else if (status != 0 && status != 3)
        why = "a status that it can't have";
    else if (aside > 0)
        why = "words on standard error";
    else if (status == 0 && bad->size > 0)
        why = "no bad line where replay has one";
    else if (status == 3 && !ends(&moved, ": F35 RawNotFree\n") && !ends(&moved, ": version\n")
        && !same(bad, &moved, last_line(&moved)))
        why = "another bad line than that of replay";
    if (why == NULL && status == 0)
        write_file("moved", &moved);
    for (size_t view = 0; why == NULL && status == 0 && view < 3; view++) {
        int wanted = run(words[view], &shown, &aside);
        if (run_over("moved", words[view], &again, &aside) != wanted || !same(&again, &shown, 0))
            why = "another output of what is migrated";
        free(shown.bytes);
        free(again.bytes);
    }
    free(moved.bytes);
    return why;
}

/* What is wrong with this trace, or NULL. */
static const char *judge(const char **word)
{
    struct text told, shown, again;
    size_t aside, at;
    const char *why = NULL;
    int status, other;
    *word = words[0];
    status = run(words[0], &told, &aside);
    at = last_line(&told);
    int is_bad = told.size > 0 && begins(&told, at, "line ");
    if (status < 0)
        why = "it ended by a signal";
    else if (status != 0 && status != 1 && status != 3)
        why = "a status that it can't have";
    else if (aside > 0)
        why = "words on standard error";
    else if (told.size > 0 && told.bytes[told.size - 1] != '\n')
        why = "an output without an end";
    else if ((status == 3) != is_bad || (status == 0) != (told.size == 0))
        why = "a status that doesn't go with the output";
    for (size_t view = 1; why == NULL && view < 4; view++) {
        *word = words[view];
        other = run(words[view], &shown, &aside);
        if (other < 0)
            why = "it ended by a signal";
        else if (aside > 0)
            why = "words on standard error";
        else if (is_bad ? other != 3 : view == 3 ? other > 1 : other != 0)
            why = "a status that doesn't go with that of replay";
        else if (is_bad && !same(&shown, &told, at))
            why = "another bad line than that of replay";
        else if (view == 3 && !is_bad && (other == 1) != begins(&shown, 0, "circle:\n"))
            why = "a status that doesn't go with the output";
        else if (view == 2 && !is_bad && !begins(&shown, last_line(&shown), "free chunks: "))
            why = "no free chunks at the end";
        else if (below(4) == 0) {
            if (run(words[view], &again, &aside) != other || !same(&again, &shown, 0))
                why = "another output the second time";
            free(again.bytes);
        }
        free(shown.bytes);
    }
    if (why == NULL && below(4) == 0) {
        *word = words[0];
        if (run(words[0], &again, &aside) != status || !same(&again, &told, 0))
            why = "another output the second time";
        free(again.bytes);
    }
    if (why == NULL && migrates) {
        struct text bad = {told.bytes + at, is_bad ? told.size - at : 0};
        why = judge_migration(&bad, word);
    }
    free(told.bytes);
    return why;
}

static int knows_migrate(void)
{
    static char header[] = "witness-trace 1 seats 1 types 1 locks 1 chunks 1\n";
    struct text text = {header, sizeof header - 1}, moved;
    size_t aside;
    write_file("in", &text);
    int status = run("migrate", &moved, &aside);
    free(moved.bytes);
    return status == 0;
}

int main(int count, char **arguments)
{
    if (count < 6)
        return 2;
    program = arguments[1];
    time_t end = time(NULL) + atol(arguments[2]);
    unsigned long seed = strtoul(arguments[3], NULL, 10), tried = 0, found = 0;
    int traces = count - 5;
    struct text *corpus = have(calloc((size_t)traces, sizeof *corpus)), text = {have(malloc(MOST)), 0};
    state = seed * 2654435761u + 88172645463325252u;
    migrates = knows_migrate();
    for (int at = 0; at < traces; at++)
        corpus[at] = read_file(arguments[5 + at]);
    while (time(NULL) < end) {
        const char *word, *why;
        /* Each trace as it stands, and then with changes. */
        const struct text *chosen = &corpus[tried < (unsigned long)traces ? tried : below((size_t)traces)];
        text.size = chosen->size;
        memcpy(text.bytes, chosen->bytes, chosen->size);
        if (tried >= (unsigned long)traces)
            for (size_t changes = below(4) + 1; changes > 0; changes--)
                change(&text, &corpus[below((size_t)traces)]);
        tried++;
        write_file("in", &text);
        why = judge(&word);
        if (why != NULL) {
            char name[4096];
            snprintf(name, sizeof name, "%s/seed-%lu-%lu.trace", arguments[4], seed, tried);
            write_file(name, &text);
            printf("fuzz: %s: %s: kept as %s\n", word, why, name);
            found++;
        }
    }
    printf("fuzz: %lu traces tried, %lu wrong, seed %lu\n", tried, found, seed);
    return found > 0;
}
