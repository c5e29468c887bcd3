#include "orders_question.h"

#include <errno.h>
#include <stdlib.h>
#include <string.h>

#include "allocation.h"

enum { FOUND = 1, BAD_LINE = 3, NOT_RUN = 126, NOT_FOUND = 127 };

void question_begin(struct orders_question *question, const char *witness, const char *word, const char *number)
{
    *question = (struct orders_question){.witness = witness};
    question->answer = open_memstream(&question->told, &question->length);
    if (!question->answer)
        abort();
    verdict_ask(&question->verdict, (const char *const[]){witness, "orders", word, number, NULL}, question->answer);
}

/* Many lines go together. */
static void give(struct orders_question *question, const char *bytes, size_t length)
{
    if (question->gathered + length > sizeof question->bytes) {
        verdict_feed(&question->verdict, question->bytes, question->gathered);
        question->gathered = 0;
    }
    if (length > sizeof question->bytes) {
        verdict_feed(&question->verdict, bytes, length);
        return;
    }
    memcpy(question->bytes + question->gathered, bytes, length);
    question->gathered += length;
}

void question_line(struct orders_question *question, const char *line)
{
    if (question->is_cut)
        return;
    give(question, line, strlen(line));
    give(question, "\n", 1);
    question->lines++;
}

static char *unread(const char *path)
{
    return say_text("%s can't be read: %s", path, strerror(errno));
}

/*
 * A line with its newline, unless the file ends in it. One that begins with a tab says nothing of what follows: after a
 * space it is as bad as it was.
 */
static void give_file_line(struct orders_question *question, const char *line, size_t length)
{
    if (*line == '\t')
        give(question, " ", 1);
    give(question, line, length);
    question->lines++;
    question->is_cut = line[length - 1] != '\n';
}

/* All lines of a file, after the line that says what they are. The file is closed. */
static void give_part(struct orders_question *question, const char *head, const char *path, FILE *file)
{
    char *line = NULL;
    size_t room = 0;
    ssize_t length;
    question_line(question, head);
    ADD(question->part, question->parts, question->room) = (struct orders_part){copy(path), question->lines};
    errno = 0;
    while (!question->is_cut && (length = getline(&line, &room, file)) > 0) {
        give_file_line(question, line, (size_t)length);
        errno = 0;
    }
    if (!question->wrong && (ferror(file) || errno))
        question->wrong = unread(path);
    free(line);
    fclose(file);
}

void question_file(struct orders_question *question, const char *path)
{
    char *beside = say_text("%s.runs", path);
    FILE *counts = fopen(beside, "re"), *file = NULL;
    if (!question->wrong && !counts && errno != ENOENT && errno != ENOTDIR)
        question->wrong = unread(beside);
    if (!question->wrong && (file = fopen(path, "re")) == NULL)
        question->wrong = unread(path);
    if (file)
        give_part(question, counts ? "\tcounted" : "\tfile", path, file);
    if (file && counts)
        give_part(question, "\tcounts", beside, counts);
    else if (counts)
        fclose(counts);
    free(beside);
}

/* `line N: WHY`, of the line by its number in its file. */
static char *told_wrong(const struct orders_question *question)
{
    unsigned long number = 0;
    int at = 0;
    const struct orders_part *part = NULL;
    if (sscanf(question->told, "line %lu: %n", &number, &at) < 1 || at == 0)
        return NULL;
    for (size_t i = 0; i < question->parts && question->part[i].before < number; i++)
        part = &question->part[i];
    if (!part)
        return NULL;
    return say_text("%s: line %lu: %.*s", part->path, number - part->before, (int)strcspn(question->told + at, "\n"),
        question->told + at);
}

char *question_answer(struct orders_question *question)
{
    verdict_feed(&question->verdict, question->bytes, question->gathered);
    question->status = verdict_end(&question->verdict);
    fclose(question->answer);
    question->answer = NULL;
    /* A bad line stands before what couldn't be read. */
    char *why = question->status == BAD_LINE ? told_wrong(question) : NULL;
    if (why || question->wrong)
        return why ? why : copy(question->wrong);
    if (question->status <= FOUND)
        return NULL;
    question->has_failed = true;
    if (question->status == NOT_RUN || question->status == NOT_FOUND)
        return say_text("%s can't be run", question->witness);
    return say_text("%s doesn't accept the orders, by status %d", question->witness, question->status);
}

void question_end(struct orders_question *question)
{
    for (size_t i = 0; i < question->parts; i++)
        free(question->part[i].path);
    free(question->part);
    free(question->told);
    free(question->wrong);
}
