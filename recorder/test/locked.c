/*
 * locked: of each line of the input, the expressions that may be the lock that it asks for, then `bare` where one is locked by
 * a call. Of `LINE // calls FUNCTION` what tells that call from others.
 */
#include <stdio.h>
#include <stdlib.h>
#include <string.h>

#include "call_words.h"
#include "lock_expression.h"

static void print_locked(const char *text)
{
    struct locked locked;
    locked_read(&locked, text);
    for (size_t i = 0; i < locked.count; i++) {
        leave_indices_out(locked.expression[i]);
        printf("  %s\n", locked.expression[i]);
    }
    if (locked.is_bare)
        puts("  bare");
    locked_end(&locked);
}

int main(void)
{
    char *line = NULL;
    size_t room = 0;
    while (getline(&line, &room, stdin) >= 0) {
        line[strcspn(line, "\n")] = '\0';
        puts(line);
        char *calls = strstr(line, " // calls ");
        char *word = calls ? call_word(line, calls + strlen(" // calls ")) : NULL;
        if (calls)
            printf("  %s\n", word ? word : "-");
        else
            print_locked(line);
        free(word);
    }
    free(line);
    return 0;
}
