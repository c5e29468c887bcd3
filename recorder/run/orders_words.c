#include "orders_words.h"

#include <string.h>

#include "allocation.h"
#include "usage.h"

static bool is_learn(const char *word)
{
    return strcmp(word, "learn") == 0;
}

bool orders_run_a_program(char **words)
{
    return *words && (is_learn(*words) || strcmp(*words, "known") == 0);
}

/* Whether it is an option of theirs, which takes a word. New orders are no news where they are learnt. */
static bool is_option(const char *word, bool learns)
{
    static const char *const options[] = {"--run-name", "--program-name", "--new-exitcode"};
    for (size_t i = 0; i < sizeof options / sizeof *options; i++)
        if (strcmp(word, options[i]) == 0)
            return !learns || i < 2;
    return false;
}

struct orders_words orders_words(char **words)
{
    bool learns = is_learn(*words);
    size_t count = 0;
    while (words[count])
        count++;
    struct orders_words made = {.word = take((count + 2) * sizeof *made.word)};
    usage_speaks_as("orders");
    for (words++; *words && **words == '-'; words += 2) {
        if (!is_option(*words, learns))
            refuse("there is no option %s here", *words);
        if (!words[1])
            refuse("%s needs a word after it", *words);
        made.word[made.untold++] = words[0];
        made.word[made.untold++] = words[1];
    }
    if (!*words)
        refuse("no file is named");
    made.word[made.untold++] = copy(learns ? "--learn" : "--known");
    made.word[made.untold++] = *words++;
    for (size_t i = made.untold; *words; i++)
        made.word[i] = *words++;
    usage_speaks_as("record");
    return made;
}
