/* First use, over malloc: two threads' worth of calls, and the report that comes at the last one. */
#include <stdio.h>
#include <string.h>

#include "../verifier.h"

static struct wit_place place;

static uint32_t made(const char *name)
{
    return (uint32_t)wit_init(&place, 1, name, strlen(name), "", 0, WIT_SLEEP_MUTEX, 0);
}

static int64_t asked(uint16_t seat, uint32_t lock, uint32_t line)
{
    return wit_check(&place, seat, lock, true, WIT_OP_NEWORDER | WIT_OP_FRESH, 1, line);
}

int main(void)
{
    static const struct wit_sizes sizes = {.seats = 2, .types = 2, .locks = 2, .chunks = 4, .log = 64};
    const struct wit_list lists[1] = {{0}};
    const struct wit_pair pairs[1] = {{0}};
    uint64_t refused;
    char text[256];
    int64_t length;

    if (wit_new(&place, &sizes, false, lists, 0, pairs, 0, &refused) != 0 || wit_file(&place, "bank.c", 6) != 1)
        return 2;
    made("accounts");
    made("journal");
    for (uint16_t seat = 1; seat <= 2; seat++) {
        if (asked(seat, seat, 10 * seat) < 0 || wit_note(&place, seat, seat) != WIT_RECORDED)
            return 2;
    }
    if (asked(1, 2, 11) != WIT_ADOPTED || asked(2, 1, 21) != WIT_REVERSAL)
        return 2;
    length = wit_report_text(&place, text, sizeof text);
    if (length < 0 || length > (int64_t)sizeof text)
        return 2;
    fwrite(text, 1, (size_t)length, stdout);
    wit_free(&place);
    return 0;
}
