/*
 * The tests of the verifier for C (verifier.h): what each export answers, by the rules of docs/RULES.md, and that nothing is
 * changed where a call is refused. The last line is 'verifier: N passed, M failed', and the status is 1 where one failed.
 */
#include <stdio.h>
#include <string.h>

#include "test.h"

unsigned passed, failed;

void is_number(const char *file, int line, int64_t answer, int64_t want)
{
    if (answer == want) {
        passed++;
        return;
    }
    failed++;
    printf("%s:%d: %lld in place of %lld\n", file, line, (long long)answer, (long long)want);
}

void is_text(const char *file, int line, int64_t length, const char *text, const char *want)
{
    if (length == (int64_t)strlen(want) && memcmp(text, want, strlen(want)) == 0) {
        passed++;
        return;
    }
    failed++;
    printf("%s:%d: %lld bytes in place of %zu:\n%.*s", file, line, (long long)length, strlen(want),
        length > 0 && length < 4096 ? (int)length : 0, text);
}

long room_of(const struct wit_sizes *sizes)
{
    long types = sizes->types;

    return 4096 + 128L * sizes->seats + types * types / 2 + 96 * types + 160L * sizes->chunks;
}

int64_t begin(struct wit_place *place)
{
    struct wit_sizes sizes = {.seats = 2, .types = 8, .locks = 16, .chunks = 4, .log = 4096};
    uint64_t refused = 99;
    int64_t answer = wit_new(place, &sizes, false, (struct wit_list[1]){{0}}, 0, (struct wit_pair[1]){{0}}, 0, &refused);

    if (answer == 0) {
        IS(0, (int64_t)refused);
        IS(1, wit_file(place, "f", 1));
    }
    return answer;
}

int64_t mutex(struct wit_place *place, const char *name, const char *type_name)
{
    return wit_init(place, 1, name, strlen(name), type_name, strlen(type_name), WIT_SLEEP_MUTEX, 0);
}

int64_t lock_of(struct wit_place *place, uint8_t class_number, const char *name, uint8_t flags)
{
    return wit_init(place, 1, name, strlen(name), "", 0, class_number, flags);
}

int64_t check(struct wit_place *place, uint16_t seat, uint32_t lock, bool exclusive, uint32_t line)
{
    return wit_check(place, seat, lock, exclusive, WIT_OP_NEWORDER, 1, line);
}

int64_t take(struct wit_place *place, uint16_t seat, uint32_t lock, uint32_t line)
{
    int64_t answer = check(place, seat, lock, true, line);

    if (answer >= 0)
        IS(WIT_RECORDED, wit_note(place, seat, lock));
    return answer;
}

int64_t release(struct wit_place *place, uint16_t seat, uint32_t lock)
{
    return wit_unlock(place, seat, lock, true);
}

int main(void)
{
    try_orders();
    try_seats();
    try_told();
    try_refusals();
    try_growths();
    IS(0, blocks_out);
    printf("verifier: %u passed, %u failed\n", passed, failed);
    return failed != 0 || passed == 0;
}
