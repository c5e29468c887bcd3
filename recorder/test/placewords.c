/* Prints how places and locks are told, and places as a trace has them. */
#include <stdio.h>
#include <stdlib.h>

#include "place_words.h"

static void print(char *text)
{
    puts(text);
    free(text);
}

int main(void)
{
    static const char *const places[] = {
        "journal.c:18",
        "a.out+0x1214(checkpoint+0x14):0",
        "libmlt-7.so.7.12.0+0x2cafb(mlt_service_get_frame+0x2b):0",
        "libwith.so.name+0x10(take+0x1):0",
        "a.out+0x1214(checkpoint):0",
        "a.out+0x1214:0",
        "a.out+0x1214(main+0x4)",
        "odd+0x1b+0x40:0",
        "odd+0x1b+0x40(f+0x3):0",
        "libx.so.1+0x20(Matrix::operator()+0x8):0",
        "+0x1214(main+0x4):0",
        "add+0xff.c:12",
        "bank.py:0",
        "?:0",
    };
    static const char *const locks[][2] = {{"producer", "producer"}, {"producer/3", "producer"}, {"producer/x", "producer"},
        {"table[3]", "table[]"}, {"a/2/3", "a/2"}};
    for (size_t i = 0; i < sizeof places / sizeof *places; i++) {
        print(place_told(places[i]));
        print(place_in_trace(places[i]));
    }
    print(place_told(NULL));
    for (size_t i = 0; i < sizeof locks / sizeof *locks; i++)
        print(lock_told(locks[i][0], locks[i][1]));
    return 0;
}
