/*
 * Words that aren't the recorder's own: names of files, functions, variables and threads, and what the program tells. They
 * may have any bytes. Written as they are, a space in one would end it, and a newline its line: so each word that comes
 * from outside goes by here, into a stream or into the status.
 */
#include "recorder.h"

#include <string.h>

static bool stands_for_itself(unsigned char byte)
{
    return byte > ' ' && byte != ESCAPE && byte != 127;
}

size_t word_escaped(const char *word, char *to, size_t room)
{
    bool is_dash = strcmp(word, NO_NAME) == 0;
    size_t length = 0;
    for (; *word; word++) {
        unsigned char byte = (unsigned char)*word;
        char escape[] = {ESCAPE, "0123456789abcdef"[byte >> 4], "0123456789abcdef"[byte & 15]};
        bool itself = stands_for_itself(byte) && !is_dash;
        size_t bytes = itself ? 1 : sizeof escape;
        if (length + bytes <= room)
            memcpy(to + length, itself ? word : escape, bytes);
        length += bytes;
    }
    return length;
}
