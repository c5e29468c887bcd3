/*
 * What an object's file says of itself.
 */
#ifndef RECORD_OBJECT_FILE_H
#define RECORD_OBJECT_FILE_H

#include <time.h>

#include "texts.h"

struct object_file {
    const char *soname;   /* the name by which others ask for it; NULL where it has none */
    const char *build_id; /* hexadecimal digits; NULL where it has none */
    time_t changed;       /* when the file was; 0 where it isn't there */
};

/* The texts are kept in `texts`. Of what is no ELF file of x86-64, or isn't there, nothing is known. */
struct object_file object_file_read(const char *path, struct texts *texts);

#endif
