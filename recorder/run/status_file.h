/*
 * What outlives the processes of a recording, in its file `status` (recorder/runtime/status.c): which programs they were, which of
 * them have loaded the recorder, what failed, and the objects that they had loaded.
 */
#ifndef RECORD_STATUS_FILE_H
#define RECORD_STATUS_FILE_H

#include <stdbool.h>
#include <stddef.h>

struct failed {
    long process;
    char *name;
    char *counts; /* `missed NAME N ..` */
};

/* So many programs of that name were started in which the recorder isn't, the last one as that process. */
struct bare {
    char *name;
    bool lacks_memory; /* for the recorder; else they haven't loaded it */
    unsigned long times;
    long process;
};

struct status {
    bool is_short; /* the file isn't there, or there was no room for it */
    bool is_full;  /* there were more processes than it has room for */
    struct failed *failed;
    size_t failures, failed_room;
    struct bare *bare;
    size_t bares, bare_room;
    long *loaded; /* the processes that have the recorder */
    size_t loads, loaded_room;
    char **object; /* names by which objects were loaded or opened; ? where there were too many */
    size_t objects, object_room;
    char **past; /* libraries that were opened so that their calls go past the recorder */
    size_t pasts, past_room;
    bool has_semaphores; /* they were waited for, and not recorded */
};

/* `first` and `program` are the number and the name of the process that has to be among them; 0 where there is none. */
void status_read(struct status *status, const char *path, long first, const char *program);
void status_end(struct status *status);

#endif
