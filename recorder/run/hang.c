#include "hang.h"

#include <stdlib.h>

bool is_confirmed(const struct confirmed *confirmed)
{
    return confirmed && confirmed->run > 0;
}

void hang_end(struct hang *hang)
{
    for (size_t i = 0; i < hang->threads; i++) {
        free(hang->thread[i].took);
        free(hang->thread[i].took_at);
        free(hang->thread[i].wants);
        free(hang->thread[i].wants_at);
        free(hang->thread[i].type);
    }
    free(hang->thread);
    *hang = (struct hang){0};
}

void confirmed_end(struct confirmed *confirmed)
{
    if (!confirmed)
        return;
    hang_end(&confirmed->hang);
    free(confirmed->text);
    free(confirmed);
}
