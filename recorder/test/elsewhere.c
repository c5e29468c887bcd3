/* elsewhere FILE NOISE: writes the plan of a steered run (../plan.h) that names a place where no program comes. */
#include "plan.h"

#include <stdio.h>
#include <stdlib.h>

int main(int count, char **words)
{
    static struct plan plan = {.mark = PLAN_MARK, .orders = 1, .pause_ms = 50, .back_ms = 50};
    struct plan_chain chain = {.frames = 1, .frame = {{.code = {.offset = 1, .name = "elsewhere"}}}};
    FILE *file = count == 3 ? fopen(words[1], "w") : NULL;
    if (!file)
        return 2;
    plan.noise_ms = (uint32_t)atoi(words[2]);
    plan.order[0] = (struct plan_order){.hold = chain, .ask = chain, .holds_back = 1};
    return fwrite(&plan, sizeof plan, 1, file) == 1 && fclose(file) == 0 ? 0 : 1;
}
