#include "state.h"

#include <stdlib.h>
#include <string.h>

void state_forgets_seats(struct state *state)
{
    for (size_t i = 0; i <= SEATS_MOST; i++)
        free(state->seat[i].held);
    memset(state->seat, 0, sizeof state->seat);
    state->circles = 0;
}

void state_end(struct state *state)
{
    for (size_t i = 0; i < state->orders; i++) {
        free(state->order[i].from);
        free(state->order[i].into);
    }
    state_forgets_seats(state);
    free(state->order);
    free(state->circle);
    memset(state, 0, sizeof *state);
}
