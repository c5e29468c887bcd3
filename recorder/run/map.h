/*
 * Numbers or things by keys, which are any bytes.
 */
#ifndef RECORD_MAP_H
#define RECORD_MAP_H

#include <stdbool.h>
#include <stddef.h>
#include <stdint.h>

struct map_slot {
    char *key; /* NULL where the slot is free */
    size_t length;
    union {
        size_t value;
        const void *thing;
    };
    uint64_t hash;
};

/* All zeroes is an empty one. */
struct map {
    struct map_slot *slot;
    size_t count, room;
};

/* Where the key's number is, until the next one is added; a key that is new has 0. */
size_t *map_add(struct map *map, const void *key, size_t length);
/* As map_add, of a text without its zero. */
size_t *map_add_text(struct map *map, const char *key);
/* As map_add, where the thing is, which stays somebody else's; a key that is new has NULL. A map has numbers or things. */
const void **map_thing(struct map *map, const void *key, size_t length);
/* The key's number; 0 where there is none. */
size_t map_find(const struct map *map, const void *key, size_t length);
size_t map_find_text(const struct map *map, const char *key);
bool map_has_text(const struct map *map, const char *key);
void map_end(struct map *map);

#endif
