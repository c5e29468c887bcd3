#include "map.h"

#include "allocation.h"

#include <stdlib.h>
#include <string.h>

enum { ROOM_LEAST = 64 };

static uint64_t hash_of(const void *key, size_t length)
{
    const unsigned char *bytes = key;
    uint64_t hash = 0x9e3779b97f4a7c15u ^ length;
    for (; length >= sizeof hash; length -= sizeof hash, bytes += sizeof hash) {
        uint64_t word;
        memcpy(&word, bytes, sizeof word);
        hash = (hash ^ word) * 0xff51afd7ed558ccdu;
        hash ^= hash >> 32;
    }
    for (; length > 0; length--, bytes++)
        hash = (hash ^ *bytes) * 0x100000001b3u;
    hash ^= hash >> 29;
    hash *= 0xc4ceb9fe1a85ec53u;
    return hash ^ hash >> 32;
}

/* The slot that has the key, or a free one for it. */
static struct map_slot *slot_of(const struct map *map, const void *key, size_t length, uint64_t hash)
{
    for (size_t at = hash % map->room;; at = at + 1 == map->room ? 0 : at + 1) {
        struct map_slot *slot = &map->slot[at];
        if (!slot->key)
            return slot;
        if (slot->hash == hash && slot->length == length && memcmp(slot->key, key, length) == 0)
            return slot;
    }
}

static void widen(struct map *map)
{
    struct map wide = {.room = map->room ? 2 * map->room : ROOM_LEAST, .count = map->count};
    wide.slot = take(wide.room * sizeof *wide.slot);
    for (size_t at = 0; at < map->room; at++) {
        const struct map_slot *slot = &map->slot[at];
        if (slot->key)
            *slot_of(&wide, slot->key, slot->length, slot->hash) = *slot;
    }
    free(map->slot);
    *map = wide;
}

static struct map_slot *add(struct map *map, const void *key, size_t length)
{
    uint64_t hash = hash_of(key, length);
    if (map->room < 2 * (map->count + 1))
        widen(map);
    struct map_slot *slot = slot_of(map, key, length, hash);
    if (!slot->key) {
        *slot = (struct map_slot){.key = copy_bytes(key, length), .length = length, .hash = hash};
        map->count++;
    }
    return slot;
}

size_t *map_add(struct map *map, const void *key, size_t length)
{
    return &add(map, key, length)->value;
}

const void **map_thing(struct map *map, const void *key, size_t length)
{
    return &add(map, key, length)->thing;
}

size_t *map_add_text(struct map *map, const char *key)
{
    return map_add(map, key, strlen(key));
}

static const struct map_slot *find(const struct map *map, const void *key, size_t length)
{
    const struct map_slot *slot = map->room ? slot_of(map, key, length, hash_of(key, length)) : NULL;
    return slot && slot->key ? slot : NULL;
}

size_t map_find(const struct map *map, const void *key, size_t length)
{
    const struct map_slot *slot = find(map, key, length);
    return slot ? slot->value : 0;
}

size_t map_find_text(const struct map *map, const char *key)
{
    return map_find(map, key, strlen(key));
}

bool map_has_text(const struct map *map, const char *key)
{
    return find(map, key, strlen(key)) != NULL;
}

void map_end(struct map *map)
{
    for (size_t at = 0; at < map->room; at++)
        free(map->slot[at].key);
    free(map->slot);
    *map = (struct map){0};
}
