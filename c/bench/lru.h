/* lru.h: a list of objects with an index: the newest first, or if nothing is touched a queue. */
#ifndef BENCH_LRU_H
#define BENCH_LRU_H

#include <stdbool.h>
#include <stdint.h>

typedef struct lru_object {
    uint64_t number;              /* of the key */
    uint32_t cost;                /* what it takes of the list's room */
    uint32_t bytes;               /* key and value */
    bool is_on_flash;             /* as it is here */
    uint32_t newer, older, chain; /* the list's own */
} lru_object;

typedef struct lru {
    lru_object *objects;
    uint32_t *heads; /* of chains, by hash */
    uint32_t places, first, last, freed;
    uint64_t held, used; /* objects, and the sum of their costs */
} lru;

lru new_lru(void);
void end_lru(lru *of);
/* The object of a key, or NULL; it stays valid until the next addition. */
lru_object *find_object(const lru *of, uint64_t number);
/* Makes an object the newest. */
void touch_object(lru *of, lru_object *touched);
/* Adds an object, whose key the list has not. */
void add_object(lru *of, const lru_object *added);
/* Takes an object out. */
void remove_object(lru *of, lru_object *removed);
/* Takes the oldest one out of a list that is not empty. */
lru_object take_oldest(lru *of);

#endif
