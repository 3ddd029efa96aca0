/* A list of objects with an index. lru.h says what each function is for. Place 0 is no object. */
#include "lru.h"
#include "keys.h"
#include "words.h"
#include <stdlib.h>

static uint32_t *head_of(const lru *of, uint64_t number) { return &of->heads[mix(number) & (of->places - 1)]; }

/* Links the places from one on as free ones. */
static void free_places(lru *of, uint32_t from) {
    for (uint32_t i = from; i < of->places; i++) {
        of->objects[i].chain = of->freed;
        of->freed = i;
    }
}

lru new_lru(void) {
    lru made = {.places = 1024};
    made.objects = take_memory(made.places, sizeof *made.objects);
    made.heads = take_memory(made.places, sizeof *made.heads);
    free_places(&made, 1);
    return made;
}

void end_lru(lru *of) {
    free(of->objects);
    free(of->heads);
}

/* Makes room for as many objects again. */
static void grow(lru *of) {
    uint32_t before = of->places;
    if (before > UINT32_MAX / 2) refuse_system("more than 2^31 objects");
    of->places = 2 * before;
    of->objects = realloc(of->objects, of->places * sizeof *of->objects);
    free(of->heads);
    of->heads = take_memory(of->places, sizeof *of->heads);
    if (of->objects == NULL) refuse_system("no memory for %u objects", of->places);
    for (uint32_t i = of->first; i != 0; i = of->objects[i].older) {
        uint32_t *head = head_of(of, of->objects[i].number);
        of->objects[i].chain = *head;
        *head = i;
    }
    free_places(of, before);
}

lru_object *find_object(const lru *of, uint64_t number) {
    uint32_t at = *head_of(of, number);
    while (at != 0 && of->objects[at].number != number) at = of->objects[at].chain;
    return at != 0 ? &of->objects[at] : NULL;
}

static void link_first(lru *of, uint32_t at) {
    of->objects[at].newer = 0;
    of->objects[at].older = of->first;
    if (of->first != 0) of->objects[of->first].newer = at;
    else of->last = at;
    of->first = at;
}

static void unlink_object(lru *of, const lru_object *taken) {
    if (taken->newer != 0) of->objects[taken->newer].older = taken->older;
    else of->first = taken->older;
    if (taken->older != 0) of->objects[taken->older].newer = taken->newer;
    else of->last = taken->newer;
}

void touch_object(lru *of, lru_object *touched) {
    unlink_object(of, touched);
    link_first(of, (uint32_t)(touched - of->objects));
}

void add_object(lru *of, const lru_object *added) {
    if (of->freed == 0) grow(of);
    uint32_t at = of->freed, *head = head_of(of, added->number);
    of->freed = of->objects[at].chain;
    of->objects[at] = *added;
    of->objects[at].chain = *head;
    *head = at;
    link_first(of, at);
    of->held++;
    of->used += added->cost;
}

void remove_object(lru *of, lru_object *removed) {
    uint32_t at = (uint32_t)(removed - of->objects), *link = head_of(of, removed->number);
    while (*link != at) link = &of->objects[*link].chain;
    *link = removed->chain;
    unlink_object(of, removed);
    of->held--;
    of->used -= removed->cost;
    removed->chain = of->freed;
    of->freed = at;
}

lru_object take_oldest(lru *of) {
    lru_object oldest = of->objects[of->last];
    remove_object(of, &of->objects[of->last]);
    return oldest;
}
