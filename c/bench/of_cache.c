/* Requests to a cache of this process, through kangaroo.h. */
#include "run.h"
#include "words.h"

static void count_latency(worker *me, latency_name name, uint64_t from) {
    me->now = now_ns();
    count_value(&me->counted->latencies[name], me->now > from ? me->now - from : 0);
}

/* Counts a put or a fill by its status. */
static void count_stored(worker *me, const char *what, kangaroo_status status, count_name stored) {
    const request *asked = &me->next;
    if (status == KANGAROO_OK) {
        add_count(me->counted, stored, 1);
        add_count(me->counted, BYTES_STORED, asked->key_length + asked->value_length);
    } else if (status == KANGAROO_STALE) {
        add_count(me->counted, FILLS_STALE, 1);
    } else if (status == KANGAROO_NO_MEMORY) {
        add_count(me->counted, NO_MEMORY, 1);
    } else {
        refuse_system("the cache refused %s: %s", what, kangaroo_strerror(status));
    }
}

static void fill(worker *me, kangaroo_lease *lease) {
    const request *asked = &me->next;
    uint8_t value[KANGAROO_VALUE_MAX];
    if (asked->value_length > KANGAROO_VALUE_MAX) {
        add_count(me->counted, TOO_LARGE, 1);
        kangaroo_lease_drop(me->of->cache, lease);
        return;
    }
    write_value(asked->number, (uint32_t)asked->value_length, value);
    uint64_t from = now_ns();
    kangaroo_status status = kangaroo_fill(me->of->cache, lease, asked->key, asked->key_length, value,
                                           (size_t)asked->value_length, asked->expires);
    count_latency(me, FILL, from);
    count_stored(me, "a fill", status, FILLS);
}

static void count_hit(worker *me, uint32_t tier, uint64_t from) {
    static const latency_name latencies[] = {GET_MISS, GET_MEMORY, GET_LOG, GET_SET};
    static const count_name counts[] = {GETS, HITS_MEMORY, HITS_LOG, HITS_SET};
    if (tier < KANGAROO_TIER_MEMORY || tier > KANGAROO_TIER_SET)
        refuse_system("a hit is in tier %u, which this program does not know", tier);
    count_latency(me, latencies[tier], from);
    add_count(me->counted, counts[tier], 1);
}

static void get(worker *me, uint64_t from) {
    const request *asked = &me->next;
    uint8_t value[KANGAROO_VALUE_MAX];
    kangaroo_hit hit;
    kangaroo_lease lease;
    bool is_plain = me->of->options->is_plain;
    kangaroo_status status =
        is_plain ? kangaroo_get(me->of->cache, asked->key, asked->key_length, asked->moment, value, sizeof value, &hit)
                 : kangaroo_get_or_lease(me->of->cache, asked->key, asked->key_length, asked->moment, value,
                                         sizeof value, &hit, &lease);
    add_count(me->counted, GETS, 1);
    if (status == KANGAROO_OK) {
        count_hit(me, hit.tier, from);
        check_hit(me, "a get", asked, value, hit.length);
    } else if (status == KANGAROO_ABSENT || status == KANGAROO_EXPIRED || status == KANGAROO_UNREADABLE ||
               status == KANGAROO_DAMAGED) {
        count_latency(me, GET_MISS, from);
        if (!is_plain) fill(me, &lease);
    } else {
        refuse_system("the cache refused a get: %s", kangaroo_strerror(status));
    }
}

static void remove_key(worker *me, uint64_t from) {
    kangaroo_status status = kangaroo_remove(me->of->cache, me->next.key, me->next.key_length);
    count_latency(me, REMOVAL, from);
    if (status != KANGAROO_OK) refuse_system("the cache refused a removal: %s", kangaroo_strerror(status));
    add_count(me->counted, REMOVALS, 1);
}

/* A put that is refused removes the key: the older value would be wrong. */
static void put(worker *me, uint64_t from) {
    const request *asked = &me->next;
    uint8_t value[KANGAROO_VALUE_MAX];
    if (asked->value_length > KANGAROO_VALUE_MAX) {
        add_count(me->counted, TOO_LARGE, 1);
        remove_key(me, from);
        return;
    }
    write_value(asked->number, (uint32_t)asked->value_length, value);
    uint64_t begun = from > 0 ? from : now_ns();
    kangaroo_status status = kangaroo_put_or_remove(me->of->cache, asked->key, asked->key_length, value,
                                                    (size_t)asked->value_length, asked->expires);
    count_latency(me, PUT, begun);
    count_stored(me, "a put", status, PUTS);
}

void ask_cache(worker *me, uint64_t from) {
    add_count(me->counted, OPERATIONS, 1);
    if (me->next.what == ACT_PUT) {
        put(me, from);
        return;
    }
    uint64_t begun = from > 0 ? from : now_ns();
    if (me->next.what == ACT_GET) get(me, begun);
    else remove_key(me, begun);
}
