/* The requests of a run. load.h says what each function is for. */
#include "load.h"
#include "kangaroo.h"
#include <stdlib.h>
#include <string.h>

stream new_stream(const load *of, uint32_t worker) {
    stream made = {.of = of, .drawn = {mix(of->seed) + worker}};
    if (of->replayed != NULL) made.block = new_block();
    made.drawn.state = next_word(&made.drawn);
    return made;
}

void end_stream(stream *of) { free(of->block.bytes); }

static act next_act(const load *of, chance *from) {
    double percent = next_share(from) * 100;
    if (percent < of->percent[ACT_GET]) return ACT_GET;
    return percent < of->percent[ACT_GET] + of->percent[ACT_PUT] ? ACT_PUT : ACT_REMOVE;
}

static void draw_request(stream *from, uint64_t moment, request *to) {
    const load *of = from->of;
    to->what = next_act(of, &from->drawn);
    to->number = number_of_rank(next_rank(&of->drawn, &from->drawn));
    to->key_length = of->key_bytes;
    spell_key(to->number, of->key_bytes, to->key);
    to->value_length = size_of(&of->values, to->number);
    to->moment = moment;
    to->expires = of->lifetime > 0 ? moment + of->lifetime : KANGAROO_NEVER;
}

/* The request that a line asks for. A key that is to be longer than what stands in the line gets zeros, as in
 * cachebench. */
static void replay_request(const stream *from, request *to) {
    const trace_call *call = &from->call;
    to->what = call->what;
    to->key_length = call->key_size;
    memcpy(to->key, call->key, call->key_length);
    memset(to->key + call->key_length, '0', call->key_size - call->key_length);
    to->number = hash_of_key(to->key, to->key_length);
    to->value_length = call->value_length > 0 ? call->value_length : size_of(&from->of->values, to->number);
    to->moment = call->seconds * 1000;
    to->expires = call->lifetime > 0 ? to->moment + call->lifetime * 1000 : KANGAROO_NEVER;
}

bool next_request(stream *from, uint64_t moment, request *to) {
    trace *replayed = from->of->replayed;
    if (replayed == NULL) {
        draw_request(from, moment, to);
        return true;
    }
    while (from->times == 0) {
        if (!next_call(replayed, &from->block, &from->call)) {
            if (!next_block(replayed, &from->block)) return false;
            continue;
        }
        from->times = from->call.times;
    }
    from->times--;
    replay_request(from, to);
    return true;
}
