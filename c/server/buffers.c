/* Bytes that wait to be taken or sent. */
#define _GNU_SOURCE
#include "server.h"
#include <stdlib.h>
#include <string.h>

bool make_room(buffer *of, size_t bytes) {
    if (of->room - of->length >= bytes) return true;
    size_t wanted = of->length + bytes;
    uint8_t *more = realloc(of->at, wanted);
    if (more == NULL) return false;
    of->at = more;
    of->room = wanted;
    return true;
}

bool append_bytes(buffer *to, const void *bytes, size_t length) {
    if (length == 0) return true;
    if (!make_room(to, length)) return false;
    memcpy(to->at + to->length, bytes, length);
    to->length += length;
    return true;
}

void drop_bytes(buffer *of, size_t bytes) {
    if (bytes == 0) return;
    of->length -= bytes;
    memmove(of->at, of->at + bytes, of->length);
}

void free_buffer(buffer *of) {
    free(of->at);
    *of = (buffer){0};
}
