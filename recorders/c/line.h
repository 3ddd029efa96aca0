/* line.h: what recorder.c is made of, and no user needs: a line, its words, tags and hashes. */
#ifndef RECORDER_LINE_H
#define RECORDER_LINE_H
#include "recorder.h"

/* The longest tag with its NUL, and more than the longest line has: a name of 64 bytes, a key of 255 and a value of 102, each byte
 * as three, and four numbers. */
enum { TAG_MOST = 39, LINE_MOST = 2048 };

struct line {
    size_t size;
    char text[LINE_MOST];
};

/* Returns the FNV-1a hash of a key, 64 bits, its upper half folded into the lower. It decides whether the key is recorded. */
uint64_t key_hash(struct recorder_bytes key);

/* Returns the size of the tag that a value begins with, of whichever recorder; 0 if there is none. */
size_t tag_size(struct recorder_bytes v);

/* Add to a line: a text; a space and a number; a word, percent-encoded; a space and a value, its tag and either the rest or, if that
 * is over 64 bytes, its hash. */
void add_text(struct line *l, const char *text);
void add_number(struct line *l, uint64_t number);
void add_word(struct line *l, struct recorder_bytes w);
void add_value(struct line *l, struct recorder_bytes v);

/* Writes the first 32 of the 64 digits that `sha256sum` prints of some bytes, and a NUL. */
void sha256_half(const unsigned char *bytes, size_t size, char digits[33]);

/* Writes all of a text and returns 0, or -1 if that fails. A signal that the write raises is taken back. */
int write_all(int descriptor, const char *text, size_t size);

#endif
