/* What the fuzz targets share: memory between pages that fault, outputs that are lent to the token and to the peer alike, and the reading
 * of a fuzz input. */
#ifndef HARNESS_H
#define HARNESS_H

#include <stdbool.h>
#include <stddef.h>
#include <stdint.h>

/* Pages between two that fault when they are read or written. */
struct pages {
    uint8_t *first;
    size_t room;
};

struct pages open_pages(size_t least);

/* Where a stretch goes: its last byte directly before the back guard page or, with front, its first directly after the front one. An empty
 * stretch stands on a guard page. */
uint8_t *place(const struct pages *pages, size_t size, bool front);

/* An input: the peer's bytes, which a target fills in, and the token's copy of them. */
struct input {
    struct pages pages;
    uint8_t *peer;
    const uint8_t *token;
    size_t size;
};

struct input open_input(size_t most);
void lend_input(struct input *input, size_t size, bool front);

/* Lends bytes whose values nobody looks at; they rise from the first on, so that each place has its own. */
void lend_filled(struct input *input, size_t size, unsigned from, bool front);

/* Fails if the token changed it. */
void check_input(const struct input *input, const char *name);

/* An output, an array or a number of the token, and the same for the peer. Before a call both hold the same bytes, and so do the bytes
 * around them, as far as they are watched. */
struct output {
    struct pages token_pages;
    struct pages peer_pages;
    uint8_t *token;
    uint8_t *peer;
    size_t size;
    size_t watched_before;
    size_t watched_after;
};

struct output open_output(size_t most);
void lend_output(struct output *output, size_t size, bool front);

/* Fails unless both wrote the same, and nothing but the first `written` bytes. */
void check_output(const struct output *output, size_t written, const char *name);

/* Fails, with that word for it, unless it holds. */
void check(bool holds, const char *name, const char *what);

/* Fails unless both returned the same. */
void check_returned(uint32_t token, uint32_t peer);

/* Flags of an input. */
enum { FRONT = 1, MEND = 2 };

/* The rest of a fuzz input. What is taken beyond its end is 0 or nothing. */
struct source {
    const uint8_t *at;
    size_t left;
};

uint8_t take8(struct source *source);
uint16_t take16(struct source *source);
uint32_t take32(struct source *source);

/* The next bytes, at most as many as are left; *size says how many. */
const uint8_t *take(struct source *source, size_t *size);

/* A size by one byte, so that limits are met often: below 32 one at or next to a limit of document 01, else a multiple of 16. */
enum { MOST_SIZE = 4096 };
size_t take_size(struct source *source);

/* The same, but that 0 stands for 32 bytes, which every field of a command may have, and 13 for none. */
size_t take_field_size(struct source *source);

/* A size that is longer than a right one by a signed byte; where that is below 0, and for -128, it is 0. */
size_t take_size_near(struct source *source, size_t right);

/* Copies all that is left, at most `most` bytes. With mend the outermost TLV gets the length that it must have, and down from it each last
 * TLV that holds others. */
size_t take_rest(struct source *source, uint8_t *bytes, size_t most, bool mend);

/* Counts a class of answers as covered, beside the peer's own coverage. */
enum { CLASSES = 8192 };
void cover(size_t class);

/* Counts what a username is made of, or those in a run of TLVs; taken: whether the call was right with it. The peer leaves UTF-8 to Rust's library,
 * which is built without coverage. */
void cover_name(const uint8_t *name, size_t size, bool taken);
void cover_names(const uint8_t *run, size_t size, bool taken);

#endif
