#define _GNU_SOURCE
#include "harness.h"

#include <stdio.h>
#include <stdlib.h>
#include <string.h>
#include <sys/mman.h>
#include <unistd.h>

/* libFuzzer takes the end for a crash and keeps the input. */
static _Noreturn void fail(const char *name, const char *what)
{
    fprintf(stderr, "MISMATCH: %s: %s\n", name, what);
    abort();
}

void check(bool holds, const char *name, const char *what)
{
    if (!holds)
        fail(name, what);
}

void check_returned(uint32_t token, uint32_t peer)
{
    if (token != peer) {
        fprintf(stderr, "token %u, peer %u\n", (unsigned)token, (unsigned)peer);
        fail("returned", "token and peer differ");
    }
}

struct pages open_pages(size_t least)
{
    size_t page = (size_t)sysconf(_SC_PAGESIZE);
    size_t room = (least + page - 1) / page * page;
    if (room == 0)
        room = page;
    uint8_t *all = mmap(NULL, room + 2 * page, PROT_NONE, MAP_PRIVATE | MAP_ANONYMOUS, -1, 0);
    if (all == MAP_FAILED || mprotect(all + page, room, PROT_READ | PROT_WRITE) != 0) {
        perror("guard pages");
        exit(1);
    }
    return (struct pages){all + page, room};
}

uint8_t *place(const struct pages *pages, size_t size, bool front)
{
    if (size > pages->room) {
        fprintf(stderr, "a stretch of %zu bytes in pages of %zu\n", size, pages->room);
        exit(1);
    }
    return front && size > 0 ? pages->first : pages->first + pages->room - size;
}

struct input open_input(size_t most)
{
    struct input input = {.pages = open_pages(most), .peer = malloc(most)};
    if (input.peer == NULL) {
        perror("an input");
        exit(1);
    }
    return input;
}

void lend_input(struct input *input, size_t size, bool front)
{
    uint8_t *token = place(&input->pages, size, front);
    memcpy(token, input->peer, size);
    input->token = token;
    input->size = size;
}

void lend_filled(struct input *input, size_t size, unsigned from, bool front)
{
    for (size_t i = 0; i < size; i++)
        input->peer[i] = (uint8_t)(from + i);
    lend_input(input, size, front);
}

void check_input(const struct input *input, const char *name)
{
    if (memcmp(input->token, input->peer, input->size) != 0)
        fail(name, "an input changed");
}

enum { MOST_OUTPUT = 1 << 14, MARGIN = 64 };

/* Bytes that no answer is likely to hold, so that a byte that was written is seen. */
static const uint8_t *before(void)
{
    static uint8_t bytes[MARGIN + MOST_OUTPUT + MARGIN];
    static bool made;
    if (!made) {
        uint32_t state = 0x2545F491;
        for (size_t i = 0; i < sizeof bytes; i++) {
            state = state * 1664525 + 1013904223;
            bytes[i] = (uint8_t)(state >> 24);
        }
        made = true;
    }
    return bytes;
}

struct output open_output(size_t most)
{
    return (struct output){.token_pages = open_pages(most), .peer_pages = open_pages(most)};
}

static size_t least_of(size_t one, size_t other)
{
    return one < other ? one : other;
}

static size_t watched(const struct output *output)
{
    return output->watched_before + output->size + output->watched_after;
}

void lend_output(struct output *output, size_t size, bool front)
{
    const struct pages *pages = &output->token_pages;
    output->token = place(pages, size, front);
    output->peer = place(&output->peer_pages, size, front);
    output->size = size;
    size_t start = (size_t)(output->token - pages->first);
    output->watched_before = least_of(start, MARGIN);
    output->watched_after = least_of(pages->room - start - size, MARGIN);
    memcpy(output->token - output->watched_before, before(), watched(output));
    memcpy(output->peer - output->watched_before, before(), watched(output));
}

void check_output(const struct output *output, size_t written, const char *name)
{
    const uint8_t *from = output->token - output->watched_before;
    size_t end = output->watched_before + written;
    if (written > output->size || memcmp(from, before(), output->watched_before) != 0 ||
        memcmp(from + end, before() + end, watched(output) - end) != 0)
        fail(name, "a byte beyond those written changed");
    if (memcmp(from, output->peer - output->watched_before, watched(output)) != 0)
        fail(name, "token and peer left different bytes");
}

uint8_t take8(struct source *source)
{
    if (source->left == 0)
        return 0;
    source->left--;
    return *source->at++;
}

uint16_t take16(struct source *source)
{
    uint16_t low = take8(source);
    return (uint16_t)(low | take8(source) << 8);
}

uint32_t take32(struct source *source)
{
    uint32_t low = take16(source);
    return low | (uint32_t)take16(source) << 16;
}

const uint8_t *take(struct source *source, size_t *size)
{
    const uint8_t *bytes = source->at;
    if (*size > source->left)
        *size = source->left;
    source->at += *size;
    source->left -= *size;
    return bytes;
}

static size_t size_by(size_t code)
{
    static const uint16_t limits[] = {
        0,  1,   2,   3,   4,   7,   8,   9,   10,  14,  15,  16,   31,   32,   33,   34,
        64, 127, 128, 129, 255, 256, 257, 511, 512, 513, 514, 2047, 2048, 2049, 2050, MOST_SIZE,
    };
    enum { LIMITS = sizeof limits / sizeof *limits };
    return code < LIMITS ? limits[code] : 16 * (code - LIMITS);
}

size_t take_size(struct source *source)
{
    return size_by(take8(source));
}

size_t take_field_size(struct source *source)
{
    enum { CODE_OF_32 = 13 };
    return size_by(take8(source) ^ CODE_OF_32);
}

size_t take_size_near(struct source *source, size_t right)
{
    int more = (int8_t)take8(source);
    if (more == INT8_MIN || (more < 0 && (size_t)-more > right))
        return 0;
    return right + (size_t)more;
}

static size_t two_at(const uint8_t *bytes)
{
    return bytes[0] | (size_t)bytes[1] << 8;
}

static bool holds_others(size_t tag)
{
    return (tag & 0x1000) != 0 || tag == 0x280F;
}

static void mend_lengths(uint8_t *bytes, size_t size)
{
    while (size >= 4 && size - 4 <= UINT16_MAX) {
        bytes[2] = (uint8_t)(size - 4);
        bytes[3] = (uint8_t)((size - 4) >> 8);
        if (!holds_others(two_at(bytes)))
            return;
        bytes += 4;
        size -= 4;
        /* On to the last TLV of this run: the first that does not end before the run does. */
        while (size >= 4 && two_at(bytes + 2) + 4 < size) {
            size_t whole = two_at(bytes + 2) + 4;
            bytes += whole;
            size -= whole;
        }
    }
}

size_t take_rest(struct source *source, uint8_t *bytes, size_t most, bool mend)
{
    size_t size = most;
    const uint8_t *rest = take(source, &size);
    memcpy(bytes, rest, size);
    if (mend)
        mend_lengths(bytes, size);
    return size;
}

/* Nothing here reads them, so without `used` the compiler would leave them out. */
__attribute__((used, section("__libfuzzer_extra_counters"))) static uint8_t classes[CLASSES];

void cover(size_t class)
{
    classes[class % CLASSES] = 1;
}

/* The kinds of bytes that RFC 3629 tells apart, by the last of each. */
static const uint8_t last_of_kind[] = {0x7F, 0x8F, 0x9F, 0xBF, 0xC1, 0xDF, 0xE0, 0xEC, 0xED, 0xEF, 0xF0, 0xF3, 0xF4, 0xFF};
enum { KINDS = sizeof last_of_kind, FIRST_TAIL = 1, LAST_TAIL = 3, NONE = KINDS };

static size_t kind_of(uint8_t byte)
{
    size_t kind = 0;
    while (byte > last_of_kind[kind])
        kind++;
    return kind;
}

/* Each byte, and the end, by what stands before it: the last byte that is no tail, and how many tails are after that. */
void cover_name(const uint8_t *name, size_t size, bool taken)
{
    enum { OF_NAMES = 6144, MOST_TAILS = 3 };
    size_t lead = NONE, tails = 0;
    for (size_t i = 0; i <= size; i++) {
        size_t kind = i < size ? kind_of(name[i]) : NONE;
        cover(OF_NAMES + ((lead * (MOST_TAILS + 1) + tails) * (NONE + 1) + kind) * 2 + taken);
        if (kind < FIRST_TAIL || kind > LAST_TAIL) {
            lead = kind;
            tails = 0;
        } else if (tails < MOST_TAILS) {
            tails++;
        }
    }
}

void cover_names(const uint8_t *run, size_t size, bool taken)
{
    for (size_t at = 0; size - at >= 4;) {
        size_t tag = two_at(run + at), length = two_at(run + at + 2);
        at += 4;
        if (holds_others(tag))
            continue;
        if (length > size - at)
            return;
        if (tag == 0x2806)
            cover_name(run + at, length, taken);
        at += length;
    }
}
