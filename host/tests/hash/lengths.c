/* uaf_hash against libcrypto's SHA-256: every length from 0 to 300 bytes in one stretch, and every way to part some lengths about the ends of
 * blocks into two, which stand at all distances from an aligned place. What the published examples give is in host/tests/token/tests/hash.rs. */
#include <stdbool.h>
#include <stdio.h>
#include <stdlib.h>
#include <string.h>

#include <openssl/evp.h>

#include "uaf_token.h"

enum { MOST_WHOLE = 300, MOST_MESSAGE = 8193, WORD = 8, MARGIN = 16, FILL = 0xEE };

static const size_t PARTED[] = {55, 56, 57, 63, 64, 65, 119, 120, 127, 128, 129, 511, 512, 513, 544, 8191, 8192, 8193};

static unsigned long calls;

static void fail(const char *what, size_t size, size_t place)
{
    printf("hash: %s, %zu bytes parted at %zu\n", what, size, place);
    exit(1);
}

/* Random bytes by a fixed seed: xorshift64*. */
static void fill(uint8_t *bytes, size_t size)
{
    static uint64_t state = 0x9E3779B97F4A7C15;
    for (size_t i = 0; i < size; i++) {
        state ^= state >> 12;
        state ^= state << 25;
        state ^= state >> 27;
        bytes[i] = (uint8_t)(state * 0x2545F4914F6CDD1D >> 56);
    }
}

/* A stretch at some distance from an aligned place. */
struct stretch {
    _Alignas(WORD) uint8_t room[WORD + MOST_MESSAGE];
    uint8_t *at;
    size_t size;
};

static void lend(struct stretch *stretch, const uint8_t *bytes, size_t size, size_t distance)
{
    stretch->at = stretch->room + distance % WORD;
    stretch->size = size;
    if (size > 0)
        memcpy(stretch->at, bytes, size);
}

static bool is_kept(const struct stretch *stretch, const uint8_t *bytes)
{
    return stretch->size == 0 || memcmp(stretch->at, bytes, stretch->size) == 0;
}

/* The message, parted at this place, at distances that the turn gives. */
static void try_parted(const uint8_t *message, size_t size, size_t place, const uint8_t *expected, size_t turn)
{
    static struct stretch first, second;
    uint8_t room[MARGIN + WORD + UAF_HASH_SIZE + MARGIN], before[sizeof room];
    uint8_t *hash = room + MARGIN + turn / 3 % WORD;
    lend(&first, message, place, turn);
    lend(&second, message + place, size - place, turn / WORD);
    memset(room, FILL, sizeof room);
    memcpy(before, room, sizeof before);
    uaf_hash(first.at, first.size, second.at, second.size, hash);
    calls++;
    if (memcmp(hash, expected, UAF_HASH_SIZE) != 0)
        fail("another hash than libcrypto's", size, place);
    memset(hash, FILL, UAF_HASH_SIZE);
    if (memcmp(room, before, sizeof room) != 0)
        fail("a byte beside the hash changed", size, place);
    if (!is_kept(&first, message) || !is_kept(&second, message + place))
        fail("a stretch changed", size, place);
}

static void expect(const uint8_t *message, size_t size, uint8_t hash[UAF_HASH_SIZE])
{
    unsigned length = 0;
    if (EVP_Digest(message, size, hash, &length, EVP_sha256(), NULL) != 1 || length != UAF_HASH_SIZE) {
        printf("hash: libcrypto has no SHA-256\n");
        exit(1);
    }
}

int main(void)
{
    static uint8_t message[MOST_MESSAGE];
    uint8_t expected[UAF_HASH_SIZE];
    for (size_t size = 0; size <= MOST_WHOLE; size++)
        for (size_t distance = 0; distance < WORD; distance++) {
            fill(message, size);
            expect(message, size, expected);
            try_parted(message, size, size, expected, distance);
            try_parted(message, size, 0, expected, distance * WORD);
        }
    for (size_t i = 0; i < sizeof PARTED / sizeof *PARTED; i++) {
        fill(message, PARTED[i]);
        expect(message, PARTED[i], expected);
        for (size_t place = 0; place <= PARTED[i]; place++)
            try_parted(message, PARTED[i], place, expected, place * 5);
    }
    printf("hash: %lu calls, each as libcrypto has it\n", calls);
    return 0;
}
