/* Stretches of bytes, as the token's entries take them: where one starts and how many bytes it has. */
#ifndef DEMO_BYTES_H
#define DEMO_BYTES_H

#include <stdbool.h>
#include <stddef.h>
#include <stdint.h>
#include <string.h>

struct bytes {
    const uint8_t *at;
    size_t size;
};

/* The whole of an array: the compiler counts its bytes. */
#define WHOLE(array) ((struct bytes){(array), sizeof(array)})

/* The part in use of anything that has bytes and a size: a blob, a command, a table, a response. */
#define FILLED(thing) ((struct bytes){(thing).bytes, (thing).size})

/* A key, a signature or a certificate: its size is known once it is made, and the token takes none above 2,048 bytes. */
struct blob {
    uint8_t bytes[2048];
    size_t size;
};

/* 32 bytes. A struct, so that no length is lost on the way through a parameter. KeyIDs, mixed tokens and access tokens
 * are hashes too in this demonstration. */
struct hash {
    uint8_t bytes[32];
};

/* No bytes. The entries do not follow the pointer of a stretch of none. */
static inline struct bytes nothing(void)
{
    return (struct bytes){NULL, 0};
}

static inline struct bytes text(const char *letters)
{
    return (struct bytes){(const uint8_t *)letters, strlen(letters)};
}

/* memcmp and memcpy take no NULL, not even for no bytes. */
static inline bool same(struct bytes a, struct bytes b)
{
    return a.size == b.size && (a.size == 0 || memcmp(a.at, b.at, a.size) == 0);
}

static inline void copy(uint8_t *to, struct bytes from)
{
    if (from.size > 0)
        memcpy(to, from.at, from.size);
}

#endif
