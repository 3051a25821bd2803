/* Fuzzes uaf_hash.
 *
 *     8   flags: 1 buffers stand after the front guard page
 *     16  how many of the bytes are the first stretch, by its remainder
 *         then the bytes */
#include <string.h>

#include "harness.h"
#include "peer.h"

enum { MOST_MESSAGE = 1 << 16 };

static struct {
    struct input first, second;
    struct output hash;
} lent;

static void open_all(void)
{
    static bool open;
    if (open)
        return;
    lent.first = open_input(MOST_MESSAGE);
    lent.second = open_input(MOST_MESSAGE);
    lent.hash = open_output(UAF_HASH_SIZE);
    open = true;
}

/* Both hash the bytes, parted at this place. */
static void hash_parted(const uint8_t *bytes, size_t size, size_t place, bool front)
{
    memcpy(lent.first.peer, bytes, place);
    memcpy(lent.second.peer, bytes + place, size - place);
    lend_input(&lent.first, place, front);
    lend_input(&lent.second, size - place, front);
    lend_output(&lent.hash, UAF_HASH_SIZE, front);
    uaf_hash(lent.first.token, lent.first.size, lent.second.token, lent.second.size, lent.hash.token);
    peer_hash(lent.first.peer, lent.first.size, lent.second.peer, lent.second.size, lent.hash.peer);
    check_output(&lent.hash, UAF_HASH_SIZE, "hash");
    check_input(&lent.first, "first");
    check_input(&lent.second, "second");
}

int LLVMFuzzerTestOneInput(const uint8_t *data, size_t size)
{
    struct source source = {data, size};
    uint8_t whole[UAF_HASH_SIZE];
    open_all();
    bool front = (take8(&source) & FRONT) != 0;
    size_t place = take16(&source) % (source.left + 1);
    hash_parted(source.at, source.left, source.left, front);
    memcpy(whole, lent.hash.token, sizeof whole);
    hash_parted(source.at, source.left, place, front);
    check(memcmp(whole, lent.hash.token, sizeof whole) == 0, "hash", "another where its bytes are parted");
    /* By what is left over of a block, and by where in a block the bytes are parted. */
    cover(source.left % 64 * 64 + place % 64);
    return 0;
}
