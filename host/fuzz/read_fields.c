/* Fuzzes uaf_read_fields. The input is that of signed_part.c. */
#include <string.h>

#include "harness.h"
#include "peer.h"

enum { MOST_RESPONSE = 1 << 16, ROW = UAF_MOST_FIELDS * sizeof(size_t) };

static struct {
    struct input response;
    struct output tag, status, count, tags, places, lengths;
} lent;

static void open_all(void)
{
    static bool open;
    if (open)
        return;
    lent.response = open_input(MOST_RESPONSE);
    lent.tag = open_output(sizeof(size_t));
    lent.status = open_output(sizeof(size_t));
    lent.count = open_output(sizeof(size_t));
    lent.tags = open_output(ROW);
    lent.places = open_output(ROW);
    lent.lengths = open_output(ROW);
    open = true;
}

static void lend_outputs(bool front)
{
    lend_output(&lent.tag, sizeof(size_t), front);
    lend_output(&lent.status, sizeof(size_t), front);
    lend_output(&lent.count, sizeof(size_t), front);
    lend_output(&lent.tags, ROW, front);
    lend_output(&lent.places, ROW, front);
    lend_output(&lent.lengths, ROW, front);
}

static void check_outputs(bool read)
{
    size_t number = read ? sizeof(size_t) : 0, row = read ? ROW : 0;
    check_output(&lent.tag, number, "tag");
    check_output(&lent.status, number, "status");
    check_output(&lent.count, number, "count");
    check_output(&lent.tags, row, "tags");
    check_output(&lent.places, row, "places");
    check_output(&lent.lengths, row, "lengths");
}

static void call(void)
{
    uint32_t refusal = uaf_read_fields(
        lent.response.token, lent.response.size, (size_t *)lent.tag.token, (size_t *)lent.status.token,
        (size_t *)lent.count.token, (size_t *)lent.tags.token, (size_t *)lent.places.token, (size_t *)lent.lengths.token);
    uint32_t peers = peer_read_fields(
        lent.response.peer, lent.response.size, (size_t *)lent.tag.peer, (size_t *)lent.status.peer,
        (size_t *)lent.count.peer, (size_t *)lent.tags.peer, (size_t *)lent.places.peer, (size_t *)lent.lengths.peer);
    check_returned(refusal, peers);
    check_outputs(refusal == 0);
    check_input(&lent.response, "response");
    cover_names(lent.response.peer, lent.response.size, refusal == 0);
    size_t kind = lent.response.size > 0 ? lent.response.peer[0] & 7 : 7;
    size_t count = 0;
    if (refusal == 0)
        memcpy(&count, lent.count.token, sizeof count);
    cover((kind * 32 + count) * 2 + (refusal == 0));
}

int LLVMFuzzerTestOneInput(const uint8_t *data, size_t size)
{
    struct source source = {data, size};
    open_all();
    unsigned flags = take8(&source);
    bool front = (flags & FRONT) != 0;
    lend_input(&lent.response, take_rest(&source, lent.response.peer, MOST_RESPONSE, (flags & MEND) != 0), front);
    lend_outputs(front);
    call();
    return 0;
}
