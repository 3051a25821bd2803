/* Fuzzes uaf_signed_part.
 *
 *     8   flags: 1 buffers stand after the front guard page, 2 the response's lengths are mended
 *         then the response */
#include "harness.h"
#include "peer.h"

enum { MOST_RESPONSE = 1 << 16 };

static struct {
    struct input response;
    struct output place, length;
} lent;

static void open_all(void)
{
    static bool open;
    if (open)
        return;
    lent.response = open_input(MOST_RESPONSE);
    lent.place = open_output(sizeof(size_t));
    lent.length = open_output(sizeof(size_t));
    open = true;
}

static void call(void)
{
    uint32_t refusal = uaf_signed_part(
        lent.response.token, lent.response.size, (size_t *)lent.place.token, (size_t *)lent.length.token);
    uint32_t peers = peer_signed_part(
        lent.response.peer, lent.response.size, (size_t *)lent.place.peer, (size_t *)lent.length.peer);
    check_returned(refusal, peers);
    size_t written = refusal == 0 ? sizeof(size_t) : 0;
    check_output(&lent.place, written, "place");
    check_output(&lent.length, written, "length");
    check_input(&lent.response, "response");
    cover_names(lent.response.peer, lent.response.size, refusal == 0);
    size_t kind = lent.response.size > 0 ? lent.response.peer[0] & 7 : 7;
    size_t status = lent.response.size > 8 ? lent.response.peer[8] & 31 : 31;
    cover((kind * 32 + status) * 2 + (refusal == 0));
}

int LLVMFuzzerTestOneInput(const uint8_t *data, size_t size)
{
    struct source source = {data, size};
    open_all();
    unsigned flags = take8(&source);
    bool front = (flags & FRONT) != 0;
    lend_input(&lent.response, take_rest(&source, lent.response.peer, MOST_RESPONSE, (flags & MEND) != 0), front);
    lend_output(&lent.place, sizeof(size_t), front);
    lend_output(&lent.length, sizeof(size_t), front);
    call();
    return 0;
}
