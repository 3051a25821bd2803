/* Fuzzes uaf_complete.
 *
 *     8   flags: 1 buffers stand after the front guard page, 2 the draft's lengths are mended
 *     32  kind, attestation type
 *     8   sizes of signature and certificate, as take_size has them
 *     8   by how much (signed) the output is longer than its least, -128 makes it empty; a byte that fills signature and certificate
 *         then the draft */
#include <string.h>

#include "harness.h"
#include "peer.h"

enum { MOST_DRAFT = 1 << 16 };

static struct {
    struct input draft, signature, certificate;
    struct output response, response_length;
} lent;

static void open_all(void)
{
    static bool open;
    if (open)
        return;
    lent.draft = open_input(MOST_DRAFT);
    lent.signature = open_input(MOST_SIZE);
    lent.certificate = open_input(MOST_SIZE);
    lent.response = open_output(UAF_LEAST_RESPONSE + INT8_MAX);
    lent.response_length = open_output(sizeof(size_t));
    open = true;
}

static void call(uint32_t kind, uint32_t attestation)
{
    uint32_t refusal = uaf_complete(
        kind, lent.draft.token, lent.draft.size, attestation, lent.signature.token, lent.signature.size, lent.certificate.token,
        lent.certificate.size, lent.response.token, lent.response.size, (size_t *)lent.response_length.token);
    uint32_t peers = peer_complete(
        kind, lent.draft.peer, lent.draft.size, attestation, lent.signature.peer, lent.signature.size,
        lent.certificate.peer, lent.certificate.size, lent.response.peer, lent.response.size,
        (size_t *)lent.response_length.peer);
    check_returned(refusal, peers);
    size_t length = 0;
    if (refusal == 0)
        memcpy(&length, lent.response_length.token, sizeof length);
    check_output(&lent.response_length, refusal == 0 ? sizeof length : 0, "response_length");
    check_output(&lent.response, length, "response");
    check_input(&lent.draft, "draft");
    check_input(&lent.signature, "signature");
    check_input(&lent.certificate, "certificate");
    cover((refusal * 4 + (kind < 2 ? kind : 2)) * 4 + (attestation & 3));
}

int LLVMFuzzerTestOneInput(const uint8_t *data, size_t size)
{
    struct source source = {data, size};
    open_all();
    unsigned flags = take8(&source);
    bool front = (flags & FRONT) != 0;
    uint32_t kind = take32(&source), attestation = take32(&source);
    size_t signature_size = take_size(&source), certificate_size = take_size(&source);
    lend_output(&lent.response, take_size_near(&source, UAF_LEAST_RESPONSE), front);
    lend_output(&lent.response_length, sizeof(size_t), front);
    unsigned fill = take8(&source);
    lend_filled(&lent.signature, signature_size, fill, front);
    lend_filled(&lent.certificate, certificate_size, fill + 1, front);
    lend_input(&lent.draft, take_rest(&source, lent.draft.peer, MOST_DRAFT, (flags & MEND) != 0), front);
    call(kind, attestation);
    return 0;
}
