#include "token.h"

/* The profile: who made this token, and which algorithms it speaks. Numbers from FIDO's registry of predefined values. */
enum {
    AUTHENTICATOR_VERSION = 1,
    ALG_SIGN_SECP256R1_ECDSA_SHA256_DER = 0x0002,
    ALG_KEY_ECC_X962_DER = 0x0101
};

static const uint8_t metadata[15] = {
    0x4E, 0x00,             /* type: roaming, first factor, keys stored inside, own user interface, a user is enrolled */
    0x08,                   /* at most 8 key handles in a command */
    0x02, 0x00, 0x00, 0x00, /* user verification: fingerprint */
    0x01, 0x00,             /* key protection: software. A product states its chip here, */
    0x01, 0x00,             /* and here its matcher: software */
    0x03, 0x00,             /* display: any, by privileged software */
    0x02, 0x00              /* ALG_SIGN_SECP256R1_ECDSA_SHA256_DER */
};

uint32_t token_command(struct bytes command, const struct lent *lent, const struct table *table, struct answer *answer)
{
    const struct bytes aaid = text("4A4F#0001");
    return uaf_command(
        command.at, command.size,
        aaid.at, aaid.size,
        AUTHENTICATOR_VERSION, ALG_SIGN_SECP256R1_ECDSA_SHA256_DER, ALG_KEY_ECC_X962_DER,
        metadata, sizeof metadata,
        lent->verdict, lent->display,
        lent->key_id.at, lent->key_id.size,
        lent->public_key.at, lent->public_key.size,
        lent->nonce.at, lent->nonce.size,
        table->bytes, table->size,
        answer->bytes, sizeof answer->bytes,
        answer->left.bytes, sizeof answer->left.bytes,
        &answer->kind, &answer->size, &answer->left.size);
}

uint32_t token_complete(
    uint32_t kind, struct bytes draft, uint32_t attestation, struct bytes signature, struct bytes certificate,
    struct response *response)
{
    return uaf_complete(
        kind, draft.at, draft.size, attestation, signature.at, signature.size, certificate.at, certificate.size,
        response->bytes, sizeof response->bytes, &response->size);
}

uint32_t token_withdraw(struct bytes mixed, struct bytes key_id, const struct table *table, struct table *left)
{
    return uaf_withdraw(
        mixed.at, mixed.size, key_id.at, key_id.size, table->bytes, table->size, left->bytes, sizeof left->bytes, &left->size);
}

struct hash token_hash(struct bytes first, struct bytes second)
{
    struct hash hash;
    uaf_hash(first.at, first.size, second.at, second.size, hash.bytes);
    return hash;
}

uint32_t token_read(struct response *response)
{
    uint32_t refusal = uaf_read_fields(
        response->bytes, response->size, &response->tag, &response->status, &response->count, response->tags,
        response->places, response->lengths);
    if (refusal != 0)
        return refusal;
    return uaf_signed_part(response->bytes, response->size, &response->signed_place, &response->signed_length);
}

struct bytes field(const struct response *response, size_t i)
{
    return (struct bytes){response->bytes + response->places[i], response->lengths[i]};
}

struct bytes field_of(const struct response *response, size_t tag)
{
    for (size_t i = 0; i < response->count; i++)
        if (response->tags[i] == tag)
            return field(response, i);
    return nothing();
}

struct bytes signed_part(const struct response *response)
{
    return (struct bytes){response->bytes + response->signed_place, response->signed_length};
}
