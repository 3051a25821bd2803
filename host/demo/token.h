/* A thin layer over the entries that run, complete and read: their stretches and numbers as structs, and this token's
 * profile. (The writers of commands are in commands.h.) */
#ifndef DEMO_TOKEN_H
#define DEMO_TOKEN_H

#include "bytes.h"
#include "uaf_token.h"

/* The key table in its stored form. Size 0 is the table without records. */
struct table {
    uint8_t bytes[UAF_LEAST_TABLE];
    size_t size;
};

/* What the firmware works out for a command beside the profile. The token does not look at what a command does not use. */
struct lent {
    uint32_t verdict;
    uint32_t display;
    struct bytes key_id;
    struct bytes public_key;
    struct bytes nonce;
};

/* What a command gives: a response, or a draft that is to be signed and completed; and the table left. */
struct answer {
    uint32_t kind; /* UAF_RESPONSE or UAF_DRAFT */
    uint8_t bytes[UAF_LEAST_RESPONSE];
    size_t size;
    struct table left;
};

/* A response and what the token's reader finds in it. */
struct response {
    uint8_t bytes[UAF_LEAST_RESPONSE];
    size_t size;
    size_t tag;
    size_t status;
    size_t count;
    size_t tags[UAF_MOST_FIELDS];
    size_t places[UAF_MOST_FIELDS];
    size_t lengths[UAF_MOST_FIELDS];
    size_t signed_place; /* KRD or SIGNED_DATA with its header; length 0 where there is none */
    size_t signed_length;
};

/* Each gives 0 or the refusal's number, after which nothing was written. */
uint32_t token_command(struct bytes command, const struct lent *lent, const struct table *table, struct answer *answer);
uint32_t token_complete(
    uint32_t kind, struct bytes draft, uint32_t attestation, struct bytes signature, struct bytes certificate,
    struct response *response);

/* Takes back the registration with this mixed token and KeyID; *left is the table without it. */
uint32_t token_withdraw(struct bytes mixed, struct bytes key_id, const struct table *table, struct table *left);

/* The token's own SHA-256 of one stretch followed by another. */
struct hash token_hash(struct bytes first, struct bytes second);

/* Reads the size bytes of response->bytes and fills in the rest. */
uint32_t token_read(struct response *response);

/* The value of field i, and of the first field with that tag: of no bytes where there is none. */
struct bytes field(const struct response *response, size_t i);
struct bytes field_of(const struct response *response, size_t tag);

/* The signed structure, as a part of the response's bytes. */
struct bytes signed_part(const struct response *response);

#endif
