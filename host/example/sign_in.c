/* A seller registers and signs in: the calls of the token that this takes, without a terminal around them. README.md quotes the function
 * `answer`, and host/tests/run holds the quotation against this file and runs it.
 *
 * What hardware works out stands here as fixed bytes; host/demo is the same with keys, signatures and files. The token hashes for itself. */
#include <stdio.h>
#include <stdlib.h>
#include <string.h>

#include "uaf_token.h"

/* What the terminal puts into the commands: a challenge hash for each, the seller's name, the access token. */
static const uint8_t first[] = {0xC1}, second[] = {0xC2}, username[] = {'A', 'n', 'n'}, access_token[UAF_ACCESS_TOKEN_SIZE] = {0xAA};

/* What the firmware lends: the profile, a new KeyID with its public key, a nonce. */
enum { VERSION = 1, ECDSA_SHA256_DER = 0x0002, ECC_X962_DER = 0x0101 };
static const uint8_t aaid[UAF_AAID_SIZE] = {'4', 'A', '4', 'F', '#', '0', '0', '0', '1'}, metadata[UAF_METADATA_SIZE] = {0},
                     key_id[UAF_KEY_ID_SIZE] = {0x22}, public_key[] = {0x33}, nonce[UAF_LEAST_NONCE] = {0x44};

/* The table in its stored form; no bytes are the table without records. */
static uint8_t table[UAF_LEAST_TABLE];
static size_t table_size;

/* Stands for a write into lasting storage. */
static void keep_table(const uint8_t *left, size_t size)
{
    memcpy(table, left, size);
    table_size = size;
}

/* Stands for a signature over the draft by the private key of this KeyID. */
static size_t sign_draft(const uint8_t *whose, const uint8_t *draft, size_t size, uint8_t *signature)
{
    signature[0] = (uint8_t)(whose[0] ^ draft[size - 1]);
    return 1;
}

static void stop_if(uint32_t refusal)
{
    if (refusal != 0) {
        fprintf(stderr, "refusal %u: %s\n", (unsigned)refusal, uaf_refusal_name(refusal));
        exit(EXIT_FAILURE);
    }
}

/* Runs a command to its response, and gives its length. */
static size_t answer(const uint8_t *command, size_t size, uint8_t response[UAF_LEAST_RESPONSE])
{
    uint8_t draft[UAF_LEAST_RESPONSE], left[UAF_LEAST_TABLE], signature[UAF_MOST_SIGNATURE];
    uint32_t kind;
    size_t length, left_size;
    stop_if(uaf_command(
        command, size, aaid, sizeof aaid, VERSION, ECDSA_SHA256_DER, ECC_X962_DER, metadata, sizeof metadata,
        UAF_VERIFIED, UAF_SHOWN_CONFIRMED, key_id, sizeof key_id, public_key, sizeof public_key, nonce, sizeof nonce,
        table, table_size, draft, sizeof draft, left, sizeof left, &kind, &length, &left_size));
    keep_table(left, left_size); /* before anything is signed: no count is used twice */
    if (kind == UAF_RESPONSE) {
        memcpy(response, draft, length);
        return length;
    }
    const uint8_t *chosen = uaf_draft_key_id(draft, length); /* NULL for a registration, whose KeyID was lent */
    size_t signature_size = sign_draft(chosen != NULL ? chosen : key_id, draft, length, signature);
    stop_if(uaf_complete(
        chosen != NULL ? UAF_COMPLETE_SIGN : UAF_COMPLETE_REGISTRATION, draft, length, UAF_BASIC_SURROGATE,
        signature, signature_size, NULL, 0, response, UAF_LEAST_RESPONSE, &length));
    return length;
}

/* Each field of a response by its name. */
static void show(const uint8_t *response, size_t size)
{
    size_t tag, status, count, tags[UAF_MOST_FIELDS], places[UAF_MOST_FIELDS], lengths[UAF_MOST_FIELDS];
    stop_if(uaf_read_fields(response, size, &tag, &status, &count, tags, places, lengths));
    printf("%s: %s\n", uaf_tag_name(tag), uaf_status_name(status));
    for (size_t i = 0; i < count; i++) {
        printf("  %-25s", uaf_tag_name(tags[i]));
        for (size_t k = 0; k < lengths[i]; k++)
            printf("%02x", response[places[i] + k]);
        printf("\n");
    }
}

int main(void)
{
    uint8_t command[UAF_MOST_COMMAND], response[UAF_LEAST_RESPONSE];
    size_t size;
    stop_if(uaf_write_register( /* no AppID, no USERVERIFY_TOKEN */
        UAF_NOT_GIVEN, NULL, 0, first, sizeof first, username, sizeof username, UAF_BASIC_SURROGATE,
        access_token, sizeof access_token, UAF_NOT_GIVEN, NULL, 0, command, sizeof command, &size));
    show(response, answer(command, size, response));
    stop_if(uaf_write_sign( /* nor content, nor key handles */
        UAF_NOT_GIVEN, NULL, 0, second, sizeof second, UAF_NOT_GIVEN, NULL, 0, access_token, sizeof access_token,
        UAF_NOT_GIVEN, NULL, 0, NULL, 0, NULL, 0, command, sizeof command, &size));
    show(response, answer(command, size, response));
    return 0;
}
