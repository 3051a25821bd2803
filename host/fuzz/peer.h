/* The peer's entries: the token's, by another implementation. */
#ifndef PEER_H
#define PEER_H

#include "uaf_token.h"

uint32_t peer_command(
    const uint8_t *command, size_t command_size,
    const uint8_t *aaid, size_t aaid_size,
    uint32_t version, uint32_t signature_algorithm, uint32_t key_algorithm,
    const uint8_t *metadata, size_t metadata_size,
    uint32_t verdict, uint32_t display,
    const uint8_t *key_id, size_t key_id_size,
    const uint8_t *public_key, size_t public_key_size,
    const uint8_t *nonce, size_t nonce_size,
    const uint8_t *table, size_t table_size,
    uint8_t *response, size_t response_size,
    uint8_t *table_out, size_t table_out_size,
    uint32_t *answer, size_t *response_length, size_t *table_length);

uint32_t peer_withdraw(
    const uint8_t *mixed, size_t mixed_size,
    const uint8_t *key_id, size_t key_id_size,
    const uint8_t *table, size_t table_size,
    uint8_t *table_out, size_t table_out_size,
    size_t *table_length);

void peer_hash(const uint8_t *first, size_t first_size, const uint8_t *second, size_t second_size, uint8_t hash[UAF_HASH_SIZE]);

uint32_t peer_complete(
    uint32_t kind,
    const uint8_t *draft, size_t draft_size,
    uint32_t attestation,
    const uint8_t *signature, size_t signature_size,
    const uint8_t *certificate, size_t certificate_size,
    uint8_t *response, size_t response_size,
    size_t *response_length);

uint32_t peer_signed_part(const uint8_t *response, size_t response_size, size_t *place, size_t *part_length);

uint32_t peer_read_fields(
    const uint8_t *response, size_t response_size,
    size_t *tag, size_t *status, size_t *count,
    size_t tags[UAF_MOST_FIELDS], size_t places[UAF_MOST_FIELDS], size_t lengths[UAF_MOST_FIELDS]);

uint32_t peer_write_get_info(uint8_t *command, size_t command_size, size_t *command_length);

uint32_t peer_write_register(
    uint32_t app_id_given, const uint8_t *app_id, size_t app_id_size,
    const uint8_t *challenge, size_t challenge_size,
    const uint8_t *username, size_t username_size,
    uint32_t attestation,
    const uint8_t *access_token, size_t access_token_size,
    uint32_t verify_token_given, const uint8_t *verify_token, size_t verify_token_size,
    uint8_t *command, size_t command_size,
    size_t *command_length);

uint32_t peer_write_sign(
    uint32_t app_id_given, const uint8_t *app_id, size_t app_id_size,
    const uint8_t *challenge, size_t challenge_size,
    uint32_t content_given, const uint8_t *content, size_t content_size,
    const uint8_t *access_token, size_t access_token_size,
    uint32_t verify_token_given, const uint8_t *verify_token, size_t verify_token_size,
    const uint8_t *handles, size_t handles_size,
    const size_t *handle_sizes, size_t handle_count,
    uint8_t *command, size_t command_size,
    size_t *command_length);

uint32_t peer_write_deregister(
    uint32_t app_id_given, const uint8_t *app_id, size_t app_id_size,
    const uint8_t *key_id, size_t key_id_size,
    const uint8_t *access_token, size_t access_token_size,
    uint8_t *command, size_t command_size,
    size_t *command_length);

uint32_t peer_write_open_settings(uint8_t *command, size_t command_size, size_t *command_length);

#endif
