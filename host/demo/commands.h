/* Commands as bytes, by the token's own writers. */
#ifndef DEMO_COMMANDS_H
#define DEMO_COMMANDS_H

#include "bytes.h"
#include "uaf_token.h"

struct command {
    uint8_t bytes[UAF_MOST_COMMAND];
    size_t size;
};

/* Who asks. The hash of access token and AppID is the mixed token, the holder that records belong to: the token works it out.
 * An AppID of no bytes: none is given. */
struct caller {
    struct bytes app_id;
    struct bytes access_token;
};

/* Each gives 0 or the refusal's number, after which *command is as it was. */
uint32_t write_get_info(struct command *command);

uint32_t write_register(
    struct command *command, struct caller caller, struct bytes challenge_hash, struct bytes username, uint32_t attestation);

/* Content NULL: none is given, which is not the same as content of no bytes. Key handles run together, each of 32 bytes. */
uint32_t write_sign(
    struct command *command, struct caller caller, struct bytes challenge_hash, const struct bytes *content,
    struct bytes key_handles);

/* A KeyID of no bytes: all records of the caller. */
uint32_t write_deregister(struct command *command, struct caller caller, struct bytes key_id);

/* For a command that must be written: a refusal ends the program, which says what it means. */
void require_written(uint32_t refusal);

#endif
