#include "commands.h"

#include "fail.h"

static uint32_t given(struct bytes app_id)
{
    return app_id.size > 0 ? UAF_GIVEN : UAF_NOT_GIVEN;
}

uint32_t write_get_info(struct command *command)
{
    return uaf_write_get_info(command->bytes, sizeof command->bytes, &command->size);
}

uint32_t write_register(
    struct command *command, struct caller caller, struct bytes challenge_hash, struct bytes username, uint32_t attestation)
{
    return uaf_write_register(
        given(caller.app_id), caller.app_id.at, caller.app_id.size,
        challenge_hash.at, challenge_hash.size,
        username.at, username.size,
        attestation,
        caller.access_token.at, caller.access_token.size,
        UAF_NOT_GIVEN, NULL, 0,
        command->bytes, sizeof command->bytes, &command->size);
}

uint32_t write_sign(
    struct command *command, struct caller caller, struct bytes challenge_hash, const struct bytes *content,
    struct bytes key_handles)
{
    const struct bytes shown = content != NULL ? *content : nothing();
    /* One more than a command may have: the writer is to see that. */
    size_t sizes[UAF_MOST_HANDLES + 1], count = 0;
    while (count < UAF_MOST_HANDLES + 1 && count < key_handles.size / UAF_KEY_ID_SIZE)
        sizes[count++] = UAF_KEY_ID_SIZE;
    return uaf_write_sign(
        given(caller.app_id), caller.app_id.at, caller.app_id.size,
        challenge_hash.at, challenge_hash.size,
        content != NULL ? UAF_GIVEN : UAF_NOT_GIVEN, shown.at, shown.size,
        caller.access_token.at, caller.access_token.size,
        UAF_NOT_GIVEN, NULL, 0,
        key_handles.at, key_handles.size,
        sizes, count,
        command->bytes, sizeof command->bytes, &command->size);
}

uint32_t write_deregister(struct command *command, struct caller caller, struct bytes key_id)
{
    return uaf_write_deregister(
        given(caller.app_id), caller.app_id.at, caller.app_id.size,
        key_id.at, key_id.size,
        caller.access_token.at, caller.access_token.size,
        command->bytes, sizeof command->bytes, &command->size);
}

void require_written(uint32_t refusal)
{
    if (refusal != 0)
        fail_because("command to write", uaf_refusal_name(refusal));
}
