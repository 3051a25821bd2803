/* Fuzzes the five writers of commands. What is written is then run, on a table of two records that are met without an AppID and one that is met with
 * an AppID of 32 bytes.
 *
 *     8   flags: 1 buffers stand after the front guard page; 2 AppID, 4 transaction content, 8 USERVERIFY_TOKEN is given; 16, 32, 64 the number that
 *         says so of each, 128 the attestation type is changed in 32 bits
 *     8   which command, by its remainder: GetInfo, Register, Sign, Deregister, Open settings
 *     8   number of the KeyID, and a byte that fills the other stretches but for AppID and access token, so that records are met
 *     32  for each flag of a number, in that order: its bits that are changed
 *     16  the bits in which the attestation type differs from full attestation
 *     8   sizes of AppID, challenge hash, access token, KeyID, content and USERVERIFY_TOKEN, as take_field_size has them
 *     8   number of key handles, by its remainder by 16; which one of them, from 0, has a length of its own; this length, as take_field_size has it;
 *         by how much (signed) their stretch is longer than the lengths say, -128 makes it empty
 *     8   how many letters `a` begin the name, less one; size of the rest of the name, then the rest
 *     8   0, or up to which length content (odd) or USERVERIFY_TOKEN (even) fills the command: 8,176 and the five bits above the lowest, from 128 on
 *         65,536 more
 *     8   by how much (signed) the output is longer than the command, -128 makes it empty
 *
 * What an input does not have is 0, and zeros stand for right fields: a short input makes a right command, and no seeds are needed. */
#include <string.h>

#include "harness.h"
#include "peer.h"

enum {
    MOST_NAME = 2 * UINT8_MAX,
    MOST_COUNT = 15,
    MOST_HANDLES = MOST_COUNT * 32 + MOST_SIZE + INT8_MAX,
    MOST_FILLER = 1 << 17,
};

enum { GET_INFO, REGISTER, SIGN, DEREGISTER, OPEN_SETTINGS, COMMANDS };
enum { GIVE_APP_ID = 2, GIVE_CONTENT = 4, GIVE_VERIFY = 8, CHANGE_APP_ID = 16, CHANGE_CONTENT = 32, CHANGE_VERIFY = 64, CHANGE_TYPE = 128 };

static struct {
    struct input app_id, challenge, username, content, access_token, verify_token, key_id, handles, handle_sizes;
    struct output command, command_length;
} given;

/* For the command that was written. */
static struct {
    struct input command, aaid, metadata, key_id, public_key, nonce, table;
    struct output response, table_out, answer, response_length, table_length;
} lent;

/* What an input asks for beside the stretches. */
struct asked {
    bool front;
    unsigned which, key;
    uint32_t app_id_given, content_given, verify_given, attestation;
};

/* The three records, as far as they are registered yet. */
static size_t table_size;

/* ---- the fields of an input */

/* KeyIDs have numbers from 0 to 3, of which the table has the first three. Where several run together, their numbers go on from the first one's. */
static void lend_keys(struct input *input, size_t size, unsigned number, bool front)
{
    for (size_t i = 0; i < size; i++)
        input->peer[i] = (uint8_t)(i % 32 + (i / 32 + number) % 4 * 64);
    lend_input(input, size, front);
}

static void take_handles(struct source *source, unsigned number, bool front)
{
    size_t sizes[MOST_COUNT], in_all = 0;
    size_t count = take8(source) % (MOST_COUNT + 1), other = take8(source), other_size = take_field_size(source);
    for (size_t i = 0; i < count; i++) {
        sizes[i] = i == other ? other_size : 32;
        in_all += sizes[i];
    }
    memcpy(given.handle_sizes.peer, sizes, count * sizeof *sizes);
    lend_input(&given.handle_sizes, count * sizeof *sizes, front);
    lend_keys(&given.handles, take_size_near(source, in_all), number, front);
}

/* The size of a child, where it is given. */
static size_t child(uint32_t mark, const struct input *field)
{
    return mark == UAF_GIVEN ? 4 + field->size : 0;
}

/* How long the command is, if nothing is wrong with its fields. */
static size_t length_of(const struct asked *asked)
{
    enum { HEADER = 4, INDEX = 5, TYPE = 6 };
    size_t app_id = child(asked->app_id_given, &given.app_id), challenge = child(UAF_GIVEN, &given.challenge);
    size_t token = child(UAF_GIVEN, &given.access_token), verify = child(asked->verify_given, &given.verify_token);
    size_t handles = given.handles.size + given.handle_sizes.size / sizeof(size_t) * 4;
    switch (asked->which) {
        case GET_INFO: return HEADER;
        case REGISTER: return HEADER + INDEX + app_id + challenge + child(UAF_GIVEN, &given.username) + TYPE + token + verify;
        case SIGN: return HEADER + INDEX + app_id + challenge + child(asked->content_given, &given.content) + token + verify + handles;
        case DEREGISTER: return HEADER + INDEX + app_id + child(UAF_GIVEN, &given.key_id) + token;
        default: return HEADER + INDEX;
    }
}

/* Lends another length of content or USERVERIFY_TOKEN, so that the command gets a length about the greatest. */
static void take_filler(struct source *source, const struct asked *asked)
{
    unsigned code = take8(source);
    if (code == 0)
        return;
    struct input *filler = code % 2 == 1 ? &given.content : &given.verify_token;
    lend_filled(filler, 0, code, asked->front);
    size_t goal = 8176 + (code >> 1 & 31) + (code < 128 ? 0 : 65536), without = length_of(asked);
    lend_filled(filler, goal > without ? goal - without : 0, code, asked->front);
}

static void take_name(struct source *source, bool front)
{
    uint8_t *name = given.username.peer;
    size_t letters = (take8(source) + 1u) % (UINT8_MAX + 1u), size = take8(source);
    const uint8_t *rest = take(source, &size);
    memset(name, 'a', letters);
    memcpy(name + letters, rest, size);
    lend_input(&given.username, letters + size, front);
}

/* The bits in which a number is changed. */
static uint32_t take_change(struct source *source, unsigned flags, unsigned flag)
{
    return (flags & flag) != 0 ? take32(source) : 0;
}

/* Whether a field is given. */
static uint32_t take_mark(struct source *source, unsigned flags, unsigned flag, unsigned change)
{
    return ((flags & flag) != 0 ? UAF_GIVEN : UAF_NOT_GIVEN) ^ take_change(source, flags, change);
}

static struct asked take_fields(struct source *source)
{
    unsigned flags = take8(source), which = take8(source) % COMMANDS, fill = take8(source);
    bool front = (flags & FRONT) != 0;
    struct asked asked = {.front = front, .which = which, .key = fill};
    asked.app_id_given = take_mark(source, flags, GIVE_APP_ID, CHANGE_APP_ID);
    asked.content_given = take_mark(source, flags, GIVE_CONTENT, CHANGE_CONTENT);
    asked.verify_given = take_mark(source, flags, GIVE_VERIFY, CHANGE_VERIFY);
    asked.attestation = UAF_BASIC_FULL ^ take_change(source, flags, CHANGE_TYPE);
    asked.attestation ^= take16(source);
    lend_filled(&given.app_id, take_field_size(source), 'a', front);
    lend_filled(&given.challenge, take_field_size(source), fill + 1, front);
    lend_filled(&given.access_token, take_field_size(source), 'A', front);
    lend_keys(&given.key_id, take_field_size(source), fill, front);
    lend_filled(&given.content, take_field_size(source), fill + 3, front);
    lend_filled(&given.verify_token, take_field_size(source), fill + 4, front);
    take_handles(source, fill, front);
    take_name(source, front);
    take_filler(source, &asked);
    size_t length = length_of(&asked);
    lend_output(&given.command, take_size_near(source, length < UAF_MOST_COMMAND ? length : UAF_MOST_COMMAND), front);
    lend_output(&given.command_length, sizeof(size_t), front);
    return asked;
}

/* ---- writing */

/* A stretch of one side, and its size. */
#define LEND(field, side) field.side, field.size
#define LEND_SIZES(side) (const size_t *)given.handle_sizes.side, given.handle_sizes.size / sizeof(size_t)
#define LEND_OUTPUT(side) LEND(given.command, side), (size_t *)given.command_length.side

static uint32_t token_writes(const struct asked *asked)
{
    switch (asked->which) {
        case GET_INFO: return uaf_write_get_info(LEND_OUTPUT(token));
        case REGISTER:
            return uaf_write_register(
                asked->app_id_given, LEND(given.app_id, token), LEND(given.challenge, token), LEND(given.username, token), asked->attestation,
                LEND(given.access_token, token), asked->verify_given, LEND(given.verify_token, token), LEND_OUTPUT(token));
        case SIGN:
            return uaf_write_sign(
                asked->app_id_given, LEND(given.app_id, token), LEND(given.challenge, token), asked->content_given, LEND(given.content, token),
                LEND(given.access_token, token), asked->verify_given, LEND(given.verify_token, token), LEND(given.handles, token), LEND_SIZES(token),
                LEND_OUTPUT(token));
        case DEREGISTER:
            return uaf_write_deregister(
                asked->app_id_given, LEND(given.app_id, token), LEND(given.key_id, token), LEND(given.access_token, token), LEND_OUTPUT(token));
        default: return uaf_write_open_settings(LEND_OUTPUT(token));
    }
}

static uint32_t peer_writes(const struct asked *asked)
{
    switch (asked->which) {
        case GET_INFO: return peer_write_get_info(LEND_OUTPUT(peer));
        case REGISTER:
            return peer_write_register(
                asked->app_id_given, LEND(given.app_id, peer), LEND(given.challenge, peer), LEND(given.username, peer), asked->attestation,
                LEND(given.access_token, peer), asked->verify_given, LEND(given.verify_token, peer), LEND_OUTPUT(peer));
        case SIGN:
            return peer_write_sign(
                asked->app_id_given, LEND(given.app_id, peer), LEND(given.challenge, peer), asked->content_given, LEND(given.content, peer),
                LEND(given.access_token, peer), asked->verify_given, LEND(given.verify_token, peer), LEND(given.handles, peer), LEND_SIZES(peer),
                LEND_OUTPUT(peer));
        case DEREGISTER:
            return peer_write_deregister(
                asked->app_id_given, LEND(given.app_id, peer), LEND(given.key_id, peer), LEND(given.access_token, peer), LEND_OUTPUT(peer));
        default: return peer_write_open_settings(LEND_OUTPUT(peer));
    }
}

static void check_fields(void)
{
    check_input(&given.app_id, "app_id");
    check_input(&given.challenge, "challenge");
    check_input(&given.username, "username");
    check_input(&given.content, "content");
    check_input(&given.access_token, "access_token");
    check_input(&given.verify_token, "verify_token");
    check_input(&given.key_id, "key_id");
    check_input(&given.handles, "handles");
    check_input(&given.handle_sizes, "handle_sizes");
}

/* Refusal, by command, by what is given of the three, by number of key handles. */
static void cover_writing(const struct asked *asked, uint32_t refusal)
{
    size_t marks = (asked->app_id_given & 1) + 2 * (asked->content_given & 1) + 4 * (asked->verify_given & 1);
    size_t count = given.handle_sizes.size / sizeof(size_t);
    cover(((refusal * COMMANDS + asked->which) * 8 + marks) * (MOST_COUNT + 1) + count);
    if (asked->which == REGISTER)
        cover_name(given.username.peer, given.username.size, refusal == 0);
}

/* Both write the command. Gives its length, or 0 for a refusal. */
static size_t write_both(const struct asked *asked)
{
    uint32_t refusal = token_writes(asked);
    check_returned(refusal, peer_writes(asked));
    size_t length = 0;
    if (refusal == 0) {
        memcpy(&length, given.command_length.token, sizeof length);
        check(length == length_of(asked), "command_length", "another length than the fields have");
    }
    check_output(&given.command_length, refusal == 0 ? sizeof length : 0, "command_length");
    check_output(&given.command, length, "command");
    check_fields();
    cover_writing(asked, refusal);
    return length;
}

/* ---- running what was written */

static void lend_results(const struct asked *asked)
{
    bool front = asked->front;
    lend_filled(&lent.aaid, UAF_AAID_SIZE, 1, front);
    lend_filled(&lent.metadata, UAF_METADATA_SIZE, 2, front);
    lend_keys(&lent.key_id, UAF_KEY_ID_SIZE, asked->key, front);
    lend_filled(&lent.public_key, 91, 4, front);
    lend_filled(&lent.nonce, UAF_LEAST_NONCE, 5, front);
    lend_input(&lent.table, table_size, front);
    lend_output(&lent.response, UAF_LEAST_RESPONSE, front);
    lend_output(&lent.table_out, UAF_LEAST_TABLE, front);
    lend_output(&lent.answer, sizeof(uint32_t), front);
    lend_output(&lent.response_length, sizeof(size_t), front);
    lend_output(&lent.table_length, sizeof(size_t), front);
}

#define LEND_RESULTS(side) \
    LEND(lent.command, side), LEND(lent.aaid, side), 1, 2, 3, LEND(lent.metadata, side), UAF_VERIFIED, UAF_SHOWN_CONFIRMED, \
        LEND(lent.key_id, side), LEND(lent.public_key, side), LEND(lent.nonce, side), LEND(lent.table, side), LEND(lent.response, side), \
        LEND(lent.table_out, side), (uint32_t *)lent.answer.side, (size_t *)lent.response_length.side, (size_t *)lent.table_length.side

/* Both run the command, which breaks no rule, so there is an answer and it is not 0x08. Gives the size of the table left. */
static size_t run_both(const struct asked *asked)
{
    uint32_t refusal = uaf_command(LEND_RESULTS(token)), answer;
    size_t response_length, table_length;
    check_returned(refusal, peer_command(LEND_RESULTS(peer)));
    check(refusal == 0, "a written command", "it is refused");
    memcpy(&answer, lent.answer.token, sizeof answer);
    memcpy(&response_length, lent.response_length.token, sizeof response_length);
    memcpy(&table_length, lent.table_length.token, sizeof table_length);
    check_output(&lent.answer, sizeof answer, "answer");
    check_output(&lent.response_length, sizeof response_length, "response_length");
    check_output(&lent.table_length, sizeof table_length, "table_length");
    check_output(&lent.response, response_length, "response");
    check_output(&lent.table_out, table_length, "table_out");
    check_input(&lent.command, "the written command");
    check_input(&lent.table, "table");
    size_t status = lent.response.token[8];
    check(answer == UAF_DRAFT || status != UAF_STATUS_PARAMS_INVALID, "a written command", "it is answered with 0x08");

    enum { AFTER_WRITING = 4608 };
    cover(AFTER_WRITING + asked->which * 64 + (answer == UAF_DRAFT ? 32 : response_length > 10 ? 33 : status % 32));
    return table_length;
}

/* Gives the size of the table left, or that of the table where nothing was written. */
static size_t write_and_run(struct source *source)
{
    struct asked asked = take_fields(source);
    size_t length = write_both(&asked);
    if (length == 0)
        return table_size;
    memcpy(lent.command.peer, given.command.token, length);
    lend_input(&lent.command, length, asked.front);
    lend_results(&asked);
    return run_both(&asked);
}

static void open_stretches(void)
{
    given.app_id = open_input(MOST_SIZE);
    given.challenge = open_input(MOST_SIZE);
    given.username = open_input(MOST_NAME);
    given.content = open_input(MOST_FILLER);
    given.access_token = open_input(MOST_SIZE);
    given.verify_token = open_input(MOST_FILLER);
    given.key_id = open_input(MOST_SIZE);
    given.handles = open_input(MOST_HANDLES);
    given.handle_sizes = open_input(MOST_COUNT * sizeof(size_t));
    given.command = open_output(UAF_MOST_COMMAND + INT8_MAX);
    given.command_length = open_output(sizeof(size_t));
    lent.command = open_input(UAF_MOST_COMMAND);
    lent.aaid = open_input(UAF_AAID_SIZE);
    lent.metadata = open_input(UAF_METADATA_SIZE);
    lent.key_id = open_input(UAF_KEY_ID_SIZE);
    lent.public_key = open_input(UAF_MOST_PUBLIC_KEY);
    lent.nonce = open_input(UAF_MOST_NONCE);
    lent.table = open_input(UAF_LEAST_TABLE);
    lent.response = open_output(UAF_LEAST_RESPONSE);
    lent.table_out = open_output(UAF_LEAST_TABLE);
    lent.answer = open_output(sizeof(uint32_t));
    lent.response_length = open_output(sizeof(size_t));
    lent.table_length = open_output(sizeof(size_t));
}

/* Registers the three records, each by a short input, the last with an AppID. */
static void open_table(void)
{
    for (uint8_t key = 0; key < 3; key++) {
        const uint8_t input[] = {key < 2 ? 0 : GIVE_APP_ID, REGISTER, key};
        size_t before = table_size;
        struct source source = {input, sizeof input};
        table_size = write_and_run(&source);
        check(table_size > before, "table", "a short input does not register");
        memcpy(lent.table.peer, lent.table_out.token, table_size);
    }
}

int LLVMFuzzerTestOneInput(const uint8_t *data, size_t size)
{
    static bool open;
    struct source source = {data, size};
    if (!open) {
        open_stretches();
        open_table();
        open = true;
    }
    write_and_run(&source);
    return 0;
}
