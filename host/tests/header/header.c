/* The header against the archive: each entry is called through uaf_token.h, with every parameter telling in the result, so that a parameter
 * that is missing, too many, of another width or in another place shows; and the header's constants and names against the papers. Compiled as
 * C11 and as C++17.
 *
 * What is expected is put together here, field by field, from document 01. Hashes are expected as they were published or as another SHA-256 gave
 * them; where uaf_hash has been held against these, it gives the rest. */
#include <stdio.h>
#include <stdlib.h>
#include <string.h>

#include "uaf_token.h"

static int checks = 0;

static void expect(int ok, const char *what)
{
    checks++;
    if (!ok) {
        printf("header: %s\n", what);
        exit(1);
    }
}

/* ---- bytes put together by hand */

struct bytes {
    uint8_t at[8192];
    size_t length;
};

static void number(struct bytes *b, unsigned value, size_t width)
{
    for (size_t i = 0; i < width; i++)
        b->at[b->length++] = (uint8_t)(value >> (8 * i));
}

static void stretch(struct bytes *b, const uint8_t *from, size_t length)
{
    if (length > 0)
        memcpy(b->at + b->length, from, length);
    b->length += length;
}

static void tlv(struct bytes *b, unsigned tag, const uint8_t *value, size_t length)
{
    number(b, tag, 2);
    number(b, (unsigned)length, 2);
    stretch(b, value, length);
}

static void letters(struct bytes *b, unsigned tag, const char *text)
{
    tlv(b, tag, (const uint8_t *)text, strlen(text));
}

static void holding(struct bytes *b, unsigned tag, const struct bytes *inner)
{
    tlv(b, tag, inner->at, inner->length);
}

static int same(const struct bytes *b, const uint8_t *at, size_t length)
{
    return b->length == length && memcmp(b->at, at, length) == 0;
}

/* ---- who calls, and what is hashed of it */

#define EIGHT(byte) byte, byte, byte, byte, byte, byte, byte, byte
#define THIRTY_TWO(byte) EIGHT(byte), EIGHT(byte), EIGHT(byte), EIGHT(byte)

/* The access token and the content of the tests, and an AppID for those that give one. */
static const uint8_t access_token[UAF_ACCESS_TOKEN_SIZE] = {THIRTY_TWO(0xAA)};
static const char firm[] = "https://a.example", dividend[] = "7.40 to 3";

/* Their hashes, from another SHA-256: of the access token, of the access token followed by the AppID, and of the content. */
static const uint8_t mixed[UAF_MIXED_SIZE] = {
    0xE0, 0xE7, 0x7A, 0x50, 0x74, 0x12, 0xB1, 0x20, 0xF6, 0xED, 0xE6, 0x1F, 0x62, 0x29, 0x5B, 0x1A,
    0x7B, 0x2F, 0xF1, 0x9D, 0x3D, 0xCC, 0x8F, 0x72, 0x53, 0xE5, 0x16, 0x63, 0x47, 0x0C, 0x88, 0x8E};
static const uint8_t mixed_with_firm[UAF_MIXED_SIZE] = {
    0xA7, 0x44, 0xA4, 0xAF, 0xDC, 0x00, 0x47, 0x66, 0x55, 0xEC, 0xCC, 0x6D, 0x63, 0x93, 0x4B, 0x77,
    0xA8, 0x44, 0x1C, 0x41, 0x2B, 0x0D, 0x0A, 0xB0, 0xA8, 0x1F, 0x82, 0x4E, 0x9C, 0x15, 0xA8, 0xFA};
static const uint8_t dividend_hash[UAF_HASH_SIZE] = {
    0xC8, 0xAA, 0x61, 0x10, 0x64, 0x75, 0xE8, 0x28, 0xEF, 0x9A, 0xE9, 0xB9, 0xB0, 0xC1, 0xD1, 0x9F,
    0xBA, 0x37, 0x37, 0xD4, 0x0D, 0xF5, 0x82, 0x05, 0x91, 0x76, 0xD6, 0x34, 0xCE, 0xEF, 0x09, 0x16};

/* ---- what the caller lends: each different from each */

static uint8_t aaid[9], metadata[15], key_id[32], public_key[65], nonce[17], challenge[20], certificate[33], signature[71];
static const uint8_t zero = 0;
static const char ann[] = "Ann";

static const struct {
    uint8_t *at;
    size_t length;
    int seed;
} stretches[] = {
    {aaid, sizeof aaid, 0x10},
    {metadata, sizeof metadata, 0x20},
    {key_id, sizeof key_id, 0x60},
    {public_key, sizeof public_key, 0x80},
    {nonce, sizeof nonce, 0x03},
    {challenge, sizeof challenge, 0xE0},
    {certificate, sizeof certificate, 0x55},
    {signature, sizeof signature, 0x77},
};
enum { STRETCHES = sizeof stretches / sizeof *stretches };

static void lend_all(void)
{
    for (size_t i = 0; i < STRETCHES; i++)
        for (size_t k = 0; k < stretches[i].length; k++)
            stretches[i].at[k] = (uint8_t)(stretches[i].seed + (int)k);
}

static int stretches_are_as_lent(void)
{
    for (size_t i = 0; i < STRETCHES; i++)
        for (size_t k = 0; k < stretches[i].length; k++)
            if (stretches[i].at[k] != (uint8_t)(stretches[i].seed + (int)k))
                return 0;
    return 1;
}

/* The lent numbers, in the order in which uaf_command has them. */
enum { VERSION, SIGNATURE_ALGORITHM, KEY_ALGORITHM, VERDICT, DISPLAY, NUMBERS };

struct numbers {
    uint32_t at[NUMBERS];
};

static struct numbers usual(uint32_t verdict, uint32_t display)
{
    struct numbers n = {{0x0102, 0x0304, 0x0506, verdict, display}};
    return n;
}

/* ---- a call of uaf_command */

static uint8_t response[UAF_LEAST_RESPONSE + 1], table_out[UAF_LEAST_TABLE + 1];
static uint32_t answer;
static size_t response_length, table_length;

/* The fill of an output, by which bytes that must not change are known again. */
enum { UNTOUCHED = 0xA5 };

static void fill_outputs(void)
{
    memset(response, UNTOUCHED, sizeof response);
    memset(table_out, UNTOUCHED, sizeof table_out);
    answer = 77;
    response_length = 78;
    table_length = 79;
}

static int untouched(const uint8_t *at, size_t from, size_t size)
{
    for (size_t i = from; i < size; i++)
        if (at[i] != UNTOUCHED)
            return 0;
    return 1;
}

static int all_untouched(void)
{
    return untouched(response, 0, sizeof response) && untouched(table_out, 0, sizeof table_out) && answer == 77 && response_length == 78
        && table_length == 79;
}

static uint32_t call_with(const struct bytes *command, const struct numbers *n, const struct bytes *table)
{
    fill_outputs();
    return uaf_command(
        command->at, command->length, aaid, sizeof aaid, n->at[VERSION], n->at[SIGNATURE_ALGORITHM], n->at[KEY_ALGORITHM], metadata,
        sizeof metadata, n->at[VERDICT], n->at[DISPLAY], key_id, sizeof key_id, public_key, sizeof public_key, nonce, sizeof nonce, table->at,
        table->length, response, sizeof response, table_out, sizeof table_out, &answer, &response_length, &table_length);
}

static uint32_t call(const struct bytes *command, uint32_t verdict, uint32_t display, const struct bytes *table)
{
    struct numbers n = usual(verdict, display);
    return call_with(command, &n, table);
}

/* What was written, and nothing beyond it. */
static int wrote(uint32_t kind, const struct bytes *expected, const struct bytes *left)
{
    return answer == kind && same(expected, response, response_length) && untouched(response, response_length, sizeof response)
        && same(left, table_out, table_length) && untouched(table_out, table_length, sizeof table_out);
}

static void command_of(struct bytes *command, unsigned tag, const struct bytes *children)
{
    command->length = 0;
    holding(command, tag, children);
}

static void status_only(struct bytes *expected, unsigned tag, unsigned status)
{
    struct bytes inner = {{0}, 0};
    uint8_t code[2] = {(uint8_t)status, 0};
    tlv(&inner, 0x2808, code, 2);
    expected->length = 0;
    holding(expected, tag, &inner);
}

/* A call that answers with a status alone and leaves the table as it is. */
static int says(const struct bytes *command, uint32_t verdict, uint32_t display, const struct bytes *table, unsigned tag, unsigned status)
{
    struct bytes expected = {{0}, 0};
    status_only(&expected, tag, status);
    return call(command, verdict, display, table) == 0 && wrote(UAF_RESPONSE, &expected, table);
}

static void add_record_of(struct bytes *table, const uint8_t *holder, const uint8_t *key, const char *username, unsigned count)
{
    struct bytes inner = {{0}, 0};
    tlv(&inner, 0x2E09, key, UAF_KEY_ID_SIZE);
    tlv(&inner, 0x2805, holder, UAF_MIXED_SIZE);
    letters(&inner, 0x2806, username);
    number(&inner, 0x2E0D, 2);
    number(&inner, 4, 2);
    number(&inner, count, 4);
    holding(table, 0x3802, &inner);
}

/* The caller's, who gives no AppID. */
static void add_record(struct bytes *table, const uint8_t *key, const char *username, unsigned count)
{
    add_record_of(table, mixed, key, username, count);
}

static void stored_record(struct bytes *table, unsigned count)
{
    table->length = 0;
    add_record(table, key_id, ann, count);
}

/* So many records of the caller's, none with the KeyID that is lent. */
static void stored_records(struct bytes *table, unsigned number_of)
{
    uint8_t key[UAF_KEY_ID_SIZE];
    table->length = 0;
    for (unsigned i = 0; i < number_of; i++) {
        memset(key, (int)(i + 1), sizeof key);
        add_record(table, key, ann, i);
    }
}

/* ---- the children that commands share */

/* With a username they are a Register's. */
static void children_of(struct bytes *children, const char *username, const char *content)
{
    static const uint8_t full[] = {0x07, 0x3E};
    children->length = 0;
    tlv(children, 0x280D, &zero, 1);
    tlv(children, 0x2E0A, challenge, sizeof challenge);
    if (username != NULL) {
        letters(children, 0x2806, username);
        tlv(children, 0x2807, full, 2);
    } else if (content != NULL) {
        letters(children, 0x2810, content);
    }
    tlv(children, 0x2805, access_token, sizeof access_token);
}

static void get_info(void)
{
    struct bytes command = {{0}, 0}, none = {{0}, 0}, info = {{0}, 0}, inner = {{0}, 0}, expected = {{0}, 0};
    static const uint8_t ok[2] = {0, 0}, one = 1, full[2] = {0x07, 0x3E}, surrogate[2] = {0x08, 0x3E};
    command_of(&command, 0x3401, &none);
    tlv(&info, 0x280D, &zero, 1);
    tlv(&info, 0x2E0B, aaid, sizeof aaid);
    tlv(&info, 0x2809, metadata, sizeof metadata);
    tlv(&info, 0x280C, (const uint8_t *)"text/plain", 10);
    tlv(&info, 0x280A, (const uint8_t *)"UAFV1TLV", 8);
    tlv(&info, 0x2807, full, 2);
    tlv(&info, 0x2807, surrogate, 2);
    tlv(&inner, 0x2808, ok, 2);
    tlv(&inner, 0x280E, &one, 1);
    holding(&inner, 0x3811, &info);
    holding(&expected, 0x3601, &inner);
    expect(call(&command, UAF_VERIFIED, UAF_SHOWN_CONFIRMED, &none) == 0, "GetInfo is refused");
    expect(expected.length == 94 && wrote(UAF_RESPONSE, &expected, &none), "GetInfo: AAID or metadata");

    /* what GetInfo does not use may be empty, and an empty stretch's pointer may be NULL */
    fill_outputs();
    expect(
        uaf_command(
            command.at, command.length, aaid, sizeof aaid, 1, 2, 3, metadata, sizeof metadata, 255, 255,
            NULL, 0, NULL, 0, NULL, 0, NULL, 0, response, sizeof response, table_out, sizeof table_out, &answer,
            &response_length, &table_length) == 0,
        "GetInfo with NULL for what is empty is refused");
    expect(wrote(UAF_RESPONSE, &expected, &none), "GetInfo with NULL for what is empty");
}

static void krd(struct bytes *draft, const struct numbers *n)
{
    struct bytes inner = {{0}, 0}, info = {{0}, 0};
    static const uint8_t counters[8] = {0};
    number(&info, n->at[VERSION], 2);
    number(&info, 0x01, 1);
    number(&info, n->at[SIGNATURE_ALGORITHM], 2);
    number(&info, n->at[KEY_ALGORITHM], 2);
    tlv(&inner, 0x2E0B, aaid, sizeof aaid);
    holding(&inner, 0x2E0E, &info);
    tlv(&inner, 0x2E0A, challenge, sizeof challenge);
    tlv(&inner, 0x2E09, key_id, sizeof key_id);
    tlv(&inner, 0x2E0D, counters, 8);
    tlv(&inner, 0x2E0C, public_key, sizeof public_key);
    draft->length = 0;
    holding(draft, 0x3E03, &inner);
}

static void registers(void)
{
    struct bytes children = {{0}, 0}, command = {{0}, 0}, none = {{0}, 0}, draft = {{0}, 0}, table = {{0}, 0};
    const struct numbers n = usual(UAF_VERIFIED, UAF_SHOWN_CONFIRMED);
    children_of(&children, ann, NULL);
    command_of(&command, 0x3402, &children);
    krd(&draft, &n);
    stored_record(&table, 0);
    expect(call(&command, UAF_VERIFIED, UAF_SHOWN_CONFIRMED, &none) == 0, "Register is refused");
    expect(wrote(UAF_DRAFT, &draft, &table), "Register: profile, challenge, KeyID, public key or mixed token");
    expect(uaf_draft_key_id(response, response_length) == NULL, "a registration's draft taken for a Sign's");
    expect(uaf_draft_key_id(NULL, 0) == NULL, "no bytes taken for a Sign's draft");
    static const uint32_t verdicts[] = {UAF_DENIED, UAF_NOT_ENROLLED, UAF_CANCELLED, UAF_NO_REPLY, UAF_LOCKED_OUT};
    static const unsigned statuses[] = {
        UAF_STATUS_ACCESS_DENIED, UAF_STATUS_USER_NOT_ENROLLED, UAF_STATUS_USER_CANCELLED, UAF_STATUS_USER_NOT_RESPONSIVE,
        UAF_STATUS_USER_LOCKOUT};
    for (size_t i = 0; i < sizeof verdicts / sizeof *verdicts; i++)
        expect(says(&command, verdicts[i], UAF_SHOWN_CONFIRMED, &none, 0x3602, statuses[i]), "Register: the verdict");
    expect(says(&command, UAF_VERIFIED, UAF_SHOWN_CONFIRMED, &table, 0x3602, UAF_STATUS_ERR_UNKNOWN), "Register: the table");
    stored_records(&table, UAF_MOST_OWN);
    expect(says(&command, UAF_VERIFIED, UAF_SHOWN_CONFIRMED, &table, 0x3602, UAF_STATUS_INSUFFICIENT_RESOURCES), "Register: a ninth record");
    command.at[command.length - sizeof access_token - 4 - 1] = 0; /* the attestation type's second byte */
    expect(says(&command, UAF_VERIFIED, UAF_SHOWN_CONFIRMED, &none, 0x3602, UAF_STATUS_ATTESTATION_NOT_SUPPORTED), "Register: the type");
    command.length--;
    expect(says(&command, UAF_VERIFIED, UAF_SHOWN_CONFIRMED, &none, 0x3602, UAF_STATUS_PARAMS_INVALID), "Register: cut short");
}

/* With the hash of content, or NULL where there is none. */
static void signed_data(struct bytes *draft, const struct numbers *n, const uint8_t *hash, unsigned count)
{
    struct bytes inner = {{0}, 0}, info = {{0}, 0};
    number(&info, n->at[VERSION], 2);
    number(&info, hash != NULL ? 0x02 : 0x01, 1);
    number(&info, n->at[SIGNATURE_ALGORITHM], 2);
    tlv(&inner, 0x2E0B, aaid, sizeof aaid);
    holding(&inner, 0x2E0E, &info);
    tlv(&inner, 0x2E0F, nonce, sizeof nonce);
    tlv(&inner, 0x2E0A, challenge, sizeof challenge);
    tlv(&inner, 0x2E10, hash, hash != NULL ? UAF_HASH_SIZE : 0);
    tlv(&inner, 0x2E09, key_id, sizeof key_id);
    number(&inner, 0x2E0D, 2);
    number(&inner, 4, 2);
    number(&inner, count, 4);
    draft->length = 0;
    holding(draft, 0x3E04, &inner);
}

static void signs(void)
{
    struct bytes children = {{0}, 0}, command = {{0}, 0}, table = {{0}, 0}, left = {{0}, 0}, draft = {{0}, 0};
    const struct numbers n = usual(UAF_VERIFIED, UAF_SHOWN_CONFIRMED);
    children_of(&children, NULL, dividend);
    command_of(&command, 0x3403, &children);
    signed_data(&draft, &n, dividend_hash, 0x01020305);
    stored_record(&table, 0x01020304);
    stored_record(&left, 0x01020305);
    expect(call(&command, UAF_VERIFIED, UAF_SHOWN_CONFIRMED, &table) == 0, "Sign is refused");
    expect(wrote(UAF_DRAFT, &draft, &left), "Sign: nonce, hash, KeyID or count");
    const uint8_t *chosen = uaf_draft_key_id(response, response_length);
    expect(chosen == response + response_length - UAF_DRAFT_KEY_ID_FROM_END, "the KeyID's place in a Sign's draft");
    expect(memcmp(chosen, key_id, sizeof key_id) == 0, "the KeyID in a Sign's draft");
    static const uint32_t results[] = {UAF_SHOWN_CANCELLED, UAF_SHOWN_NOT_RENDERED, UAF_SHOWN_NO_REPLY};
    static const unsigned statuses[] = {
        UAF_STATUS_USER_CANCELLED, UAF_STATUS_CANNOT_RENDER_TRANSACTION_CONTENT, UAF_STATUS_USER_NOT_RESPONSIVE};
    for (size_t i = 0; i < sizeof results / sizeof *results; i++)
        expect(says(&command, UAF_VERIFIED, results[i], &table, 0x3603, statuses[i]), "Sign: the display");

    /* no content, and content of no bytes: nothing is hashed, and the display is not asked */
    signed_data(&draft, &n, NULL, 0x01020305);
    for (int empty = 0; empty < 2; empty++) {
        children_of(&children, NULL, empty ? "" : NULL);
        command_of(&command, 0x3403, &children);
        expect(call(&command, UAF_VERIFIED, UAF_SHOWN_NO_REPLY, &table) == 0 && wrote(UAF_DRAFT, &draft, &left), "Sign without content");
    }
}

static void deregisters_and_settings(void)
{
    struct bytes children = {{0}, 0}, command = {{0}, 0}, table = {{0}, 0}, none = {{0}, 0}, expected = {{0}, 0};
    static const uint8_t stranger[UAF_KEY_ID_SIZE] = {0};
    stored_record(&table, 7);
    tlv(&children, 0x280D, &zero, 1);
    command_of(&command, 0x3406, &children);
    expect(says(&command, 0, 0, &table, 0x3606, UAF_STATUS_CMD_NOT_SUPPORTED), "Open settings");
    tlv(&children, 0x2805, access_token, sizeof access_token);
    tlv(&children, 0x2E09, stranger, sizeof stranger);
    command_of(&command, 0x3404, &children);
    expect(says(&command, 0, 0, &table, 0x3604, UAF_STATUS_ACCESS_DENIED), "Deregister: another KeyID");
    children.length -= sizeof stranger;
    stretch(&children, key_id, sizeof key_id);
    command_of(&command, 0x3404, &children);
    status_only(&expected, 0x3604, UAF_STATUS_OK);
    expect(call(&command, 0, 0, &table) == 0 && wrote(UAF_RESPONSE, &expected, &none), "Deregister: the KeyID");
}

/* Each refusal of a command, and that it leaves everything as it was. */
static void refusals(void)
{
    struct bytes command = {{0}, 0}, none = {{0}, 0}, broken = {{0}, 0}, unknown = {{0}, 0};
    command_of(&command, 0x3401, &none);
    command_of(&unknown, 0x3405, &none);
    broken.length = 1;
    for (int shorter = 0; shorter < 2; shorter++) {
        fill_outputs();
        expect(
            uaf_command(
                command.at, command.length, aaid, sizeof aaid, 1, 2, 3, metadata, sizeof metadata, 0, 0,
                key_id, sizeof key_id, public_key, sizeof public_key, nonce, sizeof nonce, NULL, 0,
                response, shorter ? UAF_LEAST_RESPONSE - 1 : UAF_LEAST_RESPONSE, table_out, shorter ? UAF_LEAST_TABLE : UAF_LEAST_TABLE - 1,
                &answer, &response_length, &table_length) == UAF_REFUSED_OUTPUT,
            "a short output is not refused");
        expect(all_untouched(), "a short output");
    }
    expect(call(&command, 0, 0, &broken) == UAF_REFUSED_TABLE && all_untouched(), "a broken table");
    expect(call(&unknown, 0, 0, &none) == UAF_REFUSED_COMMAND && all_untouched(), "no command");
    fill_outputs();
    expect(
        uaf_command(
            command.at, command.length, aaid, sizeof aaid - 1, 1, 2, 3, metadata, sizeof metadata, 0, 0,
            NULL, 0, NULL, 0, NULL, 0, NULL, 0, response, sizeof response, table_out, sizeof table_out, &answer,
            &response_length, &table_length) == UAF_REFUSED_LENT
            && all_untouched(),
        "a short AAID");
}

/* ---- numbers whose low 8 or 16 bits are a good number */

/* A right command with this tag; a Sign has content, and a Deregister is about the record of stored_record. */
static void some_command(struct bytes *command, unsigned tag)
{
    struct bytes children = {{0}, 0};
    if (tag == 0x3402 || tag == 0x3403) {
        children_of(&children, tag == 0x3402 ? ann : NULL, dividend);
    } else if (tag != 0x3401) {
        tlv(&children, 0x280D, &zero, 1);
    }
    if (tag == 0x3404) {
        tlv(&children, 0x2E09, key_id, sizeof key_id);
        tlv(&children, 0x2805, access_token, sizeof access_token);
    }
    command_of(command, tag, &children);
}

/* What such a command answers if it is not refused: a draft has the profile's numbers, the rest none of them. */
static int answered(unsigned tag, const struct numbers *n, const struct bytes *table)
{
    struct bytes expected = {{0}, 0}, left = {{0}, 0};
    if (tag == 0x3402) {
        krd(&expected, n);
        stored_record(&left, 0);
        return wrote(UAF_DRAFT, &expected, &left);
    }
    if (tag == 0x3403) {
        signed_data(&expected, n, dividend_hash, 9);
        stored_record(&left, 9);
        return wrote(UAF_DRAFT, &expected, &left);
    }
    if (tag == 0x3401)
        return answer == UAF_RESPONSE && response_length == 94 && same(table, table_out, table_length);
    status_only(&expected, tag + 0x200, tag == 0x3404 ? UAF_STATUS_OK : UAF_STATUS_CMD_NOT_SUPPORTED);
    return wrote(UAF_RESPONSE, &expected, tag == 0x3404 ? &left : table);
}

/* A call with one number changed: refused, and then all that was lent is as it was, or answered. */
static void number_lent(unsigned tag, size_t which, uint32_t value, int is_refused)
{
    struct bytes command = {{0}, 0}, table = {{0}, 0};
    struct numbers n = usual(UAF_VERIFIED, UAF_SHOWN_CONFIRMED);
    n.at[which] = value;
    some_command(&command, tag);
    if (tag != 0x3402)
        stored_record(&table, 8);
    const struct bytes command_lent = command, table_lent = table;
    uint32_t refusal = call_with(&command, &n, &table);
    expect(same(&command_lent, command.at, command.length) && same(&table_lent, table.at, table.length), "command or table changed");
    expect(stretches_are_as_lent(), "a lent stretch changed");
    if (is_refused)
        expect(refusal == UAF_REFUSED_LENT && all_untouched(), "a number out of range");
    else
        expect(refusal == 0 && answered(tag, &n, &table), "a number in range, or one that is not looked at");
}

static void numbers_lent(void)
{
    static const unsigned tags[] = {0x3401, 0x3402, 0x3403, 0x3404, 0x3406};
    static const uint32_t values[] = {256, 65536}, greatest[NUMBERS] = {65535, 65535, 65535, 5, 3};
    /* by whom it is looked at, of GetInfo, Register, Sign, Deregister and Open settings */
    static const int used[NUMBERS][5] = {{1, 1, 1, 0, 0}, {1, 1, 1, 0, 0}, {1, 1, 1, 0, 0}, {0, 1, 1, 0, 0}, {0, 0, 1, 0, 0}};
    for (size_t which = 0; which < NUMBERS; which++)
        for (size_t i = 0; i < 2; i++)
            for (size_t k = 0; k < 5; k++)
                number_lent(tags[k], which, values[i], used[which][k] && values[i] > greatest[which]);
}

/* ---- what is lent, and what is not */

/* Each stretch of uaf_command, one at a time, as NULL and 0: a good empty table, or the refusal that this length has. */
static void empty_stretches(void)
{
    enum { COMMAND, AAID, METADATA, KEY_ID, PUBLIC_KEY, NONCE, TABLE, RESPONSE, TABLE_OUT, STRETCHES_OF_COMMAND };
    static const struct {
        unsigned tag;
        uint32_t refusals[STRETCHES_OF_COMMAND];
    } rows[] = {
        {0x3401, {3, 4, 4, 0, 0, 0, 0, 1, 1}},
        {0x3402, {3, 4, 4, 4, 4, 0, 0, 1, 1}},
        {0x3403, {3, 4, 4, 0, 0, 4, 0, 1, 1}},
        {0x3404, {3, 0, 0, 0, 0, 0, 0, 1, 1}},
        {0x3406, {3, 0, 0, 0, 0, 0, 0, 1, 1}},
    };
    for (size_t i = 0; i < sizeof rows / sizeof *rows; i++) {
        struct bytes command = {{0}, 0}, table = {{0}, 0};
        some_command(&command, rows[i].tag);
        stored_records(&table, 1);
        for (int none = 0; none < STRETCHES_OF_COMMAND; none++) {
#define LENT(which, at, size) none == which ? NULL : (at), none == which ? 0 : (size)
            fill_outputs();
            uint32_t refusal = uaf_command(
                LENT(COMMAND, command.at, command.length), LENT(AAID, aaid, sizeof aaid), 1, 2, 3, LENT(METADATA, metadata, sizeof metadata), 0, 0,
                LENT(KEY_ID, key_id, sizeof key_id), LENT(PUBLIC_KEY, public_key, sizeof public_key), LENT(NONCE, nonce, sizeof nonce),
                LENT(TABLE, table.at, table.length), LENT(RESPONSE, response, sizeof response), LENT(TABLE_OUT, table_out, sizeof table_out),
                &answer, &response_length, &table_length);
#undef LENT
            expect(refusal == rows[i].refusals[none], "a command with NULL for an empty stretch");
            expect(refusal == 0 || all_untouched(), "a refused command with NULL for an empty stretch");
        }
    }
}

/* Deregister and Open settings look at nothing that is lent: no stretch at all, and every number out of range. */
static void nothing_lent(void)
{
    const struct numbers n = usual(UAF_VERIFIED, UAF_SHOWN_CONFIRMED);
    for (unsigned tag = 0x3404; tag <= 0x3406; tag += 2) {
        struct bytes command = {{0}, 0}, table = {{0}, 0};
        some_command(&command, tag);
        stored_record(&table, 8);
        fill_outputs();
        expect(
            uaf_command(
                command.at, command.length, NULL, 0, UINT32_MAX, UINT32_MAX, UINT32_MAX, NULL, 0, UINT32_MAX, UINT32_MAX, NULL, 0, NULL, 0,
                NULL, 0, table.at, table.length, response, sizeof response, table_out, sizeof table_out, &answer, &response_length,
                &table_length) == 0,
            "Deregister or Open settings looks at what is lent");
        expect(answered(tag, &n, &table), "Deregister or Open settings with nothing lent");
    }
}

/* ---- completion and the reader */

static void registration(struct bytes *expected, const struct bytes *draft)
{
    struct bytes attested = {{0}, 0}, inner = {{0}, 0}, assertion = {{0}, 0}, whole = {{0}, 0};
    static const uint8_t ok[2] = {0, 0};
    tlv(&attested, 0x2E06, signature, sizeof signature);
    tlv(&attested, 0x2E05, certificate, sizeof certificate);
    stretch(&inner, draft->at, draft->length);
    holding(&inner, 0x3E07, &attested);
    holding(&assertion, 0x3E01, &inner);
    tlv(&whole, 0x2808, ok, 2);
    holding(&whole, 0x280F, &assertion);
    expected->length = 0;
    holding(expected, 0x3602, &whole);
}

static void completes(void)
{
    struct bytes draft = {{0}, 0}, expected = {{0}, 0};
    const struct numbers n = usual(UAF_VERIFIED, UAF_SHOWN_CONFIRMED);
    krd(&draft, &n);
    registration(&expected, &draft);
    fill_outputs();
    expect(
        uaf_complete(
            UAF_COMPLETE_REGISTRATION, draft.at, draft.length, UAF_BASIC_FULL, signature, sizeof signature, certificate, sizeof certificate,
            response, sizeof response, &response_length) == 0,
        "a completion is refused");
    expect(same(&expected, response, response_length) && untouched(response, response_length, sizeof response), "a completion");
    fill_outputs();
    expect(
        uaf_complete(
            UAF_COMPLETE_SIGN, draft.at, draft.length, UAF_BASIC_FULL, signature, sizeof signature, certificate, sizeof certificate, response,
            sizeof response, &response_length) == UAF_REFUSED_BYTES
            && all_untouched(),
        "a completion of another kind");
    expect(
        uaf_complete(
            UAF_COMPLETE_REGISTRATION, draft.at, draft.length, UAF_BASIC_SURROGATE, signature, sizeof signature, certificate,
            sizeof certificate, response, sizeof response, &response_length) == UAF_REFUSED_LENT
            && all_untouched(),
        "a completion with a certificate too many");
    expect(
        uaf_complete(
            UAF_COMPLETE_REGISTRATION, draft.at, draft.length, UAF_BASIC_SURROGATE, signature, sizeof signature, NULL, 0, response,
            UAF_LEAST_RESPONSE - 1, &response_length) == UAF_REFUSED_OUTPUT
            && all_untouched(),
        "a completion into a short output");
    expect(
        uaf_complete(
            UAF_COMPLETE_REGISTRATION, draft.at, draft.length, UAF_BASIC_SURROGATE, signature, sizeof signature, NULL, 0, response,
            sizeof response, &response_length) == 0,
        "a completion without certificate");
    fill_outputs();
    expect(
        uaf_complete(UAF_COMPLETE_SIGN, NULL, 0, 0, signature, sizeof signature, NULL, 0, response, sizeof response, &response_length)
                == UAF_REFUSED_BYTES
            && uaf_complete(
                   UAF_COMPLETE_REGISTRATION, draft.at, draft.length, UAF_BASIC_SURROGATE, NULL, 0, NULL, 0, response, sizeof response,
                   &response_length) == UAF_REFUSED_LENT
            && uaf_complete(
                   UAF_COMPLETE_REGISTRATION, draft.at, draft.length, UAF_BASIC_SURROGATE, signature, sizeof signature, NULL, 0, NULL, 0,
                   &response_length) == UAF_REFUSED_OUTPUT
            && all_untouched(),
        "a completion with NULL for an empty stretch");
}

static void reads(void)
{
    struct bytes draft = {{0}, 0}, whole = {{0}, 0};
    size_t place = 1, length = 2, tag = 3, status = 4, count = 5;
    size_t tags[UAF_MOST_FIELDS], places[UAF_MOST_FIELDS], lengths[UAF_MOST_FIELDS];
    /* status, AAID, info, challenge, KeyID, counters, public key, signature, certificate */
    static const size_t expected_tags[] = {0x2808, 0x2E0B, 0x2E0E, 0x2E0A, 0x2E09, 0x2E0D, 0x2E0C, 0x2E06, 0x2E05};
    const size_t expected_lengths[] = {
        2, sizeof aaid, 7, sizeof challenge, sizeof key_id, 8, sizeof public_key, sizeof signature, sizeof certificate};
    const struct numbers n = usual(UAF_VERIFIED, UAF_SHOWN_CONFIRMED);
    krd(&draft, &n);
    registration(&whole, &draft);
    expect(uaf_signed_part(whole.at, whole.length, &place, &length) == 0, "a response is not read");
    expect(place == 18 && length == draft.length && memcmp(whole.at + place, draft.at, length) == 0, "the signed part");
    expect(uaf_read_fields(whole.at, whole.length, &tag, &status, &count, tags, places, lengths) == 0, "the fields are not read");
    expect(tag == 0x3602 && status == 0 && count == 9, "tag, status or number of fields");
    for (size_t i = 0; i < UAF_MOST_FIELDS; i++) {
        if (i < count)
            expect(
                tags[i] == expected_tags[i] && lengths[i] == expected_lengths[i]
                    && whole.at[places[i] - 4] + 256u * whole.at[places[i] - 3] == tags[i]
                    && whole.at[places[i] - 2] + 256u * whole.at[places[i] - 1] == lengths[i]
                    && strcmp(uaf_tag_name(tags[i]), "unknown") != 0,
                "a field");
        else
            expect(tags[i] == 0 && places[i] == 0 && lengths[i] == 0, "a row past the fields");
    }

    /* bytes that are no response */
    place = 1, length = 2, tag = 3, status = 4, count = 5, tags[0] = 6, places[0] = 7, lengths[0] = 8;
    expect(uaf_signed_part(draft.at, draft.length, &place, &length) == UAF_REFUSED_BYTES && place == 1 && length == 2, "a draft alone");
    expect(
        uaf_signed_part(NULL, 0, &place, &length) == UAF_REFUSED_BYTES && place == 1 && length == 2, "no bytes at all: the signed part");
    expect(
        uaf_read_fields(NULL, 0, &tag, &status, &count, tags, places, lengths) == UAF_REFUSED_BYTES && tag == 3 && status == 4 && count == 5
            && tags[0] == 6 && places[0] == 7 && lengths[0] == 8,
        "no bytes at all");
}

/* ---- the writers of commands */

/* The stretches that writers take. Beside each stands whether it is given, which those that are mandatory have no parameter for. */
enum { OF_APP_ID, OF_CHALLENGE, OF_NAME, OF_CONTENT, OF_TOKEN, OF_VERIFY, OF_KEY_ID, OF_HANDLES, PARTS };

struct fields {
    struct {
        uint32_t given;
        const uint8_t *at;
        size_t size;
    } part[PARTS];
    uint32_t attestation;
    const size_t *sizes;
    size_t count;
};

/* What the parts are made of. They begin at different places, so each has other bytes, and there is enough for a length that is over 16 bits. */
static uint8_t pool[PARTS * 100 + 65536 + 600], name_letters[65536 + 600];
/* Nine handles of the right length. */
static const size_t right_sizes[UAF_MOST_HANDLES + 1] = {32, 32, 32, 32, 32, 32, 32, 32, 32};

static uint8_t pooled(size_t i)
{
    return (uint8_t)(i * 131 + (i >> 8) * 7 + 3);
}

static void fill_pool(void)
{
    for (size_t i = 0; i < sizeof pool; i++)
        pool[i] = pooled(i);
    memset(name_letters, 'a', sizeof name_letters);
}

static int pool_is_as_lent(void)
{
    for (size_t i = 0; i < sizeof pool; i++)
        if (pool[i] != pooled(i))
            return 0;
    for (size_t i = 0; i < sizeof name_letters; i++)
        if (name_letters[i] != 'a')
            return 0;
    return 1;
}

/* A part of this size, given; NULL where it is empty. */
static void give(struct fields *f, size_t which, size_t size)
{
    f->part[which].given = UAF_GIVEN;
    f->part[which].size = size;
    f->part[which].at = size == 0 ? NULL : which == OF_NAME ? name_letters : pool + which * 100;
}

static void take_away(struct fields *f, size_t which)
{
    f->part[which].given = UAF_NOT_GIVEN;
    f->part[which].at = NULL;
    f->part[which].size = 0;
}

/* The handles run together, so many in all, with these lengths. */
static void give_handles(struct fields *f, const size_t *sizes, size_t count, size_t in_all)
{
    give(f, OF_HANDLES, in_all);
    f->sizes = count == 0 ? NULL : sizes;
    f->count = count;
}

/* All that is mandatory, as short as it can be but for the name, and nothing else. */
static struct fields least_fields(void)
{
    struct fields f;
    memset(&f, 0, sizeof f);
    give(&f, OF_CHALLENGE, 1);
    give(&f, OF_NAME, 3);
    give(&f, OF_TOKEN, UAF_ACCESS_TOKEN_SIZE);
    give(&f, OF_KEY_ID, 0);
    f.attestation = UAF_BASIC_FULL;
    return f;
}

/* The output, with a byte in front of it and one behind it. */
static uint8_t written[1 + UAF_MOST_COMMAND + 1];
static uint8_t *const output = written + 1;
static size_t written_length;

static int nothing_written(void)
{
    return untouched(written, 0, sizeof written) && written_length == 80;
}

#define PART(which) f->part[which].at, f->part[which].size
#define OPTIONAL(which) f->part[which].given, PART(which)

static uint32_t write_into(uint8_t *command, size_t room, unsigned tag, const struct fields *f)
{
    memset(written, UNTOUCHED, sizeof written);
    written_length = 80;
    switch (tag) {
        case 0x3401: return uaf_write_get_info(command, room, &written_length);
        case 0x3402:
            return uaf_write_register(
                OPTIONAL(OF_APP_ID), PART(OF_CHALLENGE), PART(OF_NAME), f->attestation, PART(OF_TOKEN), OPTIONAL(OF_VERIFY), command, room,
                &written_length);
        case 0x3403:
            return uaf_write_sign(
                OPTIONAL(OF_APP_ID), PART(OF_CHALLENGE), OPTIONAL(OF_CONTENT), PART(OF_TOKEN), OPTIONAL(OF_VERIFY), PART(OF_HANDLES), f->sizes,
                f->count, command, room, &written_length);
        case 0x3404: return uaf_write_deregister(OPTIONAL(OF_APP_ID), PART(OF_KEY_ID), PART(OF_TOKEN), command, room, &written_length);
        default: return uaf_write_open_settings(command, room, &written_length);
    }
}

static void add_part(struct bytes *children, unsigned tag, const struct fields *f, size_t which)
{
    if (f->part[which].given)
        tlv(children, tag, PART(which));
}

/* The command by document 001's tables, of handles that have the right length. */
static void by_tables(struct bytes *command, unsigned tag, const struct fields *f)
{
    const uint8_t type[2] = {(uint8_t)f->attestation, (uint8_t)(f->attestation >> 8)};
    struct bytes children = {{0}, 0};
    if (tag != 0x3401)
        tlv(&children, 0x280D, &zero, 1);
    if (tag == 0x3402) {
        add_part(&children, 0x2804, f, OF_APP_ID);
        add_part(&children, 0x2E0A, f, OF_CHALLENGE);
        add_part(&children, 0x2806, f, OF_NAME);
        tlv(&children, 0x2807, type, 2);
        add_part(&children, 0x2805, f, OF_TOKEN);
        add_part(&children, 0x2803, f, OF_VERIFY);
    } else if (tag == 0x3403) {
        add_part(&children, 0x2804, f, OF_APP_ID);
        add_part(&children, 0x2E0A, f, OF_CHALLENGE);
        add_part(&children, 0x2810, f, OF_CONTENT);
        add_part(&children, 0x2805, f, OF_TOKEN);
        add_part(&children, 0x2803, f, OF_VERIFY);
        for (size_t i = 0; i < f->count; i++)
            tlv(&children, 0x2801, f->part[OF_HANDLES].at + 32 * i, 32);
    } else if (tag == 0x3404) {
        add_part(&children, 0x2804, f, OF_APP_ID);
        add_part(&children, 0x2E09, f, OF_KEY_ID);
        add_part(&children, 0x2805, f, OF_TOKEN);
    }
    command_of(command, tag, &children);
}

/* Whether a call obeys the command: it gives no refusal and no status 0x08. */
static int is_obeyed(const struct bytes *command)
{
    struct bytes table = {{0}, 0};
    stored_records(&table, 2);
    return call(command, UAF_VERIFIED, UAF_SHOWN_CONFIRMED, &table) == 0 && (answer == UAF_DRAFT || response[8] != UAF_STATUS_PARAMS_INVALID);
}

/* The fields are written as these bytes, also where the output is just long enough. Where it is a byte shorter, or not there, the refusal is 1. */
static void is_written_as(const struct bytes *expected, unsigned tag, const struct fields *f, const char *what)
{
    const size_t exactly = expected->length;
    const size_t rooms[] = {exactly, UAF_MOST_COMMAND};
    for (size_t i = 0; i < 2; i++) {
        expect(write_into(output, rooms[i], tag, f) == 0 && same(expected, output, written_length), what);
        expect(untouched(written, 0, 1) && untouched(output, written_length, UAF_MOST_COMMAND + 1), "a writer wrote elsewhere");
    }
    expect(write_into(output, exactly - 1, tag, f) == UAF_REFUSED_OUTPUT && nothing_written(), "a writer's output that is one byte short");
    expect(write_into(NULL, 0, tag, f) == UAF_REFUSED_OUTPUT && nothing_written(), "a writer's output that is empty");
    expect(is_obeyed(expected), "a written command that breaks a rule");
    expect(pool_is_as_lent(), "a writer changed a field");
}

static void is_written(unsigned tag, const struct fields *f, const char *what)
{
    struct bytes expected = {{0}, 0};
    by_tables(&expected, tag, f);
    is_written_as(&expected, tag, f, what);
}

/* The fields are refused with 6, also where there is no output: 6 comes before 1. */
static void is_unwritten(unsigned tag, const struct fields *f, const char *what)
{
    expect(write_into(output, UAF_MOST_COMMAND, tag, f) == UAF_REFUSED_FIELD && nothing_written(), what);
    expect(write_into(NULL, 0, tag, f) == UAF_REFUSED_FIELD && nothing_written(), what);
    expect(pool_is_as_lent(), "a refusing writer changed a field");
}

/* Each command as bytes. Those of GetInfo and Open settings are document 01's P1 and P6; Deregister and Sign with the fewest fields are P7 and P8
 * with an access token of 32 bytes. */
static void writes_these_bytes(void)
{
    static const uint8_t app_id[] = {'a', '.', 'b'}, two[] = {0xC1, 0xC2}, token[] = {THIRTY_TWO(0xD1)}, verify[] = {0xE1}, byte[] = {0xAA};
    static const uint8_t content[] = {'3', '.', '2', '0'}, handles[] = {THIRTY_TWO(0x11), THIRTY_TWO(0x22)}, key[] = {THIRTY_TWO(0x33)};
    static const uint8_t info[] = {0x01, 0x34, 0x00, 0x00};
    static const uint8_t settings[] = {0x06, 0x34, 0x05, 0x00, 0x0D, 0x28, 0x01, 0x00, 0x00};
    static const uint8_t removing_all[] = {
        0x04, 0x34, 0x2D, 0x00, 0x0D, 0x28, 0x01, 0x00, 0x00, 0x09, 0x2E, 0x00, 0x00, 0x05, 0x28, 0x20, 0x00, THIRTY_TWO(0xAA)};
    static const uint8_t removing_one[] = {
        0x04, 0x34, 0x54, 0x00, 0x0D, 0x28, 0x01, 0x00, 0x00, 0x04, 0x28, 0x03, 0x00, 'a', '.', 'b', 0x09, 0x2E, 0x20, 0x00, THIRTY_TWO(0x33),
        0x05, 0x28, 0x20, 0x00, THIRTY_TWO(0xD1)};
    static const uint8_t signing[] = {
        0x03, 0x34, 0x2E, 0x00, 0x0D, 0x28, 0x01, 0x00, 0x00, 0x0A, 0x2E, 0x01, 0x00, 0xAA, 0x05, 0x28, 0x20, 0x00, THIRTY_TWO(0xAA)};
    static const uint8_t signing_all[] = {
        0x03, 0x34, 0x8B, 0x00, 0x0D, 0x28, 0x01, 0x00, 0x00, 0x04, 0x28, 0x03, 0x00, 'a', '.', 'b', 0x0A, 0x2E, 0x02, 0x00, 0xC1, 0xC2,
        0x10, 0x28, 0x04, 0x00, '3', '.', '2', '0', 0x05, 0x28, 0x20, 0x00, THIRTY_TWO(0xD1), 0x03, 0x28, 0x01, 0x00, 0xE1,
        0x01, 0x28, 0x20, 0x00, THIRTY_TWO(0x11), 0x01, 0x28, 0x20, 0x00, THIRTY_TWO(0x22)};
    static const uint8_t registering[] = {
        0x02, 0x34, 0x3B, 0x00, 0x0D, 0x28, 0x01, 0x00, 0x00, 0x0A, 0x2E, 0x01, 0x00, 0xAA, 0x06, 0x28, 0x03, 0x00, 'A', 'n', 'n',
        0x07, 0x28, 0x02, 0x00, 0x08, 0x3E, 0x05, 0x28, 0x20, 0x00, THIRTY_TWO(0xAA)};
    static const uint8_t registering_all[] = {
        0x02, 0x34, 0x48, 0x00, 0x0D, 0x28, 0x01, 0x00, 0x00, 0x04, 0x28, 0x03, 0x00, 'a', '.', 'b', 0x0A, 0x2E, 0x02, 0x00, 0xC1, 0xC2,
        0x06, 0x28, 0x03, 0x00, 'A', 'n', 'n', 0x07, 0x28, 0x02, 0x00, 0x07, 0x3E, 0x05, 0x28, 0x20, 0x00, THIRTY_TWO(0xD1),
        0x03, 0x28, 0x01, 0x00, 0xE1};
    static const struct {
        unsigned tag;
        int all;
        const uint8_t *at;
        size_t size;
        const char *what;
    } rows[] = {
        {0x3401, 0, info, sizeof info, "GetInfo as bytes"},
        {0x3402, 0, registering, sizeof registering, "Register as bytes"},
        {0x3402, 1, registering_all, sizeof registering_all, "Register with each field as bytes"},
        {0x3403, 0, signing, sizeof signing, "Sign as bytes"},
        {0x3403, 1, signing_all, sizeof signing_all, "Sign with each field as bytes"},
        {0x3404, 0, removing_all, sizeof removing_all, "Deregister as bytes"},
        {0x3404, 1, removing_one, sizeof removing_one, "Deregister with each field as bytes"},
        {0x3406, 0, settings, sizeof settings, "Open settings as bytes"},
    };
#define SET(which, bytes_of) (give(&f, which, sizeof bytes_of), f.part[which].at = bytes_of)
    for (size_t i = 0; i < sizeof rows / sizeof *rows; i++) {
        struct fields f = least_fields();
        struct bytes expected = {{0}, 0};
        SET(OF_CHALLENGE, byte);
        SET(OF_TOKEN, access_token);
        f.part[OF_NAME].at = (const uint8_t *)ann;
        f.attestation = rows[i].all ? UAF_BASIC_FULL : UAF_BASIC_SURROGATE;
        if (rows[i].all) {
            SET(OF_APP_ID, app_id);
            SET(OF_CHALLENGE, two);
            SET(OF_CONTENT, content);
            SET(OF_TOKEN, token);
            SET(OF_VERIFY, verify);
            SET(OF_KEY_ID, key);
            give_handles(&f, right_sizes, 2, sizeof handles);
            f.part[OF_HANDLES].at = handles;
        }
        stretch(&expected, rows[i].at, rows[i].size);
        is_written_as(&expected, rows[i].tag, &f, rows[i].what);
        is_written(rows[i].tag, &f, rows[i].what); /* what is expected below, against these bytes */
    }
#undef SET
}

/* Each field that may be left away: not given, given empty, given. An empty AppID breaks its rule. */
static void given_or_not(void)
{
    for (int app_id = 0; app_id < 3; app_id++)
        for (int content = 0; content < 3; content++)
            for (int verify = 0; verify < 3; verify++) {
                struct fields f = least_fields();
                if (app_id > 0)
                    give(&f, OF_APP_ID, app_id == 1 ? 0 : 17);
                if (content > 0)
                    give(&f, OF_CONTENT, content == 1 ? 0 : 9);
                if (verify > 0)
                    give(&f, OF_VERIFY, verify == 1 ? 0 : 5);
                for (unsigned tag = 0x3402; tag <= 0x3404; tag++) {
                    if (app_id == 1)
                        is_unwritten(tag, &f, "an empty AppID");
                    else
                        is_written(tag, &f, "a field given, given empty or not given");
                }
            }

    /* a field that is not given is not looked at, whatever its length */
    static const size_t sizes[] = {0, 1, 513, 8192, 65536};
    for (size_t i = 0; i < sizeof sizes / sizeof *sizes; i++) {
        struct fields f = least_fields(), lent = f;
        for (unsigned which = 0; which < PARTS; which++)
            if (which == OF_APP_ID || which == OF_CONTENT || which == OF_VERIFY) {
                give(&lent, which, sizes[i]);
                lent.part[which].given = UAF_NOT_GIVEN;
            }
        for (unsigned tag = 0x3402; tag <= 0x3404; tag++) {
            struct bytes expected = {{0}, 0};
            by_tables(&expected, tag, &f);
            is_written_as(&expected, tag, &lent, "a field that is not given and lent all the same");
        }
    }
}

/* Numbers that are neither UAF_GIVEN nor UAF_NOT_GIVEN, also where their low 8 or 16 bits are. */
static void marks(void)
{
    static const uint32_t wrong[] = {2, 256, 257, 65536, 65537, UINT32_MAX};
    static const struct {
        unsigned tag;
        size_t which;
    } rows[] = {
        {0x3402, OF_APP_ID}, {0x3402, OF_VERIFY}, {0x3403, OF_APP_ID}, {0x3403, OF_CONTENT}, {0x3403, OF_VERIFY}, {0x3404, OF_APP_ID}};
    for (size_t i = 0; i < sizeof rows / sizeof *rows; i++)
        for (size_t k = 0; k < sizeof wrong / sizeof *wrong; k++) {
            struct fields f = least_fields();
            give(&f, rows[i].which, k % 2 == 0 ? 5 : 0);
            f.part[rows[i].which].given = wrong[k];
            is_unwritten(rows[i].tag, &f, "a number that says neither given nor not given");
        }
}

/* The least and the greatest length of each field, and the lengths next to them; a length of 16 bits more than a right one is no right one. */
static void field_lengths(void)
{
    static const struct {
        unsigned tag;
        size_t which, least, most;
    } rows[] = {
        {0x3402, OF_APP_ID, 1, 512}, {0x3402, OF_CHALLENGE, 1, 32}, {0x3402, OF_NAME, 1, 128}, {0x3402, OF_TOKEN, 32, 32},
        {0x3403, OF_APP_ID, 1, 512}, {0x3403, OF_CHALLENGE, 1, 32}, {0x3403, OF_TOKEN, 32, 32},
        {0x3404, OF_APP_ID, 1, 512}, {0x3404, OF_TOKEN, 32, 32}, {0x3404, OF_KEY_ID, 32, 32}};
    for (size_t i = 0; i < sizeof rows / sizeof *rows; i++) {
        struct fields f = least_fields();
        give(&f, rows[i].which, rows[i].least);
        is_written(rows[i].tag, &f, "a field of its least length");
        give(&f, rows[i].which, rows[i].most);
        is_written(rows[i].tag, &f, "a field of its greatest length");
        give(&f, rows[i].which, rows[i].least - 1);
        is_unwritten(rows[i].tag, &f, "a field that is too short");
        give(&f, rows[i].which, rows[i].most + 1);
        is_unwritten(rows[i].tag, &f, "a field that is too long");
        give(&f, rows[i].which, 65536 + rows[i].most);
        is_unwritten(rows[i].tag, &f, "a field whose length has a right one in its low 16 bits");
    }
    struct fields f = least_fields();
    is_written(0x3404, &f, "an empty KeyID");
    give(&f, OF_KEY_ID, 1);
    is_unwritten(0x3404, &f, "a KeyID of one byte");
    give(&f, OF_KEY_ID, 65536);
    is_unwritten(0x3404, &f, "a KeyID of 65,536 bytes");
    f = least_fields();
    for (unsigned tag = 0x3402; tag <= 0x3404; tag++)
        for (size_t size = 0; size < UAF_ACCESS_TOKEN_SIZE; size++) {
            give(&f, OF_TOKEN, size);
            is_unwritten(tag, &f, "an access token of fewer than 32 bytes");
        }
}

static void attestation_types(void)
{
    static const uint32_t right[] = {0, 1, 255, 256, UAF_BASIC_FULL, UAF_BASIC_SURROGATE, 65535};
    static const uint32_t wrong[] = {65536, 65536 + UAF_BASIC_FULL, UINT32_MAX};
    struct bytes command = {{0}, 0}, none = {{0}, 0};
    struct fields f = least_fields();
    for (size_t i = 0; i < sizeof right / sizeof *right; i++) {
        f.attestation = right[i];
        is_written(0x3402, &f, "an attestation type");
    }
    by_tables(&command, 0x3402, &f);
    expect(
        says(&command, UAF_VERIFIED, UAF_SHOWN_CONFIRMED, &none, 0x3602, UAF_STATUS_ATTESTATION_NOT_SUPPORTED),
        "a written attestation type that is neither of the two");
    for (size_t i = 0; i < sizeof wrong / sizeof *wrong; i++) {
        f.attestation = wrong[i];
        is_unwritten(0x3402, &f, "an attestation type of more than 16 bits");
    }
}

/* How many handles there are, how long each is, and whether their lengths make up the stretch. */
static void key_handles(void)
{
    static const size_t uneven[] = {31, 33}, even[] = {32, 32}, empty[] = {0}, last_empty[] = {32, 0}, longer[] = {33}, wide[] = {65536 + 32};
    /* these lengths add up to 32 if what is carried over is lost */
    static const size_t round[] = {33, SIZE_MAX}, round_in_three[] = {32, SIZE_MAX - 31, 32};
    static const struct {
        const size_t *sizes;
        size_t count, in_all;
        const char *what;
    } rows[] = {
        {right_sizes, 9, 9 * 32, "nine handles"},
        {uneven, 2, 64, "handles of 31 and 33 bytes"},
        {uneven, 1, 31, "a handle of 31 bytes"},
        {longer, 1, 33, "a handle of 33 bytes"},
        {even, 2, 63, "lengths of more than the stretch"},
        {even, 2, 65, "lengths of less than the stretch"},
        {even, 1, 64, "a handle without its length"},
        {even, 2, 32, "a length without its handle"},
        {even, 1, 0, "a length, and no handles"},
        {even, 0, 32, "a handle, and no lengths"},
        {empty, 1, 0, "an empty handle"},
        {last_empty, 2, 32, "an empty handle after another"},
        {wide, 1, 65536 + 32, "a handle whose length has 32 in its low 16 bits"},
        {round, 2, 32, "lengths whose sum has more than 64 bits"},
        {round_in_three, 3, 32, "lengths whose sum has more than 64 bits"},
    };
    struct fields f = least_fields();
    for (size_t count = 0; count <= UAF_MOST_HANDLES; count++) {
        give_handles(&f, right_sizes, count, 32 * count);
        is_written(0x3403, &f, "key handles");
    }
    for (size_t i = 0; i < sizeof rows / sizeof *rows; i++) {
        give_handles(&f, rows[i].sizes, rows[i].count, rows[i].in_all);
        is_unwritten(0x3403, &f, rows[i].what);
    }

    /* the same handle over and over */
    static uint8_t equal[9 * 32];
    memset(equal, 0x5A, sizeof equal);
    give_handles(&f, right_sizes, 8, 8 * 32);
    f.part[OF_HANDLES].at = equal;
    is_written(0x3403, &f, "eight equal handles");
    give_handles(&f, right_sizes, 9, 9 * 32);
    f.part[OF_HANDLES].at = equal;
    is_unwritten(0x3403, &f, "nine equal handles");

    /* lengths in memory that could be written: they must stay as they are */
    size_t lengths[UAF_MOST_HANDLES];
    memcpy(lengths, right_sizes, sizeof lengths);
    give_handles(&f, lengths, UAF_MOST_HANDLES, UAF_MOST_HANDLES * 32);
    is_written(0x3403, &f, "key handles");
    lengths[7] = 33;
    is_unwritten(0x3403, &f, "an eighth handle of 33 bytes");
    lengths[7] = 32;
    expect(memcmp(lengths, right_sizes, sizeof lengths) == 0, "the lengths of handles changed");
}

/* A field fills the command up to 8,192 bytes; with one more it is too long, and so it is with many more. */
static void fill_up(unsigned tag, struct fields *f, size_t which)
{
    struct bytes command = {{0}, 0};
    give(f, which, 0);
    by_tables(&command, tag, f);
    const size_t room = 8192 - command.length;
    give(f, which, room);
    by_tables(&command, tag, f);
    expect(command.length == 8192, "a full command");
    is_written(tag, f, "a command of 8,192 bytes");
    give(f, which, room + 1);
    is_unwritten(tag, f, "a command of 8,193 bytes");
    give(f, which, 8192);
    is_unwritten(tag, f, "a field of 8,192 bytes");
    give(f, which, 65536);
    is_unwritten(tag, f, "a field of 65,536 bytes");
    give(f, which, 65536 + room);
    is_unwritten(tag, f, "a field of 65,536 bytes more than fit");
    give(f, which, room);
}

static void longest_commands(void)
{
    /* the least Sign: the command's header, the index, a challenge, content and a token take 4 + 5 + 5 + 4 + 36 */
    struct fields f = least_fields();
    give(&f, OF_CONTENT, 8192 - 54);
    is_written(0x3403, &f, "a Sign of 8,192 bytes");
    give(&f, OF_CONTENT, 8192 - 53);
    is_unwritten(0x3403, &f, "a Sign of 8,193 bytes");

    fill_up(0x3403, &f, OF_CONTENT);
    give(&f, OF_CONTENT, 4000);
    fill_up(0x3403, &f, OF_VERIFY);
    give(&f, OF_APP_ID, UAF_MOST_APP_ID);
    give(&f, OF_CHALLENGE, UAF_MOST_CHALLENGE);
    give_handles(&f, right_sizes, UAF_MOST_HANDLES, UAF_MOST_HANDLES * 32);
    fill_up(0x3403, &f, OF_VERIFY);
    fill_up(0x3403, &f, OF_CONTENT);
    take_away(&f, OF_VERIFY);
    fill_up(0x3403, &f, OF_CONTENT);
    give(&f, OF_NAME, UAF_MOST_USERNAME);
    fill_up(0x3402, &f, OF_VERIFY);
    f = least_fields();
    fill_up(0x3402, &f, OF_VERIFY);

    /* one more than fits, which each of the fields may be */
    give(&f, OF_NAME, 4);
    is_unwritten(0x3402, &f, "a Register of 8,193 bytes by its name");
    give(&f, OF_NAME, 3);
    give(&f, OF_CHALLENGE, 2);
    is_unwritten(0x3402, &f, "a Register of 8,193 bytes by its challenge hash");
    f = least_fields();
    fill_up(0x3403, &f, OF_CONTENT);
    give_handles(&f, right_sizes, 1, 32);
    is_unwritten(0x3403, &f, "a Sign of 8,228 bytes by its handle");
    give_handles(&f, NULL, 0, 0);
    give(&f, OF_VERIFY, 0);
    is_unwritten(0x3403, &f, "a Sign of 8,196 bytes by an empty field");
}

/* What is written is what the tests above put together for uaf_command, and has its effect. */
static void written_and_run(void)
{
    struct bytes children = {{0}, 0}, command = {{0}, 0}, none = {{0}, 0}, table = {{0}, 0}, draft = {{0}, 0}, left = {{0}, 0};
    const struct numbers n = usual(UAF_VERIFIED, UAF_SHOWN_CONFIRMED);
    struct fields f = least_fields();
    f.part[OF_CHALLENGE].at = challenge;
    f.part[OF_CHALLENGE].size = sizeof challenge;
    f.part[OF_NAME].at = (const uint8_t *)ann;
    f.part[OF_TOKEN].at = access_token;
    f.part[OF_KEY_ID].at = key_id;
    f.part[OF_KEY_ID].size = sizeof key_id;

    children_of(&children, ann, NULL);
    command_of(&command, 0x3402, &children);
    is_written_as(&command, 0x3402, &f, "the Register of the tests above");
    krd(&draft, &n);
    stored_record(&table, 0);
    expect(write_into(output, UAF_MOST_COMMAND, 0x3402, &f) == 0, "Register is not written");
    command.length = 0;
    stretch(&command, output, written_length);
    expect(call(&command, UAF_VERIFIED, UAF_SHOWN_CONFIRMED, &none) == 0 && wrote(UAF_DRAFT, &draft, &table), "a written Register");

    give(&f, OF_CONTENT, strlen(dividend));
    f.part[OF_CONTENT].at = (const uint8_t *)dividend;
    give_handles(&f, right_sizes, 2, 64);
    uint8_t both[64] = {0}; /* a handle that nobody has, and the right one */
    memcpy(both + 32, key_id, sizeof key_id);
    f.part[OF_HANDLES].at = both;
    signed_data(&draft, &n, dividend_hash, 8);
    stored_record(&table, 7);
    stored_record(&left, 8);
    expect(write_into(output, UAF_MOST_COMMAND, 0x3403, &f) == 0, "Sign is not written");
    command.length = 0;
    stretch(&command, output, written_length);
    expect(call(&command, UAF_VERIFIED, UAF_SHOWN_CONFIRMED, &table) == 0 && wrote(UAF_DRAFT, &draft, &left), "a written Sign");
    expect(says(&command, UAF_VERIFIED, UAF_SHOWN_CANCELLED, &table, 0x3603, UAF_STATUS_USER_CANCELLED), "a written Sign's content");
    give_handles(&f, right_sizes, 1, 32);
    f.part[OF_HANDLES].at = both;
    by_tables(&command, 0x3403, &f);
    is_written_as(&command, 0x3403, &f, "Sign with a stranger's handle");
    expect(says(&command, UAF_VERIFIED, UAF_SHOWN_CONFIRMED, &table, 0x3603, UAF_STATUS_ACCESS_DENIED), "a written Sign's handle");

    expect(write_into(output, UAF_MOST_COMMAND, 0x3404, &f) == 0, "Deregister is not written");
    command.length = 0;
    stretch(&command, output, written_length);
    status_only(&left, 0x3604, UAF_STATUS_OK);
    expect(call(&command, 0, 0, &table) == 0 && wrote(UAF_RESPONSE, &left, &none), "a written Deregister");
    some_command(&command, 0x3401);
    is_written_as(&command, 0x3401, &f, "the GetInfo of the tests above");
    some_command(&command, 0x3404);
    is_written_as(&command, 0x3404, &f, "the Deregister of the tests above");
    some_command(&command, 0x3406);
    is_written_as(&command, 0x3406, &f, "the Open settings of the tests above");
    expect(stretches_are_as_lent(), "a writer changed a lent stretch");
}

/* ---- the hash */

/* uaf_hash gives this hash, as 32 bytes at a place of any alignment and nothing around them. */
static int hash_is(const uint8_t *first, size_t first_size, const uint8_t *second, size_t second_size, size_t place, const uint8_t *expected)
{
    uint8_t out[8 + UAF_HASH_SIZE + 8];
    memset(out, UNTOUCHED, sizeof out);
    uaf_hash(first, first_size, second, second_size, out + place);
    return memcmp(out + place, expected, UAF_HASH_SIZE) == 0 && untouched(out, 0, place) && untouched(out, place + UAF_HASH_SIZE, sizeof out);
}

/* A message cut at each of its places into two stretches, which begin at addresses of each alignment. */
static void hash_of(const char *text, const uint8_t *expected)
{
    const size_t length = strlen(text);
    uint8_t first[8 + 128], second[8 + 128];
    for (size_t cut = 0; cut <= length; cut++)
        for (size_t place = 0; place < 8; place++) {
            memset(first, UNTOUCHED, sizeof first);
            memset(second, UNTOUCHED, sizeof second);
            memcpy(first + place, text, cut);
            memcpy(second + 7 - place, text + cut, length - cut);
            expect(hash_is(first + place, cut, second + 7 - place, length - cut, place, expected), "the hash of a published message");
            expect(
                memcmp(first + place, text, cut) == 0 && memcmp(second + 7 - place, text + cut, length - cut) == 0
                    && untouched(first, place + cut, sizeof first) && untouched(second, 7 - place + length - cut, sizeof second),
                "a hash changed what is hashed");
        }
}

static void hashes(void)
{
    /* published with FIPS 180-4 */
    static const uint8_t of_nothing[] = {
        0xE3, 0xB0, 0xC4, 0x42, 0x98, 0xFC, 0x1C, 0x14, 0x9A, 0xFB, 0xF4, 0xC8, 0x99, 0x6F, 0xB9, 0x24,
        0x27, 0xAE, 0x41, 0xE4, 0x64, 0x9B, 0x93, 0x4C, 0xA4, 0x95, 0x99, 0x1B, 0x78, 0x52, 0xB8, 0x55};
    static const uint8_t of_abc[] = {
        0xBA, 0x78, 0x16, 0xBF, 0x8F, 0x01, 0xCF, 0xEA, 0x41, 0x41, 0x40, 0xDE, 0x5D, 0xAE, 0x22, 0x23,
        0xB0, 0x03, 0x61, 0xA3, 0x96, 0x17, 0x7A, 0x9C, 0xB4, 0x10, 0xFF, 0x61, 0xF2, 0x00, 0x15, 0xAD};
    static const uint8_t of_56[] = {
        0x24, 0x8D, 0x6A, 0x61, 0xD2, 0x06, 0x38, 0xB8, 0xE5, 0xC0, 0x26, 0x93, 0x0C, 0x3E, 0x60, 0x39,
        0xA3, 0x3C, 0xE4, 0x59, 0x64, 0xFF, 0x21, 0x67, 0xF6, 0xEC, 0xED, 0xD4, 0x19, 0xDB, 0x06, 0xC1};
    static const uint8_t of_112[] = {
        0xCF, 0x5B, 0x16, 0xA7, 0x78, 0xAF, 0x83, 0x80, 0x03, 0x6C, 0xE5, 0x9E, 0x7B, 0x04, 0x92, 0x37,
        0x0B, 0x24, 0x9B, 0x11, 0xE8, 0xF0, 0x7A, 0x51, 0xAF, 0xAC, 0x45, 0x03, 0x7A, 0xFE, 0xE9, 0xD1};
    static const uint8_t of_million[] = {
        0xCD, 0xC7, 0x6E, 0x5C, 0x99, 0x14, 0xFB, 0x92, 0x81, 0xA1, 0xC7, 0xE2, 0x84, 0xD7, 0x3E, 0x67,
        0xF1, 0x80, 0x9A, 0x48, 0xA4, 0x97, 0x20, 0x0E, 0x04, 0x6D, 0x39, 0xCC, 0xC7, 0x11, 0x2C, 0xD0};
    /* from another SHA-256: see below */
    static const uint8_t of_chain[] = {
        0xC9, 0xCF, 0xE8, 0x6D, 0x1A, 0x21, 0x44, 0x09, 0xC7, 0x7C, 0x51, 0xE2, 0xF9, 0x89, 0xE8, 0x41,
        0xCA, 0xAA, 0x13, 0x7C, 0x98, 0xE2, 0x0A, 0xD6, 0xB8, 0xE2, 0xD1, 0xE6, 0x8A, 0xD3, 0xB3, 0x8B};
    static const uint8_t abc[] = {'a', 'b', 'c', 'a', 'b', 'c'};
    static uint8_t million[1000000];

    hash_of("", of_nothing);
    hash_of("abc", of_abc);
    hash_of("abcdbcdecdefdefgefghfghighijhijkijkljklmklmnlmnomnopnopq", of_56);
    hash_of("abcdefghbcdefghicdefghijdefghijkefghijklfghijklmghijklmnhijklmnoijklmnopjklmnopqklmnopqrlmnopqrsmnopqrstnopqrstu", of_112);
    memset(million, 'a', sizeof million);
    static const size_t cuts[] = {0, 1, 63, 64, 65, 65536, 65537, 999999, 1000000};
    for (size_t i = 0; i < sizeof cuts / sizeof *cuts; i++)
        expect(hash_is(million, cuts[i], million + cuts[i], sizeof million - cuts[i], 0, of_million), "the hash of a million letters");

    /* no bytes: the pointer is not followed */
    expect(hash_is(NULL, 0, NULL, 0, 0, of_nothing), "the hash of no bytes, with NULL for both stretches");
    expect(hash_is(abc, 3, NULL, 0, 0, of_abc), "a hash with NULL for the second stretch");
    expect(hash_is(NULL, 0, abc, 3, 0, of_abc), "a hash with NULL for the first stretch");

    /* the same bytes lent twice, and stretches that overlap */
    uint8_t twice[UAF_HASH_SIZE];
    uaf_hash(abc, 6, NULL, 0, twice);
    expect(hash_is(abc, 3, abc, 3, 0, twice) && hash_is(abc, 4, abc + 1, 2, 0, twice), "a hash of stretches that overlap");

    /* Every length from 0 to 300, and some more, each with the hash before it in front, from the hash of nothing on. The last lengths have 0, 1 and
     * 512 in their low 16 bits. */
    static const size_t lengths[] = {8192, 65535, 65536, 65537, 65536 + 512};
    uint8_t chain[2][UAF_HASH_SIZE];
    memcpy(chain[0], of_nothing, UAF_HASH_SIZE);
    for (size_t i = 0; i < 301 + sizeof lengths / sizeof *lengths; i++) {
        uaf_hash(chain[i % 2], UAF_HASH_SIZE, pool, i < 301 ? i : lengths[i - 301], chain[1 - i % 2]);
    }
    expect(memcmp(chain[(301 + sizeof lengths / sizeof *lengths) % 2], of_chain, UAF_HASH_SIZE) == 0, "hashes of many lengths");
    expect(pool_is_as_lent(), "a hash changed what is hashed");

    /* what the other tests expect in tables and drafts */
    expect(hash_is(access_token, sizeof access_token, NULL, 0, 0, mixed), "the hash of the access token");
    expect(hash_is(access_token, sizeof access_token, (const uint8_t *)firm, strlen(firm), 0, mixed_with_firm), "the hash of access token and AppID");
    expect(hash_is((const uint8_t *)dividend, strlen(dividend), NULL, 0, 0, dividend_hash), "the hash of the content");
}

/* A Register, Sign or Deregister that has this access token and, where it is not NULL, this AppID. */
static void asking(struct bytes *command, unsigned tag, const char *app_id, const uint8_t *token, size_t token_size)
{
    static const uint8_t full[] = {0x07, 0x3E};
    struct bytes children = {{0}, 0};
    tlv(&children, 0x280D, &zero, 1);
    if (app_id != NULL)
        letters(&children, 0x2804, app_id);
    if (tag != 0x3404)
        tlv(&children, 0x2E0A, challenge, sizeof challenge);
    if (tag == 0x3402) {
        letters(&children, 0x2806, ann);
        tlv(&children, 0x2807, full, 2);
    }
    if (tag == 0x3404)
        tlv(&children, 0x2E09, key_id, sizeof key_id);
    tlv(&children, 0x2805, token, token_size);
    command_of(command, tag, &children);
}

/* Such a command is this holder's: its Register makes a record with this mixed token, its Sign and its Deregister find that record and no other's. */
static void is_holder(const char *app_id, const uint8_t *token, const uint8_t *holder, const uint8_t *other)
{
    struct bytes command = {{0}, 0}, none = {{0}, 0}, draft = {{0}, 0}, own = {{0}, 0}, counted = {{0}, 0}, others = {{0}, 0}, ok = {{0}, 0};
    const struct numbers n = usual(UAF_VERIFIED, UAF_SHOWN_CONFIRMED);
    add_record_of(&own, holder, key_id, ann, 0);
    add_record_of(&counted, holder, key_id, ann, 1);
    add_record_of(&others, other, key_id, ann, 0);

    asking(&command, 0x3402, app_id, token, UAF_ACCESS_TOKEN_SIZE);
    krd(&draft, &n);
    expect(call(&command, UAF_VERIFIED, UAF_SHOWN_CONFIRMED, &none) == 0 && wrote(UAF_DRAFT, &draft, &own), "Register: whose it is");

    asking(&command, 0x3403, app_id, token, UAF_ACCESS_TOKEN_SIZE);
    signed_data(&draft, &n, NULL, 1);
    expect(call(&command, UAF_VERIFIED, UAF_SHOWN_CONFIRMED, &own) == 0 && wrote(UAF_DRAFT, &draft, &counted), "Sign: whose it is");
    expect(says(&command, UAF_VERIFIED, UAF_SHOWN_CONFIRMED, &others, 0x3603, UAF_STATUS_ACCESS_DENIED), "Sign: another holder's record");

    asking(&command, 0x3404, app_id, token, UAF_ACCESS_TOKEN_SIZE);
    status_only(&ok, 0x3604, UAF_STATUS_OK);
    expect(call(&command, 0, 0, &own) == 0 && wrote(UAF_RESPONSE, &ok, &none), "Deregister: whose it is");
    expect(says(&command, 0, 0, &others, 0x3604, UAF_STATUS_ACCESS_DENIED), "Deregister: another holder's record");
}

/* Whose a command is: the hash of its access token, of 32 bytes, and of its AppID where it has one. */
static void holders(void)
{
    is_holder(NULL, access_token, mixed, mixed_with_firm);
    is_holder(firm, access_token, mixed_with_firm, mixed);
    uint8_t token[2 * UAF_ACCESS_TOKEN_SIZE], its_mixed[UAF_MIXED_SIZE];
    memset(token, 0xAA, sizeof token);
    for (size_t i = 0; i < UAF_ACCESS_TOKEN_SIZE; i++) { /* each byte counts */
        token[i] ^= 1;
        uaf_hash(token, UAF_ACCESS_TOKEN_SIZE, NULL, 0, its_mixed);
        is_holder(NULL, token, its_mixed, mixed);
        token[i] ^= 1;
    }
    char longest[UAF_MOST_APP_ID + 1] = {0};
    for (size_t length = 1; length <= UAF_MOST_APP_ID; length += 73) { /* 512 among them */
        memset(longest, 'a', length);
        uaf_hash(access_token, sizeof access_token, (const uint8_t *)longest, length, its_mixed);
        is_holder(longest, access_token, its_mixed, mixed);
    }

    /* Other lengths are 0x08, whatever the verdict. That of 31 bytes has the byte that it lost in front of the AppID: what is run together is the same. */
    static const size_t sizes[] = {0, 1, 31, 33, 64};
    struct bytes command = {{0}, 0}, table = {{0}, 0};
    char shifted[1 + sizeof firm] = "\xAA";
    memcpy(shifted + 1, firm, sizeof firm);
    expect(hash_is(token, 31, (const uint8_t *)shifted, strlen(shifted), 0, mixed_with_firm), "a hash of bytes that are cut elsewhere");
    add_record_of(&table, mixed_with_firm, key_id, ann, 7);
    for (unsigned tag = 0x3402; tag <= 0x3404; tag++)
        for (size_t i = 0; i < sizeof sizes / sizeof *sizes; i++)
            for (uint32_t verdict = UAF_VERIFIED; verdict <= UAF_LOCKED_OUT; verdict++) {
                asking(&command, tag, sizes[i] == 31 ? shifted : firm, token, sizes[i]);
                expect(says(&command, verdict, 0, &table, tag + 0x200, UAF_STATUS_PARAMS_INVALID), "an access token of other than 32 bytes");
            }
}

/* The hash in signed data is that of the content, up to the longest that a command has room for. */
static void contents(void)
{
    static const size_t sizes[] = {1, 55, 56, 63, 64, 65, 119, 120, 128, 1000, 8192 - 4 - 5 - 24 - 4 - 36};
    const struct numbers n = usual(UAF_VERIFIED, UAF_SHOWN_CONFIRMED);
    for (size_t i = 0; i < sizeof sizes / sizeof *sizes; i++) {
        struct bytes children = {{0}, 0}, command = {{0}, 0}, table = {{0}, 0}, left = {{0}, 0}, draft = {{0}, 0};
        uint8_t hash[UAF_HASH_SIZE];
        tlv(&children, 0x280D, &zero, 1);
        tlv(&children, 0x2E0A, challenge, sizeof challenge);
        tlv(&children, 0x2810, pool, sizes[i]);
        tlv(&children, 0x2805, access_token, sizeof access_token);
        command_of(&command, 0x3403, &children);
        uaf_hash(pool, sizes[i], NULL, 0, hash);
        signed_data(&draft, &n, hash, 8);
        stored_record(&table, 7);
        stored_record(&left, 8);
        expect(call(&command, UAF_VERIFIED, UAF_SHOWN_CONFIRMED, &table) == 0 && wrote(UAF_DRAFT, &draft, &left), "Sign: the hash of its content");
    }
    expect(pool_is_as_lent(), "Sign changed its content");
}

/* ---- the withdrawal */

/* A withdrawal to be: what is lent, and how long the output is said to be. */
struct withdrawal {
    const uint8_t *mixed_at;
    size_t mixed_size;
    const uint8_t *key_at;
    size_t key_size;
    size_t room;
};

static struct withdrawal taking(const uint8_t *holder, const uint8_t *key)
{
    struct withdrawal t = {holder, UAF_MIXED_SIZE, key, UAF_KEY_ID_SIZE, sizeof table_out};
    return t;
}

static uint32_t take_back(const struct withdrawal *t, const struct bytes *table)
{
    fill_outputs();
    return uaf_withdraw(t->mixed_at, t->mixed_size, t->key_at, t->key_size, table->at, table->length, table_out, t->room, &table_length);
}

/* It leaves this table, and changes nothing else. */
static void is_withdrawn(const struct withdrawal *t, const struct bytes *table, const struct bytes *left, const char *what)
{
    const struct bytes table_lent = *table;
    expect(take_back(t, table) == 0, what);
    expect(same(left, table_out, table_length) && untouched(table_out, table_length, sizeof table_out), what);
    expect(untouched(response, 0, sizeof response) && answer == 77 && response_length == 78, "a withdrawal wrote more than a table");
    expect(same(&table_lent, table->at, table->length) && stretches_are_as_lent(), "a withdrawal changed what was lent");
}

static void is_kept(const struct withdrawal *t, const struct bytes *table, uint32_t refusal, const char *what)
{
    const struct bytes table_lent = *table;
    expect(take_back(t, table) == refusal, what);
    expect(all_untouched(), "a refused withdrawal wrote");
    expect(same(&table_lent, table->at, table->length) && stretches_are_as_lent(), "a refused withdrawal changed what was lent");
}

/* The caller's newest between two of another holder, and an older one of the caller's before them; then the table without it. */
static void four_records(struct bytes *table, struct bytes *left, unsigned count)
{
    uint8_t key[UAF_KEY_ID_SIZE];
    table->length = left->length = 0;
    for (int i = 1; i <= 4; i++) {
        memset(key, i, sizeof key);
        if (i == 3) {
            add_record(table, key_id, ann, count);
            continue;
        }
        add_record_of(table, i == 1 ? mixed : mixed_with_firm, key, ann, (unsigned)(i - 1));
        add_record_of(left, i == 1 ? mixed : mixed_with_firm, key, ann, (unsigned)(i - 1));
    }
}

static void withdraws(void)
{
    struct bytes table = {{0}, 0}, left = {{0}, 0}, none = {{0}, 0};
    struct withdrawal t = taking(mixed, key_id);
    four_records(&table, &left, 0);
    is_withdrawn(&t, &table, &left, "a withdrawal");
    t.room = UAF_LEAST_TABLE;
    is_withdrawn(&t, &table, &left, "a withdrawal into an output of the least length");
    stored_record(&table, 0);
    is_withdrawn(&t, &table, &none, "a withdrawal of the only record");

    /* the longest table: 32 records with names of 128 bytes, of which the last goes */
    char longest[UAF_MOST_USERNAME + 1] = {0};
    uint8_t key[UAF_KEY_ID_SIZE], holder[UAF_MIXED_SIZE];
    memset(longest, 'a', UAF_MOST_USERNAME);
    table.length = 0;
    for (int i = 0; i < UAF_MOST_RECORDS; i++) {
        memset(key, i + 1, sizeof key);
        memset(holder, i / UAF_MOST_OWN, sizeof holder);
        left = table;
        add_record_of(&table, holder, key, longest, 0);
    }
    t = taking(holder, key);
    expect(table.length == UAF_LEAST_TABLE, "the longest table");
    is_withdrawn(&t, &table, &left, "a withdrawal from the longest table");
}

/* Directly after a Register that made a draft, it gives the table that the Register was given, byte for byte. */
static void after_a_register(void)
{
    for (unsigned own = 0; own < UAF_MOST_OWN; own++) {
        struct bytes command = {{0}, 0}, before = {{0}, 0}, registered = {{0}, 0};
        stored_records(&before, own);
        asking(&command, 0x3402, own % 2 == 0 ? NULL : firm, access_token, sizeof access_token);
        expect(call(&command, UAF_VERIFIED, UAF_SHOWN_CONFIRMED, &before) == 0 && answer == UAF_DRAFT, "a Register to take back");
        stretch(&registered, table_out, table_length);
        const struct withdrawal t = taking(own % 2 == 0 ? mixed : mixed_with_firm, key_id);
        is_withdrawn(&t, &registered, &before, "a withdrawal after a Register");
    }
}

/* Each byte of the mixed token and of the KeyID is looked at. */
static void every_byte_of_both(void)
{
    struct bytes table = {{0}, 0}, left = {{0}, 0};
    uint8_t holder[UAF_MIXED_SIZE], key[UAF_KEY_ID_SIZE];
    four_records(&table, &left, 0);
    memcpy(holder, mixed, sizeof holder);
    memcpy(key, key_id, sizeof key);
    const struct withdrawal t = taking(holder, key);
    for (size_t i = 0; i < UAF_MIXED_SIZE + UAF_KEY_ID_SIZE; i++) {
        uint8_t *byte = i < UAF_MIXED_SIZE ? holder + i : key + i - UAF_MIXED_SIZE;
        *byte ^= 0x80;
        is_kept(&t, &table, UAF_REFUSED_WITHDRAWAL, "a withdrawal with another byte in mixed token or KeyID");
        *byte ^= 0x80;
    }
    is_withdrawn(&t, &table, &left, "a withdrawal with these bytes");
}

/* What a record must be: the holder's, the newest of the holder's, and one that has not signed; each byte of its counter is looked at. */
static void withdrawals_of_one_holder(void)
{
    struct bytes table = {{0}, 0}, left = {{0}, 0}, one_more = {{0}, 0};
    uint8_t key[UAF_KEY_ID_SIZE];
    const struct withdrawal own = taking(mixed, key_id), others = taking(mixed_with_firm, key_id), newest = taking(mixed, key);
    static const unsigned counts[] = {1, 0x100, 0x10000, 0x1000000, 0xFFFFFFFF};
    for (size_t i = 0; i < sizeof counts / sizeof *counts; i++) {
        four_records(&table, &left, counts[i]);
        is_kept(&own, &table, UAF_REFUSED_WITHDRAWAL, "a withdrawal of a key that has signed");
    }
    four_records(&table, &left, 0);
    is_kept(&others, &table, UAF_REFUSED_WITHDRAWAL, "a withdrawal of another holder's record");
    one_more = table;
    memset(key, 0xEE, sizeof key);
    add_record(&one_more, key, ann, 0);
    is_kept(&own, &one_more, UAF_REFUSED_WITHDRAWAL, "a withdrawal of a record that is not the newest");
    is_withdrawn(&newest, &one_more, &table, "a withdrawal of the newest record");
    is_withdrawn(&own, &table, &left, "a withdrawal of the record that is now the newest");
}

/* The refusals with their lengths, each before all that come after it: every later one is there too. */
static void withdrawals_refused(void)
{
    struct bytes none = {{0}, 0}, table = {{0}, 0}, left = {{0}, 0}, broken = {{0}, 0};
    static const size_t sizes[] = {0, 1, 31, 33, 64}, rooms[] = {0, 1, UAF_LEAST_RESPONSE, UAF_LEAST_TABLE - 1};
    uint8_t bytes[2 * UAF_MIXED_SIZE] = {0};
    four_records(&table, &left, 0);
    broken = table;
    broken.length--;
    struct withdrawal t = taking(mixed, key_id);
    is_kept(&t, &broken, UAF_REFUSED_TABLE, "a withdrawal from a broken table");
    is_kept(&t, &none, UAF_REFUSED_WITHDRAWAL, "a withdrawal from the table without records");
    for (size_t i = 0; i < sizeof rooms / sizeof *rooms; i++) {
        t = taking(mixed, key_id);
        t.room = rooms[i];
        is_kept(&t, &table, UAF_REFUSED_OUTPUT, "a withdrawal into a short output");
        t.mixed_size = t.key_size = 31;
        is_kept(&t, &broken, UAF_REFUSED_OUTPUT, "a withdrawal into a short output, with other faults");
    }
    for (size_t i = 0; i < sizeof sizes / sizeof *sizes; i++) {
        t = taking(bytes, key_id);
        t.mixed_size = sizes[i];
        is_kept(&t, &table, UAF_REFUSED_LENT, "a mixed token of other than 32 bytes");
        is_kept(&t, &broken, UAF_REFUSED_TABLE, "a mixed token of other than 32 bytes, and a broken table");
        t = taking(mixed, bytes);
        t.key_size = sizes[i];
        is_kept(&t, &table, UAF_REFUSED_LENT, "a KeyID of other than 32 bytes");
        is_kept(&t, &broken, UAF_REFUSED_TABLE, "a KeyID of other than 32 bytes, and a broken table");
    }

    /* no bytes: the pointer is not followed */
    fill_outputs();
    expect(
        uaf_withdraw(NULL, 0, key_id, sizeof key_id, table.at, table.length, table_out, sizeof table_out, &table_length) == UAF_REFUSED_LENT
            && uaf_withdraw(mixed, sizeof mixed, NULL, 0, table.at, table.length, table_out, sizeof table_out, &table_length)
                == UAF_REFUSED_LENT
            && uaf_withdraw(mixed, sizeof mixed, key_id, sizeof key_id, NULL, 0, table_out, sizeof table_out, &table_length)
                == UAF_REFUSED_WITHDRAWAL
            && uaf_withdraw(mixed, sizeof mixed, key_id, sizeof key_id, table.at, table.length, NULL, 0, &table_length) == UAF_REFUSED_OUTPUT
            && all_untouched(),
        "a withdrawal with NULL for an empty stretch");
}

/* Inputs may overlap: mixed token and KeyID are lent where they stand in the table, and as the same bytes. */
static void lent_from_the_table(void)
{
    struct bytes table = {{0}, 0}, left = {{0}, 0}, none = {{0}, 0};
    enum { KEY_ID_PLACE = 8, MIXED_PLACE = 44 }; /* in a record */
    four_records(&table, &left, 0);
    const uint8_t *third = table.at + (table.length / 4) * 2; /* the four have one length */
    const struct withdrawal t = taking(third + MIXED_PLACE, third + KEY_ID_PLACE);
    is_withdrawn(&t, &table, &left, "a withdrawal by what stands in the table");
    table.length = 0;
    add_record_of(&table, mixed, mixed, ann, 0);
    const struct withdrawal alike = taking(mixed, mixed);
    is_withdrawn(&alike, &table, &none, "a withdrawal by a KeyID that is the mixed token");
}

/* ---- usernames: well-formed UTF-8 by RFC 3629, or none */

/* Two records of the caller's, of which the second has this name, and the list that a Sign gives for them. */
static void two_named(struct bytes *table, struct bytes *list, const char *second)
{
    static const uint8_t ok[2] = {0, 0};
    struct bytes whole = {{0}, 0};
    uint8_t key[UAF_KEY_ID_SIZE];
    table->length = list->length = 0;
    tlv(&whole, 0x2808, ok, 2);
    for (int i = 1; i <= 2; i++) {
        struct bytes pair = {{0}, 0};
        memset(key, i, sizeof key);
        add_record(table, key, i == 1 ? ann : second, 7);
        letters(&pair, 0x2806, i == 1 ? ann : second);
        tlv(&pair, 0x2801, key, sizeof key);
        holding(&whole, 0x3802, &pair);
    }
    holding(list, 0x3603, &whole);
}

/* What the reader's calls write, all of it numbers of one width. */
struct reading {
    size_t place, length, tag, status, count, tags[UAF_MOST_FIELDS], places[UAF_MOST_FIELDS], lengths[UAF_MOST_FIELDS];
};

/* Whether both calls of the reader refuse the bytes, and change nothing. */
static int is_no_response(const struct bytes *bytes)
{
    const struct bytes lent = *bytes;
    struct reading r, before;
    memset(&r, UNTOUCHED, sizeof r);
    before = r;
    return uaf_signed_part(bytes->at, bytes->length, &r.place, &r.length) == UAF_REFUSED_BYTES
        && uaf_read_fields(bytes->at, bytes->length, &r.tag, &r.status, &r.count, r.tags, r.places, r.lengths) == UAF_REFUSED_BYTES
        && memcmp(&before, &r, sizeof r) == 0 && same(&lent, bytes->at, bytes->length);
}

/* A Register with this name, to be written. */
static struct fields naming(const char *username)
{
    struct fields f = least_fields();
    f.part[OF_NAME].at = (const uint8_t *)username;
    f.part[OF_NAME].size = strlen(username);
    return f;
}

/* Such a name is written, registered, stays in the table, is listed and is read from the list. */
static void name_taken(const char *username)
{
    struct bytes children = {{0}, 0}, registering = {{0}, 0}, signing = {{0}, 0};
    struct bytes none = {{0}, 0}, draft = {{0}, 0}, left = {{0}, 0}, table = {{0}, 0}, list = {{0}, 0};
    const struct numbers n = usual(UAF_VERIFIED, UAF_SHOWN_CONFIRMED);
    const struct fields f = naming(username);
    struct reading r;
    is_written(0x3402, &f, "a Register to write with a name in UTF-8");
    children_of(&children, username, NULL);
    command_of(&registering, 0x3402, &children);
    krd(&draft, &n);
    add_record(&left, key_id, username, 0);
    expect(call(&registering, UAF_VERIFIED, UAF_SHOWN_CONFIRMED, &none) == 0 && wrote(UAF_DRAFT, &draft, &left), "Register: a name in UTF-8");
    children_of(&children, NULL, NULL);
    command_of(&signing, 0x3403, &children);
    two_named(&table, &list, username);
    expect(call(&signing, UAF_VERIFIED, UAF_SHOWN_CONFIRMED, &table) == 0 && wrote(UAF_RESPONSE, &list, &table), "Sign: a name in UTF-8");
    expect(uaf_signed_part(list.at, list.length, &r.place, &r.length) == 0 && r.length == 0, "a list with a name in UTF-8");
    expect(uaf_read_fields(list.at, list.length, &r.tag, &r.status, &r.count, r.tags, r.places, r.lengths) == 0, "a name in UTF-8 is not read");
    expect(
        r.count == 5 && r.tags[3] == UAF_TAG_USERNAME && r.lengths[3] == strlen(username)
            && memcmp(list.at + r.places[3], username, r.lengths[3]) == 0,
        "a listed name in UTF-8");
}

/* Such a name is 0x08 in a Register, whatever the verdict; 2 in a table; 5 in a list; 6 in a Register to write. Nothing that was lent changes. */
static void name_refused(const char *username)
{
    struct bytes children = {{0}, 0}, registering = {{0}, 0}, info = {{0}, 0}, none = {{0}, 0}, table = {{0}, 0}, list = {{0}, 0};
    const struct fields f = naming(username);
    is_unwritten(0x3402, &f, "a Register to write with a name that is no UTF-8");
    children_of(&children, username, NULL);
    command_of(&registering, 0x3402, &children);
    stored_records(&table, 1);
    for (uint32_t verdict = UAF_VERIFIED; verdict <= UAF_LOCKED_OUT; verdict++)
        expect(says(&registering, verdict, UAF_SHOWN_CONFIRMED, &table, 0x3602, UAF_STATUS_PARAMS_INVALID), "Register: a name that is no UTF-8");
    command_of(&info, 0x3401, &none);
    two_named(&table, &list, username);
    const struct bytes info_lent = info, table_lent = table;
    expect(call(&info, 0, 0, &table) == UAF_REFUSED_TABLE && all_untouched(), "a table with a name that is no UTF-8");
    expect(same(&info_lent, info.at, info.length) && same(&table_lent, table.at, table.length), "command or table changed");
    expect(is_no_response(&list), "a list with a name that is no UTF-8");
    expect(stretches_are_as_lent(), "a lent stretch changed");
}

static void usernames(void)
{
    /* a name with an accent; then the ends of the ranges of two, three and four bytes, and of one */
    static const char *const texts[] = {
        "Zo\xC3\xAB", "\xC2\x80", "\xDF\xBF", "\xE0\xA0\x80", "\xED\x9F\xBF", "\xEE\x80\x80", "\xEF\xBF\xBF", "\xF0\x90\x80\x80",
        "\xF4\x8F\xBF\xBF", "\x01", "\x7F"};
    /* the same name cut; letters that are cut otherwise; tails alone; overlong forms; surrogates; beyond U+10FFFF; bytes that never occur */
    static const char *const others[] = {
        "Zo\xC3", "\xC3Z", "\xE2\x82", "\xE2\x82Z", "\xF0\x9F\x90", "\xF0\x9F\x90Z", "\xAB", "Z\x80", "\xC3\xAB\xBF", "\xC0\x80", "\xC1\xBF",
        "\xE0\x9F\xBF", "\xF0\x8F\xBF\xBF", "\xED\xA0\x80", "\xED\xBF\xBF", "\xF4\x90\x80\x80", "\xF5\x80\x80\x80", "\xFE", "\xFF"};
    char longest[UAF_MOST_USERNAME + 2];
    for (size_t i = 0; i < sizeof texts / sizeof *texts; i++)
        name_taken(texts[i]);
    for (size_t i = 0; i < sizeof others / sizeof *others; i++)
        name_refused(others[i]);

    /* the limit is one of bytes: 64 letters of two fit, cut at either end they are no text, and with a byte more they are too long */
    for (size_t i = 0; i < UAF_MOST_USERNAME; i++)
        longest[i] = "\xC3\xAB"[i % 2];
    longest[UAF_MOST_USERNAME] = 0;
    name_taken(longest);
    name_refused(longest + 1);
    longest[UAF_MOST_USERNAME - 1] = 0;
    name_refused(longest);
    longest[UAF_MOST_USERNAME - 1] = longest[UAF_MOST_USERNAME] = 'Z';
    longest[UAF_MOST_USERNAME - 2] = 'o';
    longest[UAF_MOST_USERNAME + 1] = 0;
    name_refused(longest);
}

/* Document 01's P7, P8 and P9. Their access token has one byte, which is 0x08 now; with one of 32 bytes they show what they did. */
static void examples(void)
{
    static const uint8_t p7[] = {0x04, 0x34, 0x0E, 0x00, 0x0D, 0x28, 0x01, 0x00, 0x00, 0x09, 0x2E, 0x00, 0x00, 0x05, 0x28, 0x01, 0x00, 0xAA};
    static const uint8_t p8[] = {0x03, 0x34, 0x0F, 0x00, 0x0D, 0x28, 0x01, 0x00, 0x00, 0x0A, 0x2E, 0x01, 0x00, 0xAA, 0x05, 0x28, 0x01, 0x00, 0xAA};
    static const uint8_t p7_of_32[] = {
        0x04, 0x34, 0x2D, 0x00, 0x0D, 0x28, 0x01, 0x00, 0x00, 0x09, 0x2E, 0x00, 0x00, 0x05, 0x28, 0x20, 0x00, THIRTY_TWO(0xAA)};
    static const uint8_t p8_of_32[] = {
        0x03, 0x34, 0x2E, 0x00, 0x0D, 0x28, 0x01, 0x00, 0x00, 0x0A, 0x2E, 0x01, 0x00, 0xAA, 0x05, 0x28, 0x20, 0x00, THIRTY_TWO(0xAA)};
    struct bytes removing = {{0}, 0}, signing = {{0}, 0}, none = {{0}, 0}, both = {{0}, 0}, list = {{0}, 0};
    two_named(&both, &list, "Bo");
    stretch(&removing, p7, sizeof p7);
    stretch(&signing, p8, sizeof p8);
    expect(says(&removing, 0, 0, &none, 0x3604, UAF_STATUS_PARAMS_INVALID), "P7");
    expect(says(&signing, UAF_VERIFIED, UAF_SHOWN_CONFIRMED, &none, 0x3603, UAF_STATUS_PARAMS_INVALID), "P8");
    expect(says(&signing, UAF_VERIFIED, UAF_SHOWN_CONFIRMED, &both, 0x3603, UAF_STATUS_PARAMS_INVALID), "P9");

    removing.length = signing.length = 0;
    stretch(&removing, p7_of_32, sizeof p7_of_32);
    stretch(&signing, p8_of_32, sizeof p8_of_32);
    expect(says(&removing, 0, 0, &none, 0x3604, UAF_STATUS_OK), "P7 with an access token of 32 bytes");
    expect(says(&signing, UAF_VERIFIED, UAF_SHOWN_CONFIRMED, &none, 0x3603, UAF_STATUS_ACCESS_DENIED), "P8 with an access token of 32 bytes");
    expect(call(&signing, UAF_VERIFIED, UAF_SHOWN_CONFIRMED, &both) == 0, "P9 with an access token of 32 bytes is refused");
    expect(list.length == 103 && wrote(UAF_RESPONSE, &list, &both), "P9 with an access token of 32 bytes");
}

/* ---- constants and names, with the numbers of documents 001 and 01 */

struct named {
    size_t constant;
    size_t number;
    const char *name;
};

#define ONE(...) +1
#define COUNT(array) (sizeof(array) / sizeof *(array))

/* Each constant has its number and that number its name, all of the header's list are here, and no other number has a name. */
static void named_so(const struct named *rows, size_t count, size_t listed, const char *(*name_of)(size_t))
{
    expect(count == listed, "a list of the header has more or fewer than are checked here");
    for (size_t i = 0; i < count; i++) {
        expect(rows[i].constant == rows[i].number, rows[i].name);
        expect(strcmp(name_of(rows[i].number), rows[i].name) == 0, rows[i].name);
    }
    size_t known = 0;
    for (size_t n = 0; n <= 0x10000; n++)
        known += strcmp(name_of(n), "unknown") != 0;
    expect(known == count, "a number that has a name and should have none");
}

static const char *refusal_name(size_t n)
{
    return uaf_refusal_name((uint32_t)n);
}

static void constants_and_names(void)
{
    static const struct named refused[] = {
        {0, 0, "none"},
        {UAF_REFUSED_OUTPUT, 1, "an output is too short"},
        {UAF_REFUSED_TABLE, 2, "the stored table breaks a rule"},
        {UAF_REFUSED_COMMAND, 3, "fewer than 4 bytes, or none of the five commands"},
        {UAF_REFUSED_LENT, 4, "a lent result that this command or completion uses has a wrong length or number"},
        {UAF_REFUSED_BYTES, 5, "no draft of this kind, or no response"},
        {UAF_REFUSED_FIELD, 6, "a field or the number of key handles breaks a rule, or the command would be too long"},
        {UAF_REFUSED_WITHDRAWAL, 7, "no record has both values, its counter is not 0, or it is not its holder's newest"},
    };
    static const struct named statuses[] = {
        {UAF_STATUS_OK, 0x00, "OK"},
        {UAF_STATUS_ERR_UNKNOWN, 0x01, "ERR_UNKNOWN"},
        {UAF_STATUS_ACCESS_DENIED, 0x02, "ACCESS_DENIED"},
        {UAF_STATUS_USER_NOT_ENROLLED, 0x03, "USER_NOT_ENROLLED"},
        {UAF_STATUS_CANNOT_RENDER_TRANSACTION_CONTENT, 0x04, "CANNOT_RENDER_TRANSACTION_CONTENT"},
        {UAF_STATUS_USER_CANCELLED, 0x05, "USER_CANCELLED"},
        {UAF_STATUS_CMD_NOT_SUPPORTED, 0x06, "CMD_NOT_SUPPORTED"},
        {UAF_STATUS_ATTESTATION_NOT_SUPPORTED, 0x07, "ATTESTATION_NOT_SUPPORTED"},
        {UAF_STATUS_PARAMS_INVALID, 0x08, "PARAMS_INVALID"},
        {UAF_STATUS_USER_NOT_RESPONSIVE, 0x0E, "USER_NOT_RESPONSIVE"},
        {UAF_STATUS_INSUFFICIENT_RESOURCES, 0x0F, "INSUFFICIENT_RESOURCES"},
        {UAF_STATUS_USER_LOCKOUT, 0x10, "USER_LOCKOUT"},
    };
    /* in document 01's order */
    static const struct named tags[] = {
        {UAF_TAG_GETINFO_CMD, 0x3401, "GETINFO_CMD"},
        {UAF_TAG_GETINFO_CMD_RESPONSE, 0x3601, "GETINFO_CMD_RESPONSE"},
        {UAF_TAG_REGISTER_CMD, 0x3402, "REGISTER_CMD"},
        {UAF_TAG_REGISTER_CMD_RESPONSE, 0x3602, "REGISTER_CMD_RESPONSE"},
        {UAF_TAG_SIGN_CMD, 0x3403, "SIGN_CMD"},
        {UAF_TAG_SIGN_CMD_RESPONSE, 0x3603, "SIGN_CMD_RESPONSE"},
        {UAF_TAG_DEREGISTER_CMD, 0x3404, "DEREGISTER_CMD"},
        {UAF_TAG_DEREGISTER_CMD_RESPONSE, 0x3604, "DEREGISTER_CMD_RESPONSE"},
        {UAF_TAG_OPEN_SETTINGS_CMD, 0x3406, "OPEN_SETTINGS_CMD"},
        {UAF_TAG_OPEN_SETTINGS_CMD_RESPONSE, 0x3606, "OPEN_SETTINGS_CMD_RESPONSE"},
        {UAF_TAG_KEYHANDLE, 0x2801, "KEYHANDLE"},
        {UAF_TAG_USERVERIFY_TOKEN, 0x2803, "USERVERIFY_TOKEN"},
        {UAF_TAG_APPID, 0x2804, "APPID"},
        {UAF_TAG_KEYHANDLE_ACCESS_TOKEN, 0x2805, "KEYHANDLE_ACCESS_TOKEN"},
        {UAF_TAG_USERNAME, 0x2806, "USERNAME"},
        {UAF_TAG_ATTESTATION_TYPE, 0x2807, "ATTESTATION_TYPE"},
        {UAF_TAG_STATUS_CODE, 0x2808, "STATUS_CODE"},
        {UAF_TAG_METADATA, 0x2809, "METADATA"},
        {UAF_TAG_ASSERTION_SCHEME, 0x280A, "ASSERTION_SCHEME"},
        {UAF_TAG_TC_DISPLAY_CONTENT_TYPE, 0x280C, "TC_DISPLAY_CONTENT_TYPE"},
        {UAF_TAG_AUTHENTICATOR_INDEX, 0x280D, "AUTHENTICATOR_INDEX"},
        {UAF_TAG_API_VERSION, 0x280E, "API_VERSION"},
        {UAF_TAG_AUTHENTICATOR_ASSERTION, 0x280F, "AUTHENTICATOR_ASSERTION"},
        {UAF_TAG_TRANSACTION_CONTENT, 0x2810, "TRANSACTION_CONTENT"},
        {UAF_TAG_USERNAME_AND_KEYHANDLE, 0x3802, "USERNAME_AND_KEYHANDLE"},
        {UAF_TAG_AUTHENTICATOR_INFO, 0x3811, "AUTHENTICATOR_INFO"},
        {UAF_TAG_REG_ASSERTION, 0x3E01, "REG_ASSERTION"},
        {UAF_TAG_AUTH_ASSERTION, 0x3E02, "AUTH_ASSERTION"},
        {UAF_TAG_KRD, 0x3E03, "KRD"},
        {UAF_TAG_SIGNED_DATA, 0x3E04, "SIGNED_DATA"},
        {UAF_TAG_CERT, 0x2E05, "CERT"},
        {UAF_TAG_SIGNATURE, 0x2E06, "SIGNATURE"},
        {UAF_TAG_BASIC_FULL, 0x3E07, "BASIC_FULL"},
        {UAF_TAG_BASIC_SURROGATE, 0x3E08, "BASIC_SURROGATE"},
        {UAF_TAG_KEYID, 0x2E09, "KEYID"},
        {UAF_TAG_FINAL_CHALLENGE_HASH, 0x2E0A, "FINAL_CHALLENGE_HASH"},
        {UAF_TAG_AAID, 0x2E0B, "AAID"},
        {UAF_TAG_PUB_KEY, 0x2E0C, "PUB_KEY"},
        {UAF_TAG_COUNTERS, 0x2E0D, "COUNTERS"},
        {UAF_TAG_ASSERTION_INFO, 0x2E0E, "ASSERTION_INFO"},
        {UAF_TAG_NONCE, 0x2E0F, "NONCE"},
        {UAF_TAG_TRANSACTION_CONTENT_HASH, 0x2E10, "TRANSACTION_CONTENT_HASH"},
    };
    named_so(refused, COUNT(refused), 1 UAF_REFUSALS(ONE), refusal_name);
    named_so(statuses, COUNT(statuses), 0 UAF_STATUSES(ONE), uaf_status_name);
    named_so(tags, COUNT(tags), 0 UAF_TAGS(ONE), uaf_tag_name);

    static const struct named limits[] = {
        {UAF_LEAST_RESPONSE, 4096, "response output"},
        {UAF_LEAST_TABLE, 6912, "table output"},
        {UAF_MOST_COMMAND, 8192, "command"},
        {UAF_MOST_RECORDS, 32, "records"},
        {UAF_MOST_OWN, 8, "own records"},
        {UAF_MOST_HANDLES, 8, "key handles"},
        {UAF_AAID_SIZE, 9, "AAID"},
        {UAF_METADATA_SIZE, 15, "metadata"},
        {UAF_MIXED_SIZE, 32, "mixed token"},
        {UAF_KEY_ID_SIZE, 32, "KeyID"},
        {UAF_HASH_SIZE, 32, "hash"},
        {UAF_LEAST_NONCE, 8, "least nonce"},
        {UAF_MOST_NONCE, 32, "nonce"},
        {UAF_MOST_PUBLIC_KEY, 512, "public key"},
        {UAF_MOST_SIGNATURE, 512, "signature"},
        {UAF_MOST_CERTIFICATE, 2048, "certificate"},
        {UAF_MOST_APP_ID, 512, "AppID"},
        {UAF_MOST_CHALLENGE, 32, "challenge hash"},
        {UAF_MOST_USERNAME, 128, "username"},
        {UAF_ACCESS_TOKEN_SIZE, 32, "access token"},
        {UAF_MOST_FIELDS, 17, "fields"},
        {UAF_VERIFIED, 0, "verified"},
        {UAF_DENIED, 1, "denied"},
        {UAF_NOT_ENROLLED, 2, "not enrolled"},
        {UAF_CANCELLED, 3, "cancelled"},
        {UAF_NO_REPLY, 4, "no reply"},
        {UAF_LOCKED_OUT, 5, "locked out"},
        {UAF_SHOWN_CONFIRMED, 0, "display: confirmed"},
        {UAF_SHOWN_CANCELLED, 1, "display: cancelled"},
        {UAF_SHOWN_NOT_RENDERED, 2, "display: cannot render"},
        {UAF_SHOWN_NO_REPLY, 3, "display: no reply"},
        {UAF_NOT_GIVEN, 0, "not given"},
        {UAF_GIVEN, 1, "given"},
        {UAF_COMPLETE_REGISTRATION, 0, "a registration's completion"},
        {UAF_COMPLETE_SIGN, 1, "a sign's completion"},
        {UAF_BASIC_FULL, 0x3E07, "full attestation"},
        {UAF_BASIC_SURROGATE, 0x3E08, "surrogate attestation"},
    };
    for (size_t i = 0; i < COUNT(limits); i++)
        expect(limits[i].constant == limits[i].number, limits[i].name);

    char version[32];
    snprintf(version, sizeof version, "%d.%d", UAF_TOKEN_MAJOR, UAF_TOKEN_MINOR);
    expect(strcmp(version, UAF_TOKEN_VERSION) == 0, "the version's numbers and its text");
    expect(strcmp(version, "3.1") == 0, "the version");
}

int main(void)
{
    constants_and_names();
    lend_all();
    fill_pool();
    get_info();
    registers();
    signs();
    deregisters_and_settings();
    refusals();
    numbers_lent();
    empty_stretches();
    nothing_lent();
    completes();
    reads();
    writes_these_bytes();
    given_or_not();
    marks();
    field_lengths();
    attestation_types();
    key_handles();
    longest_commands();
    written_and_run();
    hashes();
    holders();
    contents();
    withdraws();
    after_a_register();
    every_byte_of_both();
    withdrawals_of_one_holder();
    withdrawals_refused();
    lent_from_the_table();
    usernames();
    examples();
    printf("header: %d checks, %s\n", checks,
#ifdef __cplusplus
           "as C++"
#else
           "as C"
#endif
    );
    return 0;
}
