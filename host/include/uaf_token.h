/* The token's exported entries: the command machine of a FIDO UAF first-factor roaming authenticator. What they give is proved, byte for byte,
 * to be what documents 01 and 02 define; that this header declares each entry as it is compiled is not proved, and is tested by calling each through
 * it (host/tests/header).
 *
 * Stretches. A stretch is a pointer and a length in bytes, at most PTRDIFF_MAX. Where the length is 0 the pointer is not followed: it may be NULL.
 * Otherwise it points to that many bytes, of any alignment.
 *
 * Numbers and arrays that an entry writes (answer, response_length, tags and so on) are lent by a pointer that is not NULL and is aligned for
 * its type, also where the call will be refused. An array that an entry reads (handle_sizes) is lent like a stretch, but aligned for its type, with
 * the number of its elements.
 *
 * Overlap. Inputs may overlap each other. An output, and a number or an array that an entry writes, overlaps nothing else that is lent: so the
 * table is read from one buffer and written into another, and a draft is copied out of the response output before it is completed into it.
 *
 * Results. An entry gives 0, or the number of one refusal. After a refusal no byte, number or array that was lent has changed. After 0 the bytes
 * of an output beyond the length written are as they were. Entries keep nothing between calls, so they may run at the same time.
 *
 * Usernames. A username is 1 to 128 bytes of well-formed UTF-8 by RFC 3629: each letter whole and in its shortest form, none a surrogate or over
 * U+10FFFF. NUL and other controls are letters like the rest, so a name is no C string. Any other name is answered by Register with status 0x08,
 * whatever the verdict; a table that has one is refused with 2, a list of names that has one is no response, 5, and no Register is written with
 * one, 6. So every name that the token writes or reads is text, and who has to shorten a name cuts it between two letters.
 *
 * What they need. The archive is for x86-64, ELF, the System V calling convention. It calls no function outside itself, not even of the C
 * library; it has no data that is written, uses no heap and makes no system call. A command takes less than 3 KB of stack, the hash less than 2,
 * a withdrawal, completion, reader and writers less than 1. */
#ifndef UAF_TOKEN_H
#define UAF_TOKEN_H

#include <stddef.h>
#include <stdint.h>

#ifdef __cplusplus
extern "C" {
#endif

/* The version of this interface. The major number rises where a caller that was right may now be wrong: an entry, a parameter, a constant, the
 * stored form or what an entry answers has changed or is gone. The minor number rises where something was added that such a caller need not
 * know, and begins again at 0 with a new major one.
 *
 * 3.1: uaf_withdraw, and refusal 7, which only it gives.
 * 3.0: the token hashes. uaf_command has two stretches fewer, the mixed token and the hash of the content, and works both out itself; an access
 * token has 32 bytes, where 2.1 took 1 to 32. uaf_hash is new. Stored tables are those of 2.1.
 * 2.1: the writers of commands, and refusal 6, which only they give.
 * 2.0: a username is UTF-8. For 1.0 any 1 to 128 bytes were one, so a table that 1.0 wrote may have a name for which 2.0 refuses it. */
#define UAF_TOKEN_MAJOR 3
#define UAF_TOKEN_MINOR 1
#define UAF_TOKEN_VERSION "3.1"

/* Refusals, statuses and tags stand in a list each, one X(NAME, number) for each of them. From these are made, below, the constants
 * UAF_REFUSED_NAME, UAF_STATUS_NAME and UAF_TAG_NAME, and the functions that give names for a log. */

/* Refusals. The papers have numbers for them and no names, so uaf_refusal_name gives what each means. */
#define UAF_REFUSALS(X) \
    X(OUTPUT, 1, "an output is too short") \
    X(TABLE, 2, "the stored table breaks a rule") \
    X(COMMAND, 3, "fewer than 4 bytes, or none of the five commands") \
    X(LENT, 4, "a lent result that this command or completion uses has a wrong length or number") \
    X(BYTES, 5, "no draft of this kind, or no response") \
    X(FIELD, 6, "a field or the number of key handles breaks a rule, or the command would be too long") \
    X(WITHDRAWAL, 7, "no record has both values, its counter is not 0, or it is not its holder's newest")

/* Statuses, in the STATUS_CODE of a response, by the names of UAF Authenticator Commands without UAF_CMD_STATUS_. */
#define UAF_STATUSES(X) \
    X(OK, 0x00) \
    X(ERR_UNKNOWN, 0x01) \
    X(ACCESS_DENIED, 0x02) \
    X(USER_NOT_ENROLLED, 0x03) \
    X(CANNOT_RENDER_TRANSACTION_CONTENT, 0x04) \
    X(USER_CANCELLED, 0x05) \
    X(CMD_NOT_SUPPORTED, 0x06) \
    X(ATTESTATION_NOT_SUPPORTED, 0x07) \
    X(PARAMS_INVALID, 0x08) \
    X(USER_NOT_RESPONSIVE, 0x0E) \
    X(INSUFFICIENT_RESOURCES, 0x0F) \
    X(USER_LOCKOUT, 0x10)

/* Tags, by the names of UAF Authenticator Commands without TAG_ and UAFV1_, some of them shortened as document 01 has them: METADATA and NONCE
 * are AUTHENTICATOR_METADATA and AUTHENTICATOR_NONCE there, CERT, BASIC_FULL and BASIC_SURROGATE begin with ATTESTATION_. These are all that a
 * command, a response, a draft or a stored table has, a command's skipped children aside. */
#define UAF_TAGS(X) \
    /* commands */ \
    X(GETINFO_CMD, 0x3401) \
    X(REGISTER_CMD, 0x3402) \
    X(SIGN_CMD, 0x3403) \
    X(DEREGISTER_CMD, 0x3404) \
    X(OPEN_SETTINGS_CMD, 0x3406) \
    /* responses: the tag that uaf_read_fields gives */ \
    X(GETINFO_CMD_RESPONSE, 0x3601) \
    X(REGISTER_CMD_RESPONSE, 0x3602) \
    X(SIGN_CMD_RESPONSE, 0x3603) \
    X(DEREGISTER_CMD_RESPONSE, 0x3604) \
    X(OPEN_SETTINGS_CMD_RESPONSE, 0x3606) \
    /* fields of a response: the tags that uaf_read_fields lists. Those marked c may stand in a command too */ \
    X(STATUS_CODE, 0x2808) \
    X(API_VERSION, 0x280E) \
    X(AUTHENTICATOR_INDEX, 0x280D) /* c */ \
    X(METADATA, 0x2809) \
    X(TC_DISPLAY_CONTENT_TYPE, 0x280C) \
    X(ASSERTION_SCHEME, 0x280A) \
    X(ATTESTATION_TYPE, 0x2807) /* c */ \
    X(USERNAME, 0x2806) /* c */ \
    X(KEYHANDLE, 0x2801) /* c */ \
    X(AAID, 0x2E0B) \
    X(ASSERTION_INFO, 0x2E0E) \
    X(NONCE, 0x2E0F) \
    X(FINAL_CHALLENGE_HASH, 0x2E0A) /* c */ \
    X(TRANSACTION_CONTENT_HASH, 0x2E10) \
    X(KEYID, 0x2E09) /* c */ \
    X(COUNTERS, 0x2E0D) \
    X(PUB_KEY, 0x2E0C) \
    X(SIGNATURE, 0x2E06) \
    X(CERT, 0x2E05) \
    /* fields of a command alone. A stored record has KEYHANDLE_ACCESS_TOKEN for the mixed token */ \
    X(USERVERIFY_TOKEN, 0x2803) \
    X(APPID, 0x2804) \
    X(KEYHANDLE_ACCESS_TOKEN, 0x2805) \
    X(TRANSACTION_CONTENT, 0x2810) \
    /* what holds other TLVs */ \
    X(AUTHENTICATOR_INFO, 0x3811) \
    X(USERNAME_AND_KEYHANDLE, 0x3802) \
    X(AUTHENTICATOR_ASSERTION, 0x280F) \
    X(REG_ASSERTION, 0x3E01) \
    X(AUTH_ASSERTION, 0x3E02) \
    X(KRD, 0x3E03) \
    X(SIGNED_DATA, 0x3E04) \
    X(BASIC_FULL, 0x3E07) \
    X(BASIC_SURROGATE, 0x3E08)

#define UAF_REFUSED_IS(name, number, words) UAF_REFUSED_##name = number,
#define UAF_STATUS_IS(name, number) UAF_STATUS_##name = number,
#define UAF_TAG_IS(name, number) UAF_TAG_##name = number,
enum { UAF_REFUSALS(UAF_REFUSED_IS) };
enum { UAF_STATUSES(UAF_STATUS_IS) };
enum { UAF_TAGS(UAF_TAG_IS) };
#undef UAF_REFUSED_IS
#undef UAF_STATUS_IS
#undef UAF_TAG_IS

/* What a refusal means, and the names of a status and of a tag without their prefixes; "none" for 0, which is no refusal, and "unknown" for a
 * number that is none of them. */
#define UAF_CASE_WORDS(name, number, words) case number: return words;
#define UAF_CASE_NAME(name, number) case number: return #name;
static inline const char *uaf_refusal_name(uint32_t refusal)
{
    switch (refusal) {
        case 0: return "none";
        UAF_REFUSALS(UAF_CASE_WORDS)
        default: return "unknown";
    }
}
static inline const char *uaf_status_name(size_t status)
{
    switch (status) {
        UAF_STATUSES(UAF_CASE_NAME)
        default: return "unknown";
    }
}
static inline const char *uaf_tag_name(size_t tag)
{
    switch (tag) {
        UAF_TAGS(UAF_CASE_NAME)
        default: return "unknown";
    }
}
#undef UAF_CASE_WORDS
#undef UAF_CASE_NAME

/* The least lengths of the two outputs; nothing longer is ever written. */
#define UAF_LEAST_RESPONSE 4096
#define UAF_LEAST_TABLE 6912

/* Limits: a command's length, records in all and with one mixed token, key handles in a Sign. */
#define UAF_MOST_COMMAND 8192
#define UAF_MOST_RECORDS 32
#define UAF_MOST_OWN 8
#define UAF_MOST_HANDLES 8

/* Lengths of what is lent, and of the fields in a command that have one. */
#define UAF_AAID_SIZE 9
#define UAF_METADATA_SIZE 15
#define UAF_MIXED_SIZE 32 /* a mixed token, which is a hash */
#define UAF_KEY_ID_SIZE 32 /* KeyID, and key handle, which is a KeyID */
#define UAF_HASH_SIZE 32
#define UAF_LEAST_NONCE 8
#define UAF_MOST_NONCE 32
#define UAF_MOST_PUBLIC_KEY 512
#define UAF_MOST_SIGNATURE 512
#define UAF_MOST_CERTIFICATE 2048
#define UAF_MOST_APP_ID 512
#define UAF_MOST_CHALLENGE 32
#define UAF_MOST_USERNAME 128 /* bytes, not letters: UTF-8, as is said above */
#define UAF_ACCESS_TOKEN_SIZE 32

/* The verdict of the fingerprint. */
#define UAF_VERIFIED 0
#define UAF_DENIED 1
#define UAF_NOT_ENROLLED 2
#define UAF_CANCELLED 3
#define UAF_NO_REPLY 4
#define UAF_LOCKED_OUT 5

/* The display's result. */
#define UAF_SHOWN_CONFIRMED 0
#define UAF_SHOWN_CANCELLED 1
#define UAF_SHOWN_NOT_RENDERED 2
#define UAF_SHOWN_NO_REPLY 3

/* What was written into the response output. A draft is no response: it is to be signed and completed. */
#define UAF_RESPONSE 0
#define UAF_DRAFT 1

/* Whether a field is given to a writer of commands. */
#define UAF_NOT_GIVEN 0
#define UAF_GIVEN 1

/* The writers of commands, one for each of the five, with its command's own fields, in the order of the tables of UAF Authenticator Commands, in which
 * they are written. The index is written as 0. Nothing is written that is not given. Refusals, in this order: 6, 1; for GetInfo and Open settings 1
 * alone. 1 is an output shorter than the command.
 *
 * 6 is a field that breaks its rule, which is the one that uaf_command goes by, or a command of more than UAF_MOST_COMMAND bytes: AppID is 1 to 512
 * bytes, the challenge hash 1 to 32, a username as is said above, an attestation type 0 to 65,535 (Register answers those that are neither of the two with
 * 0x07), the access token 32, a KeyID 32 or, for all records of the holder, 0, a key handle 32 and at most 8 of them; transaction content and
 * USERVERIFY_TOKEN are as long as the command has room for.
 *
 * Given or not. AppID, transaction content and USERVERIFY_TOKEN may be left away: before each stands UAF_GIVEN or UAF_NOT_GIVEN, and any other number is
 * 6. Neither the bytes nor the length of one that is not given are looked at. One that is given and empty is not the same as one that is not given:
 * an empty AppID is 6, and the other two are then written with length 0.
 *
 * Key handles run together in one stretch; handle_sizes has the length of each, in the order in which they are written, and one that is given twice is
 * written twice. Lengths that do not add up to the stretch are 6.
 *
 * After 0 the first *command_length bytes of command are the command. It has the index, these fields and nothing else, and breaks no rule:
 * uaf_command neither refuses it with 3 nor answers it with status 0x08. Every command that breaks no rule has one such form, no longer than it,
 * which uaf_command answers as it answers the command itself: the one that is written of its own fields. */
uint32_t uaf_write_get_info(uint8_t *command, size_t command_size, size_t *command_length);

uint32_t uaf_write_register(
    uint32_t app_id_given, const uint8_t *app_id, size_t app_id_size,
    const uint8_t *challenge, size_t challenge_size,
    const uint8_t *username, size_t username_size,
    uint32_t attestation,
    const uint8_t *access_token, size_t access_token_size,
    uint32_t verify_token_given, const uint8_t *verify_token, size_t verify_token_size,
    uint8_t *command, size_t command_size,
    size_t *command_length);

uint32_t uaf_write_sign(
    uint32_t app_id_given, const uint8_t *app_id, size_t app_id_size,
    const uint8_t *challenge, size_t challenge_size,
    uint32_t content_given, const uint8_t *content, size_t content_size,
    const uint8_t *access_token, size_t access_token_size,
    uint32_t verify_token_given, const uint8_t *verify_token, size_t verify_token_size,
    const uint8_t *handles, size_t handles_size,
    const size_t *handle_sizes, size_t handle_count,
    uint8_t *command, size_t command_size,
    size_t *command_length);

uint32_t uaf_write_deregister(
    uint32_t app_id_given, const uint8_t *app_id, size_t app_id_size,
    const uint8_t *key_id, size_t key_id_size,
    const uint8_t *access_token, size_t access_token_size,
    uint8_t *command, size_t command_size,
    size_t *command_length);

uint32_t uaf_write_open_settings(uint8_t *command, size_t command_size, size_t *command_length);

/* SHA-256 (FIPS 180-4) of the bytes of a first stretch followed by those of a second, either of which may be empty: for a mixed token the access token,
 * then the AppID. It has no refusal and gives a hash for every length; *hash has UAF_HASH_SIZE bytes. */
void uaf_hash(const uint8_t *first, size_t first_size, const uint8_t *second, size_t second_size, uint8_t hash[UAF_HASH_SIZE]);

/* Runs GetInfo, Register, Sign, Deregister or Open settings on a table in its stored form; the table before the first call has length 0.
 * Refusals, in this order: 1, 2, 3, 4.
 *
 * Lent are the profile (AAID of 9 bytes, version and algorithms, metadata of 15 bytes), the verdict, the display's result, a new KeyID (32) with its
 * public key (1 to 512) and a nonce (8 to 32). A command looks at what it uses, whatever the verdict and whether or not there is content: GetInfo at
 * the profile; Register at profile, verdict, KeyID and public key; Sign at profile, verdict, display's result and nonce; Deregister and Open
 * settings at nothing, so that they are never refused with 4.
 *
 * Hashes are the token's own. The holder's mixed token, by which a record is its holder's, is SHA-256 of the command's access token followed by its
 * AppID, or of the access token alone where no AppID is given: uaf_hash gives it to whoever needs it. The hash in signed data is SHA-256 of the
 * transaction content; without content, or with an empty one, nothing is hashed and the field has length 0.
 *
 * Numbers. Each lent number has 32 bits here, so that C cuts nothing off before the token judges it: as 8 bits a verdict of 256 would be 0,
 * verified. Out of range, and so refusal 4 for a command that looks at it, are a verdict over 5, a display's result over 3, and a version, a
 * signature algorithm or a key algorithm over 65,535, also where it would not be written.
 *
 * After 0: *answer says what was written, *response_length how many bytes; the first *table_length bytes of table_out are the stored form of
 * the table left, which the next call is given. It has changed only after a draft or a Deregister with status OK: after any other status it is
 * the table that was given, byte for byte. A raised count must be in lasting storage before the signature over it leaves the token. Whose key
 * signs a Sign's draft is said by the KeyID in it, uaf_draft_key_id; a registration's KeyID is the one that was lent.
 *
 * Content is asked about only where one record is chosen; a tie gives the list of names, whatever the display's result. As nothing is kept, a
 * first call that is lent UAF_SHOWN_CONFIRMED and then thrown away tells whether there is a draft, and so whether the content is to be shown. */
uint32_t uaf_command(
    const uint8_t *command, size_t command_size,
    const uint8_t *aaid, size_t aaid_size,
    uint32_t version, uint32_t signature_algorithm, uint32_t key_algorithm,
    const uint8_t *metadata, size_t metadata_size,
    uint32_t verdict, uint32_t display,
    const uint8_t *key_id, size_t key_id_size,
    const uint8_t *public_key, size_t public_key_size,
    const uint8_t *nonce, size_t nonce_size,
    const uint8_t *table, size_t table_size,
    uint8_t *response, size_t response_size,
    uint8_t *table_out, size_t table_out_size,
    uint32_t *answer, size_t *response_length, size_t *table_length);

/* Takes back a registration, by mixed token and KeyID: for a Register that made a draft which could not be signed, so that no server knows the key.
 * The record that has both goes; all others keep content and order. Nothing else is written. Refusals, in this order: 1, 2, 4, 7; 1 is a table
 * output shorter than UAF_LEAST_TABLE, 4 a mixed token or a KeyID that does not have 32 bytes.
 *
 * 7: no record has both values, or its counter is not 0, so that it has signed, or it is not its holder's newest, which is the last in the table
 * of those with this mixed token. The mixed token is the one by which uaf_command made the record, and uaf_hash gives it.
 *
 * After 0 the first *table_length bytes of table_out are the stored form of the table left. Directly after the Register, lent its mixed token and the
 * KeyID that it was lent, these are the table that the Register was given, byte for byte; where others have called since, theirs stay as they are, and
 * it is not refused with 7. */
uint32_t uaf_withdraw(
    const uint8_t *mixed, size_t mixed_size,
    const uint8_t *key_id, size_t key_id_size,
    const uint8_t *table, size_t table_size,
    uint8_t *table_out, size_t table_out_size,
    size_t *table_length);

/* Where the KeyID stands in a Sign's draft: the last two TLVs are KEYID and COUNTERS, of 4 bytes, so its value begins that many bytes before the
 * draft's end. The function gives its place, with UAF_KEY_ID_SIZE bytes, in a draft that uaf_command wrote, and NULL in a registration's. */
#define UAF_DRAFT_KEY_ID_FROM_END 40
static inline const uint8_t *uaf_draft_key_id(const uint8_t *draft, size_t draft_size)
{
    if (draft_size < UAF_DRAFT_KEY_ID_FROM_END || (draft[0] | draft[1] << 8) != UAF_TAG_SIGNED_DATA)
        return NULL;
    return draft + (draft_size - UAF_DRAFT_KEY_ID_FROM_END);
}

/* The kinds of completion, and the attestation types, which are tags. */
#define UAF_COMPLETE_REGISTRATION 0
#define UAF_COMPLETE_SIGN 1
#define UAF_BASIC_FULL UAF_TAG_BASIC_FULL
#define UAF_BASIC_SURROGATE UAF_TAG_BASIC_SURROGATE

/* Makes the response of a draft and its signature (1 to 512 bytes). A registration has an attestation type, and with full attestation one
 * certificate (1 to 2,048 bytes), with surrogate none; a sign ignores both. Refusals, in this order: 1, 5, 4.
 *
 * After 0 the first *response_length bytes of response are the response. */
uint32_t uaf_complete(
    uint32_t kind,
    const uint8_t *draft, size_t draft_size,
    uint32_t attestation,
    const uint8_t *signature, size_t signature_size,
    const uint8_t *certificate, size_t certificate_size,
    uint8_t *response, size_t response_size,
    size_t *response_length);

/* The reader's first call: where in a response the signed structure stands, KRD or SIGNED_DATA with its four header bytes. Refusal: 5, also for
 * a draft alone and for a list in which a username breaks its rule. After 0 it is the *part_length bytes from *place on; both are 0 for a response
 * without one. */
uint32_t uaf_signed_part(const uint8_t *response, size_t response_size, size_t *place, size_t *part_length);

/* The reader's second call: the response tag, the status and, in order, the tag, the value's place and the value's length of each field, that
 * is of each TLV that holds no other. Refusal: 5, as above. After 0 the first *count rows of the three arrays are the fields', the rest are 0; a
 * place counts from the response's first byte. Each array has 17 rows, which no response exceeds. */
#define UAF_MOST_FIELDS 17
uint32_t uaf_read_fields(
    const uint8_t *response, size_t response_size,
    size_t *tag, size_t *status, size_t *count,
    size_t tags[UAF_MOST_FIELDS], size_t places[UAF_MOST_FIELDS], size_t lengths[UAF_MOST_FIELDS]);

#ifdef __cplusplus
}
#endif

#endif
