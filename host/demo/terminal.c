#include "terminal.h"

#include <openssl/crypto.h>

#include "fail.h"
#include "show.h"
#include "tlv.h"

static const char table_file[] = "table";
static const char attestation_key_file[] = "attestation.key";
static const char certificate_file[] = "attestation.cert";

static void store_key(const struct store *store, const char *name, EVP_PKEY *key)
{
    struct blob der;
    key_write(key, &der);
    store_replace(store, name, FILLED(der));
    OPENSSL_cleanse(&der, sizeof der);
}

/* NULL where there is no such file or no private key in it. */
static EVP_PKEY *stored_key(const struct store *store, const char *name)
{
    struct blob der;
    EVP_PKEY *key = NULL;
    if (store_read(store, name, der.bytes, sizeof der.bytes, &der.size))
        key = key_read(FILLED(der));
    OPENSSL_cleanse(&der, sizeof der);
    return key;
}

/* A KeyID is the hash of its public key. */
static struct hash key_id_of(EVP_PKEY *key, struct blob *public_key)
{
    public_key_write(key, public_key);
    return sha256(FILLED(*public_key));
}

static EVP_PKEY *record_key(const struct store *store, struct bytes key_id)
{
    struct blob public_key;
    EVP_PKEY *key = stored_key(store, key_file(key_id).letters);
    if (key == NULL)
        fail_because(key_file(key_id).letters, "a record's key is missing or is none");
    struct hash its_id = key_id_of(key, &public_key);
    if (!same(WHOLE(its_id.bytes), key_id))
        fail_because(key_file(key_id).letters, "the key of another record");
    return key;
}

/* The token itself says whether a table is one: it refuses every command on any other. */
static void check_table(const struct table *table)
{
    struct command command;
    struct answer answer;
    require_written(write_get_info(&command));
    struct bytes none = nothing();
    struct lent lent = {0, 0, none, none, none};
    if (token_command(FILLED(command), &lent, table, &answer) != 0)
        fail_because(table_file, "the token refuses it; nothing was changed");
}

static void check_keys(const struct terminal *terminal)
{
    struct record record;
    for (struct bytes rest = FILLED(terminal->table); record_next(&rest, &record);)
        EVP_PKEY_free(record_key(&terminal->store, record.key_id));
}

/* Made once for a token. The certificate is written last, so where there is one there is its key. */
static void open_attestation(struct terminal *terminal)
{
    const struct store *store = &terminal->store;
    struct blob *certificate = &terminal->certificate;
    if (store_read(store, certificate_file, certificate->bytes, sizeof certificate->bytes, &certificate->size)) {
        terminal->attestation_key = stored_key(store, attestation_key_file);
        if (terminal->attestation_key == NULL)
            fail_because(attestation_key_file, "missing or no key");
        return;
    }
    terminal->attestation_key = key_new();
    certificate_new(terminal->attestation_key, certificate);
    store_key(store, attestation_key_file, terminal->attestation_key);
    store_replace(store, certificate_file, FILLED(*certificate));
}

void terminal_read_table(const struct terminal *terminal, struct table *table)
{
    if (!store_read(&terminal->store, table_file, table->bytes, sizeof table->bytes, &table->size))
        table->size = 0;
}

bool terminal_has_key(const struct terminal *terminal, struct bytes key_id)
{
    EVP_PKEY *key = stored_key(&terminal->store, key_file(key_id).letters);
    bool is_there = key != NULL;
    EVP_PKEY_free(key);
    return is_there;
}

void terminal_open(struct terminal *terminal, const char *path, size_t *swept)
{
    store_open(&terminal->store, path);
    terminal_read_table(terminal, &terminal->table);
    check_table(&terminal->table);
    check_keys(terminal);
    *swept = store_sweep(&terminal->store, &terminal->table);
    open_attestation(terminal);
    terminal->quiet = terminal->chip_fails = false;
}

void terminal_close(struct terminal *terminal)
{
    EVP_PKEY_free(terminal->attestation_key);
    store_close(&terminal->store);
}

static void say(const struct terminal *terminal, const char *what, struct bytes key_id)
{
    if (!terminal->quiet)
        show_event(what, key_id);
}

static void say_removals(const struct terminal *terminal, const struct table *left, const char *what)
{
    struct record record, still;
    for (struct bytes rest = FILLED(terminal->table); record_next(&rest, &record);)
        if (!record_find(left, record.key_id, &still))
            say(terminal, what, record.key_id);
}

static void say_additions(const struct terminal *terminal, const struct table *left)
{
    struct record record, before;
    for (struct bytes rest = FILLED(*left); record_next(&rest, &record);) {
        if (!record_find(&terminal->table, record.key_id, &before))
            say(terminal, "stored", record.key_id);
        else if (before.count != record.count && !terminal->quiet)
            show_count(record.key_id, record.count);
    }
}

static void remove_keys(const struct terminal *terminal, const struct table *left)
{
    struct record record, still;
    bool any = false;
    for (struct bytes rest = FILLED(terminal->table); record_next(&rest, &record);) {
        if (record_find(left, record.key_id, &still))
            continue;
        store_remove(&terminal->store, key_file(record.key_id).letters);
        any = true;
    }
    if (any)
        store_flush(&terminal->store);
}

/* What is said of records that go: before it begins, and when it is done. */
struct words {
    const char *going, *gone;
};
static const struct words removal = {"removing", "removed"}, withdrawal = {"withdrawing", "withdrawn"};

/* Puts the table left on disk. The order makes a crash harmless: a new key is there before the table that has its record,
 * and a removed record's key goes after the table without it, so that every record on disk has its key. What is said here
 * is true of the disk: "stored", "removed" and "withdrawn" when it is done, "removing" and "withdrawing" before it begins. */
static void keep(
    struct terminal *terminal, const struct table *left, EVP_PKEY *fresh, struct bytes fresh_id, const struct words *words)
{
    if (same(FILLED(terminal->table), FILLED(*left)))
        return;
    say_removals(terminal, left, words->going);
    if (fresh != NULL)
        store_key(&terminal->store, key_file(fresh_id).letters, fresh);
    store_replace(&terminal->store, table_file, FILLED(*left));
    say_additions(terminal, left);
    remove_keys(terminal, left);
    say_removals(terminal, left, words->gone);
    terminal->table = *left;
}

/* The KeyID in a Sign's draft says whose key signs. */
static struct bytes key_id_in(struct bytes draft)
{
    const uint8_t *key_id = uaf_draft_key_id(draft.at, draft.size);
    if (key_id == NULL)
        fail_because("draft", "not a Sign's");
    return (struct bytes){key_id, UAF_KEY_ID_SIZE};
}

/* A registration is signed by the attestation key, with its certificate, or in surrogate by the new key itself. */
static uint32_t complete_registration(
    const struct terminal *terminal, const struct request *request, EVP_PKEY *fresh, struct bytes draft,
    struct response *response)
{
    bool full = request->attestation == UAF_BASIC_FULL;
    struct blob signature;
    key_sign(full ? terminal->attestation_key : fresh, draft, &signature);
    return token_complete(
        UAF_COMPLETE_REGISTRATION, draft, request->attestation, FILLED(signature),
        full ? FILLED(terminal->certificate) : nothing(), response);
}

static uint32_t complete_sign(const struct terminal *terminal, struct bytes draft, struct response *response)
{
    EVP_PKEY *key = record_key(&terminal->store, key_id_in(draft));
    struct blob signature;
    key_sign(key, draft, &signature);
    EVP_PKEY_free(key);
    return token_complete(UAF_COMPLETE_SIGN, draft, 0, FILLED(signature), nothing(), response);
}

/* The answer as a response. */
static void finish(
    const struct terminal *terminal, const struct request *request, EVP_PKEY *fresh, const struct answer *answer,
    struct response *response)
{
    uint32_t refusal = 0;
    if (answer->kind != UAF_DRAFT) {
        memcpy(response->bytes, answer->bytes, answer->size);
        response->size = answer->size;
    } else if (fresh != NULL) {
        refusal = complete_registration(terminal, request, fresh, FILLED(*answer), response);
    } else {
        refusal = complete_sign(terminal, FILLED(*answer), response);
    }
    if (refusal != 0)
        fail_because("completion", "the token refuses what this program lends");
    if (token_read(response) != 0)
        fail_because("response", "the token does not read what it wrote");
}

/* A draft that the chip does not sign is thrown away here, and no other copy of it is kept: should the chip come round, there
 * is nothing left for it to sign. */
static void leave_unsigned(struct terminal *terminal, EVP_PKEY *fresh, const struct hash *fresh_id, struct response *response)
{
    response->size = response->signed_length = 0;
    if (fresh != NULL)
        terminal->unsigned_id = *fresh_id;
}

uint32_t terminal_run(struct terminal *terminal, const struct request *request, struct response *response)
{
    uint8_t nonce[16];
    struct answer answer;
    struct blob public_key = {.size = 0};
    struct hash key_id = {{0}};
    EVP_PKEY *fresh = NULL;
    if (number((struct bytes){request->command.bytes, 2}) == UAF_TAG_REGISTER_CMD) {
        fresh = key_new();
        key_id = key_id_of(fresh, &public_key);
    }
    random_bytes(nonce, sizeof nonce);
    struct lent lent = {
        .verdict = request->verdict,
        .display = request->display,
        .key_id = WHOLE(key_id.bytes),
        .public_key = FILLED(public_key),
        .nonce = WHOLE(nonce),
    };
    uint32_t refusal = token_command(FILLED(request->command), &lent, &terminal->table, &answer);
    if (refusal == 0) {
        keep(terminal, &answer.left, fresh, WHOLE(key_id.bytes), &removal);
        if (answer.kind == UAF_DRAFT && terminal->chip_fails)
            leave_unsigned(terminal, fresh, &key_id, response);
        else
            finish(terminal, request, fresh, &answer, response);
    }
    EVP_PKEY_free(fresh);
    return refusal;
}

/* The record of a Register is on disk before the chip is asked, so that no server ever knows a key that a power cut took from
 * the token; where the chip then fails, the record has to go again. It goes as in every other change: the table without it,
 * then its key. What a power cut leaves:
 *
 *     before the table that has the record     its key alone, which the next start sweeps
 *     from then on                             the record and its key, as where a response is lost on its way
 *     from the table without the record on     its key alone, which the next start sweeps
 *
 * So there is never a record without its key, as there would be if the key went first. The next start does not take back the
 * record of the second line: it cannot tell it from one whose response has left, and a key that a server knows must stay. It
 * goes with its firm's Deregister. The draft is thrown away before this begins, so no server hears of the key afterwards. */
uint32_t terminal_withdraw(struct terminal *terminal, struct caller caller, struct bytes key_id)
{
    struct hash mixed = token_hash(caller.access_token, caller.app_id);
    struct table left;
    uint32_t refusal = token_withdraw(WHOLE(mixed.bytes), key_id, &terminal->table, &left);
    if (refusal == 0)
        keep(terminal, &left, NULL, nothing(), &withdrawal);
    return refusal;
}
