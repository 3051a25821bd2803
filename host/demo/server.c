#include "server.h"

#include <stdio.h>

#include "fail.h"
#include "keys.h"
#include "tlv.h"

static void require(bool holds, const char *what)
{
    if (!holds)
        fail_because("server refuses a response", what);
}

static bool is_hash_of(struct bytes value, struct bytes bytes)
{
    struct hash hash = sha256(bytes);
    return same(value, WHOLE(hash.bytes));
}

/* What the token hashed, against libcrypto; and so what it gives when it is asked for the hash alone. */
static bool is_token_hash_of(struct bytes value, struct bytes first, struct bytes second)
{
    struct hash hash = sha256_of_both(first, second), asked = token_hash(first, second);
    return same(value, WHOLE(hash.bytes)) && same(WHOLE(asked.bytes), WHOLE(hash.bytes));
}

static void check_signature(const struct response *response, EVP_PKEY *key)
{
    require(key != NULL, "no key to check with");
    require(key_verifies(key, signed_part(response), field_of(response, UAF_TAG_SIGNATURE)), "signature");
    EVP_PKEY_free(key);
}

/* With full attestation the certificate's key signed, in surrogate the new key itself. */
static EVP_PKEY *attesting_key(const struct response *response)
{
    struct bytes certificate = field_of(response, UAF_TAG_CERT);
    return certificate.size > 0 ? certificate_key(certificate) : public_key_read(field_of(response, UAF_TAG_PUB_KEY));
}

void server_enrol(struct server *server, const char *username, struct bytes challenge, const struct response *response)
{
    struct bytes key_id = field_of(response, UAF_TAG_KEYID), public_key = field_of(response, UAF_TAG_PUB_KEY);
    require(is_hash_of(field_of(response, UAF_TAG_FINAL_CHALLENGE_HASH), challenge), "challenge");
    check_signature(response, attesting_key(response));

    require(server->count < sizeof server->accounts / sizeof server->accounts[0], "too many accounts");
    struct account *account = &server->accounts[server->count++];
    require(key_id.size == sizeof account->key_id.bytes, "KeyID");
    require(public_key.size <= sizeof account->public_key.bytes, "public key");
    snprintf(account->username, sizeof account->username, "%s", username);
    account->count = 0;
    copy(account->key_id.bytes, key_id);
    copy(account->public_key.bytes, public_key);
    account->public_key.size = public_key.size;
}

void server_check_holder(struct caller caller, struct bytes mixed)
{
    require(is_token_hash_of(mixed, caller.access_token, caller.app_id), "mixed token");
}

static struct account *account_of(struct server *server, struct bytes key_id)
{
    for (size_t i = 0; i < server->count; i++)
        if (same(WHOLE(server->accounts[i].key_id.bytes), key_id))
            return &server->accounts[i];
    return NULL;
}

const struct account *server_book(
    struct server *server, struct bytes challenge, struct bytes content, const struct response *response)
{
    struct account *account = account_of(server, field_of(response, UAF_TAG_KEYID));
    struct bytes content_hash = field_of(response, UAF_TAG_TRANSACTION_CONTENT_HASH);
    uint32_t count = number(field_of(response, UAF_TAG_COUNTERS));
    require(account != NULL, "no such account");
    require(is_hash_of(field_of(response, UAF_TAG_FINAL_CHALLENGE_HASH), challenge), "challenge");
    require(content.size > 0 ? is_token_hash_of(content_hash, content, nothing()) : content_hash.size == 0, "content");
    check_signature(response, public_key_read(FILLED(account->public_key)));
    require(count > account->count, "a count that is not new");
    account->count = count;
    return account;
}
