#include "keys.h"

#include <limits.h>
#include <openssl/asn1.h>
#include <openssl/err.h>
#include <openssl/rand.h>
#include <openssl/x509.h>

#include "fail.h"

static _Noreturn void fail_crypto(const char *what)
{
    const char *reason = ERR_reason_error_string(ERR_peek_last_error());
    fail_because(what, reason != NULL ? reason : "libcrypto gives no reason");
}

struct hash sha256(struct bytes bytes)
{
    return sha256_of_both(bytes, nothing());
}

struct hash sha256_of_both(struct bytes first, struct bytes second)
{
    struct hash hash;
    unsigned int size = 0;
    EVP_MD_CTX *context = EVP_MD_CTX_new();
    if (context == NULL || EVP_DigestInit_ex(context, EVP_sha256(), NULL) != 1
        || EVP_DigestUpdate(context, first.at, first.size) != 1 || EVP_DigestUpdate(context, second.at, second.size) != 1
        || EVP_DigestFinal_ex(context, hash.bytes, &size) != 1 || size != sizeof hash.bytes)
        fail_crypto("SHA-256");
    EVP_MD_CTX_free(context);
    return hash;
}

void random_bytes(uint8_t *at, size_t size)
{
    if (size > INT_MAX || RAND_bytes(at, (int)size) != 1)
        fail_crypto("random bytes");
}

EVP_PKEY *key_new(void)
{
    EVP_PKEY *key = EVP_EC_gen("P-256");
    if (key == NULL)
        fail_crypto("new key");
    return key;
}

/* OpenSSL's DER writers give the length for NULL, and else write and move the pointer. */
#define WRITE_DER(writer, thing, out)                                             \
    do {                                                                          \
        int length = writer((thing), NULL);                                       \
        uint8_t *at = (out)->bytes;                                               \
        if (length <= 0 || (size_t)length > sizeof (out)->bytes)                  \
            fail_crypto(#writer);                                                 \
        if (writer((thing), &at) != length)                                       \
            fail_crypto(#writer);                                                 \
        (out)->size = (size_t)length;                                             \
    } while (0)

void key_write(EVP_PKEY *key, struct blob *out)
{
    WRITE_DER(i2d_PrivateKey, key, out);
}

/* OpenSSL's DER readers take a long, and a pointer that is not NULL. */
static bool is_readable(struct bytes der)
{
    return der.size > 0 && der.size <= LONG_MAX;
}

EVP_PKEY *key_read(struct bytes der)
{
    const uint8_t *at = der.at;
    return !is_readable(der) ? NULL : d2i_AutoPrivateKey(NULL, &at, (long)der.size);
}

void public_key_write(EVP_PKEY *key, struct blob *out)
{
    WRITE_DER(i2d_PUBKEY, key, out);
}

EVP_PKEY *public_key_read(struct bytes der)
{
    const uint8_t *at = der.at;
    return !is_readable(der) ? NULL : d2i_PUBKEY(NULL, &at, (long)der.size);
}

void key_sign(EVP_PKEY *key, struct bytes message, struct blob *signature)
{
    EVP_MD_CTX *context = EVP_MD_CTX_new();
    signature->size = sizeof signature->bytes;
    if (context == NULL || EVP_DigestSignInit(context, NULL, EVP_sha256(), NULL, key) != 1
        || EVP_DigestSign(context, signature->bytes, &signature->size, message.at, message.size) != 1)
        fail_crypto("signature");
    EVP_MD_CTX_free(context);
}

bool key_verifies(EVP_PKEY *key, struct bytes message, struct bytes signature)
{
    EVP_MD_CTX *context = EVP_MD_CTX_new();
    if (context == NULL || EVP_DigestVerifyInit(context, NULL, EVP_sha256(), NULL, key) != 1)
        fail_crypto("verification");
    bool verifies = EVP_DigestVerify(context, signature.at, signature.size, message.at, message.size) == 1;
    EVP_MD_CTX_free(context);
    return verifies;
}

/* The certificate names itself as its issuer. */
static bool name_itself(X509 *certificate)
{
    X509_NAME *name = X509_get_subject_name(certificate);
    return X509_NAME_add_entry_by_txt(name, "CN", MBSTRING_ASC, (const uint8_t *)"Tote window token attestation", -1, -1, 0) == 1
        && X509_set_issuer_name(certificate, name) == 1;
}

void certificate_new(EVP_PKEY *key, struct blob *out)
{
    const long twenty_years = 20L * 365 * 24 * 60 * 60;
    X509 *certificate = X509_new();
    if (certificate == NULL || X509_set_version(certificate, X509_VERSION_3) != 1
        || ASN1_INTEGER_set(X509_get_serialNumber(certificate), 1) != 1
        || X509_gmtime_adj(X509_getm_notBefore(certificate), 0) == NULL
        || X509_gmtime_adj(X509_getm_notAfter(certificate), twenty_years) == NULL
        || X509_set_pubkey(certificate, key) != 1 || !name_itself(certificate)
        || X509_sign(certificate, key, EVP_sha256()) == 0)
        fail_crypto("certificate");
    WRITE_DER(i2d_X509, certificate, out);
    X509_free(certificate);
}

EVP_PKEY *certificate_key(struct bytes der)
{
    const uint8_t *at = der.at;
    X509 *certificate = !is_readable(der) ? NULL : d2i_X509(NULL, &at, (long)der.size);
    EVP_PKEY *key = certificate == NULL ? NULL : X509_get_pubkey(certificate);
    X509_free(certificate);
    return key;
}
