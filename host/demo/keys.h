/* What the token leaves to the firmware, by OpenSSL's libcrypto: random bytes, P-256 keys, ECDSA signatures and the attestation
 * certificate; and SHA-256, for KeyIDs, for the firms' challenges, and to check the token's own hashes. Whatever fails in there
 * ends the program. */
#ifndef DEMO_KEYS_H
#define DEMO_KEYS_H

#include <openssl/evp.h>

#include "bytes.h"

struct hash sha256(struct bytes bytes);

/* Of one stretch followed by another. */
struct hash sha256_of_both(struct bytes first, struct bytes second);

void random_bytes(uint8_t *at, size_t size);

EVP_PKEY *key_new(void);

/* The private key as DER, to be kept, and back; NULL where the bytes are no private key. */
void key_write(EVP_PKEY *key, struct blob *out);
EVP_PKEY *key_read(struct bytes der);

/* The public key as DER SubjectPublicKeyInfo: ALG_KEY_ECC_X962_DER. */
void public_key_write(EVP_PKEY *key, struct blob *out);
EVP_PKEY *public_key_read(struct bytes der);

/* ECDSA over SHA-256, as DER: ALG_SIGN_SECP256R1_ECDSA_SHA256_DER. */
void key_sign(EVP_PKEY *key, struct bytes message, struct blob *signature);
bool key_verifies(EVP_PKEY *key, struct bytes message, struct bytes signature);

/* A certificate that the key signs for itself, as DER, and the public key in one. */
void certificate_new(EVP_PKEY *key, struct blob *out);
EVP_PKEY *certificate_key(struct bytes der);

#endif
