// The key pairs of an in-memory security key, which libcrypto generates and signs with. The private keys are in clear
// text in memory, so this is for tests only.
#ifndef SOFTWARE_KEYS_H
#define SOFTWARE_KEYS_H

#include "hidlog.h"

#include <openssl/evp.h>
#include <stdbool.h>
#include <stddef.h>
#include <stdint.h>

// The number of slots for key pairs: one for each credential, and one for a credential that is being created. A
// signature in DER has at most 72 bytes.
enum { SOFTWARE_KEYS = HIDLOG_CAPACITY + 1, MAX_SIGNATURE = 72 };

struct software_key {
    uint8_t id[32];
    uint8_t x[32];
    uint8_t y[32];
    uint8_t secret[32]; // the private key, big-endian
    EVP_PKEY *pair;     // NULL: the slot is free
};

struct software_keys {
    struct software_key slots[SOFTWARE_KEYS];
};

// Generates a key pair on P-256 with a random credential ID, and stores it in a free slot. Returns NULL if all slots
// are used or libcrypto fails.
const struct software_key *software_keys_generate(struct software_keys *keys);

// Stores a copy of a key pair in a free slot; its member `pair` is ignored. Returns false if all slots are used, the
// private key does not match the public key, or libcrypto fails.
bool software_keys_add(struct software_keys *keys, const struct software_key *key);

// Returns the key pair of the credential with this ID, or NULL if there is none.
const struct software_key *software_keys_find(const struct software_keys *keys, const uint8_t id[32]);

// Signs bytes with the private key of the credential with this ID (ES256). Returns the length of the DER signature, or
// 0 if there is no such credential or libcrypto fails.
size_t software_keys_sign(const struct software_keys *keys, const uint8_t id[32], const uint8_t *bytes, size_t len,
                          uint8_t signature[MAX_SIGNATURE]);

void software_keys_free(struct software_keys *keys);

#endif
