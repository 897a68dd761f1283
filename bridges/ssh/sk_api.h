// The functions and types of a library for SSH_SK_PROVIDER, as OpenSSH 8.9 to 9.x defines them in PROTOCOL.u2f and
// sk-api.h (API major version 10). The library allocates responses with malloc, and OpenSSH frees them.
#ifndef SK_API_H
#define SK_API_H

#include <stddef.h>
#include <stdint.h>

#define SK_CALL __attribute__((visibility("default")))

enum { SK_VERSION = 0x000a0000 };

enum { SK_PRESENCE = 0x01, SK_VERIFICATION = 0x04, SK_FORCE = 0x10, SK_RESIDENT = 0x20 };

enum { SK_ECDSA = 0, SK_ED25519 = 1 };

enum {
    SK_DONE = 0,
    SK_GENERAL = -1,
    SK_UNSUPPORTED = -2,
    SK_PIN_REQUIRED = -3,
    SK_NO_DEVICE = -4,
    SK_CREDENTIAL_EXISTS = -5
};

struct sk_enroll_response {
    uint8_t flags;
    uint8_t *public_key; // ECDSA: the uncompressed point, 65 bytes
    size_t public_key_len;
    uint8_t *key_handle;
    size_t key_handle_len;
    uint8_t *signature;
    size_t signature_len;
    uint8_t *attestation_cert;
    size_t attestation_cert_len;
    uint8_t *authdata;
    size_t authdata_len;
};

struct sk_sign_response {
    uint8_t flags;
    uint32_t counter;
    uint8_t *sig_r;
    size_t sig_r_len;
    uint8_t *sig_s;
    size_t sig_s_len;
};

struct sk_resident_key {
    uint32_t alg;
    size_t slot;
    char *application;
    struct sk_enroll_response key;
    uint8_t flags;
    uint8_t *user_id;
    size_t user_id_len;
};

// A named option of a call. A list of options is an array of pointers that ends with NULL.
struct sk_option {
    char *name;
    char *value;
    uint8_t required;
};

SK_CALL uint32_t sk_api_version(void);
SK_CALL int sk_enroll(uint32_t alg, const uint8_t *challenge, size_t challenge_len, const char *application,
                      uint8_t flags, const char *pin, struct sk_option **options,
                      struct sk_enroll_response **enroll_response);
SK_CALL int sk_sign(uint32_t alg, const uint8_t *data, size_t data_len, const char *application,
                    const uint8_t *key_handle, size_t key_handle_len, uint8_t flags, const char *pin,
                    struct sk_option **options, struct sk_sign_response **sign_response);
SK_CALL int sk_load_resident_keys(const char *pin, struct sk_option **options, struct sk_resident_key ***keys,
                                  size_t *count);

#endif
