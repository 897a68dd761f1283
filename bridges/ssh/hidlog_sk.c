// An OpenSSH security key provider (a library for SSH_SK_PROVIDER) that uses an in-memory key instead of a USB key.
//
//     gcc -shared -fPIC -fvisibility=hidden -I release -I examples/c -o libhidlog_sk.so
//     bridges/ssh/{hidlog_sk,state}.c
//         examples/c/{fido_device,virtual_key,private_file,software_keys,snapshot}.c release/libhidlog.a
//         -Wl,--exclude-libs,ALL
//         -lfido2 -lcrypto
//     export SSH_SK_PROVIDER=$PWD/libhidlog_sk.so HIDLOG_SK_STATE=$PWD/key.state
//     ssh-keygen -t ecdsa-sk
//
// For tests only: the simulated user always touches the key, or always refuses if HIDLOG_SK_PRESENCE=denied.
#define _POSIX_C_SOURCE 200809L
#include "sk_api.h"

#include "fido_device.h"
#include "state.h"

#include <openssl/bn.h>
#include <openssl/crypto.h>
#include <openssl/ecdsa.h>
#include <stdlib.h>
#include <string.h>

// Not protected by a lock, since OpenSSH calls the provider from only one thread of its helper program.
static struct state state;

static fido_dev_t *open_device(void) {
    const char *presence = getenv("HIDLOG_SK_PRESENCE");
    if (!state_open(&state)) {
        return NULL;
    }
    state.vkey.presence =
        presence != NULL && strcmp(presence, "denied") == 0 ? HIDLOG_PRESENCE_DENIED : HIDLOG_PRESENCE_GRANTED;
    fido_init(0);
    fido_dev_t *device = fido_device_open(&state.vkey);
    if (device == NULL) {
        state_close(&state);
    }
    return device;
}

static void close_device(fido_dev_t *device) {
    fido_dev_close(device);
    fido_dev_free(&device);
    state_close(&state);
}

static int to_sk_error(int error) {
    switch (error) {
    case FIDO_OK:
        return SK_DONE;
    case FIDO_ERR_UNSUPPORTED_ALGORITHM:
    case FIDO_ERR_UNSUPPORTED_OPTION:
        return SK_UNSUPPORTED;
    case FIDO_ERR_NO_CREDENTIALS:
        return SK_NO_DEVICE;
    default:
        return SK_GENERAL;
    }
}

// Copies bytes into a newly allocated buffer, and stores the buffer and its length in a response's members `to` and
// `to_len`. Returns false if there are no bytes or there is no memory.
static bool copy_bytes(uint8_t **to, size_t *to_len, const uint8_t *bytes, size_t len) {
    *to = bytes == NULL ? NULL : malloc(len);
    if (*to == NULL) {
        return false;
    }
    memcpy(*to, bytes, len);
    *to_len = len;
    return true;
}

static bool copy_point(struct sk_enroll_response *response, const uint8_t x[32], const uint8_t y[32]) {
    uint8_t point[65] = {0x04};
    memcpy(point + 1, x, 32);
    memcpy(point + 33, y, 32);
    return copy_bytes(&response->public_key, &response->public_key_len, point, sizeof point);
}

static void free_enroll_members(struct sk_enroll_response *response) {
    free(response->public_key);
    free(response->key_handle);
    free(response->signature);
    free(response->authdata);
}

static struct sk_enroll_response *to_enroll_response(const fido_cred_t *cred, uint8_t flags) {
    struct sk_enroll_response *response = calloc(1, sizeof *response);
    const uint8_t *point = fido_cred_pubkey_ptr(cred);
    if (response == NULL || fido_cred_pubkey_len(cred) != 64) {
        free(response);
        return NULL;
    }
    response->flags = flags;
    if (!copy_point(response, point, point + 32) ||
        !copy_bytes(&response->key_handle, &response->key_handle_len, fido_cred_id_ptr(cred), fido_cred_id_len(cred)) ||
        !copy_bytes(&response->signature, &response->signature_len, fido_cred_sig_ptr(cred), fido_cred_sig_len(cred)) ||
        !copy_bytes(&response->authdata, &response->authdata_len, fido_cred_authdata_ptr(cred),
                    fido_cred_authdata_len(cred))) {
        free_enroll_members(response);
        free(response);
        return NULL;
    }
    return response;
}

// Reads the user handle from OpenSSH's options: the value of the option "user", zero-padded to 32 bytes, or 32 zeros
// without that option. Returns false if a required option is another one, or is a user of more than 32 bytes.
static bool read_user(struct sk_option **options, uint8_t user[32]) {
    memset(user, 0, 32);
    for (size_t i = 0; options != NULL && options[i] != NULL; i++) {
        size_t len = strlen(options[i]->value);
        if (strcmp(options[i]->name, "user") == 0 && len <= 32) {
            memcpy(user, options[i]->value, len);
        } else if (options[i]->required) {
            return false;
        }
    }
    return true;
}

// Returns whether the key has a discoverable credential for this application and user. A new discoverable credential
// would replace it.
static bool has_credential(const char *application, const uint8_t user[32]) {
    struct hidlog_credential found;
    for (size_t i = 0; hidlog_key_get_credential(&state.vkey.key, i, &found) == 0; i++) {
        const char *owner = state_application(&state, found.id);
        if (found.discoverable && owner != NULL && strcmp(owner, application) == 0 && found.user_id_len == 32 &&
            memcmp(found.user_id, user, 32) == 0) {
            return true;
        }
    }
    return false;
}

static int make_credential(fido_dev_t *device, fido_cred_t *cred, const char *application, uint8_t flags,
                           struct sk_enroll_response **response) {
    int error = fido_dev_make_cred(device, cred, NULL);
    if (error == FIDO_OK) {
        error = fido_cred_verify_self(cred);
    }
    if (error != FIDO_OK) {
        return to_sk_error(error);
    }
    if (fido_cred_id_len(cred) != 32 || !state_add(&state, fido_cred_id_ptr(cred), application) ||
        !state_save(&state)) {
        return SK_GENERAL;
    }
    *response = to_enroll_response(cred, flags);
    return *response == NULL ? SK_GENERAL : SK_DONE;
}

uint32_t sk_api_version(void) {
    return SK_VERSION;
}

int sk_enroll(uint32_t alg, const uint8_t *challenge, size_t challenge_len, const char *application, uint8_t flags,
              const char *pin, struct sk_option **options, struct sk_enroll_response **enroll_response) {
    uint8_t user[32];
    (void)pin;
    if (alg != SK_ECDSA || (flags & SK_VERIFICATION) != 0 || !read_user(options, user) ||
        strlen(application) >= APPLICATION) {
        return SK_UNSUPPORTED;
    }
    fido_dev_t *device = open_device();
    fido_cred_t *cred = fido_cred_new();
    int result = device == NULL ? SK_NO_DEVICE : SK_GENERAL;
    if (device != NULL && (flags & (SK_RESIDENT | SK_FORCE)) == SK_RESIDENT && has_credential(application, user)) {
        result = SK_CREDENTIAL_EXISTS;
    } else if (device != NULL && fido_cred_set_type(cred, COSE_ES256) == FIDO_OK &&
               fido_cred_set_clientdata(cred, challenge, challenge_len) == FIDO_OK &&
               fido_cred_set_rp(cred, application, NULL) == FIDO_OK &&
               fido_cred_set_user(cred, user, sizeof user, "openssh", "openssh", NULL) == FIDO_OK &&
               fido_cred_set_rk(cred, (flags & SK_RESIDENT) != 0 ? FIDO_OPT_TRUE : FIDO_OPT_OMIT) == FIDO_OK) {
        result = make_credential(device, cred, application, flags, enroll_response);
    }
    fido_cred_free(&cred);
    if (device != NULL) {
        close_device(device);
    }
    return result;
}

// Copies r or s, the two integers of a signature, into a newly allocated buffer of a response, without leading zeros.
static bool copy_number(uint8_t **to, size_t *to_len, const BIGNUM *number) {
    uint8_t bytes[32];
    int len = BN_num_bytes(number) <= 32 ? BN_bn2bin(number, bytes) : 0;
    return len > 0 && copy_bytes(to, to_len, bytes, (size_t)len);
}

static struct sk_sign_response *to_sign_response(const fido_assert_t *assertion) {
    struct sk_sign_response *response = calloc(1, sizeof *response);
    const uint8_t *der = fido_assert_sig_ptr(assertion, 0);
    ECDSA_SIG *signature = d2i_ECDSA_SIG(NULL, &der, (long)fido_assert_sig_len(assertion, 0));
    if (response != NULL &&
        (signature == NULL || !copy_number(&response->sig_r, &response->sig_r_len, ECDSA_SIG_get0_r(signature)) ||
         !copy_number(&response->sig_s, &response->sig_s_len, ECDSA_SIG_get0_s(signature)))) {
        free(response->sig_r);
        free(response);
        response = NULL;
    }
    if (response != NULL) {
        response->flags = fido_assert_flags(assertion, 0);
        response->counter = fido_assert_sigcount(assertion, 0);
    }
    ECDSA_SIG_free(signature);
    return response;
}

// Requests an assertion from the key, and saves the key's state even if the key rejects the request, since the
// signature counter may have been incremented before.
static int sign(fido_dev_t *device, fido_assert_t *assertion, struct sk_sign_response **response) {
    int error = fido_dev_get_assert(device, assertion, NULL);
    bool is_saved = state_save(&state);
    if (error != FIDO_OK) {
        return to_sk_error(error);
    }
    *response = is_saved ? to_sign_response(assertion) : NULL;
    return *response == NULL ? SK_GENERAL : SK_DONE;
}

int sk_sign(uint32_t alg, const uint8_t *data, size_t data_len, const char *application, const uint8_t *key_handle,
            size_t key_handle_len, uint8_t flags, const char *pin, struct sk_option **options,
            struct sk_sign_response **sign_response) {
    uint8_t user[32];
    (void)pin;
    if (alg != SK_ECDSA || (flags & SK_VERIFICATION) != 0 || !read_user(options, user)) {
        return SK_UNSUPPORTED;
    }
    fido_dev_t *device = open_device();
    if (device == NULL) {
        return SK_NO_DEVICE;
    }
    fido_assert_t *assertion = fido_assert_new();
    int result = SK_GENERAL;
    if (fido_assert_set_clientdata(assertion, data, data_len) == FIDO_OK &&
        fido_assert_set_rp(assertion, application) == FIDO_OK &&
        fido_assert_allow_cred(assertion, key_handle, key_handle_len) == FIDO_OK &&
        fido_assert_set_up(assertion, (flags & SK_PRESENCE) != 0 ? FIDO_OPT_TRUE : FIDO_OPT_FALSE) == FIDO_OK) {
        result = sign(device, assertion, sign_response);
    }
    fido_assert_free(&assertion);
    close_device(device);
    return result;
}

static struct sk_resident_key *to_resident_key(const struct hidlog_credential *credential, const char *application) {
    struct sk_resident_key *key = calloc(1, sizeof *key);
    if (key == NULL) {
        return NULL;
    }
    key->alg = SK_ECDSA;
    key->application = strdup(application);
    key->flags = key->key.flags = SK_PRESENCE | SK_RESIDENT;
    if (key->application == NULL || !copy_point(&key->key, credential->x, credential->y) ||
        !copy_bytes(&key->key.key_handle, &key->key.key_handle_len, credential->id, sizeof credential->id) ||
        !copy_bytes(&key->user_id, &key->user_id_len, credential->user_id, credential->user_id_len)) {
        free_enroll_members(&key->key);
        free(key->application);
        free(key);
        return NULL;
    }
    return key;
}

int sk_load_resident_keys(const char *pin, struct sk_option **options, struct sk_resident_key ***keys, size_t *count) {
    struct hidlog_credential credential;
    (void)pin;
    (void)options;
    if (!state_open(&state)) {
        return SK_NO_DEVICE;
    }
    *count = 0;
    *keys = calloc(SOFTWARE_KEYS, sizeof **keys);
    for (size_t i = 0; hidlog_key_get_credential(&state.vkey.key, i, &credential) == 0; i++) {
        const char *application = state_application(&state, credential.id);
        // Skip credentials of other relying parties, as OpenSSH does with a device.
        if (*keys != NULL && credential.discoverable && application != NULL && strncmp(application, "ssh:", 4) == 0) {
            struct sk_resident_key *key = to_resident_key(&credential, application);
            if (key != NULL) {
                (*keys)[(*count)++] = key;
            }
        }
    }
    state_close(&state);
    return *keys == NULL ? SK_GENERAL : SK_DONE;
}
