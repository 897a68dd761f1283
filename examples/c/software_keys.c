#include "software_keys.h"

#include <openssl/core_names.h>
#include <openssl/crypto.h>
#include <openssl/ec.h>
#include <openssl/obj_mac.h>
#include <openssl/param_build.h>
#include <openssl/rand.h>
#include <string.h>

// Returns a slot without a key pair, or NULL if all slots are used.
static struct software_key *find_free_slot(struct software_keys *keys) {
    for (size_t i = 0; i < SOFTWARE_KEYS; i++) {
        if (keys->slots[i].pair == NULL) {
            return &keys->slots[i];
        }
    }
    return NULL;
}

// Reads the parameter of a key pair that has this name in libcrypto, as 32 bytes, big-endian.
static bool read_parameter(const EVP_PKEY *pair, const char *name, uint8_t number[32]) {
    BIGNUM *found = NULL;
    bool is_read = EVP_PKEY_get_bn_param(pair, name, &found) == 1 && BN_bn2binpad(found, number, 32) == 32;
    BN_clear_free(found);
    return is_read;
}

const struct software_key *software_keys_generate(struct software_keys *keys) {
    struct software_key *key = find_free_slot(keys);
    EVP_PKEY *pair = key == NULL ? NULL : EVP_EC_gen("P-256");
    if (pair == NULL || RAND_bytes(key->id, sizeof key->id) != 1 ||
        !read_parameter(pair, OSSL_PKEY_PARAM_EC_PUB_X, key->x) ||
        !read_parameter(pair, OSSL_PKEY_PARAM_EC_PUB_Y, key->y) ||
        !read_parameter(pair, OSSL_PKEY_PARAM_PRIV_KEY, key->secret)) {
        EVP_PKEY_free(pair);
        return NULL;
    }
    key->pair = pair;
    return key;
}

// Returns the curve, the public key and the private key as parameters for EVP_PKEY_fromdata, or NULL on failure.
static OSSL_PARAM *make_parameters(const struct software_key *key, BIGNUM *secret) {
    uint8_t point[65] = {POINT_CONVERSION_UNCOMPRESSED};
    OSSL_PARAM_BLD *builder = OSSL_PARAM_BLD_new();
    OSSL_PARAM *parameters = NULL;
    memcpy(point + 1, key->x, 32);
    memcpy(point + 33, key->y, 32);
    if (builder != NULL &&
        OSSL_PARAM_BLD_push_utf8_string(builder, OSSL_PKEY_PARAM_GROUP_NAME, SN_X9_62_prime256v1, 0) &&
        OSSL_PARAM_BLD_push_octet_string(builder, OSSL_PKEY_PARAM_PUB_KEY, point, sizeof point) &&
        OSSL_PARAM_BLD_push_BN(builder, OSSL_PKEY_PARAM_PRIV_KEY, secret)) {
        parameters = OSSL_PARAM_BLD_to_param(builder);
    }
    OSSL_PARAM_BLD_free(builder);
    return parameters;
}

// Returns whether the private key of a pair matches its public key.
static bool is_matching_pair(EVP_PKEY *pair) {
    EVP_PKEY_CTX *context = EVP_PKEY_CTX_new_from_pkey(NULL, pair, NULL);
    bool is_matching = context != NULL && EVP_PKEY_pairwise_check(context) == 1;
    EVP_PKEY_CTX_free(context);
    return is_matching;
}

bool software_keys_add(struct software_keys *keys, const struct software_key *key) {
    struct software_key *slot = find_free_slot(keys);
    BIGNUM *secret = BN_bin2bn(key->secret, sizeof key->secret, NULL);
    OSSL_PARAM *parameters = secret == NULL ? NULL : make_parameters(key, secret);
    EVP_PKEY_CTX *context = EVP_PKEY_CTX_new_from_name(NULL, "EC", NULL);
    EVP_PKEY *pair = NULL;
    if (slot != NULL && parameters != NULL && context != NULL && EVP_PKEY_fromdata_init(context) == 1 &&
        EVP_PKEY_fromdata(context, &pair, EVP_PKEY_KEYPAIR, parameters) == 1 && is_matching_pair(pair)) {
        *slot = *key;
        slot->pair = pair;
    } else {
        EVP_PKEY_free(pair);
        pair = NULL;
    }
    EVP_PKEY_CTX_free(context);
    OSSL_PARAM_free(parameters);
    BN_clear_free(secret);
    return pair != NULL;
}

const struct software_key *software_keys_find(const struct software_keys *keys, const uint8_t id[32]) {
    for (size_t i = 0; i < SOFTWARE_KEYS; i++) {
        const struct software_key *key = &keys->slots[i];
        if (key->pair != NULL && memcmp(key->id, id, sizeof key->id) == 0) {
            return key;
        }
    }
    return NULL;
}

size_t software_keys_sign(const struct software_keys *keys, const uint8_t id[32], const uint8_t *bytes, size_t len,
                          uint8_t signature[MAX_SIGNATURE]) {
    const struct software_key *key = software_keys_find(keys, id);
    EVP_MD_CTX *context = key == NULL ? NULL : EVP_MD_CTX_new();
    size_t signature_len = MAX_SIGNATURE;
    if (context == NULL || EVP_DigestSignInit(context, NULL, EVP_sha256(), NULL, key->pair) != 1 ||
        EVP_DigestSign(context, signature, &signature_len, bytes, len) != 1) {
        signature_len = 0;
    }
    EVP_MD_CTX_free(context);
    return signature_len;
}

void software_keys_free(struct software_keys *keys) {
    for (size_t i = 0; i < SOFTWARE_KEYS; i++) {
        EVP_PKEY_free(keys->slots[i].pair);
    }
    OPENSSL_cleanse(keys, sizeof *keys);
}
