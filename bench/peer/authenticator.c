/* Implements the requests authenticatorMakeCredential, authenticatorGetAssertion and authenticatorGetInfo (CTAP 2.1,
 * section 6). */
#include "peer.h"

#include <openssl/sha.h>
#include <string.h>

enum {
    OK = 0x00,
    INVALID_COMMAND = 0x01,
    INVALID_PARAMETER = 0x02,
    INVALID_LENGTH = 0x03,
    UNEXPECTED_TYPE = 0x11,
    INVALID_CBOR = 0x12,
    MISSING_PARAMETER = 0x14,
    LIMIT_EXCEEDED = 0x15,
    CREDENTIAL_EXCLUDED = 0x19,
    UNSUPPORTED_ALGORITHM = 0x26,
    OPERATION_DENIED = 0x27,
    KEY_STORE_FULL = 0x28,
    UNSUPPORTED_OPTION = 0x2b,
    INVALID_OPTION = 0x2c,
    KEEPALIVE_CANCEL = 0x2d,
    NO_CREDENTIALS = 0x2e,
    OTHER = 0x7f,
};
enum {
    MAKE_CREDENTIAL = 1,
    GET_ASSERTION = 2,
    GET_INFO = 4,
    KEEPALIVE_PERIOD_MS = 100,
    PROCESSING = 1,
    UP_NEEDED = 2,
    HASH_BYTES = 32,
    MAX_RESPONSE_BYTES = 300
};

struct credential {
    uint8_t rp_id_hash[HASH_BYTES], id[HASH_BYTES], x[HASH_BYTES], y[HASH_BYTES], user_id[MAX_USER_ID_BYTES];
    uint8_t user_id_len;
    bool is_discoverable;
    uint32_t sign_count;
};

/* A request's members. */
struct request {
    struct string client_data_hash, rp_id, user_id, list[MAX_CREDENTIALS];
    size_t list_len;
    bool has_list, has_algorithms, has_algorithm, has_pin, has_attestation;
    bool rk, is_rk_given, up, uv;
};

static struct credential credentials[MAX_CREDENTIALS];
static int credential_count;
static struct stats stats;
static struct {
    enum need need;
    uint32_t channel;
    uint64_t last_keepalive_ms;
    bool is_make_credential, is_excluded, is_user_present;
    struct credential made;
    struct credential *used;
    uint8_t client_data_hash[HASH_BYTES];
} pending;

static void send_status(uint32_t channel, uint8_t status) {
    transport_send(channel, CBOR, &status, 1);
}

static void finish_request(uint8_t status) {
    pending.need = NO_NEED;
    send_status(pending.channel, status);
}

static void send_keepalive(uint64_t now_ms) {
    uint8_t status = pending.need == PRESENCE ? UP_NEEDED : PROCESSING;
    pending.last_keepalive_ms = now_ms;
    transport_send(pending.channel, KEEPALIVE, &status, 1);
}

bool authenticator_is_pending(void) {
    return pending.need != NO_NEED;
}

bool authenticator_is_pending_on(uint32_t channel) {
    return pending.need != NO_NEED && pending.channel == channel;
}

void authenticator_cancel(void) {
    finish_request(KEEPALIVE_CANCEL);
}

void authenticator_abort(void) {
    pending.need = NO_NEED;
}

void authenticator_advance_time(uint64_t now_ms) {
    if (pending.need != NO_NEED && now_ms - pending.last_keepalive_ms >= KEEPALIVE_PERIOD_MS) {
        send_keepalive(now_ms);
    }
}

struct stats authenticator_stats(void) {
    return stats;
}

static struct string read_key(struct reader *reader) {
    struct string key;
    return cbor_read_string(reader, TEXT, &key) ? key : (struct string){0};
}

/* The following functions each decode a parameter of a request, or skip it. They return OK, or a CTAP2 error status. */

static uint8_t read_rp(struct reader *reader, struct request *request) {
    uint64_t pairs;
    if (!cbor_read_count(reader, MAP, &pairs)) {
        return UNEXPECTED_TYPE;
    }
    for (; pairs > 0; pairs--) {
        struct string key = read_key(reader), name;
        if (string_equals(key, "id")) {
            if (!cbor_read_string(reader, TEXT, &request->rp_id)) {
                return UNEXPECTED_TYPE;
            }
        } else if (!string_equals(key, "name")) {
            cbor_skip(reader);
        } else if (!cbor_read_string(reader, TEXT, &name)) {
            return UNEXPECTED_TYPE;
        }
    }
    return OK;
}

static uint8_t read_user(struct reader *reader, struct request *request) {
    uint64_t pairs;
    if (!cbor_read_count(reader, MAP, &pairs)) {
        return UNEXPECTED_TYPE;
    }
    for (; pairs > 0; pairs--) {
        struct string key = read_key(reader), name;
        if (string_equals(key, "id")) {
            if (!cbor_read_string(reader, BYTES, &request->user_id)) {
                return UNEXPECTED_TYPE;
            }
        } else if (!string_equals(key, "name") && !string_equals(key, "displayName")) {
            cbor_skip(reader);
        } else if (!cbor_read_string(reader, TEXT, &name)) {
            return UNEXPECTED_TYPE;
        }
    }
    return OK;
}

static uint8_t read_algorithm(struct reader *reader, struct request *request) {
    uint64_t pairs, number = 0;
    struct string type = {0};
    enum major major = SIMPLE;
    if (!cbor_read_count(reader, MAP, &pairs)) {
        return UNEXPECTED_TYPE;
    }
    for (; pairs > 0; pairs--) {
        struct string key = read_key(reader);
        if (string_equals(key, "alg")) {
            number = cbor_read_head(reader, &major);
            if (major > NEGATIVE) {
                return UNEXPECTED_TYPE;
            }
        } else if (!string_equals(key, "type")) {
            cbor_skip(reader);
        } else if (!cbor_read_string(reader, TEXT, &type)) {
            return UNEXPECTED_TYPE;
        }
    }
    if (major == SIMPLE || type.data == NULL) {
        return MISSING_PARAMETER;
    }
    request->has_algorithm |= major == NEGATIVE && number == 6 && string_equals(type, "public-key");
    return OK;
}

static uint8_t read_algorithms(struct reader *reader, struct request *request) {
    uint64_t items;
    if (!cbor_read_count(reader, ARRAY, &items)) {
        return UNEXPECTED_TYPE;
    }
    uint8_t status = OK;
    for (; items > 0 && status == OK; items--) {
        status = read_algorithm(reader, request);
    }
    request->has_algorithms = true;
    return status;
}

static uint8_t read_descriptor(struct reader *reader, struct request *request) {
    uint64_t pairs;
    struct string id = {0}, type = {0};
    if (!cbor_read_count(reader, MAP, &pairs)) {
        return UNEXPECTED_TYPE;
    }
    for (; pairs > 0; pairs--) {
        struct string key = read_key(reader);
        if (string_equals(key, "id")) {
            if (!cbor_read_string(reader, BYTES, &id)) {
                return UNEXPECTED_TYPE;
            }
        } else if (!string_equals(key, "type")) {
            cbor_skip(reader);
        } else if (!cbor_read_string(reader, TEXT, &type)) {
            return UNEXPECTED_TYPE;
        }
    }
    if (id.data == NULL || type.data == NULL) {
        return MISSING_PARAMETER;
    }
    if (string_equals(type, "public-key") && request->list_len < MAX_CREDENTIALS) {
        request->list[request->list_len++] = id;
    }
    return OK;
}

static uint8_t read_list(struct reader *reader, struct request *request) {
    uint64_t items;
    if (!cbor_read_count(reader, ARRAY, &items)) {
        return UNEXPECTED_TYPE;
    }
    request->has_list = items > 0;
    uint8_t status = OK;
    for (; items > 0 && status == OK; items--) {
        status = read_descriptor(reader, request);
    }
    return status;
}

static uint8_t read_options(struct reader *reader, struct request *request) {
    uint64_t pairs;
    if (!cbor_read_count(reader, MAP, &pairs)) {
        return UNEXPECTED_TYPE;
    }
    for (; pairs > 0; pairs--) {
        struct string key = read_key(reader);
        bool *option = string_equals(key, "rk")   ? &request->rk
                       : string_equals(key, "up") ? &request->up
                       : string_equals(key, "uv") ? &request->uv
                                                : NULL;
        if (option == NULL) {
            cbor_skip(reader);
            continue;
        }
        enum major major;
        uint64_t number = cbor_read_head(reader, &major);
        if (major != SIMPLE || number > 21) {
            return UNEXPECTED_TYPE;
        }
        *option = number == 21;
        request->is_rk_given |= option == &request->rk;
    }
    return OK;
}

static uint8_t mark_present(struct reader *reader, bool *is_present) {
    cbor_skip(reader);
    *is_present = true;
    return OK;
}

static uint8_t read_make_credential_member(struct reader *reader, uint64_t member, struct request *request) {
    switch (member) {
    case 1:
        return cbor_read_string(reader, BYTES, &request->client_data_hash) ? OK : UNEXPECTED_TYPE;
    case 2:
        return read_rp(reader, request);
    case 3:
        return read_user(reader, request);
    case 4:
        return read_algorithms(reader, request);
    case 5:
        return read_list(reader, request);
    case 7:
        return read_options(reader, request);
    case 8:
        return mark_present(reader, &request->has_pin);
    case 10:
        return mark_present(reader, &request->has_attestation);
    default:
        cbor_skip(reader);
        return OK;
    }
}

static uint8_t read_get_assertion_member(struct reader *reader, uint64_t member, struct request *request) {
    switch (member) {
    case 1:
        return cbor_read_string(reader, TEXT, &request->rp_id) ? OK : UNEXPECTED_TYPE;
    case 2:
        return cbor_read_string(reader, BYTES, &request->client_data_hash) ? OK : UNEXPECTED_TYPE;
    case 3:
        return read_list(reader, request);
    case 5:
        return read_options(reader, request);
    case 6:
        return mark_present(reader, &request->has_pin);
    default:
        cbor_skip(reader);
        return OK;
    }
}

typedef uint8_t read_member(struct reader *reader, uint64_t member, struct request *request);

static uint8_t read_request(const uint8_t *map, size_t len, read_member *member, struct request *request) {
    struct reader reader = {map, map + len};
    uint64_t pairs;
    if (!cbor_read_count(&reader, MAP, &pairs)) {
        return UNEXPECTED_TYPE;
    }
    uint8_t status = OK;
    for (; pairs > 0 && status == OK; pairs--) {
        enum major major;
        const uint8_t *key = reader.next;
        uint64_t number = cbor_read_head(&reader, &major);
        if (major == UNSIGNED) {
            status = member(&reader, number, request);
        } else {
            reader.next = key;
            cbor_skip(&reader);
            cbor_skip(&reader);
        }
    }
    return status;
}

static uint8_t validate_make_credential(const struct request *request) {
    if (request->client_data_hash.data == NULL || request->rp_id.data == NULL || request->user_id.data == NULL ||
        !request->has_algorithms) {
        return MISSING_PARAMETER;
    }
    if (request->client_data_hash.len != HASH_BYTES || request->user_id.len > MAX_USER_ID_BYTES) {
        return INVALID_LENGTH;
    }
    if (request->has_pin) {
        return INVALID_PARAMETER;
    }
    if (!request->has_algorithm) {
        return UNSUPPORTED_ALGORITHM;
    }
    if (request->uv || !request->up) {
        return INVALID_OPTION;
    }
    return request->has_attestation ? INVALID_PARAMETER : OK;
}

static uint8_t validate_get_assertion(const struct request *request) {
    if (request->client_data_hash.data == NULL || request->rp_id.data == NULL) {
        return MISSING_PARAMETER;
    }
    if (request->client_data_hash.len != HASH_BYTES) {
        return INVALID_LENGTH;
    }
    if (request->has_pin) {
        return INVALID_PARAMETER;
    }
    if (request->uv) {
        return INVALID_OPTION;
    }
    return request->is_rk_given ? UNSUPPORTED_OPTION : OK;
}

static struct credential *find_credential(const uint8_t *rp_id_hash, struct string id) {
    for (int i = 0; id.len == HASH_BYTES && i < credential_count; i++) {
        if (memcmp(credentials[i].id, id.data, HASH_BYTES) == 0 &&
            memcmp(credentials[i].rp_id_hash, rp_id_hash, HASH_BYTES) == 0) {
            return &credentials[i];
        }
    }
    return NULL;
}

static struct credential *find_listed_credential(const uint8_t *rp_id_hash, const struct request *request) {
    struct credential *found = NULL;
    for (size_t i = 0; i < request->list_len && found == NULL; i++) {
        found = find_credential(rp_id_hash, request->list[i]);
    }
    return found;
}

static struct credential *find_newest_credential(const uint8_t *rp_id_hash) {
    for (int i = credential_count - 1; i >= 0; i--) {
        if (credentials[i].is_discoverable && memcmp(credentials[i].rp_id_hash, rp_id_hash, HASH_BYTES) == 0) {
            return &credentials[i];
        }
    }
    return NULL;
}

static struct credential *find_credential_of_user(const struct credential *made) {
    for (int i = 0; made->is_discoverable && i < credential_count; i++) {
        if (credentials[i].is_discoverable && credentials[i].user_id_len == made->user_id_len &&
            memcmp(credentials[i].rp_id_hash, made->rp_id_hash, HASH_BYTES) == 0 &&
            memcmp(credentials[i].user_id, made->user_id, made->user_id_len) == 0) {
            return &credentials[i];
        }
    }
    return NULL;
}

/* Hashes an RP ID with SHA-256. SHA256_Transform is faster for up to 55 bytes, which fit in one block. */
static void hash_rp_id(struct string rp_id, uint8_t hash[HASH_BYTES]) {
    if (rp_id.len > 55) {
        SHA256(rp_id.data, rp_id.len, hash);
        return;
    }
    uint8_t block[64] = {0};
    memcpy(block, rp_id.data, rp_id.len);
    block[rp_id.len] = 0x80;
    block[62] = (uint8_t)(rp_id.len >> 5);
    block[63] = (uint8_t)(rp_id.len << 3);
    SHA256_CTX context;
    SHA256_Init(&context);
    SHA256_Transform(&context, block);
    for (int i = 0; i < 8; i++) {
        uint32_t word = __builtin_bswap32(context.h[i]);
        memcpy(hash + 4 * i, &word, 4);
    }
}

static void set_need(uint64_t now_ms, enum need need) {
    pending.need = need;
    send_keepalive(now_ms);
}

static void begin_make_credential(uint64_t now_ms, const struct request *request) {
    struct credential *made = &pending.made;
    hash_rp_id(request->rp_id, made->rp_id_hash);
    memcpy(made->user_id, request->user_id.data, request->user_id.len);
    made->user_id_len = (uint8_t)request->user_id.len;
    made->is_discoverable = request->rk;
    pending.is_make_credential = true;
    pending.is_excluded = find_listed_credential(made->rp_id_hash, request) != NULL;
    set_need(now_ms, PRESENCE);
}

static void begin_get_assertion(uint64_t now_ms, const struct request *request) {
    uint8_t rp_id_hash[HASH_BYTES];
    hash_rp_id(request->rp_id, rp_id_hash);
    pending.used = request->has_list ? find_listed_credential(rp_id_hash, request) : find_newest_credential(rp_id_hash);
    if (pending.used == NULL) {
        finish_request(NO_CREDENTIALS);
        return;
    }
    if (pending.used->sign_count == UINT32_MAX) {
        finish_request(LIMIT_EXCEEDED);
        return;
    }
    pending.is_make_credential = false;
    pending.is_user_present = request->up;
    if (!request->up) {
        pending.used->sign_count++;
    }
    set_need(now_ms, request->up ? PRESENCE : SIGNATURE);
}

static const uint8_t info[] = "\x00\xa6\x01\x81\x68"
                              "FIDO_2_0"
                              "\x03\x50\0\0\0\0\0\0\0\0\0\0\0\0\0\0\0\0"
                              "\x04\xa3\x62"
                              "rk"
                              "\xf5\x62"
                              "up"
                              "\xf5\x64"
                              "plat"
                              "\xf4\x05\x19\x1d\xb9\x09\x81\x63"
                              "usb"
                              "\x0a\x81\xa2\x63"
                              "alg"
                              "\x26\x64"
                              "type"
                              "\x6a"
                              "public-key";

void authenticator_request(uint64_t now_ms, uint32_t channel, const uint8_t *message, size_t len) {
    stats.requests++;
    stats.bytes += len - 1;
    if (message[0] == GET_INFO) {
        len == 1 ? transport_send(channel, CBOR, info, sizeof info - 1) : send_status(channel, INVALID_LENGTH);
        return;
    }
    if (message[0] != MAKE_CREDENTIAL && message[0] != GET_ASSERTION) {
        send_status(channel, INVALID_COMMAND);
        return;
    }
    uint64_t steps;
    bool is_canonical = cbor_check(message + 1, len - 1, &steps);
    stats.steps += is_canonical ? 2 * steps : steps;
    if (!is_canonical) {
        send_status(channel, INVALID_CBOR);
        return;
    }
    bool is_make_credential = message[0] == MAKE_CREDENTIAL;
    struct request request;
    memset(&request, 0, offsetof(struct request, list));
    memset(&request.list_len, 0, sizeof request - offsetof(struct request, list_len));
    request.up = true;
    uint8_t status = read_request(
        message + 1, len - 1, is_make_credential ? read_make_credential_member : read_get_assertion_member, &request);
    if (status == OK) {
        status = is_make_credential ? validate_make_credential(&request) : validate_get_assertion(&request);
    }
    if (status != OK) {
        send_status(channel, status);
        return;
    }
    memcpy(pending.client_data_hash, request.client_data_hash.data, HASH_BYTES);
    pending.channel = channel;
    is_make_credential ? begin_make_credential(now_ms, &request) : begin_get_assertion(now_ms, &request);
}

void authenticator_provide_presence(uint64_t now_ms, bool is_granted) {
    if (pending.need != PRESENCE) {
        return;
    }
    if (pending.is_make_credential && pending.is_excluded) {
        finish_request(CREDENTIAL_EXCLUDED);
    } else if (!is_granted) {
        finish_request(OPERATION_DENIED);
    } else if (pending.is_make_credential && credential_count == MAX_CREDENTIALS &&
               find_credential_of_user(&pending.made) == NULL) {
        finish_request(KEY_STORE_FULL);
    } else {
        if (!pending.is_make_credential) {
            pending.used->sign_count++;
        }
        set_need(now_ms, pending.is_make_credential ? KEY_PAIR : SIGNATURE);
    }
}

void authenticator_provide_key_pair(uint64_t now_ms, const uint8_t *key_pair) {
    (void)now_ms;
    if (pending.need != KEY_PAIR) {
        return;
    }
    if (key_pair == NULL) {
        finish_request(OTHER);
        return;
    }
    for (int i = 0; i < credential_count; i++) {
        if (memcmp(credentials[i].id, key_pair, HASH_BYTES) == 0) {
            finish_request(OTHER);
            return;
        }
    }
    memcpy(pending.made.id, key_pair, HASH_BYTES);
    memcpy(pending.made.x, key_pair + HASH_BYTES, HASH_BYTES);
    memcpy(pending.made.y, key_pair + 2 * HASH_BYTES, HASH_BYTES);
    pending.need = SIGNATURE;
}

/* The bytes of a response so far. */
struct response {
    uint8_t bytes[MAX_RESPONSE_BYTES];
    size_t len;
};

static void append(struct response *response, const void *bytes, size_t len) {
    memcpy(response->bytes + response->len, bytes, len);
    response->len += len;
}

#define APPEND_TEXT(response, text) append(response, text, sizeof(text) - 1)

static void append_byte_string(struct response *response, const uint8_t *bytes, size_t len) {
    if (len >= 24) {
        response->bytes[response->len++] = 0x58;
        response->bytes[response->len++] = (uint8_t)len;
    } else {
        response->bytes[response->len++] = (uint8_t)(0x40 | len);
    }
    append(response, bytes, len);
}

static void store_credential(void) {
    struct credential *same = find_credential_of_user(&pending.made);
    if (same != NULL) {
        memmove(same, same + 1, (size_t)(credentials + credential_count - same - 1) * sizeof *same);
        credential_count--;
    }
    credentials[credential_count++] = pending.made;
    credentials[credential_count - 1].sign_count = 0;
    stats.peak_credentials = stats.peak_credentials < credential_count ? credential_count : stats.peak_credentials;
}

static void write_make_credential(struct response *response, const uint8_t *signature, size_t len) {
    const struct credential *made = &pending.made;
    APPEND_TEXT(response, "\x00\xa3\x01\x66"
                          "packed"
                          "\x02\x58\xa4");
    append(response, made->rp_id_hash, HASH_BYTES);
    APPEND_TEXT(response, "\x41\0\0\0\0"
                          "\0\0\0\0\0\0\0\0\0\0\0\0\0\0\0\0"
                          "\0\x20");
    append(response, made->id, HASH_BYTES);
    APPEND_TEXT(response, "\xa5\x01\x02\x03\x26\x20\x01\x21\x58\x20");
    append(response, made->x, HASH_BYTES);
    APPEND_TEXT(response, "\x22\x58\x20");
    append(response, made->y, HASH_BYTES);
    APPEND_TEXT(response, "\x03\xa2\x63"
                          "alg\x26\x63"
                          "sig");
    append_byte_string(response, signature, len);
    store_credential();
}

static void write_get_assertion(struct response *response, const uint8_t *signature, size_t len) {
    const struct credential *used = pending.used;
    uint32_t sign_count = __builtin_bswap32(used->sign_count);
    used->is_discoverable ? APPEND_TEXT(response, "\x00\xa4") : APPEND_TEXT(response, "\x00\xa3");
    APPEND_TEXT(response, "\x01\xa2\x62"
                          "id\x58\x20");
    append(response, used->id, HASH_BYTES);
    APPEND_TEXT(response, "\x64"
                          "type\x6a"
                          "public-key\x02\x58\x25");
    append(response, used->rp_id_hash, HASH_BYTES);
    response->bytes[response->len++] = pending.is_user_present;
    append(response, &sign_count, sizeof sign_count);
    APPEND_TEXT(response, "\x03");
    append_byte_string(response, signature, len);
    if (used->is_discoverable) {
        APPEND_TEXT(response, "\x04\xa1\x62"
                              "id");
        append_byte_string(response, used->user_id, used->user_id_len);
    }
}

void authenticator_provide_signature(uint64_t now_ms, const uint8_t *signature, size_t len) {
    (void)now_ms;
    if (pending.need != SIGNATURE) {
        return;
    }
    if (len == 0) {
        finish_request(OTHER);
        return;
    }
    pending.need = NO_NEED;
    struct response response;
    response.len = 0;
    pending.is_make_credential ? write_make_credential(&response, signature, len)
                               : write_get_assertion(&response, signature, len);
    transport_send(pending.channel, CBOR, response.bytes, response.len);
}
