#include "snapshot.h"

#include <string.h>

// The first byte of a CBOR item (RFC 8949): its major type, in the high three bits, or the whole item `false`.
enum { NUMBER = 0x00, BYTES = 0x40, TEXT = 0x60, ARRAY = 0x80, MAP = 0xa0, FALSE = 0xf4 };

// Writes the head of a CBOR item, its major type and its argument, in the shortest form, as canonical CBOR requires.
// Returns a pointer to the byte after it.
static uint8_t *write_head(uint8_t *to, unsigned major, uint32_t argument) {
    unsigned extra = argument < 24 ? 0 : argument < 0x100 ? 1 : argument < 0x10000 ? 2 : 4;
    *to++ = (uint8_t)(major | (extra == 0 ? argument : extra == 1 ? 24u : extra == 2 ? 25u : 26u));
    for (unsigned left = extra; left > 0; left--) {
        *to++ = (uint8_t)(argument >> (8 * (left - 1)));
    }
    return to;
}

static uint8_t *write_string(uint8_t *to, uint32_t key, unsigned major, const uint8_t *bytes, uint32_t len) {
    to = write_head(write_head(to, NUMBER, key), major, len);
    memcpy(to, bytes, len);
    return to + len;
}

static uint8_t *write_credential(uint8_t *to, const struct hidlog_credential *credential) {
    to = write_head(to, MAP, 8);
    to = write_string(to, 1, BYTES, credential->rp_id_hash, 32);
    to = write_string(to, 2, BYTES, credential->id, 32);
    to = write_string(to, 3, BYTES, credential->x, 32);
    to = write_string(to, 4, BYTES, credential->y, 32);
    to = write_string(to, 5, BYTES, credential->user_id, credential->user_id_len);
    to = write_head(to, NUMBER, 6);
    *to++ = (uint8_t)(FALSE + credential->discoverable);
    to = write_head(write_head(to, NUMBER, 7), NUMBER, credential->sign_count);
    return write_string(to, 8, TEXT, credential->user_name, credential->user_name_len);
}

size_t snapshot_write(struct hidlog_key *key, uint8_t snapshot[HIDLOG_SNAPSHOT_MAX_LEN]) {
    int32_t count = hidlog_key_credential_count(key);
    struct hidlog_credential credential;
    if (count <= 0) {
        return 0;
    }
    uint8_t *to = write_head(write_head(write_head(snapshot, MAP, 2), NUMBER, 1), NUMBER, 2);
    to = write_head(write_head(to, NUMBER, 2), ARRAY, (uint32_t)count);
    for (int32_t i = 0; i < count; i++) {
        hidlog_key_get_credential(key, (size_t)i, &credential);
        to = write_credential(to, &credential);
    }
    return (size_t)(to - snapshot);
}
