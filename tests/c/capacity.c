// Tests a key that is full: adds CAPACITY credentials, expects that no more can be added or registered, saves a
// snapshot, initializes another key with the snapshot, and signs in. The expected bytes are written by hand from CTAP
// 2.1, sections 6.1.2 (0x28, CTAP2_ERR_KEY_STORE_FULL), 6.2.2 (numberOfCredentials) and 11.2 (USB HID framing).
//
//     capacity CAPACITY
#include "hidlog.h"

#include <inttypes.h>
#include <stdio.h>
#include <stdlib.h>
#include <string.h>

enum { TIME_MS = 5, INIT = 0x86, CBOR = 0x90, CONTINUATION_DATA = 59, INITIALIZATION_DATA = 57 };

// SHA-256 of "example.com".
static const uint8_t rp_hash[32] = {0xa3, 0x79, 0xa6, 0xf6, 0xee, 0xaf, 0xb9, 0xa5, 0x5e, 0x37, 0x8c,
                                    0x11, 0x80, 0x34, 0xe2, 0x75, 0x1e, 0x68, 0x2f, 0xab, 0x9f, 0x2d,
                                    0x30, 0xab, 0x13, 0xd2, 0x12, 0x55, 0x86, 0xce, 0x19, 0x47};

static void expect(int64_t found, int64_t expected, const char *value_name) {
    if (found != expected) {
        fprintf(stderr, "capacity: %s is %" PRId64 ", expected %" PRId64 "\n", value_name, found, expected);
        exit(1);
    }
}

static struct hidlog_key new_key(const uint8_t *snapshot, size_t len) {
    struct hidlog_key key = {aligned_alloc(16, (hidlog_key_size() + 15) / 16 * 16), 0};
    expect(hidlog_key_init(&key, (const uint8_t[16]){0}, 0, snapshot, len), 0, "hidlog_key_init");
    return key;
}

static struct hidlog_credential numbered_credential(size_t number) {
    struct hidlog_credential made = {.user_id_len = 2, .discoverable = 1};
    memcpy(made.rp_id_hash, rp_hash, sizeof rp_hash);
    memset(made.id, 0xaa, sizeof made.id);
    made.id[0] = made.user_id[0] = (uint8_t)(number >> 8);
    made.id[1] = made.user_id[1] = (uint8_t)number;
    return made;
}

// Sends a message on a channel, provides what the key needs, and copies the data of the response message to `response`.
// Returns the length of the data. Skips KEEPALIVEs.
static size_t exchange(struct hidlog_key *key, uint32_t channel, uint8_t command, const uint8_t *message, size_t len,
                       uint8_t *response) {
    uint8_t packet[64] = {(uint8_t)(channel >> 24),
                          (uint8_t)(channel >> 16),
                          (uint8_t)(channel >> 8),
                          (uint8_t)channel,
                          command,
                          (uint8_t)(len >> 8),
                          (uint8_t)len};
    size_t sent = len < INITIALIZATION_DATA ? len : INITIALIZATION_DATA;
    memcpy(packet + 7, message, sent);
    hidlog_key_write_packet(key, TIME_MS, packet);
    for (uint8_t number = 0; sent < len; number++) {
        size_t part = len - sent < CONTINUATION_DATA ? len - sent : CONTINUATION_DATA;
        memset(packet + 4, 0, 60);
        packet[4] = number;
        memcpy(packet + 5, message + sent, part);
        hidlog_key_write_packet(key, TIME_MS, packet);
        sent += part;
    }
    size_t received = 0, response_len = 0;
    struct hidlog_need need;
    do {
        while (hidlog_key_queued_packets(key) > 0) {
            hidlog_key_read_packet(key, packet);
            if (packet[4] == command) {
                response_len = (size_t)packet[5] << 8 | packet[6];
                memcpy(response, packet + 7, INITIALIZATION_DATA);
                received = INITIALIZATION_DATA;
            } else if (packet[4] < 128) {
                memcpy(response + received, packet + 5, CONTINUATION_DATA);
                received += CONTINUATION_DATA;
            }
        }
        int32_t kind = hidlog_key_get_need(key, &need);
        if (kind == HIDLOG_NEED_PRESENCE) {
            hidlog_key_provide_presence(key, TIME_MS, HIDLOG_PRESENCE_GRANTED);
        } else if (kind == HIDLOG_NEED_SIGNATURE) {
            hidlog_key_provide_signature(key, TIME_MS, (const uint8_t[8]){0x30, 6, 2, 1, 1, 2, 1, 1}, 8);
        } else {
            expect(kind, HIDLOG_NEED_NONE, "the kind of need");
        }
    } while (hidlog_key_queued_packets(key) > 0);
    return response_len;
}

static uint32_t open_channel(struct hidlog_key *key) {
    uint8_t response[7700];
    expect((int64_t)exchange(key, 0xffffffff, INIT, (const uint8_t[8]){1, 2, 3, 4, 5, 6, 7, 8}, 8, response), 17,
           "the response length of INIT");
    return (uint32_t)response[8] << 24 | (uint32_t)response[9] << 16 | (uint32_t)response[10] << 8 | response[11];
}

// Registers a discoverable credential for one more user on a full key, and expects the status 0x28
// (CTAP2_ERR_KEY_STORE_FULL).
static void expect_key_store_full(struct hidlog_key *key) {
    uint8_t message[91] = {1, 0xa5, 1, 0x58, 0x20}, response[7700];
    static const uint8_t rest[] = "\x02\xa1\x62id\x6b"
                                  "example.com\x03\xa1\x62id\x41\x01\x04\x81\xa2\x63"
                                  "alg\x26\x64type\x6a"
                                  "public-key\x07\xa1\x62rk\xf5";
    memset(message + 5, 0x11, 32);
    memcpy(message + 37, rest, sizeof message - 37);
    expect((int64_t)exchange(key, open_channel(key), CBOR, message, sizeof message, response), 1,
           "the response length");
    expect(response[0], 0x28, "the status of a registration on a full key");
}

// Signs in without an allowList, and expects that all credentials match: numberOfCredentials, the last member of the
// response's map (key 5), is the capacity.
static void expect_all_credentials(struct hidlog_key *key, size_t capacity) {
    uint8_t message[50] = {2, 0xa2, 1, 0x6b, 'e', 'x', 'a', 'm', 'p', 'l', 'e', '.', 'c', 'o', 'm', 2, 0x58, 0x20};
    uint8_t response[7700];
    memset(message + 18, 0x22, 32);
    size_t len = exchange(key, open_channel(key), CBOR, message, sizeof message, response);
    expect(response[0], 0, "the status of a sign-in");
    if (capacity < 256) {
        expect(response[len - 3], 5, "the key of the last member");
        expect(response[len - 2], 0x18, "the CBOR head of numberOfCredentials");
        expect(response[len - 1], (int64_t)capacity, "numberOfCredentials");
    } else {
        expect(response[len - 4], 5, "the key of the last member");
        expect(response[len - 3], 0x19, "the CBOR head of numberOfCredentials");
        expect(response[len - 2] << 8 | response[len - 1], (int64_t)capacity, "numberOfCredentials");
    }
    expect(hidlog_key_pending_assertions(key), (int64_t)capacity - 1, "pending assertions");
}

int main(int count, char **words) {
    size_t capacity = count == 2 ? strtoul(words[1], NULL, 10) : 0;
    static uint8_t saved[HIDLOG_SNAPSHOT_MAX_LEN], again[HIDLOG_SNAPSHOT_MAX_LEN];
    expect((int64_t)hidlog_key_capacity(), (int64_t)capacity, "hidlog_key_capacity");
    expect(HIDLOG_CAPACITY, (int64_t)capacity, "HIDLOG_CAPACITY");
    struct hidlog_key key = new_key(saved, 0);
    for (size_t number = 0; number < capacity; number++) {
        struct hidlog_credential made = numbered_credential(number);
        expect(hidlog_key_add_credential(&key, 0, &made), 0, "hidlog_key_add_credential");
    }
    struct hidlog_credential more = numbered_credential(capacity);
    expect(hidlog_key_add_credential(&key, 0, &more), HIDLOG_KEY_ERR_FULL, "hidlog_key_add_credential on a full key");
    expect(hidlog_key_credential_count(&key), (int64_t)capacity, "hidlog_key_credential_count");
    expect_key_store_full(&key);
    int32_t len = hidlog_key_save_snapshot(&key, saved, sizeof saved);
    struct hidlog_key other = new_key(saved, (size_t)len);
    expect(hidlog_key_save_snapshot(&other, again, sizeof again), len, "a snapshot's length");
    expect(memcmp(saved, again, (size_t)len), 0, "the comparison of snapshots");
    expect_all_credentials(&other, capacity);
    free(key.memory);
    free(other.memory);
    printf("capacity: %zu credentials, a key of %zu bytes, a snapshot of %" PRId32 "\n", capacity, hidlog_key_size(),
           len);
    return 0;
}
