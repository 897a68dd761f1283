// Benchmark: registers a credential on an in-memory key, and signs in COUNT times. Prints how many seconds the first
// and the last 1,000 sign-ins took, including the time to build the packets.
//
//     key [COUNT]     COUNT must be at least 1000 [default: 10000]
#define _POSIX_C_SOURCE 199309L
#include "hidlog.h"

#include <stdio.h>
#include <stdlib.h>
#include <string.h>
#include <time.h>

static struct hidlog_key key;

static void expect(int32_t found, int32_t expected, const char *call) {
    if (found != expected) {
        fprintf(stderr, "key: %s returned %d, expected %d\n", call, (int)found, (int)expected);
        exit(1);
    }
}

// Checks the number of queued packets, which a call has returned, and reads the packets.
static void read_packets(int32_t waiting, int32_t expected, const char *call) {
    uint8_t packet[64];
    expect(waiting, expected, call);
    while (waiting > 0) {
        waiting = hidlog_key_read_packet(&key, packet);
    }
}

// Sends a message of at most 116 bytes, which fits in two packets, on a channel. Returns the number of queued packets.
static int32_t send_message(uint64_t time_ms, uint32_t channel, uint8_t command, const uint8_t *message, size_t len) {
    uint8_t packet[64] = {channel >> 24, channel >> 16, channel >> 8, channel, 0x80 | command, len >> 8, len};
    size_t first = len < 57 ? len : 57;
    memcpy(packet + 7, message, first);
    int32_t waiting = hidlog_key_write_packet(&key, time_ms, packet);
    if (len > first) {
        memset(packet + 4, 0, 60);
        memcpy(packet + 5, message + first, len - first);
        waiting = hidlog_key_write_packet(&key, time_ms, packet);
    }
    return waiting;
}

// The request authenticatorMakeCredential with the parameters {1: clientDataHash, 2: {"id": "example.com"},
// 3: {"id": h'01'}, 4: [{"alg": -7, "type": "public-key"}], 7: {"rk": true}}.
static const uint8_t make_credential[] =
    "\x01\xa5\x01\x58\x20" "11111111111111111111111111111111" "\x02\xa1\x62id\x6b" "example.com" "\x03\xa1\x62id\x41\x01"
    "\x04\x81\xa2\x63" "alg\x26\x64type\x6apublic-key" "\x07\xa1\x62rk\xf5";

// The request authenticatorGetAssertion with the parameters {1: "example.com", 2: clientDataHash}.
static const uint8_t get_assertion[] = "\x02\xa2\x01\x6b" "example.com" "\x02\x58\x20" "22222222222222222222222222222222";

static void register_credential(void) {
    uint8_t id[32], nonce[8] = {0};
    memset(id, 0xaa, sizeof id);
    read_packets(send_message(0, 0xffffffff, 6, nonce, 8), 1, "INIT");
    read_packets(send_message(0, 1, 0x10, make_credential, sizeof make_credential - 1), 1,
                 "authenticatorMakeCredential");
    read_packets(hidlog_key_provide_presence(&key, 0, HIDLOG_PRESENCE_GRANTED), 1, "hidlog_key_provide_presence");
    read_packets(hidlog_key_provide_key_pair(&key, 0, id, id, id), 0, "hidlog_key_provide_key_pair");
    read_packets(hidlog_key_provide_signature(&key, 0, nonce, 8), 4, "hidlog_key_provide_signature");
}

static void sign_in(uint64_t time_ms) {
    static const uint8_t signature[70] = {0x30, 0x44};
    struct hidlog_need need;
    read_packets(send_message(time_ms, 1, 0x10, get_assertion, sizeof get_assertion - 1), 1,
                 "authenticatorGetAssertion");
    expect(hidlog_key_get_need(&key, &need), HIDLOG_NEED_PRESENCE, "hidlog_key_get_need");
    read_packets(hidlog_key_provide_presence(&key, time_ms, HIDLOG_PRESENCE_GRANTED), 1,
                 "hidlog_key_provide_presence");
    expect(hidlog_key_get_need(&key, &need), HIDLOG_NEED_SIGNATURE, "hidlog_key_get_need");
    read_packets(hidlog_key_provide_signature(&key, time_ms, signature, sizeof signature), 4,
                 "hidlog_key_provide_signature");
}

static double now_seconds(void) {
    struct timespec t;
    clock_gettime(CLOCK_MONOTONIC, &t);
    return (double)t.tv_sec + (double)t.tv_nsec / 1e9;
}

int main(int count, char **words) {
    static const uint8_t aaguid[16];
    char *end = "";
    unsigned long sign_ins = count == 1 ? 10000 : strtoul(words[1], &end, 10);
    if (count > 2 || *end != 0 || sign_ins < 1000) {
        fputs("usage: key [COUNT], where COUNT is a number of sign-ins, at least 1000\n", stderr);
        return 2;
    }
    double first_seconds = 0, last_begin = 0;
    key.memory = aligned_alloc(16, (hidlog_key_size() + 15) / 16 * 16);
    expect(hidlog_key_init(&key, aaguid, 0, aaguid, 0), 0, "hidlog_key_init");
    register_credential();
    double begin = now_seconds();
    for (unsigned long i = 0; i < sign_ins; i++) {
        if (i + 1000 == sign_ins) {
            last_begin = now_seconds();
        }
        sign_in(i);
        if (i == 999) {
            first_seconds = now_seconds() - begin;
        }
    }
    double last_seconds = now_seconds() - last_begin;
    printf("%lu sign-ins: the first 1000 took %.6f s, the last 1000 %.6f s\n", sign_ins, first_seconds, last_seconds);
    return 0;
}
