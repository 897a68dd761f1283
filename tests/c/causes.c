// Tests what hidlog_key_cause returns after packets that the key rejects: the code, the status, the values `first` and
// `second`, and the sentence. The expected values are written by hand; statuses and limits are those of CTAP 2.1.
// Prints nothing and returns 0 on success.
#include "hidlog.h"

#include <inttypes.h>
#include <stdio.h>
#include <stdlib.h>
#include <string.h>

// A packet, whose first bytes are `digits` in hexadecimal (zeros follow), and the cause that is expected after it. The
// cause's code is 0 if the key does not reject the packet.
struct step {
    const char *digits;
    uint64_t time_ms;
    struct hidlog_cause cause;
    const char *sentence;
};

static const struct step steps[] = {
    {"ffffffff86000800010203040506", 1, {0}, ""},
    {"0000000981000101", 2, {HIDLOG_CAUSE_NO_SUCH_CHANNEL, 0x0b, 1, 0}, "only channels 1 to 1 have been allocated"},
    {"0000000184000101", 3, {HIDLOG_CAUSE_NO_SUCH_COMMAND, 0x01, 0x04, 0}, "CTAPHID command 0x04 is not supported"},
    {"00000001811dba",
     4,
     {HIDLOG_CAUSE_MESSAGE_LENGTH, 0x03, 0x01, 7610},
     "a message of command 0x01 cannot have 7610 bytes: CBOR has 1 to 7609, PING 0 to 7609"},
    {"ffffffff860007", 5, {HIDLOG_CAUSE_INIT_LENGTH, 0x03, 7, 0}, "INIT must have 8 data bytes, not 7"},
    {"00000001810064", 6, {0}, ""},
    {"0000000101", 7, {HIDLOG_CAUSE_WRONG_NUMBER, 0x04, 1, 0}, "expected sequence number 0, got 1"},
    {"0000000190000105", 8, {HIDLOG_CAUSE_COMMAND, 0x01, 0x05, 0}, "the authenticator command 0x05 is not supported"},
    {"000000019000020400",
     9,
     {HIDLOG_CAUSE_TRAILING, 0x03, 1, 0},
     "this command takes no parameters; bytes after the command byte: 1"},
    {"0000000190000201a0",
     10,
     {HIDLOG_CAUSE_MISSING, 0x14, 0x01, 0x01},
     "the required parameter clientDataHash is missing"},
    {"0000000190000202a0", 11, {HIDLOG_CAUSE_MISSING, 0x14, 0x02, 0x01}, "the required parameter rpId is missing"},
    {"000000019000030100ff",
     12,
     {HIDLOG_CAUSE_NOT_CANONICAL, 0x12, 1, 9},
     "the parameters are not canonical CBOR at byte 1: Trailing: bytes after the item"},
    {"00000001900002020f",
     13,
     {HIDLOG_CAUSE_WRONG_TYPE, 0x11, 0, 0},
     "a parameter, or a member in one, has the wrong CBOR type"},
    {"0000000190000108",
     14,
     {HIDLOG_CAUSE_NOTHING_PENDING, 0x30, 0, 0},
     "no assertion is pending: none was left by an authenticatorGetAssertion before"},
    {"0000000190000107",
     10001,
     {HIDLOG_CAUSE_RESET_TOO_LATE, 0x30, 0, 10001},
     "more than 10 s have passed since power-up: it was at 0 ms, this is at 10001 ms"},
    {"0000000190000104", 10002, {0}, ""},
};

static void expect(int is_met, const char *failure) {
    if (!is_met) {
        fprintf(stderr, "causes: %s\n", failure);
        exit(1);
    }
}

static void parse_packet(const char *digits, uint8_t packet[64]) {
    memset(packet, 0, 64);
    for (size_t i = 0; digits[2 * i] != 0; i++) {
        unsigned byte;
        expect(sscanf(digits + 2 * i, "%2x", &byte) == 1, digits);
        packet[i] = (uint8_t)byte;
    }
}

static void discard_packets(struct hidlog_key *key) {
    uint8_t packet[64];
    while (hidlog_key_queued_packets(key) > 0) {
        expect(hidlog_key_read_packet(key, packet) >= 0, "hidlog_key_read_packet failed");
    }
}

// Expects that hidlog_key_cause returns this cause and this sentence, for a timeout before the last input if `which` is
// 0, or for the last input itself if `which` is 1.
static void expect_cause(struct hidlog_key *key, uint32_t which, const struct hidlog_cause *expected,
                         const char *sentence) {
    struct hidlog_cause cause = {0};
    char text[160];
    int32_t len = hidlog_key_cause(key, which, &cause, (uint8_t *)text, sizeof text);
    if (len != (int32_t)strlen(sentence) || memcmp(text, sentence, strlen(sentence)) != 0 ||
        cause.code != expected->code || cause.status != expected->status || cause.first != expected->first ||
        cause.second != expected->second) {
        fprintf(stderr,
                "causes: got %d, code %" PRIu32 ", status %" PRIu32 ", values %" PRIu64 " and %" PRIu64
                ": %.*s; expected:\n",
                len, cause.code, cause.status, cause.first, cause.second, len > 0 ? (int)len : 0, text);
        expect(0, sentence);
    }
}

// Tests that a tick that lets a message time out has a cause for the timeout, and none for the tick itself.
static void test_timeout(struct hidlog_key *key) {
    static const struct hidlog_cause none, late = {HIDLOG_CAUSE_TIMED_OUT, 0x05, 20000, 20500};
    uint8_t packet[64];
    parse_packet("00000001810064", packet);
    expect(hidlog_key_write_packet(key, 20000, packet) == 0,
           "expected no packet in response to the first packet of a PING");
    expect(hidlog_key_tick(key, 20500) == 1, "expected one packet, the ERROR of the timeout");
    expect_cause(key, 0, &late,
                 "the message timed out: its last packet came at 20000 ms, 500 ms or more before 20500 ms");
    expect_cause(key, 1, &none, "");
    discard_packets(key);
}

static void test_invalid_calls(struct hidlog_key *key) {
    static const struct hidlog_cause none;
    struct hidlog_cause cause = {1, 2, 3, 4};
    uint8_t packet[64], text[5];
    parse_packet("0000000190000108", packet);
    expect(hidlog_key_write_packet(key, 20600, packet) == 1, "expected one packet in response to getNextAssertion");
    discard_packets(key);
    expect(hidlog_key_cause(key, 2, &cause, text, sizeof text) == HIDLOG_KEY_ERR_INVALID_ARGUMENT && cause.code == 1,
           "expected an error and an unchanged cause if `which` is 2");
    expect(hidlog_key_cause(key, 1, &cause, text, sizeof text) == 5 && memcmp(text, "no as", 5) == 0,
           "expected the first 5 bytes of the sentence");
    expect(hidlog_key_cause(key, 1, &cause, text, 0) == 0 && cause.code == HIDLOG_CAUSE_NOTHING_PENDING,
           "expected a cause and no sentence");
    expect(hidlog_key_clear_credentials(key, 20700) == 0, "hidlog_key_clear_credentials failed");
    expect_cause(key, 1, &none, "");
    expect(hidlog_key_destroy(key) == 0, "hidlog_key_destroy failed");
    expect(hidlog_key_cause(key, 1, &cause, text, sizeof text) == HIDLOG_KEY_ERR_NOT_INITIALIZED,
           "expected an error from a destroyed key");
}

int main(void) {
    static const uint8_t aaguid[16];
    static const struct hidlog_cause none;
    struct hidlog_key key = {0};
    key.memory = aligned_alloc(16, (hidlog_key_size() + 15) / 16 * 16);
    expect(key.memory != NULL && hidlog_key_init(&key, aaguid, 0, aaguid, 0) == 0,
           "out of memory, or hidlog_key_init failed");
    expect_cause(&key, 1, &none, "");
    for (size_t i = 0; i < sizeof steps / sizeof steps[0]; i++) {
        uint8_t packet[64];
        parse_packet(steps[i].digits, packet);
        expect(hidlog_key_write_packet(&key, steps[i].time_ms, packet) >= 0, steps[i].digits);
        expect_cause(&key, 1, &steps[i].cause, steps[i].sentence);
        expect_cause(&key, 0, &none, "");
        discard_packets(&key);
    }
    test_timeout(&key);
    test_invalid_calls(&key);
    free(key.memory);
    return 0;
}
