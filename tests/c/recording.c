// Tests hidlog_recording.h: when a call returns, its line is in the file; a rejected call writes nothing; and a failed
// write is reported. The expected lines are written by hand from docs/use/LOG_FORMAT.md. Prints nothing and returns 0
// on success.
//
//     recording FILE    writes the recording to FILE
#include "hidlog_recording.h"

#include <errno.h>
#include <stdio.h>
#include <stdlib.h>
#include <string.h>

enum { TEXT = 4096, LINE = 300 };

static const char *path;
// What the recording must contain after the calls so far.
static char expected[TEXT];

static void expect(int is_met, const char *failure) {
    if (!is_met) {
        fprintf(stderr, "recording: %s\n", failure);
        exit(1);
    }
}

// Checks that the recording has the expected lines. Opens the file again, to see only what has been flushed.
static void check_file(const char *failure) {
    static char found[TEXT];
    FILE *file = fopen(path, "rb");
    expect(file != NULL, "cannot open the recording");
    size_t len = fread(found, 1, sizeof found - 1, file);
    found[len] = 0;
    expect(fclose(file) == 0 && strcmp(found, expected) == 0, failure);
}

// Checks a call that has returned `result`: expects that this is `wanted`, and that the call wrote this line.
static void expect_recorded(int32_t result, int32_t wanted, const char *line) {
    expect(result == wanted, line);
    expect(strlen(expected) + strlen(line) + 2 < sizeof expected, "the expected lines do not fit in `expected`");
    strcat(expected, line);
    strcat(expected, "\n");
    check_file(line);
}

// Checks a call that has returned `result`: expects that this is the error `wanted`, and that the call wrote nothing.
static void expect_rejected(int32_t result, int32_t wanted, const char *failure) {
    expect(result == wanted, failure);
    check_file(failure);
}

// Returns `text` followed by `count` copies of `digits`, which are two hexadecimal digits.
static const char *repeat_digits(const char *text, const char *digits, size_t count) {
    static char line[LINE];
    strcpy(line, text);
    while (count-- > 0) {
        strcat(line, digits);
    }
    return line;
}

static void read_response(struct hidlog_key *key, FILE *log, const char *start) {
    uint8_t packet[64];
    char line[LINE];
    int32_t result = hidlog_record_read_packet(key, log, packet);
    strcpy(line, "< ");
    for (size_t i = 0; i < 64; i++) {
        snprintf(line + 2 + 2 * i, 3, "%02x", packet[i]);
    }
    expect(strncmp(line + 2, start, strlen(start)) == 0, start);
    expect_recorded(result, 0, line);
}

// Sends the request authenticatorSelection (CTAP 2.1, section 6.9) on channel 1, and reads the KEEPALIVE with the
// status UPNEEDED. `line` is the beginning of the expected line.
static void select_key(struct hidlog_key *key, FILE *log, uint64_t now_ms, const char *line) {
    static const uint8_t selection[64] = {0, 0, 0, 1, 0x90, 0, 1, 0x0b};
    expect_recorded(hidlog_record_write_packet(key, log, now_ms, selection), 1, repeat_digits(line, "00", 56));
    read_response(key, log, "00000001bb000102");
}

static void test_packets(struct hidlog_key *key, FILE *log) {
    static const uint8_t init[64] = {0xff, 0xff, 0xff, 0xff, 0x86, 0, 8, 1, 2, 3, 4, 5, 6, 7, 0xfe};
    uint8_t packet[64];
    // All timestamps are 2^40 or more, to test that timestamps of more than 32 bits are written correctly.
    expect_recorded(hidlog_record_write_packet(key, log, UINT64_C(1099511627776), init), 1,
                    repeat_digits("> 1099511627776 ffffffff86000801020304050607fe", "00", 49));
    expect_rejected(hidlog_record_write_packet(key, log, UINT64_C(1099511627777), init), HIDLOG_KEY_ERR_PACKETS_QUEUED,
                    "a packet while another is queued was not rejected");
    expect_rejected(hidlog_record_tick(key, log, UINT64_C(1099511627777)), HIDLOG_KEY_ERR_PACKETS_QUEUED,
                    "a tick while a packet is queued was not rejected");
    read_response(key, log, "ffffffff86001101020304050607fe00000001");
    expect_rejected(hidlog_record_read_packet(key, log, packet), HIDLOG_KEY_ERR_NO_PACKET,
                    "a packet was read while none was queued");
    expect_recorded(hidlog_record_tick(key, log, UINT64_C(1099511627781)), 0, "t 1099511627781");
}

static void test_presence(struct hidlog_key *key, FILE *log) {
    select_key(key, log, UINT64_C(1099511627790), "> 1099511627790 000000019000010b");
    expect_rejected(hidlog_record_provide_presence(key, log, UINT64_C(1099511627791), 3),
                    HIDLOG_KEY_ERR_INVALID_ARGUMENT, "an invalid presence was not rejected");
    expect_recorded(hidlog_record_provide_presence(key, log, UINT64_C(1099511627792), HIDLOG_PRESENCE_GRANTED), 1,
                    "p 1099511627792 granted");
    expect_rejected(hidlog_record_provide_presence(key, log, UINT64_C(1099511627793), HIDLOG_PRESENCE_GRANTED),
                    HIDLOG_KEY_ERR_PACKETS_QUEUED, "a presence while a packet is queued was not rejected");
    read_response(key, log, "0000000190000100");
    select_key(key, log, UINT64_C(1099511627800), "> 1099511627800 000000019000010b");
    expect_recorded(hidlog_record_provide_presence(key, log, UINT64_C(1099511627801), HIDLOG_PRESENCE_DENIED), 1,
                    "p 1099511627801 denied");
    read_response(key, log, "0000000190000127");
    select_key(key, log, UINT64_C(1099511627810), "> 1099511627810 000000019000010b");
    expect_recorded(hidlog_record_provide_presence(key, log, UINT64_C(1099511627811), HIDLOG_PRESENCE_TIMED_OUT), 1,
                    "p 1099511627811 timeout");
    read_response(key, log, "000000019000012f");
}

// Tests key pairs and signatures that the key does not need: the key ignores them, but they are recorded.
static void test_replies(struct hidlog_key *key, FILE *log) {
    uint8_t id[32], x[32], y[32], signature[73];
    char line[LINE];
    memset(id, 0xa1, sizeof id);
    memset(x, 0xb2, sizeof x);
    memset(y, 0xc3, sizeof y);
    memset(signature, 0xd4, sizeof signature);
    strcpy(line, repeat_digits("k 1099511627820 ", "a1", 32));
    strcat(line, " ");
    strcpy(line, repeat_digits(line, "b2", 32));
    strcat(line, " ");
    strcpy(line, repeat_digits(line, "c3", 32));
    expect_recorded(hidlog_record_provide_key_pair(key, log, UINT64_C(1099511627820), id, x, y), 0, line);
    expect_recorded(hidlog_record_refuse_key_pair(key, log, UINT64_C(1099511627821)), 0, "k 1099511627821 no");
    expect_rejected(hidlog_record_provide_signature(key, log, UINT64_C(1099511627822), signature, 0),
                    HIDLOG_KEY_ERR_INVALID_ARGUMENT, "an empty signature was not rejected");
    expect_rejected(hidlog_record_provide_signature(key, log, UINT64_C(1099511627822), signature, 73),
                    HIDLOG_KEY_ERR_INVALID_ARGUMENT, "a signature of 73 bytes was not rejected");
    expect_recorded(hidlog_record_provide_signature(key, log, UINT64_C(1099511627823), signature, 1), 0,
                    "s 1099511627823 d4");
    expect_recorded(hidlog_record_provide_signature(key, log, UINT64_C(1099511627824), signature, 72), 0,
                    repeat_digits("s 1099511627824 ", "d4", 72));
    expect_recorded(hidlog_record_refuse_signature(key, log, UINT64_C(1099511627825)), 0, "s 1099511627825 no");
}

// Tests that each function rejects a destroyed key, and writes nothing.
static void test_destroyed_key(struct hidlog_key *key, FILE *log) {
    uint8_t bytes[64] = {0};
    int32_t wanted = HIDLOG_KEY_ERR_NOT_INITIALIZED;
    expect_rejected(hidlog_record_write_packet(key, log, 1, bytes), wanted,
                    "write_packet of a destroyed key was not rejected");
    expect_rejected(hidlog_record_tick(key, log, 1), wanted, "tick of a destroyed key was not rejected");
    expect_rejected(hidlog_record_provide_presence(key, log, 1, 0), wanted,
                    "provide_presence of a destroyed key was not rejected");
    expect_rejected(hidlog_record_provide_key_pair(key, log, 1, bytes, bytes, bytes), wanted,
                    "provide_key_pair of a destroyed key was not rejected");
    expect_rejected(hidlog_record_refuse_key_pair(key, log, 1), wanted,
                    "refuse_key_pair of a destroyed key was not rejected");
    expect_rejected(hidlog_record_provide_signature(key, log, 1, bytes, 64), wanted,
                    "provide_signature of a destroyed key was not rejected");
    expect_rejected(hidlog_record_refuse_signature(key, log, 1), wanted,
                    "refuse_signature of a destroyed key was not rejected");
    expect_rejected(hidlog_record_read_packet(key, log, bytes), wanted,
                    "read_packet of a destroyed key was not rejected");
}

#ifndef _WIN32
// Tests that a function returns HIDLOG_ERR_NOT_RECORDED and sets errno if it cannot write its line.
static void test_full_disk(struct hidlog_key *key) {
    FILE *full = fopen("/dev/full", "wb");
    if (full == NULL) {
        return; // only Linux has it
    }
    errno = 0;
    expect(hidlog_record_tick(key, full, UINT64_C(1099511627830)) == HIDLOG_ERR_NOT_RECORDED,
           "a failed write was not reported");
    expect(errno == ENOSPC, "errno is not ENOSPC after a failed write");
    (void)fclose(full);
}
#endif

int main(int count, char **words) {
    static const uint8_t aaguid[16];
    struct hidlog_key key = {0};
    expect(count == 2, "usage: recording FILE");
    path = words[1];
    FILE *log = fopen(path, "wb");
    key.memory = aligned_alloc(16, (hidlog_key_size() + 15) / 16 * 16);
    expect(log != NULL && key.memory != NULL, "cannot create the recording, or out of memory");
    expect(hidlog_key_init(&key, aaguid, 0, aaguid, 0) == 0, "hidlog_key_init failed");
    test_packets(&key, log);
    test_presence(&key, log);
    test_replies(&key, log);
#ifndef _WIN32
    test_full_disk(&key);
#endif
    expect(hidlog_key_destroy(&key) == 0, "hidlog_key_destroy failed");
    test_destroyed_key(&key, log);
    expect(fclose(log) == 0, "cannot close the recording");
    free(key.memory);
    return 0;
}
