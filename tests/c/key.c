// Tests an in-memory key with the log on standard input: passes the log's inputs to the key one by one, and prints the
// inputs and the key's packets as `hidlog replay` does. tests/c/run.sh compares the two outputs.
//
//     key                  calls the function for each input, such as hidlog_key_tick
//     key lines            passes each line to hidlog_key_replay_lines instead
//     key recorded         calls the functions of hidlog_recording.h, and prints only the recording that they write
//     key snapshot FILE    like `key`, with the credentials of the snapshot in FILE
//     key invalid-calls    makes invalid calls instead; prints nothing and returns 0 if each fails as documented
#include "hidlog.h"
#include "hidlog_recording.h"
#include "hidlog_standard.h" // not used, but it must be possible to include all headers

#include <inttypes.h>
#include <stdbool.h>
#include <stdio.h>
#include <stdlib.h>
#include <string.h>

enum { LINE = 257, TEXT = 20000, SNAPSHOT = 20000 };

static void fail(const char *error) {
    fprintf(stderr, "key: %s\n", error);
    exit(2);
}

static void init_key(struct hidlog_key *key, const uint8_t *snapshot, size_t snapshot_len) {
    static const uint8_t aaguid[16];
    memset(key, 0, sizeof *key);
    key->memory = aligned_alloc(16, (hidlog_key_size() + 15) / 16 * 16);
    if (key->memory == NULL || hidlog_key_init(key, aaguid, 0, snapshot, snapshot_len) != 0) {
        fail("out of memory, or hidlog_key_init failed");
    }
}

static void destroy_key(struct hidlog_key *key) {
    if (hidlog_key_destroy(key) != 0) {
        fail("hidlog_key_destroy failed for an initialized key");
    }
    free(key->memory);
}

// Parses a field of hexadecimal digits. Returns the number of bytes.
static size_t parse_hex(const char *field, uint8_t *bytes, size_t max_len) {
    size_t len = strlen(field) / 2;
    if (strlen(field) % 2 != 0 || len > max_len) {
        fail("a line of the log has a hexadecimal field with an odd number of digits, or with too many");
    }
    for (size_t i = 0; i < len; i++) {
        unsigned byte;
        if (sscanf(field + 2 * i, "%2x", &byte) != 1) {
            fail("a line of the log has a hexadecimal field with an invalid digit");
        }
        bytes[i] = (uint8_t)byte;
    }
    return len;
}

static uint32_t parse_presence(const char *word) {
    if (strcmp(word, "granted") == 0) {
        return HIDLOG_PRESENCE_GRANTED;
    }
    return strcmp(word, "denied") == 0 ? HIDLOG_PRESENCE_DENIED : HIDLOG_PRESENCE_TIMED_OUT;
}

// Whether to call the functions of hidlog_recording.h, so that they write a recording to standard output.
static bool is_recorded;

// Handles an input line with the letter k or s: provides a key pair or a signature, or refuses to if the field after
// the timestamp is "no".
static int32_t provide_reply(struct hidlog_key *key, char letter, uint64_t now_ms, char *fields[3]) {
    uint8_t bytes[3][72];
    bool is_no = strcmp(fields[0], "no") == 0;
    if (is_no && letter == 's') {
        return is_recorded ? hidlog_record_refuse_signature(key, stdout, now_ms)
                           : hidlog_key_refuse_signature(key, now_ms);
    }
    if (is_no) {
        return is_recorded ? hidlog_record_refuse_key_pair(key, stdout, now_ms)
                           : hidlog_key_refuse_key_pair(key, now_ms);
    }
    if (letter == 's') {
        size_t len = parse_hex(fields[0], bytes[0], 72);
        return is_recorded ? hidlog_record_provide_signature(key, stdout, now_ms, bytes[0], len)
                           : hidlog_key_provide_signature(key, now_ms, bytes[0], len);
    }
    for (int i = 0; i < 3; i++) {
        parse_hex(fields[i], bytes[i], 32);
    }
    return is_recorded ? hidlog_record_provide_key_pair(key, stdout, now_ms, bytes[0], bytes[1], bytes[2])
                       : hidlog_key_provide_key_pair(key, now_ms, bytes[0], bytes[1], bytes[2]);
}

// Passes the input of a log line to the key. Returns the number of queued packets, or -1 if the line is not an input.
static int32_t handle_input(struct hidlog_key *key, const char *line) {
    char text[LINE], *fields[3] = {"", "", ""};
    uint8_t packet[64];
    strcpy(text, line);
    char *letter = strtok(text, " "), *time = strtok(NULL, " ");
    for (int i = 0; i < 3; i++) {
        char *field = strtok(NULL, " ");
        fields[i] = field == NULL ? "" : field;
    }
    if (letter == NULL || strlen(letter) != 1 || strchr(">tpks", *letter) == NULL) {
        return -1;
    }
    uint64_t now_ms = strtoull(time, NULL, 10);
    switch (*letter) {
    case '>':
        parse_hex(fields[0], packet, 64);
        return is_recorded ? hidlog_record_write_packet(key, stdout, now_ms, packet)
                           : hidlog_key_write_packet(key, now_ms, packet);
    case 't':
        return is_recorded ? hidlog_record_tick(key, stdout, now_ms) : hidlog_key_tick(key, now_ms);
    case 'p':
        return is_recorded ? hidlog_record_provide_presence(key, stdout, now_ms, parse_presence(fields[0]))
                           : hidlog_key_provide_presence(key, now_ms, parse_presence(fields[0]));
    default:
        return provide_reply(key, *letter, now_ms, fields);
    }
}

static void write_packets(struct hidlog_key *key, int32_t queued) {
    uint8_t packet[64];
    for (; queued > 0; queued--) {
        if (hidlog_key_queued_packets(key) != queued || hidlog_key_read_packet(key, packet) != queued - 1) {
            fail("the numbers of queued packets are inconsistent: each hidlog_key_read_packet must reduce it by one");
        }
        fputs("< ", stdout);
        for (int i = 0; i < 64; i++) {
            printf("%02x", packet[i]);
        }
        putchar('\n');
    }
    if (hidlog_key_read_packet(key, packet) != HIDLOG_KEY_ERR_NO_PACKET) {
        fail("hidlog_key_read_packet did not return HIDLOG_KEY_ERR_NO_PACKET, although no packet was queued");
    }
}

static void write_stats(struct hidlog_key *key) {
    struct hidlog_stats stats;
    if (hidlog_key_get_stats(key, &stats) != 0) {
        fail("hidlog_key_get_stats failed for an initialized key");
    }
    printf("= held %" PRIu32 " rows %" PRIu32 " pending %" PRIu32 " requests %" PRIu64 " bytes %" PRIu64
           " steps %" PRIu64 "\n",
           stats.peak_message_bytes, stats.peak_credentials, stats.peak_pending, stats.requests, stats.bytes,
           stats.steps);
}

static void replay_inputs(struct hidlog_key *key) {
    char line[LINE];
    while (fgets(line, sizeof line, stdin) != NULL) {
        line[strcspn(line, "\n")] = '\0';
        if (line[0] == '<' || line[0] == '=') {
            continue;
        }
        puts(line);
        int32_t queued = handle_input(key, line);
        if (queued >= 0) {
            write_packets(key, queued);
        }
    }
    write_stats(key);
}

// Replays the log with the functions of hidlog_recording.h, which write a recording to standard output.
static void replay_with_recording(struct hidlog_key *key) {
    char line[LINE];
    uint8_t packet[64];
    is_recorded = true;
    while (fgets(line, sizeof line, stdin) != NULL) {
        line[strcspn(line, "\n")] = '\0';
        int32_t queued = line[0] == '<' || line[0] == '=' ? -1 : handle_input(key, line);
        while (queued > 0) {
            queued = hidlog_record_read_packet(key, stdout, packet);
        }
        if (queued == HIDLOG_ERR_NOT_RECORDED) {
            fail("cannot write the recording to standard output");
        }
    }
}

static void replay_lines(struct hidlog_key *key) {
    static uint8_t text[TEXT];
    char line[LINE];
    struct hidlog_result result;
    while (fgets(line, sizeof line, stdin) != NULL) {
        int32_t status = hidlog_key_replay_lines(key, (const uint8_t *)line, strlen(line), text, sizeof text, &result);
        if (status != 0 || result.status != 0) {
            fail("hidlog_key_replay_lines rejected a line of the log on standard input");
        }
        fwrite(text, 1, result.written, stdout);
    }
    write_stats(key);
}

static void expect(int32_t found, int32_t expected, const char *call) {
    if (found != expected) {
        fprintf(stderr, "key: %s returned %" PRId32 ", expected %" PRId32 "\n", call, found, expected);
        exit(1);
    }
}

// A packet with the request INIT on the broadcast channel (CTAP 2.1, section 11.2.9.1.3).
static const uint8_t init_packet[64] = {0xff, 0xff, 0xff, 0xff, 0x86, 0x00, 0x08, 1, 2, 3, 4, 5, 6, 7, 8};

static void test_uninitialized_key(struct hidlog_key *key) {
    static const uint8_t no_snapshot[] = "no snapshot", aaguid[16];
    uint8_t packet[64];
    struct hidlog_need need;
    expect(hidlog_key_tick(key, 1), HIDLOG_KEY_ERR_NOT_INITIALIZED, "a tick of a key that was never initialized");
    expect(hidlog_key_read_packet(key, packet), HIDLOG_KEY_ERR_NOT_INITIALIZED,
           "read_packet of a key that was never initialized");
    expect(hidlog_key_get_need(key, &need), HIDLOG_KEY_ERR_NOT_INITIALIZED, "need of a key that was never initialized");
    expect(hidlog_key_credential_count(key), HIDLOG_KEY_ERR_NOT_INITIALIZED,
           "credentials of a key that was never initialized");
    expect(hidlog_key_destroy(key), HIDLOG_KEY_ERR_NOT_INITIALIZED, "destroy of a key that was never initialized");
    expect(hidlog_key_provide_presence(key, 1, 7), HIDLOG_KEY_ERR_NOT_INITIALIZED,
           "a wrong presence of a key that was never initialized");
    expect(hidlog_key_init(key, aaguid, 0, no_snapshot, sizeof no_snapshot), HIDLOG_KEY_ERR_NOT_A_SNAPSHOT,
           "init with an invalid snapshot");
    expect(hidlog_key_init(key, aaguid, 0, no_snapshot, 0), 0, "init");
    expect(hidlog_key_init(key, aaguid, 0, no_snapshot, 0), HIDLOG_KEY_ERR_ALREADY_INITIALIZED,
           "init of an initialized key");
}

static void test_invalid_calls(struct hidlog_key *key) {
    uint8_t packet[64], signature[73] = {0};
    struct hidlog_credential credential;
    struct hidlog_result result = {9, 9, 9, 9, 9};
    expect(hidlog_key_write_packet(key, 1, init_packet), 1, "INIT");
    expect(hidlog_key_tick(key, 2), HIDLOG_KEY_ERR_PACKETS_QUEUED, "a tick while a packet is queued");
    expect(hidlog_key_replay_lines(key, (const uint8_t *)"t 5\n", 4, packet, sizeof packet, &result),
           HIDLOG_KEY_ERR_PACKETS_QUEUED, "lines while a packet is queued");
    expect((int32_t)result.status, 9, "the result of lines that were not played");
    expect(hidlog_key_read_packet(key, packet), 0, "read_packet");
    expect(hidlog_key_provide_presence(key, 3, 3), HIDLOG_KEY_ERR_INVALID_ARGUMENT, "an invalid presence");
    expect(hidlog_key_provide_signature(key, 3, signature, 0), HIDLOG_KEY_ERR_INVALID_ARGUMENT,
           "a signature of no bytes");
    expect(hidlog_key_provide_signature(key, 3, signature, 73), HIDLOG_KEY_ERR_INVALID_ARGUMENT,
           "a signature of 73 bytes");
    expect(hidlog_key_provide_signature(key, 3, signature, 72), 0, "a signature that is not needed");
    expect(hidlog_key_get_credential(key, 0, &credential), HIDLOG_KEY_ERR_INVALID_ARGUMENT, "a missing credential");
    expect(hidlog_key_credential_count(key), 0, "hidlog_key_credential_count");
    expect(hidlog_key_pending_assertions(key), 0, "hidlog_key_pending_assertions");
    expect(hidlog_key_replay_lines(key, (const uint8_t *)"t 5\nx\n", 6, packet, sizeof packet, &result), 1,
           "an invalid line");
    expect((int32_t)result.error, HIDLOG_ERR_BAD_LINE, "the error of an invalid line");
    expect((int32_t)result.line, 2, "the line of the error");
    expect(hidlog_key_destroy(key), 0, "destroy");
    expect(hidlog_key_tick(key, 9), HIDLOG_KEY_ERR_NOT_INITIALIZED, "a tick of a destroyed key");
}

static int test_all_invalid_calls(void) {
    struct hidlog_key key = {0};
    key.memory = aligned_alloc(16, (hidlog_key_size() + 15) / 16 * 16);
    if (key.memory == NULL) {
        fail("out of memory");
    }
    test_uninitialized_key(&key);
    test_invalid_calls(&key);
    free(key.memory);
    return 0;
}

int main(int count, char **words) {
    static uint8_t snapshot[SNAPSHOT];
    size_t snapshot_len = 0;
    struct hidlog_key key;
    if (count == 2 && strcmp(words[1], "invalid-calls") == 0) {
        return test_all_invalid_calls();
    }
    if (count == 3 && strcmp(words[1], "snapshot") == 0) {
        FILE *file = fopen(words[2], "rb");
        if (file == NULL) {
            fail("cannot open the snapshot file");
        }
        snapshot_len = fread(snapshot, 1, sizeof snapshot, file);
        fclose(file);
    }
    init_key(&key, snapshot, snapshot_len);
    if (count == 2 && strcmp(words[1], "lines") == 0) {
        replay_lines(&key);
    } else if (count == 2 && strcmp(words[1], "recorded") == 0) {
        replay_with_recording(&key);
    } else {
        replay_inputs(&key);
    }
    destroy_key(&key);
    return 0;
}
