// A libFuzzer target for the functions of an in-memory key. The fuzzer's data is decoded into inputs. Each input is
// passed to the key, and appended to a log as a line. Then hidlog_replay replays the log: its output must have the
// packets and the totals of the key. Calls that the key's state does not allow must fail and change nothing.
//
// tests/fuzz/guided.sh builds it with an instrumented core. Without instrumentation:
//
//     clang -g -O1 -fsanitize=fuzzer,address,undefined -I release -o key_fuzz tests/fuzz/key_fuzz.c release/libhidlog.a
//     ./key_fuzz -max_total_time=600 -max_len=4096
#include "hidlog.h"

#include <inttypes.h>
#include <stdio.h>
#include <stdlib.h>
#include <string.h>

enum { INPUTS = 64, TEXT = 1 << 20 };

static char written[TEXT], log_text[TEXT], replayed[TEXT];
static size_t written_len, log_len;

struct bytes {
    const uint8_t *next;
    size_t left;
};

// Copies the next `len` bytes of the fuzzer's data to `to`. If fewer bytes are left, zeros follow them.
static void take_bytes(struct bytes *from, uint8_t *to, size_t len) {
    size_t taken = from->left < len ? from->left : len;
    memset(to, 0, len);
    memcpy(to, from->next, taken);
    from->next += taken;
    from->left -= taken;
}

static uint8_t next_byte(struct bytes *from) {
    uint8_t byte;
    take_bytes(from, &byte, 1);
    return byte;
}

static void append_text(char *text, size_t *len, const char *more) {
    size_t size = strlen(more);
    if (*len + size > TEXT) {
        abort();
    }
    memcpy(text + *len, more, size);
    *len += size;
}

static void append_digits(char *text, size_t *len, const uint8_t *bytes, size_t count) {
    char digits[3];
    for (size_t i = 0; i < count; i++) {
        snprintf(digits, sizeof digits, "%02x", bytes[i]);
        append_text(text, len, digits);
    }
}

// Appends a part of an input line to the log, and to the expected output of hidlog_replay, which has the same line.
static void append_to_line(const char *part) {
    append_text(log_text, &log_len, part);
    append_text(written, &written_len, part);
}

static void append_digits_to_line(const char *separator, const uint8_t *bytes, size_t count) {
    append_to_line(separator);
    append_digits(log_text, &log_len, bytes, count);
    append_digits(written, &written_len, bytes, count);
}

// Decodes the fuzzer's data into a packet. Most packets have a valid header, so that messages become complete.
static void decode_packet(struct bytes *from, uint8_t packet[64]) {
    uint8_t kind = next_byte(from);
    if (kind < 32) {
        static const uint8_t init[7] = {0xff, 0xff, 0xff, 0xff, 0x86, 0, 8};
        take_bytes(from, packet, 64);
        memcpy(packet, init, sizeof init);
        return;
    }
    take_bytes(from, packet, 64);
    if (kind < 224) {
        uint8_t header[7] = {0, 0, 0, 1, kind < 160 ? 0x90 : kind & 3, 0, kind < 160 ? kind : packet[6]};
        memcpy(packet, header, kind < 160 ? 7 : 5);
    }
}

static int32_t provide_key_pair(struct hidlog_key *key, struct bytes *from, uint64_t time_ms) {
    uint8_t parts[96];
    take_bytes(from, parts, sizeof parts);
    append_digits_to_line(" ", parts, 32);
    append_digits_to_line(" ", parts + 32, 32);
    append_digits_to_line(" ", parts + 64, 32);
    return hidlog_key_provide_key_pair(key, time_ms, parts, parts + 32, parts + 64);
}

static int32_t provide_signature(struct hidlog_key *key, struct bytes *from, uint64_t time_ms) {
    uint8_t bytes[72];
    size_t count = 1 + next_byte(from) % 72;
    take_bytes(from, bytes, count);
    append_digits_to_line(" ", bytes, count);
    return hidlog_key_provide_signature(key, time_ms, bytes, count);
}

static int32_t provide_presence(struct hidlog_key *key, struct bytes *from, uint64_t time_ms) {
    static const char *words[3] = {" granted", " denied", " timeout"};
    uint32_t which = next_byte(from) % 3;
    append_to_line(words[which]);
    return hidlog_key_provide_presence(key, time_ms, which);
}

// Decodes an input, passes it to the key, and appends its line. Returns what the key's function returned: the number of
// queued packets.
static int32_t handle_input(struct hidlog_key *key, struct bytes *from, uint64_t time_ms) {
    uint8_t kind = next_byte(from) % 16, packet[64];
    char line_start[32];
    const char letter = kind < 9 ? '>' : "tppkkss"[kind - 9];
    snprintf(line_start, sizeof line_start, "%c %" PRIu64, letter, time_ms);
    append_to_line(line_start);
    switch (letter) {
    case '>':
        decode_packet(from, packet);
        append_digits_to_line(" ", packet, 64);
        return hidlog_key_write_packet(key, time_ms, packet);
    case 't':
        return hidlog_key_tick(key, time_ms);
    case 'p':
        return provide_presence(key, from, time_ms);
    case 'k':
        if (kind == 12) {
            return provide_key_pair(key, from, time_ms);
        }
        append_to_line(" no");
        return hidlog_key_refuse_key_pair(key, time_ms);
    default:
        if (kind == 14) {
            return provide_signature(key, from, time_ms);
        }
        append_to_line(" no");
        return hidlog_key_refuse_signature(key, time_ms);
    }
}

// Reads the queued packets, and appends them to the expected output of hidlog_replay. Before, expects that a tick
// fails, since packets are queued.
static void read_packets(struct hidlog_key *key, int32_t waiting) {
    uint8_t packet[64];
    if (waiting < 0 || waiting > 130 || (waiting > 0 && hidlog_key_tick(key, UINT64_MAX) != HIDLOG_KEY_ERR_PACKETS_QUEUED)) {
        abort();
    }
    for (; waiting > 0; waiting--) {
        if (hidlog_key_read_packet(key, packet) != waiting - 1) {
            abort();
        }
        append_text(written, &written_len, "< ");
        append_digits(written, &written_len, packet, 64);
        append_text(written, &written_len, "\n");
    }
    if (hidlog_key_read_packet(key, packet) != HIDLOG_KEY_ERR_NO_PACKET) {
        abort();
    }
}

// Checks that what the key needs, its credentials and their number have values that hidlog.h allows.
static void check_key(struct hidlog_key *key) {
    struct hidlog_need need;
    struct hidlog_credential credential;
    int32_t kind = hidlog_key_get_need(key, &need), count = hidlog_key_credential_count(key);
    if (kind < 0 || kind > 3 || need.to_sign_len > 196 || (kind == 3) != (need.to_sign_len > 0) || count < 0 || count > 64) {
        abort();
    }
    for (int32_t i = 0; i < count; i++) {
        if (hidlog_key_get_credential(key, (size_t)i, &credential) != 0 || credential.user_id_len > 64) {
            abort();
        }
    }
    if (hidlog_key_get_credential(key, (size_t)count, &credential) != HIDLOG_KEY_ERR_INVALID_ARGUMENT) {
        abort();
    }
}

// Appends the key's totals to the expected output, and checks that hidlog_replay writes this output for the log.
static void check_replay(struct hidlog_key *key) {
    struct hidlog_stats stats;
    char text[200];
    struct hidlog_result result;
    hidlog_key_get_stats(key, &stats);
    snprintf(text, sizeof text,
             "= held %" PRIu32 " rows %" PRIu32 " pending %" PRIu32 " requests %" PRIu64 " bytes %" PRIu64 " steps %" PRIu64
             "\n",
             stats.peak_message_bytes, stats.peak_credentials, stats.peak_pending, stats.requests, stats.bytes,
             stats.steps);
    append_text(written, &written_len, text);
    hidlog_replay((const uint8_t *)log_text, log_len, (const uint8_t *)"", 0, (uint8_t *)replayed, TEXT, &result);
    if (result.status != 0 || result.written != written_len || memcmp(replayed, written, written_len) != 0) {
        abort();
    }
}

// Saves a snapshot of the key, initializes another key with it, and checks that a snapshot of that key is the same.
static void check_saved_snapshot(struct hidlog_key *key) {
    static const uint8_t aaguid[16];
    static uint8_t saved[HIDLOG_SNAPSHOT_MAX_LEN], again[HIDLOG_SNAPSHOT_MAX_LEN];
    struct hidlog_key other = {0};
    int32_t len = hidlog_key_save_snapshot(key, saved, sizeof saved);
    other.memory = aligned_alloc(16, (hidlog_key_size() + 15) / 16 * 16);
    if (len < 0 || other.memory == NULL || hidlog_key_init(&other, aaguid, 0, saved, (size_t)len) != 0 ||
        hidlog_key_save_snapshot(&other, again, sizeof again) != len || memcmp(saved, again, (size_t)len) != 0 ||
        hidlog_key_credential_count(&other) != hidlog_key_credential_count(key) || hidlog_key_destroy(&other) != 0) {
        abort();
    }
    free(other.memory);
}

// Returns whether the key has a credential with this ID.
static int has_credential(struct hidlog_key *key, const uint8_t id[32]) {
    struct hidlog_credential credential;
    for (size_t i = 0; hidlog_key_get_credential(key, i, &credential) == 0; i++) {
        if (memcmp(credential.id, id, 32) == 0) {
            return 1;
        }
    }
    return 0;
}

static void add_credential(struct hidlog_key *key, struct bytes *from) {
    struct hidlog_credential c = {0};
    take_bytes(from, c.rp_id_hash, 1);
    take_bytes(from, c.id, 1);
    take_bytes(from, c.user_id, 2);
    take_bytes(from, c.user_name, 4);
    c.user_id_len = next_byte(from) % 68;
    c.user_name_len = next_byte(from) % 68;
    c.discoverable = next_byte(from) % 3;
    c.sign_count = (uint32_t)next_byte(from) << 24;
    int32_t before = hidlog_key_credential_count(key), is_there = has_credential(key, c.id), result = hidlog_key_add_credential(key, 7, &c);
    int32_t after = hidlog_key_credential_count(key);
    int is_wrong = c.user_id_len > 64 || c.user_name_len > 64 || c.discoverable > 1;
    if ((result == 0 && (is_wrong || after != before + 1 - is_there || !has_credential(key, c.id))) ||
        (result != 0 && (after != before || (is_wrong && result != HIDLOG_KEY_ERR_INVALID_ARGUMENT)))) {
        abort();
    }
}

static void remove_credential(struct hidlog_key *key, struct bytes *from) {
    uint8_t id[32] = {0};
    struct hidlog_credential credential;
    if (hidlog_key_get_credential(key, next_byte(from) % 4, &credential) == 0) {
        memcpy(id, credential.id, sizeof id);
    }
    int is_there = has_credential(key, id);
    if (hidlog_key_remove_credential(key, 8, id) != (is_there ? 0 : HIDLOG_KEY_ERR_INVALID_ARGUMENT) || has_credential(key, id)) {
        abort();
    }
}

// Adds and removes credentials as the fuzzer's data says. If a request is in progress, only expects that changing them
// fails.
static void change_credentials(struct hidlog_key *key, struct bytes *from) {
    struct hidlog_need need;
    check_saved_snapshot(key);
    if (hidlog_key_get_need(key, &need) != HIDLOG_NEED_NONE) {
        if (hidlog_key_clear_credentials(key, 0) != HIDLOG_KEY_ERR_BUSY) {
            abort();
        }
        return;
    }
    for (int i = 0; i < 72 && from->left > 0; i++) {
        uint8_t which = next_byte(from) % 16;
        if (which == 0 && hidlog_key_clear_credentials(key, 9) != 0) {
            abort();
        } else if (which < 4) {
            remove_credential(key, from);
        } else {
            add_credential(key, from);
        }
        check_saved_snapshot(key);
    }
}

int LLVMFuzzerTestOneInput(const uint8_t *data, size_t size) {
    static const uint8_t aaguid[16];
    struct bytes from = {data, size};
    struct hidlog_key key = {0};
    uint64_t time_ms = 0;
    written_len = log_len = 0;
    key.memory = aligned_alloc(16, (hidlog_key_size() + 15) / 16 * 16);
    if (key.memory == NULL || hidlog_key_init(&key, aaguid, 0, data, 0) != 0) {
        abort();
    }
    int inputs = next_byte(&from) % (INPUTS + 1);
    for (int i = 0; i < inputs && from.left > 0; i++) {
        uint8_t step = next_byte(&from);
        time_ms += step < 200 ? step : (uint64_t)step * 50;
        int32_t waiting = handle_input(&key, &from, time_ms);
        append_to_line("\n");
        read_packets(&key, waiting);
        check_key(&key);
    }
    check_replay(&key);
    change_credentials(&key, &from);
    if (hidlog_key_destroy(&key) != 0 || hidlog_key_tick(&key, 0) != HIDLOG_KEY_ERR_NOT_INITIALIZED) {
        abort();
    }
    free(key.memory);
    return 0;
}
