/* Replays the log on standard input, whose lines have at most 255 bytes. Writes each comment, and each input with the
 * packets that the key sends in response, with one call of write. */
#include "peer.h"

#include <stdio.h>
#include <string.h>
#include <unistd.h>

enum { WINDOW_BYTES = 8192, SENT_LINE_BYTES = 2 + 2 * PACKET_BYTES + 1, KEY_PAIR_BYTES = 96 };

static uint8_t window[WINDOW_BYTES];
static size_t window_len, window_start;
static char text[MAX_LINE_BYTES + 1 + MAX_SENT_PACKETS * SENT_LINE_BYTES];
static size_t text_len;
static int8_t digit_values[256];
static char digit_pairs[256][2];
static uint64_t now_ms;

void log_sent_packet(const uint8_t packet[PACKET_BYTES]) {
    char *out = text + text_len;
    memcpy(out, "< ", 2);
    for (size_t i = 0; i < PACKET_BYTES; i++) {
        memcpy(out + 2 + 2 * i, digit_pairs[packet[i]], 2);
    }
    out[SENT_LINE_BYTES - 1] = '\n';
    text_len += SENT_LINE_BYTES;
}

static bool flush(void) {
    size_t done = 0;
    while (done < text_len) {
        ssize_t count = write(1, text + done, text_len - done);
        if (count <= 0) {
            return false;
        }
        done += (size_t)count;
    }
    text_len = 0;
    return true;
}

static bool decode_hex(const uint8_t *digits, size_t len, uint8_t *out) {
    for (size_t i = 0; i < len; i += 2) {
        int high = digit_values[digits[i]], low = digit_values[digits[i + 1]];
        if ((high | low) < 0) {
            return false;
        }
        out[i / 2] = (uint8_t)(high << 4 | low);
    }
    return true;
}

/* Parses a time in milliseconds: a decimal number below 2^64 without leading zeros. */
static bool parse_time(const uint8_t *digits, size_t len, uint64_t *time_ms) {
    *time_ms = 0;
    for (size_t i = 0; i < len; i++) {
        if (digits[i] < '0' || digits[i] > '9' || __builtin_mul_overflow(*time_ms, 10, time_ms) ||
            __builtin_add_overflow(*time_ms, (uint64_t)(digits[i] - '0'), time_ms)) {
            return false;
        }
    }
    return len == 1 || (len > 1 && digits[0] != '0');
}

static bool field_equals(const uint8_t *field, size_t len, const char *expected) {
    return len == strlen(expected) && memcmp(field, expected, len) == 0;
}

static void copy_line(const uint8_t *line, size_t len) {
    memcpy(text + text_len, line, len);
    text[text_len + len] = '\n';
    text_len += len + 1;
}

static void advance_time(uint64_t time_ms) {
    now_ms = time_ms > now_ms ? time_ms : now_ms;
    transport_advance_time(now_ms);
}

static bool replay_packet(const uint8_t *line, size_t line_len, uint64_t time_ms, const uint8_t *field, size_t len) {
    uint8_t packet[PACKET_BYTES];
    if (len != 2 * PACKET_BYTES || !decode_hex(field, len, packet)) {
        return false;
    }
    copy_line(line, line_len);
    advance_time(time_ms);
    transport_handle_packet(now_ms, packet);
    return true;
}

static bool replay_presence(const uint8_t *line, size_t line_len, uint64_t time_ms, const uint8_t *field, size_t len) {
    bool is_granted = field_equals(field, len, "granted");
    if (!is_granted && !field_equals(field, len, "denied") && !field_equals(field, len, "timeout")) {
        return false;
    }
    copy_line(line, line_len);
    advance_time(time_ms);
    authenticator_provide_presence(now_ms, is_granted);
    return true;
}

static bool replay_key_pair(const uint8_t *line, size_t line_len, uint64_t time_ms, const uint8_t *field, size_t len) {
    uint8_t key_pair[KEY_PAIR_BYTES];
    bool is_refused = field_equals(field, len, "no");
    if (!is_refused &&
        !(len == 2 * KEY_PAIR_BYTES + 2 && field[64] == ' ' && field[129] == ' ' && decode_hex(field, 64, key_pair) &&
          decode_hex(field + 65, 64, key_pair + 32) && decode_hex(field + 130, 64, key_pair + 64))) {
        return false;
    }
    copy_line(line, line_len);
    advance_time(time_ms);
    authenticator_provide_key_pair(now_ms, is_refused ? NULL : key_pair);
    return true;
}

static bool replay_signature(const uint8_t *line, size_t line_len, uint64_t time_ms, const uint8_t *field, size_t len) {
    uint8_t signature[72];
    bool is_refused = field_equals(field, len, "no");
    if (!is_refused && (len < 2 || len > 144 || len % 2 != 0 || !decode_hex(field, len, signature))) {
        return false;
    }
    copy_line(line, line_len);
    advance_time(time_ms);
    authenticator_provide_signature(now_ms, signature, is_refused ? 0 : len / 2);
    return true;
}

static bool replay_tick(const uint8_t *line, size_t len) {
    uint64_t time_ms;
    if (!parse_time(line + 2, len - 2, &time_ms)) {
        return false;
    }
    copy_line(line, len);
    advance_time(time_ms);
    return true;
}

static bool replay_input(const uint8_t *line, size_t len) {
    const uint8_t *space = memchr(line + 2, ' ', len - 2);
    uint64_t time_ms;
    if (space == NULL || !parse_time(line + 2, (size_t)(space - line - 2), &time_ms)) {
        return false;
    }
    const uint8_t *field = space + 1;
    size_t field_len = (size_t)(line + len - field);
    switch (line[0]) {
    case '>':
        return replay_packet(line, len, time_ms, field, field_len);
    case 'p':
        return replay_presence(line, len, time_ms, field, field_len);
    case 'k':
        return replay_key_pair(line, len, time_ms, field, field_len);
    case 's':
        return replay_signature(line, len, time_ms, field, field_len);
    default:
        return false;
    }
}

static bool replay_line(const uint8_t *line, size_t len) {
    if (len == 0 || line[0] == '#') {
        copy_line(line, len);
        return flush();
    }
    if (line[0] == '=') {
        return true;
    }
    if (len < 3 || line[1] != ' ') {
        return false;
    }
    if (line[0] == '<') {
        uint8_t packet[PACKET_BYTES];
        return len == 2 + 2 * PACKET_BYTES && decode_hex(line + 2, len - 2, packet);
    }
    bool is_valid = line[0] == 't' ? replay_tick(line, len) : replay_input(line, len);
    return is_valid && flush();
}

/* Removes the handled lines from the buffer `window`, and reads more of the log into it. Returns the number of bytes
 * that were read, 0 at the log's end, or -1 on an error. */
static ssize_t read_more_input(void) {
    memmove(window, window + window_start, window_len - window_start);
    window_len -= window_start;
    window_start = 0;
    ssize_t count = read(0, window + window_len, WINDOW_BYTES - window_len);
    window_len += count > 0 ? (size_t)count : 0;
    return count;
}

static bool replay_log(void) {
    for (;;) {
        const uint8_t *newline = memchr(window + window_start, '\n', window_len - window_start);
        if (newline != NULL) {
            size_t len = (size_t)(newline - (window + window_start));
            if (len > MAX_LINE_BYTES || !replay_line(window + window_start, len)) {
                return false;
            }
            window_start += len + 1;
            continue;
        }
        if (window_len - window_start > MAX_LINE_BYTES) {
            return false;
        }
        ssize_t count = read_more_input();
        if (count <= 0) {
            return count == 0 &&
                   (window_len == window_start || replay_line(window + window_start, window_len - window_start));
        }
    }
}

static void init_digit_tables(void) {
    static const char digits[] = "0123456789abcdef", capitals[] = "0123456789ABCDEF";
    memset(digit_values, -1, sizeof digit_values);
    for (int i = 0; i < 256; i++) {
        digit_values[(uint8_t)digits[i & 15]] = (int8_t)(i & 15);
        digit_values[(uint8_t)capitals[i & 15]] = (int8_t)(i & 15);
        digit_pairs[i][0] = digits[i >> 4];
        digit_pairs[i][1] = digits[i & 15];
    }
}

int main(void) {
    init_digit_tables();
    if (!replay_log()) {
        return 1;
    }
    struct stats stats = authenticator_stats();
    text_len =
        (size_t)snprintf(text, sizeof text, "= held %zu rows %d pending 0 requests %llu bytes %llu steps %llu\n",
                         transport_peak_message_bytes(), stats.peak_credentials, (unsigned long long)stats.requests,
                         (unsigned long long)stats.bytes, (unsigned long long)stats.steps);
    return flush() ? 0 : 1;
}
