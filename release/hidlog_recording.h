/* Functions that record a key's session as it runs: they write a log of every input and packet, for `hidlog check` and
 * `hidlog show --explain`. This header needs only hidlog.h and the C standard library.
 *
 * Each function with a key, such as hidlog_record_tick, calls its counterpart in hidlog.h, such as hidlog_key_tick. If
 * that call succeeds, the function writes the log line of the input or packet to the open stream `log`, and flushes the
 * stream. It returns the call's result, or HIDLOG_ERR_NOT_RECORDED, with errno set, if the line could not be written.
 * Read each packet with hidlog_record_read_packet before the next input.
 *
 * `hidlog check` replays a key whose AAGUID is zeros and that powers up at 0. If the key starts with credentials, keep
 * their snapshot with the recording, for `hidlog check --load`. */
#ifndef HIDLOG_RECORDING_H
#define HIDLOG_RECORDING_H

#include "hidlog.h"

#include <inttypes.h>
#include <stdio.h>

enum { HIDLOG_ERR_NOT_RECORDED = -32 };

/* Writes bytes to the log as hexadecimal digits. */
static inline void hidlog_record_hex(FILE *log, const uint8_t *bytes, size_t len) {
    for (size_t i = 0; i < len; i++) {
        fprintf(log, "%02x", bytes[i]);
    }
}

/* Ends a line and flushes the log. Returns `result`, or HIDLOG_ERR_NOT_RECORDED if the line could not be written. */
static inline int32_t hidlog_record_finish_line(FILE *log, int32_t result) {
    fputc('\n', log);
    return fflush(log) == 0 && !ferror(log) ? result : HIDLOG_ERR_NOT_RECORDED;
}

static inline int32_t hidlog_record_write_packet(struct hidlog_key *key, FILE *log, uint64_t now_ms,
                                                 const uint8_t packet[64]) {
    int32_t result = hidlog_key_write_packet(key, now_ms, packet);
    if (result < 0) {
        return result;
    }
    fprintf(log, "> %" PRIu64 " ", now_ms);
    hidlog_record_hex(log, packet, 64);
    return hidlog_record_finish_line(log, result);
}

static inline int32_t hidlog_record_tick(struct hidlog_key *key, FILE *log, uint64_t now_ms) {
    int32_t result = hidlog_key_tick(key, now_ms);
    if (result < 0) {
        return result;
    }
    fprintf(log, "t %" PRIu64, now_ms);
    return hidlog_record_finish_line(log, result);
}

static inline int32_t hidlog_record_provide_presence(struct hidlog_key *key, FILE *log, uint64_t now_ms,
                                                     uint32_t presence) {
    static const char *const words[] = {"granted", "denied", "timeout"};
    int32_t result = hidlog_key_provide_presence(key, now_ms, presence);
    if (result < 0) {
        return result;
    }
    fprintf(log, "p %" PRIu64 " %s", now_ms, words[presence]);
    return hidlog_record_finish_line(log, result);
}

static inline int32_t hidlog_record_provide_key_pair(struct hidlog_key *key, FILE *log, uint64_t now_ms,
                                                     const uint8_t id[32], const uint8_t x[32], const uint8_t y[32]) {
    int32_t result = hidlog_key_provide_key_pair(key, now_ms, id, x, y);
    if (result < 0) {
        return result;
    }
    fprintf(log, "k %" PRIu64 " ", now_ms);
    hidlog_record_hex(log, id, 32);
    fputc(' ', log);
    hidlog_record_hex(log, x, 32);
    fputc(' ', log);
    hidlog_record_hex(log, y, 32);
    return hidlog_record_finish_line(log, result);
}

static inline int32_t hidlog_record_refuse_key_pair(struct hidlog_key *key, FILE *log, uint64_t now_ms) {
    int32_t result = hidlog_key_refuse_key_pair(key, now_ms);
    if (result < 0) {
        return result;
    }
    fprintf(log, "k %" PRIu64 " no", now_ms);
    return hidlog_record_finish_line(log, result);
}

static inline int32_t hidlog_record_provide_signature(struct hidlog_key *key, FILE *log, uint64_t now_ms,
                                                      const uint8_t *signature, size_t signature_len) {
    int32_t result = hidlog_key_provide_signature(key, now_ms, signature, signature_len);
    if (result < 0) {
        return result;
    }
    fprintf(log, "s %" PRIu64 " ", now_ms);
    hidlog_record_hex(log, signature, signature_len);
    return hidlog_record_finish_line(log, result);
}

static inline int32_t hidlog_record_refuse_signature(struct hidlog_key *key, FILE *log, uint64_t now_ms) {
    int32_t result = hidlog_key_refuse_signature(key, now_ms);
    if (result < 0) {
        return result;
    }
    fprintf(log, "s %" PRIu64 " no", now_ms);
    return hidlog_record_finish_line(log, result);
}

static inline int32_t hidlog_record_read_packet(struct hidlog_key *key, FILE *log, uint8_t packet[64]) {
    int32_t result = hidlog_key_read_packet(key, packet);
    if (result < 0) {
        return result;
    }
    fputs("< ", log);
    hidlog_record_hex(log, packet, 64);
    return hidlog_record_finish_line(log, result);
}

#endif
