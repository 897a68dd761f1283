/* The declarations of a second implementation of the security key, in C, with which the speed of `hidlog replay` is
 * compared. It writes the same output as `hidlog replay` for the flows of bench/flows.py.
 *
 * The code is scalar. It uses lookup tables for hexadecimal digits, and OpenSSL's SHA-256, which bench/peer.sh runs
 * with and without vector instructions. For a log of INIT, PING, getInfo, makeCredential, getAssertion, replies,
 * ticks and comments, the output equals that of `hidlog replay` byte for byte, except for what is listed at the end.
 * It implements strict canonical CBOR with a count of its steps, the order of a request's checks, KEEPALIVEs,
 * timeouts, busy channels, unknown channels, wrong sequence numbers, 64 credentials, allow and exclude lists,
 * signature counters, CANCEL, and INIT on an allocated channel.
 *
 * It does not implement getNextAssertion (a sign-in with several credentials uses the newest credential, and the
 * response has no numberOfCredentials), reset, selection, user names, snapshots, or the precedence of a parameter of a
 * wrong type over a list entry without a required member. */
#ifndef PEER_H
#define PEER_H

#include <stdbool.h>
#include <stddef.h>
#include <stdint.h>

enum {
    PACKET_BYTES = 64,
    INIT_DATA_BYTES = 57,
    CONT_DATA_BYTES = 59,
    MAX_MESSAGE_BYTES = 7609,
    MAX_CREDENTIALS = 64,
    MAX_USER_ID_BYTES = 64,
    MAX_LINE_BYTES = 255,
    MAX_SENT_PACKETS = 130,
};

enum command { PING = 0x01, INIT = 0x06, CBOR = 0x10, CANCEL = 0x11, KEEPALIVE = 0x3b, ERROR = 0x3f };

/* Appends a packet that the key sends to the output, as a line of the log. */
void log_sent_packet(const uint8_t packet[PACKET_BYTES]);

/* The transport. */
void transport_handle_packet(uint64_t now_ms, const uint8_t packet[PACKET_BYTES]);
void transport_advance_time(uint64_t now_ms);
void transport_send(uint32_t channel, enum command command, const uint8_t *message, size_t len);
size_t transport_peak_message_bytes(void);

/* The authenticator. It handles one request at a time, which is pending until the response is sent, and belongs to the
 * channel on which the request came. */
enum need { NO_NEED, PRESENCE, KEY_PAIR, SIGNATURE };
struct stats {
    uint64_t requests, bytes, steps;
    int peak_credentials;
};
void authenticator_request(uint64_t now_ms, uint32_t channel, const uint8_t *message, size_t len);
bool authenticator_is_pending(void);
bool authenticator_is_pending_on(uint32_t channel);
void authenticator_cancel(void); /* with a response */
void authenticator_abort(void);  /* without a response */
void authenticator_advance_time(uint64_t now_ms);
void authenticator_provide_presence(uint64_t now_ms, bool granted);
void authenticator_provide_key_pair(uint64_t now_ms, const uint8_t *key_pair); /* id, x and y, or NULL */
void authenticator_provide_signature(uint64_t now_ms, const uint8_t *signature, size_t len);
struct stats authenticator_stats(void);

/* CTAP2 canonical CBOR. */
struct reader {
    const uint8_t *next, *end;
};
struct string {
    const uint8_t *data;
    size_t len;
};
enum major { UNSIGNED, NEGATIVE, BYTES, TEXT, ARRAY, MAP, TAG, SIMPLE };
bool cbor_check(const uint8_t *encoded, size_t len, uint64_t *steps);
uint64_t cbor_read_head(struct reader *reader, enum major *major);
bool cbor_read_string(struct reader *reader, enum major major, struct string *string); /* BYTES or TEXT */
bool cbor_read_count(struct reader *reader, enum major major, uint64_t *count);
void cbor_skip(struct reader *reader);
bool string_equals(struct string string, const char *expected);

#endif
