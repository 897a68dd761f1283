// Tests the cause codes of hidlog_key_cause that causes.c does not test, each in a session of its own: after the last
// event, the key must report this cause. The expected values are written by hand from CTAP 2.1. Two codes are not
// tested: HIDLOG_CAUSE_NO_CHANNEL_LEFT needs more than 4 billion INITs, and no packets lead to
// HIDLOG_CAUSE_EMPTY_REQUEST. Prints nothing and returns 0 on success.
#include "hidlog.h"

#include <inttypes.h>
#include <stdio.h>
#include <stdlib.h>
#include <string.h>

#define CLIENT_DATA_HASH "2222222222222222222222222222222222222222222222222222222222222222"
#define RP_ENTITY "a16269646b6578616d706c652e636f6d"
#define USER_ENTITY "a16269644101"
#define OTHER_USER "a16269644102"
#define ES256_PARAMETER "81a263616c672664747970656a7075626c69632d6b6579"
// A request authenticatorMakeCredential, in hexadecimal. `head` is the CBOR head of the parameter map, `user` the user
// entity, and `more` the parameters after pubKeyCredParams.
#define MAKE_CREDENTIAL(head, user, more)                                                                              \
    "01" head "015820" CLIENT_DATA_HASH "02" RP_ENTITY "03" user "04" ES256_PARAMETER more
#define DISCOVERABLE "07a162726bf5"
#define CREDENTIAL_ID "abababababababababababababababababababababababababababababababab"
#define ALLOW_LIST "81a26269645820" CREDENTIAL_ID "64747970656a7075626c69632d6b6579"
#define GET_ASSERTION "02a2016b6578616d706c652e636f6d025820" CLIENT_DATA_HASH

// What happens in a session: the host sends a packet or a CTAPHID_CBOR message; the caller provides user presence, a
// key pair or a signature, or refuses to (NO_KEY_PAIR, NO_SIGNATURE); or the key is filled with credentials (STORE).
enum kind { END, PACKET, CBOR, PRESENCE, KEY_PAIR, NO_KEY_PAIR, SIGNATURE, NO_SIGNATURE, STORE };
struct event {
    enum kind kind;
    uint64_t time_ms;
    uint32_t value; // the channel, the presence, each byte of the credential ID, or each signature counter
    const char *digits;
};

struct session {
    struct hidlog_cause cause; // that of the last event
    struct event events[12];
};

// Events that most sessions have. CHANNELS allocates channels 1 and 2. REGISTRATION registers a discoverable credential
// for example.com; each byte of its ID is `id`. If `id` is 0xab, the ID is CREDENTIAL_ID.
#define CHANNELS                                                                                                       \
    {PACKET, 1, 0xffffffff, "86000800010203040506"}, {                                                                 \
        PACKET, 2, 0xffffffff, "86000800010203040506"                                                                  \
    }
#define REGISTRATION(user, id)                                                                                         \
    {CBOR, 3, 1, MAKE_CREDENTIAL("a5", user, DISCOVERABLE)}, {PRESENCE, 4, HIDLOG_PRESENCE_GRANTED, ""},               \
        {KEY_PAIR, 5, id, ""}, {                                                                                       \
        SIGNATURE, 6, 0, ""                                                                                            \
    }

static const struct session sessions[] = {
    {{HIDLOG_CAUSE_BROKEN_OFF, 0x04, 0, 0}, {CHANNELS, {PACKET, 3, 1, "810064"}, {PACKET, 4, 1, "90000104"}}},
    {{HIDLOG_CAUSE_BUSY_ELSEWHERE, 0x06, 1, 0}, {CHANNELS, {PACKET, 3, 1, "810064"}, {PACKET, 4, 2, "810001"}}},
    {{HIDLOG_CAUSE_BUSY_ELSEWHERE, 0x06, 1, 0}, {CHANNELS, {CBOR, 3, 1, "0b"}, {PACKET, 4, 2, "810001"}}},
    {{HIDLOG_CAUSE_BUSY_HERE, 0x06, 0, 0}, {CHANNELS, {CBOR, 3, 1, "0b"}, {PACKET, 4, 1, "810001"}}},
    {{HIDLOG_CAUSE_ENTRY_NOT_WHOLE, 0x14, 0x01, 0x04},
     {CHANNELS, {CBOR, 3, 1, "01a4015820" CLIENT_DATA_HASH "02" RP_ENTITY "03" USER_ENTITY "0481a163616c6726"}}},
    {{HIDLOG_CAUSE_ENTRY_NOT_WHOLE, 0x14, 0x02, 0x03},
     {CHANNELS, {CBOR, 3, 1, "02a3016b6578616d706c652e636f6d025820" CLIENT_DATA_HASH "0381a16269644101"}}},
    {{HIDLOG_CAUSE_HASH_LENGTH, 0x03, 1, 0},
     {CHANNELS,
      {CBOR, 3, 1,
       "01a4014122"
       "02" RP_ENTITY "03" USER_ENTITY "04" ES256_PARAMETER}}},
    {{HIDLOG_CAUSE_USER_ID_LENGTH, 0x03, 65, 0},
     {CHANNELS,
      {CBOR, 3, 1,
       MAKE_CREDENTIAL("a4",
                       "a1626964"
                       "5841" CLIENT_DATA_HASH CLIENT_DATA_HASH "33",
                       "")}}},
    {{HIDLOG_CAUSE_PIN_UV_AUTH_PARAM, 0x02, 0, 0},
     {CHANNELS, {CBOR, 3, 1, MAKE_CREDENTIAL("a5", USER_ENTITY, "0840")}}},
    {{HIDLOG_CAUSE_NO_ALGORITHM, 0x26, 0, 0},
     {CHANNELS,
      {CBOR, 3, 1,
       "01a4015820" CLIENT_DATA_HASH "02" RP_ENTITY "03" USER_ENTITY
       "0481a263616c6739010064747970656a7075626c69632d6b6579"}}},
    {{HIDLOG_CAUSE_UV_OPTION, 0x2c, 0, 0},
     {CHANNELS, {CBOR, 3, 1, MAKE_CREDENTIAL("a5", USER_ENTITY, "07a1627576f5")}}},
    {{HIDLOG_CAUSE_UP_OPTION, 0x2c, 0, 0},
     {CHANNELS, {CBOR, 3, 1, MAKE_CREDENTIAL("a5", USER_ENTITY, "07a1627570f4")}}},
    {{HIDLOG_CAUSE_RK_OPTION, 0x2b, 0, 0},
     {CHANNELS, {CBOR, 3, 1, "02a3016b6578616d706c652e636f6d025820" CLIENT_DATA_HASH "05a162726bf5"}}},
    {{HIDLOG_CAUSE_ENTERPRISE, 0x02, 0, 0}, {CHANNELS, {CBOR, 3, 1, MAKE_CREDENTIAL("a5", USER_ENTITY, "0a01")}}},
    {{HIDLOG_CAUSE_CANCELLED, 0x2d, 0, 0}, {CHANNELS, {CBOR, 3, 1, "0b"}, {PACKET, 4, 1, "910000"}}},
    {{HIDLOG_CAUSE_DENIED, 0x27, 0, 0}, {CHANNELS, {CBOR, 3, 1, "0b"}, {PRESENCE, 4, HIDLOG_PRESENCE_DENIED, ""}}},
    {{HIDLOG_CAUSE_NO_CONSENT, 0x27, 0, 0},
     {CHANNELS,
      {CBOR, 3, 1, MAKE_CREDENTIAL("a5", USER_ENTITY, DISCOVERABLE)},
      {PRESENCE, 4, HIDLOG_PRESENCE_TIMED_OUT, ""}}},
    {{HIDLOG_CAUSE_NO_RESPONSE, 0x2f, 0, 0},
     {CHANNELS, {CBOR, 3, 1, "0b"}, {PRESENCE, 4, HIDLOG_PRESENCE_TIMED_OUT, ""}}},
    {{HIDLOG_CAUSE_EXCLUDED, 0x19, 0, 0},
     {CHANNELS,
      REGISTRATION(USER_ENTITY, 0xab),
      {CBOR, 7, 1, MAKE_CREDENTIAL("a5", OTHER_USER, "05" ALLOW_LIST)},
      {PRESENCE, 8, HIDLOG_PRESENCE_GRANTED, ""}}},
    {{HIDLOG_CAUSE_FULL, 0x28, 0, 0},
     {{STORE, 0, 0, ""},
      CHANNELS,
      {CBOR, 3, 1, MAKE_CREDENTIAL("a5", OTHER_USER, DISCOVERABLE)},
      {PRESENCE, 4, HIDLOG_PRESENCE_GRANTED, ""}}},
    {{HIDLOG_CAUSE_NO_KEY, 0x7f, 0, 0},
     {CHANNELS,
      {CBOR, 3, 1, MAKE_CREDENTIAL("a5", USER_ENTITY, DISCOVERABLE)},
      {PRESENCE, 4, HIDLOG_PRESENCE_GRANTED, ""},
      {NO_KEY_PAIR, 5, 0, ""}}},
    {{HIDLOG_CAUSE_KEY_ID, 0x7f, 0, 0},
     {CHANNELS,
      REGISTRATION(USER_ENTITY, 0xab),
      {CBOR, 7, 1, MAKE_CREDENTIAL("a5", OTHER_USER, DISCOVERABLE)},
      {PRESENCE, 8, HIDLOG_PRESENCE_GRANTED, ""},
      {KEY_PAIR, 9, 0xab, ""}}},
    {{HIDLOG_CAUSE_NO_SIGNATURE, 0x7f, 0, 0},
     {CHANNELS,
      {CBOR, 3, 1, MAKE_CREDENTIAL("a5", USER_ENTITY, DISCOVERABLE)},
      {PRESENCE, 4, HIDLOG_PRESENCE_GRANTED, ""},
      {KEY_PAIR, 5, 0xab, ""},
      {NO_SIGNATURE, 6, 0, ""}}},
    {{HIDLOG_CAUSE_NO_CREDENTIAL, 0x2e, 0, 0}, {CHANNELS, {CBOR, 3, 1, GET_ASSERTION}}},
    {{HIDLOG_CAUSE_NO_CREDENTIAL, 0x2e, 1, 0},
     {CHANNELS, {CBOR, 3, 1, "02a3016b6578616d706c652e636f6d025820" CLIENT_DATA_HASH "03" ALLOW_LIST}}},
    {{HIDLOG_CAUSE_COUNTER, 0x15, 0, 0}, {{STORE, 0, 0xffffffff, ""}, CHANNELS, {CBOR, 3, 1, GET_ASSERTION}}},
    {{HIDLOG_CAUSE_PENDING_ELSEWHERE, 0x30, 1, 0},
     {{STORE, 0, 0, ""},
      CHANNELS,
      {CBOR, 3, 1, GET_ASSERTION},
      {PRESENCE, 4, HIDLOG_PRESENCE_GRANTED, ""},
      {SIGNATURE, 5, 0, ""},
      {CBOR, 6, 2, "08"}}},
    {{HIDLOG_CAUSE_NEXT_TOO_LATE, 0x30, 5, 30006},
     {{STORE, 0, 0, ""},
      CHANNELS,
      {CBOR, 3, 1, GET_ASSERTION},
      {PRESENCE, 4, HIDLOG_PRESENCE_GRANTED, ""},
      {SIGNATURE, 5, 0, ""},
      {CBOR, 30006, 1, "08"}}},
};

static size_t session_index;

static void expect(int is_met, const char *failure) {
    if (!is_met) {
        fprintf(stderr, "cause_codes: session %zu: %s\n", session_index, failure);
        exit(1);
    }
}

static size_t parse_hex(const char *digits, uint8_t *bytes, size_t cap) {
    size_t len = strlen(digits) / 2;
    expect(len <= cap, "a packet or message of the session is too long for the buffer");
    for (size_t i = 0; i < len; i++) {
        unsigned byte;
        expect(sscanf(digits + 2 * i, "%2x", &byte) == 1, digits);
        bytes[i] = (uint8_t)byte;
    }
    return len;
}

static void send_packet(struct hidlog_key *key, const struct event *event, const uint8_t *bytes, size_t len) {
    uint8_t packet[64] = {(uint8_t)(event->value >> 24), (uint8_t)(event->value >> 16), (uint8_t)(event->value >> 8),
                          (uint8_t)event->value};
    memcpy(packet + 4, bytes, len);
    expect(hidlog_key_write_packet(key, event->time_ms, packet) >= 0, "hidlog_key_write_packet failed");
}

// Sends a CTAPHID_CBOR message: an initialization packet with up to 57 bytes of data, and continuation packets with up
// to 59 bytes each.
static void send_message(struct hidlog_key *key, const struct event *event) {
    uint8_t data[512], part[60];
    size_t len = parse_hex(event->digits, data, sizeof data), sent = len < 57 ? len : 57;
    part[0] = 0x90;
    part[1] = (uint8_t)(len >> 8);
    part[2] = (uint8_t)len;
    memcpy(part + 3, data, sent);
    send_packet(key, event, part, sent + 3);
    for (uint8_t sequence = 0; sent < len; sequence++) {
        size_t more = len - sent < 59 ? len - sent : 59;
        part[0] = sequence;
        memcpy(part + 1, data + sent, more);
        send_packet(key, event, part, more + 1);
        sent += more;
    }
}

// Fills the key to its capacity with discoverable credentials of example.com.
static void fill_key(struct hidlog_key *key, uint32_t sign_count) {
    // SHA-256 of "example.com", computed with sha256sum.
    static const char hash[] = "a379a6f6eeafb9a55e378c118034e2751e682fab9f2d30ab13d2125586ce1947";
    struct hidlog_credential credential = {.user_id_len = 1, .discoverable = 1, .sign_count = sign_count};
    parse_hex(hash, credential.rp_id_hash, 32);
    for (unsigned i = 0; i < HIDLOG_CAPACITY; i++) {
        credential.id[0] = (uint8_t)i;
        credential.user_id[0] = (uint8_t)(i + 16);
        expect(hidlog_key_add_credential(key, 0, &credential) == 0, "hidlog_key_add_credential failed");
    }
}

static void handle_event(struct hidlog_key *key, const struct event *event) {
    uint8_t bytes[64] = {1}, id[32];
    memset(id, (int)event->value, sizeof id);
    switch (event->kind) {
    case PACKET:
        send_packet(key, event, bytes, parse_hex(event->digits, bytes, 60));
        break;
    case CBOR:
        send_message(key, event);
        break;
    case PRESENCE:
        expect(hidlog_key_provide_presence(key, event->time_ms, event->value) >= 0,
               "hidlog_key_provide_presence failed");
        break;
    case KEY_PAIR:
        expect(hidlog_key_provide_key_pair(key, event->time_ms, id, bytes, bytes) >= 0,
               "hidlog_key_provide_key_pair failed");
        break;
    case NO_KEY_PAIR:
        expect(hidlog_key_refuse_key_pair(key, event->time_ms) >= 0, "hidlog_key_refuse_key_pair failed");
        break;
    case SIGNATURE:
        expect(hidlog_key_provide_signature(key, event->time_ms, bytes, 1) >= 0, "hidlog_key_provide_signature failed");
        break;
    case NO_SIGNATURE:
        expect(hidlog_key_refuse_signature(key, event->time_ms) >= 0, "hidlog_key_refuse_signature failed");
        break;
    case STORE:
        fill_key(key, event->value);
        break;
    case END:
        break;
    }
}

static void expect_cause(struct hidlog_key *key, const struct hidlog_cause *expected) {
    struct hidlog_cause cause = {0};
    uint8_t text[160];
    int32_t len = hidlog_key_cause(key, 1, &cause, text, sizeof text);
    expect(len >= 0 && (len > 0) == (expected->code != 0), "expected a sentence if and only if there is a cause");
    if (cause.code != expected->code || cause.status != expected->status || cause.first != expected->first ||
        cause.second != expected->second) {
        fprintf(stderr,
                "cause_codes: got code %" PRIu32 ", status %" PRIu32 ", values %" PRIu64 " and %" PRIu64 ": %.*s\n",
                cause.code, cause.status, cause.first, cause.second, (int)len, (const char *)text);
        expect(0, "the cause is not the one that the table has for this session");
    }
}

int main(void) {
    static const uint8_t aaguid[16];
    static const struct hidlog_cause none;
    struct hidlog_key key = {0};
    key.memory = aligned_alloc(16, (hidlog_key_size() + 15) / 16 * 16);
    expect(key.memory != NULL, "out of memory");
    for (session_index = 0; session_index < sizeof sessions / sizeof sessions[0]; session_index++) {
        const struct event *event = sessions[session_index].events;
        expect(hidlog_key_init(&key, aaguid, 0, aaguid, 0) == 0, "hidlog_key_init failed");
        for (; event->kind != END; event++) {
            uint8_t packet[64];
            handle_event(&key, event);
            expect_cause(&key, event[1].kind == END ? &sessions[session_index].cause : &none);
            while (hidlog_key_queued_packets(&key) > 0) {
                expect(hidlog_key_read_packet(&key, packet) >= 0, "hidlog_key_read_packet failed");
            }
        }
        expect(hidlog_key_destroy(&key) == 0, "hidlog_key_destroy failed");
    }
    free(key.memory);
    return 0;
}
