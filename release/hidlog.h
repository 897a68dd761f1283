/* hidlog: the commands of the `hidlog` program as functions on buffers, and an in-memory FIDO2 security key. Link with
 * libhidlog.a or libhidlog.so.1. Session logs: docs/use/LOG_FORMAT.md.
 *
 * Each command function reads a complete log and a credential snapshot (length 0 for none; hidlog_show and
 * hidlog_transactions take none) and writes the command's output to `out`, at most `out_cap` bytes. The result is
 * stored in *result. The command functions keep no state between calls, and are thread-safe. To add an input, append
 * its line to the log and call again.
 *
 * No function allocates memory, except in the portable library (hidlog.c): there, a call that runs at the same time as
 * another call may allocate memory. If the allocation fails, the call changes nothing, and returns the error for a
 * buffer that is too small (hidlog_result_message returns 0).
 *
 * Pointers must not be NULL, even if the length is 0, and *result and `out` must not overlap each other or an input.
 * If the output does not fit, it is truncated and the error is HIDLOG_ERR_BUFFER_TOO_SMALL. Bytes of `out` after the
 * output may be overwritten, but none past `out_cap`. Nothing is written if the snapshot is rejected. */
#ifndef HIDLOG_H
#define HIDLOG_H

#include <stddef.h>
#include <stdint.h>

#ifdef __cplusplus
extern "C" {
#endif

enum hidlog_status {
    HIDLOG_OK = 0,            /* the command completed */
    HIDLOG_LOG_ERROR = 1,     /* error in the log, or the buffer is too small */
    HIDLOG_SNAPSHOT_ERROR = 2 /* the snapshot was rejected */
};

enum hidlog_log_error {
    HIDLOG_ERR_BAD_LINE = 1,
    HIDLOG_ERR_LINE_TOO_LONG = 2,
    HIDLOG_ERR_MISMATCH = 3, /* hidlog_check only */
    /* 4 is the program's error for a log that cannot be read; no function returns it */
    HIDLOG_ERR_BUFFER_TOO_SMALL = 5,
    HIDLOG_ERR_TOO_MANY_LINES = 6
};

enum hidlog_snapshot_error {
    HIDLOG_ERR_NOT_A_SNAPSHOT = 1,
    HIDLOG_ERR_TOO_MANY_CREDENTIALS = 2,
    HIDLOG_ERR_BAD_CREDENTIAL = 3
};

struct hidlog_result {
    uint32_t status;  /* enum hidlog_status */
    uint32_t error;   /* enum hidlog_log_error or enum hidlog_snapshot_error, by the status; or 0 */
    uint64_t line;    /* line number of the error, from 1, or 0 */
    uint64_t packet;  /* HIDLOG_ERR_MISMATCH: the packet's number, from 1; or 0 */
    uint64_t written; /* bytes written to `out` */
};

/* Replays the log: copies its inputs, comments and empty lines, and writes the packets that the key sends after each
 * input, and the totals at the end. The packets and totals that the log has are not copied. */
void hidlog_replay(const uint8_t *log, size_t log_len, const uint8_t *snapshot, size_t snapshot_len, uint8_t *out,
                   size_t out_cap, struct hidlog_result *result);

/* Like hidlog_replay, and also writes comments after the packets of each input. The last of these comments, and only
 * the last, begins with "# need " and says what the key needs. Comments of the log that begin with "# need " are not
 * copied. */
void hidlog_live(const uint8_t *log, size_t log_len, const uint8_t *snapshot, size_t snapshot_len, uint8_t *out,
                 size_t out_cap, struct hidlog_result *result);

/* Replays the log, and compares the packets that the key sends with those in the log. If they are equal, writes the
 * numbers of inputs and packets; otherwise the error is HIDLOG_ERR_MISMATCH. */
void hidlog_check(const uint8_t *log, size_t log_len, const uint8_t *snapshot, size_t snapshot_len, uint8_t *out,
                  size_t out_cap, struct hidlog_result *result);

/* Copies the log's inputs, comments and empty lines, and replaces each input that the key ignores with a tick. The
 * log's packets and totals are not copied. */
void hidlog_quiet(const uint8_t *log, size_t log_len, const uint8_t *snapshot, size_t snapshot_len, uint8_t *out,
                  size_t out_cap, struct hidlog_result *result);

/* Writes the log in readable form (docs/use/LOG_FORMAT.md): if `explain` is 0, the stable text for programs; otherwise
 * with names, fields and comments. The log is not replayed, so the status is never HIDLOG_SNAPSHOT_ERROR. On
 * HIDLOG_ERR_BAD_LINE, HIDLOG_ERR_LINE_TOO_LONG and HIDLOG_ERR_TOO_MANY_LINES, `out` has the text of the lines before
 * the bad one; on HIDLOG_ERR_BUFFER_TOO_SMALL, the start of the text: call again with a larger buffer. */
void hidlog_show(const uint8_t *log, size_t log_len, uint32_t explain, uint8_t *out, size_t out_cap,
                 struct hidlog_result *result);

/* Writes which transaction each line belongs to, by the rules of docs/use/EXPLAINED.md: one line of space-separated
 * decimal numbers for each packet, tick, presence, key pair and signature in the log. The numbers are the line number,
 * the first line of its transaction (or 0), and the first line of the message that the packet belongs to (or 0, as for
 * a CANCEL, a packet out of sequence, and a line that is not a packet). A word follows for each fact that this line
 * shows about earlier lines:
 *
 *     l12     line 12 is a late packet: it belongs to no transaction and no message
 *     s12:46  the transaction from line 12 ends with a response of status 46
 *     a12     it ends with a response without a status
 *     c12     it ends with an incomplete response: no further packet of it follows
 *     e12:6   it ends with an ERROR of code 6
 *     d12:17  it is dropped by the CANCEL or INIT of line 17
 *     r12:17  it is replaced by the message from line 17, on its channel
 *     f12     it is no longer tracked: too many transactions are open
 *     u12     its end is unknown: the log does not show whether it got a response
 *
 * A transaction without such a word is open at the log's end, or its response is incomplete there. The text has about a
 * sixth of the log's length. Errors are those of hidlog_show. */
void hidlog_transactions(const uint8_t *log, size_t log_len, uint8_t *out, size_t out_cap,
                         struct hidlog_result *result);

/* Writes the error message that the program prints for a result, such as `hidlog: line 3: not a log line` or
 * `hidlog: snapshot refused: 1`, with a newline, truncated to `out_cap` bytes (64 are enough). Writes nothing if the
 * status is HIDLOG_OK. Returns the number of bytes written. */
size_t hidlog_result_message(const struct hidlog_result *result, uint8_t *out, size_t out_cap);

/* ---- An in-memory key: one input per call, packets out -----------------------------------------------------------
 *
 * struct hidlog_key is an authenticator in caller-provided memory. Zero the struct, point `memory` at hidlog_key_size()
 * bytes aligned to 16, and call hidlog_key_init. Then pass one input per call and read the response packets with
 * hidlog_key_read_packet until none is queued. Do not call functions on one key concurrently; different keys are
 * independent. Do not copy, move, read or write the struct or its memory while the key is initialized (it may be used
 * from another thread under a lock).
 *
 * Functions return a number >= 0, which is 0 or a count unless stated, or an error < 0 (enum hidlog_key_error) that
 * leaves the key unchanged. Pointers must not be NULL. Timestamps are milliseconds; one before the latest counts as the
 * latest.
 *
 * Stack use on x86-64: hidlog_key_init 40 kB, hidlog_key_add_credential 80 kB, hidlog_key_remove_credential 60 kB,
 * hidlog_key_clear_credentials 20 kB, hidlog_key_replay_lines 45 kB, every other function on a key less than 20 kB;
 * hidlog_show 65 kB, every other function on a log 85 kB. With libhidlog-256, at most 310 kB. */

struct hidlog_key {
    void *memory;   /* hidlog_key_size() bytes, aligned to 16 */
    uint32_t state; /* 0 before hidlog_key_init; then for the library only */
};

enum hidlog_key_error {
    HIDLOG_KEY_ERR_NOT_INITIALIZED = -1,     /* never initialized, or destroyed */
    HIDLOG_KEY_ERR_ALREADY_INITIALIZED = -2, /* hidlog_key_init: the key is initialized */
    HIDLOG_KEY_ERR_PACKETS_QUEUED = -3,      /* read the queued packets first */
    HIDLOG_KEY_ERR_NO_PACKET = -4,           /* hidlog_key_read_packet: none is queued */
    HIDLOG_KEY_ERR_INVALID_ARGUMENT = -5,    /* invalid presence or length, or no such index or credential */
    HIDLOG_KEY_ERR_BUFFER_TOO_SMALL = -6,    /* hidlog_key_save_snapshot: less than HIDLOG_SNAPSHOT_MAX_LEN bytes */
    HIDLOG_KEY_ERR_BUSY = -7,                /* changing credentials while hidlog_key_get_need isn't HIDLOG_NEED_NONE */
    HIDLOG_KEY_ERR_DUPLICATE_USER = -8,      /* another discoverable credential has the same RP and user handle */
    HIDLOG_KEY_ERR_NOT_A_SNAPSHOT = -17,     /* hidlog_key_init: not a snapshot of version 1 or 2 */
    HIDLOG_KEY_ERR_FULL = -18,               /* more credentials than the key's capacity */
    HIDLOG_KEY_ERR_BAD_CREDENTIAL = -19      /* hidlog_key_init: the snapshot has an invalid credential */
};

/* Returns the size of a key's memory in bytes. */
size_t hidlog_key_size(void);

/* Returns the maximum number of credentials on a key: 64, or 256 in the library libhidlog-256, which has the same
 * functions. Compile programs for libhidlog-256 with HIDLOG_CAPACITY defined as 256 (`pkg-config --cflags --libs
 * hidlog-256` does), so that their snapshot buffers are large enough. */
size_t hidlog_key_capacity(void);

/* Initializes a key that powers up at `now_ms`, with the credentials of a snapshot (length 0 for none). Returns 0. */
int32_t hidlog_key_init(struct hidlog_key *key, const uint8_t aaguid[16], uint64_t now_ms, const uint8_t *snapshot,
                        size_t snapshot_len);

/* Destroys a key; its memory may be reused or freed. Returns 0. */
int32_t hidlog_key_destroy(struct hidlog_key *key);

/* The inputs of a key. Each function passes one input, and returns the number of queued packets, 0 to 130. */
int32_t hidlog_key_write_packet(struct hidlog_key *key, uint64_t now_ms, const uint8_t packet[64]);
int32_t hidlog_key_tick(struct hidlog_key *key, uint64_t now_ms);
enum hidlog_presence { HIDLOG_PRESENCE_GRANTED = 0, HIDLOG_PRESENCE_DENIED = 1, HIDLOG_PRESENCE_TIMED_OUT = 2 };
int32_t hidlog_key_provide_presence(struct hidlog_key *key, uint64_t now_ms, uint32_t presence);
int32_t hidlog_key_provide_key_pair(struct hidlog_key *key, uint64_t now_ms, const uint8_t id[32], const uint8_t x[32],
                                    const uint8_t y[32]);
int32_t hidlog_key_refuse_key_pair(struct hidlog_key *key, uint64_t now_ms);
/* `signature`: DER, 1 to 72 bytes. */
int32_t hidlog_key_provide_signature(struct hidlog_key *key, uint64_t now_ms, const uint8_t *signature,
                                     size_t signature_len);
int32_t hidlog_key_refuse_signature(struct hidlog_key *key, uint64_t now_ms);

/* Returns the number of packets that hidlog_key_read_packet can read. */
int32_t hidlog_key_queued_packets(struct hidlog_key *key);

/* Removes the next queued packet, and copies it to `packet`. Returns the number of packets that are still queued, or
 * HIDLOG_KEY_ERR_NO_PACKET. */
int32_t hidlog_key_read_packet(struct hidlog_key *key, uint8_t packet[64]);

/* What a key needs from its caller to continue a request. */
enum hidlog_need_kind {
    HIDLOG_NEED_NONE = 0,
    HIDLOG_NEED_PRESENCE = 1,
    HIDLOG_NEED_KEY_PAIR = 2,
    HIDLOG_NEED_SIGNATURE = 3
};
struct hidlog_need {
    uint32_t kind;        /* enum hidlog_need_kind */
    uint32_t to_sign_len; /* HIDLOG_NEED_SIGNATURE: 69 (assertion) or 196 (registration); otherwise 0 */
    uint8_t id[32];       /* HIDLOG_NEED_SIGNATURE: the credential ID; otherwise zeros */
    uint8_t to_sign[196]; /* the bytes to sign (ES256: SHA-256, ECDSA, DER), zero-padded */
};
/* Stores what the key needs now in *need. Returns the member `kind`. */
int32_t hidlog_key_get_need(struct hidlog_key *key, struct hidlog_need *need);

/* Why the key rejected its last input: why it responded with an ERROR packet (CTAP 2.1, section 11.2.9.1.6) or with a
 * status other than 0 (8.2). `first` and `second` are members of struct hidlog_cause. A parameter's number is its key
 * in the request's CBOR map (6.1, 6.2); times are in milliseconds. */
enum hidlog_cause_code {
    /* ERROR packets (transport) */
    HIDLOG_CAUSE_NO_SUCH_COMMAND = 1,  /* the CTAPHID command `first` is not supported */
    HIDLOG_CAUSE_INIT_LENGTH = 2,      /* an INIT with `first` data bytes, not 8 */
    HIDLOG_CAUSE_MESSAGE_LENGTH = 3,   /* a message of command `first` has the invalid length `second` */
    HIDLOG_CAUSE_WRONG_NUMBER = 4,     /* sequence number `first`, expected `second` */
    HIDLOG_CAUSE_BROKEN_OFF = 5,       /* a message began while packet `first` of another was expected on its channel */
    HIDLOG_CAUSE_TIMED_OUT = 6,        /* the message's last packet came at `first`; it is `second` now */
    HIDLOG_CAUSE_BUSY_ELSEWHERE = 7,   /* channel `first` has an incomplete message or a pending request */
    HIDLOG_CAUSE_BUSY_HERE = 8,        /* a request is pending on this channel */
    HIDLOG_CAUSE_NO_SUCH_CHANNEL = 9,  /* only channels 1 to `first` are allocated; 0: none */
    HIDLOG_CAUSE_NO_CHANNEL_LEFT = 10, /* all channel IDs are allocated */
    /* statuses of invalid requests; the cause is the first check that failed */
    HIDLOG_CAUSE_EMPTY_REQUEST = 20,     /* no command byte (the transport never passes this on) */
    HIDLOG_CAUSE_COMMAND = 21,           /* the authenticator command `first` is not supported */
    HIDLOG_CAUSE_TRAILING = 22,          /* `first` bytes after a command without parameters */
    HIDLOG_CAUSE_NOT_CANONICAL = 23,     /* CBOR error `second` (docs/use/PROFILE.md) at byte `first` */
    HIDLOG_CAUSE_WRONG_TYPE = 24,        /* a parameter, or a member of one, has the wrong CBOR type */
    HIDLOG_CAUSE_MISSING = 25,           /* command `first` lacks parameter `second`, or its id */
    HIDLOG_CAUSE_ENTRY_NOT_WHOLE = 26,   /* an entry of command `first`'s list `second` lacks a member */
    HIDLOG_CAUSE_HASH_LENGTH = 27,       /* clientDataHash has `first` bytes, not 32 */
    HIDLOG_CAUSE_USER_ID_LENGTH = 28,    /* the user handle has `first` bytes, more than 64 */
    HIDLOG_CAUSE_PIN_UV_AUTH_PARAM = 29, /* pinUvAuthParam is present, but the key has no PIN */
    HIDLOG_CAUSE_NO_ALGORITHM = 30,      /* no entry of pubKeyCredParams is ES256 */
    HIDLOG_CAUSE_UV_OPTION = 31,         /* the option uv is true */
    HIDLOG_CAUSE_UP_OPTION = 32,         /* the option up is false in a registration */
    HIDLOG_CAUSE_RK_OPTION = 33,         /* the option rk is present in an assertion */
    HIDLOG_CAUSE_ENTERPRISE = 34,        /* enterpriseAttestation is present */
    /* statuses of valid requests that the key cannot or may not fulfil */
    HIDLOG_CAUSE_CANCELLED = 50,         /* the host sent CANCEL */
    HIDLOG_CAUSE_DENIED = 51,            /* the user refused */
    HIDLOG_CAUSE_NO_CONSENT = 52,        /* the user did not respond in time: registration or assertion */
    HIDLOG_CAUSE_NO_RESPONSE = 53,       /* the user did not respond in time: reset or selection */
    HIDLOG_CAUSE_EXCLUDED = 54,          /* excludeList has a credential on this key */
    HIDLOG_CAUSE_FULL = 55,              /* no capacity for another credential */
    HIDLOG_CAUSE_NO_KEY = 56,            /* hidlog_key_refuse_key_pair */
    HIDLOG_CAUSE_KEY_ID = 57,            /* the new credential ID is already in use */
    HIDLOG_CAUSE_NO_SIGNATURE = 58,      /* hidlog_key_refuse_signature */
    HIDLOG_CAUSE_NO_CREDENTIAL = 59,     /* none for this RP: `first` is 1, none in allowList; 0, none discoverable */
    HIDLOG_CAUSE_COUNTER = 60,           /* the signature counter has reached its maximum */
    HIDLOG_CAUSE_NOTHING_PENDING = 61,   /* no assertion is pending */
    HIDLOG_CAUSE_PENDING_ELSEWHERE = 62, /* the pending assertions belong to channel `first` */
    HIDLOG_CAUSE_NEXT_TOO_LATE = 63,     /* the last assertion was at `first`, more than 30 s before `second` */
    HIDLOG_CAUSE_RESET_TOO_LATE = 64     /* power-up was at `first`, more than 10 s before `second` */
};
struct hidlog_cause {
    uint32_t code;          /* enum hidlog_cause_code */
    uint32_t status;        /* the ERROR packet's code, or the status */
    uint64_t first, second; /* the values compared, or 0 */
};
/* Stores why the key rejected its last input in *cause, and writes this as a UTF-8 sentence without a full stop to
 * `out`, truncated to `out_cap` bytes (160 are enough). `which` is 1 for the input itself, or 0 for a timeout that the
 * key handled before it. Returns the number of bytes written. Returns 0 and stores nothing if nothing was rejected, or
 * if the last call was hidlog_key_replay_lines or a power-up. HIDLOG_KEY_ERR_INVALID_ARGUMENT: another value of
 * `which`. */
int32_t hidlog_key_cause(struct hidlog_key *key, uint32_t which, struct hidlog_cause *cause, uint8_t *out,
                         size_t out_cap);

/* A credential without its private key. */
struct hidlog_credential {
    uint8_t rp_id_hash[32]; /* SHA-256 of the RP ID */
    uint8_t id[32];
    uint8_t x[32]; /* the public key on P-256 */
    uint8_t y[32];
    uint8_t user_id[64];    /* the user handle, zero-padded */
    uint8_t user_name[64];  /* UTF-8, zero-padded */
    uint32_t user_id_len;   /* 0 to 64 */
    uint32_t user_name_len; /* 0 to 64 */
    uint32_t discoverable;  /* 0 or 1 */
    uint32_t sign_count;    /* the signature counter */
};
/* Returns the number of credentials on the key, 0 to HIDLOG_CAPACITY. */
int32_t hidlog_key_credential_count(struct hidlog_key *key);
/* Stores the credential with this index in *credential; the oldest has index 0. Returns 0, or
 * HIDLOG_KEY_ERR_INVALID_ARGUMENT if there is no such credential. */
int32_t hidlog_key_get_credential(struct hidlog_key *key, size_t index, struct hidlog_credential *credential);

/* The next three functions change the credentials, and return 0. They return HIDLOG_KEY_ERR_PACKETS_QUEUED if packets
 * are queued, and HIDLOG_KEY_ERR_BUSY if the key needs something. Each also power-cycles the key at `now_ms`: its
 * channels, an incomplete message, pending assertions and statistics are lost, so a client starts with INIT again.
 *
 * hidlog_key_add_credential appends a credential, and removes an earlier one with the same ID. Bytes after user_id_len
 * and user_name_len are ignored. HIDLOG_KEY_ERR_INVALID_ARGUMENT: a length over 64, a name that is not UTF-8, or a
 * `discoverable` over 1. */
int32_t hidlog_key_add_credential(struct hidlog_key *key, uint64_t now_ms, const struct hidlog_credential *credential);
/* Removes the credential with this ID, or returns HIDLOG_KEY_ERR_INVALID_ARGUMENT if there is none. */
int32_t hidlog_key_remove_credential(struct hidlog_key *key, uint64_t now_ms, const uint8_t id[32]);
/* Removes all credentials. */
int32_t hidlog_key_clear_credentials(struct hidlog_key *key, uint64_t now_ms);

#ifndef HIDLOG_CAPACITY
#define HIDLOG_CAPACITY 64
#endif
/* Maximum length of a snapshot: 13 bytes, and 283 per credential. */
enum { HIDLOG_SNAPSHOT_MAX_LEN = 13 + 283 * HIDLOG_CAPACITY };
/* Writes a snapshot of the credentials, for hidlog_key_init, to `out`; `out_cap` must be at least
 * HIDLOG_SNAPSHOT_MAX_LEN. It may be called at any time. Private keys are not included. Returns the length. */
int32_t hidlog_key_save_snapshot(struct hidlog_key *key, uint8_t *out, size_t out_cap);

/* Returns the number of assertions that authenticatorGetNextAssertion can still return, 0 to HIDLOG_CAPACITY - 1. */
int32_t hidlog_key_pending_assertions(struct hidlog_key *key);

/* Totals and peaks of a key's session: the numbers in the totals line of its log (docs/use/LOG_FORMAT.md). */
struct hidlog_stats {
    uint64_t requests, bytes, steps;
    uint32_t peak_message_bytes; /* `held` in the log */
    uint32_t peak_credentials;   /* `rows` */
    uint32_t peak_pending;       /* `pending` */
    uint32_t reserved;           /* 0 */
};
/* Stores the key's statistics in *stats. Returns 0. */
int32_t hidlog_key_get_stats(struct hidlog_key *key, struct hidlog_stats *stats);

/* Passes the inputs of log lines to the key, each line with its newline, and writes what hidlog_live writes for them,
 * without the totals line. A program can record a session with it as the session runs. 18,000 bytes of output are
 * enough for one line. The result is stored in *result, with line numbers counted from 1 in these lines. On an error,
 * the lines before it were handled. On HIDLOG_ERR_BUFFER_TOO_SMALL, the last line was handled, too, and its text is
 * truncated. Returns the result's status, 0 or 1. */
int32_t hidlog_key_replay_lines(struct hidlog_key *key, const uint8_t *log, size_t log_len, uint8_t *out,
                                size_t out_cap, struct hidlog_result *result);

/* ---- The WebAuthn client: what a browser does between a page and a key (WebAuthn Level 2, section 5.1).
 *
 * A call of navigator.credentials takes two calls here: hidlog_client_request checks the options and writes the CTAP2
 * request; send it to a key as a CBOR message, and pass the key's response to hidlog_client_response, which writes the
 * credential as JSON. Both take the same options. They keep no state.
 *
 * options     the page's options as JSON, as PublicKeyCredential.parseCreationOptionsFromJSON takes them, or
 *             {"publicKey": {..}} around them
 * mediation   "optional", "silent", "required" or "conditional"
 * origin      the page's origin as serialized by browsers: https://example.com, http://localhost:5000
 * suffix      the public suffix of the origin's host, such as co.uk; if empty, the host's last label
 * abilities   what the key can do: flags of enum hidlog_client_ability
 *
 * Each returns the number of bytes written to `out`, or an error < 0 (enum hidlog_client_error). On an error, `out` has
 * the name of the invalid member of the options and then the reason, with their lengths in *report, which are 0 if they
 * do not fit. A request has at most 7609 bytes, a credential's JSON at most 16384. */
enum hidlog_client_ceremony { HIDLOG_CLIENT_CREATE = 0, HIDLOG_CLIENT_GET = 1 };

enum hidlog_client_ability {
    HIDLOG_CLIENT_VERIFIES = 1,           /* user verification is supported, and succeeds */
    HIDLOG_CLIENT_VERIFICATION_FAILS = 2, /* user verification is supported, and fails */
    HIDLOG_CLIENT_PLATFORM = 4,           /* a platform authenticator; otherwise a USB key */
    HIDLOG_CLIENT_RESIDENT_KEY = 8,       /* discoverable credentials are supported */
    HIDLOG_CLIENT_CRED_PROTECT = 16,      /* the caller supports the extension credProtect, outside the core */
    HIDLOG_CLIENT_LARGE_BLOB = 32         /* the caller supports large blobs of discoverable credentials */
};

enum hidlog_client_error {
    HIDLOG_CLIENT_TYPE_ERROR = -1,
    HIDLOG_CLIENT_ENCODING_ERROR = -2,
    HIDLOG_CLIENT_RANGE_ERROR = -3,
    HIDLOG_CLIENT_NOT_SUPPORTED_ERROR = -4,
    HIDLOG_CLIENT_SECURITY_ERROR = -5,
    HIDLOG_CLIENT_NOT_ALLOWED_ERROR = -6,
    HIDLOG_CLIENT_INVALID_STATE_ERROR = -7,
    HIDLOG_CLIENT_SYNTAX_ERROR = -8,
    HIDLOG_CLIENT_TOO_SMALL = -100 /* `out` is too small */
};

/* What hidlog_client_request and hidlog_client_response report besides their output. hidlog_client_response stores 0 in
 * timeout_ms and is_verified. */
struct hidlog_client_report {
    uint32_t timeout_ms;  /* timeout of the options; 600,000 if they have none or the mediation is conditional */
    uint32_t is_verified; /* 1 if the user is verified: set the UV flag in the authenticator data before signing it */
    uint32_t member_len;
    uint32_t reason_len;
};

/* Checks the page's options, and writes the CTAP2 request to `out`: the command byte, followed by canonical CBOR. */
int64_t hidlog_client_request(uint32_t ceremony, const uint8_t *options, size_t options_len, const uint8_t *mediation,
                              size_t mediation_len, const uint8_t *origin, size_t origin_len, const uint8_t *suffix,
                              size_t suffix_len, uint32_t abilities, struct hidlog_client_report *report, uint8_t *out,
                              size_t out_cap);

/* Writes the credential as JSON to `out`. `response` is the key's response: a status byte, followed by CBOR. */
int64_t hidlog_client_response(uint32_t ceremony, const uint8_t *options, size_t options_len, const uint8_t *mediation,
                               size_t mediation_len, const uint8_t *origin, size_t origin_len, const uint8_t *suffix,
                               size_t suffix_len, uint32_t abilities, const uint8_t *response, size_t response_len,
                               struct hidlog_client_report *report, uint8_t *out, size_t out_cap);

#ifdef __cplusplus
}
#endif

#endif
