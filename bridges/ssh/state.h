// An in-memory key whose credentials, signature counters and private keys are kept in a state file. A program that uses
// the key holds a lock on the file. The private keys are stored in clear text, so this is for tests only.
#ifndef STATE_H
#define STATE_H

#include "snapshot.h"
#include "virtual_key.h"

enum { APPLICATION = 64 };

// What the state file stores about a credential in addition to the snapshot: the private key, and the name of the
// application (the RP ID), since the snapshot has only its hash.
struct record {
    uint8_t id[32];
    uint8_t secret[32];
    char application[APPLICATION]; // zero-padded
};

// Offsets and sizes in the state file. The file has 8 bytes that identify the format ("hidlogS2"), the number of
// records, the records, the snapshot, and the SHA-256 of all preceding bytes. Older files begin with "hidlogS1" and
// have no SHA-256.
enum { STATE_COUNT_AT = 8, STATE_RECORDS_AT = 9, STATE_SUM = 32 };
enum { STATE_MAX_BYTES = STATE_RECORDS_AT + SOFTWARE_KEYS * sizeof(struct record) + HIDLOG_SNAPSHOT_MAX_LEN + STATE_SUM };

struct state {
    struct virtual_key vkey;
    struct record records[SOFTWARE_KEYS];
    size_t count;
    uint8_t saved[STATE_MAX_BYTES]; // the contents of the file
    size_t saved_len;               // 0: there is no file
    char path[4096];
    int lock;
};

// Locks the file $HIDLOG_SK_STATE and opens the key that it stores, or a key without credentials if there is no file.
// Returns false, without changing the file, if it cannot be read, is damaged, or other users may read or write it.
bool state_open(struct state *state);

// Initializes the key from the contents of a state file. Returns NULL, or an error message.
const char *state_read(struct state *state, const uint8_t *bytes, size_t len);

// Writes the contents of the state file to `bytes`, for state_read. Returns the length, or 0 if there is no memory for
// the checksum.
size_t state_write(struct state *state, uint8_t bytes[STATE_MAX_BYTES]);

// Adds a record with the application and the private key of a new credential. Returns false if the key has no private
// key for this ID, there are too many records, or the application's name is too long.
bool state_add(struct state *state, const uint8_t id[32], const char *application);

// Returns the application in the record of the credential with this ID, or NULL if there is no record.
const char *state_application(const struct state *state, const uint8_t id[32]);

// Replaces the state file atomically if the key's state has changed. Returns false on failure; then the error message
// on standard error says whether the old file is unchanged.
bool state_save(struct state *state);

void state_close(struct state *state);

#endif
