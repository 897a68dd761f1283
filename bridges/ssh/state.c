#include "state.h"

#include "private_file.h"

#include <openssl/crypto.h>
#include <openssl/evp.h>
#include <stdio.h>
#include <stdlib.h>
#include <string.h>
#include <unistd.h>

static const char magic[8] = "hidlogS2", magic_without_sum[8] = "hidlogS1";

static const struct record *find_record(const struct state *state, const uint8_t id[32]) {
    for (size_t i = 0; i < state->count; i++) {
        if (memcmp(state->records[i].id, id, sizeof state->records[i].id) == 0) {
            return &state->records[i];
        }
    }
    return NULL;
}

// Gives the virtual key the key pairs of all credentials: the public key of each is in the snapshot, its private key in
// the credential's record. Returns false unless each credential has exactly one record, and its private key matches.
static bool add_key_pairs(struct state *state) {
    struct hidlog_credential credential;
    bool is_done = hidlog_key_credential_count(&state->vkey.key) == (int32_t)state->count;
    for (size_t i = 0; is_done && hidlog_key_get_credential(&state->vkey.key, i, &credential) == 0; i++) {
        const struct record *record = find_record(state, credential.id);
        struct software_key key = {0};
        if (record == NULL) {
            return false;
        }
        memcpy(key.id, credential.id, sizeof key.id);
        memcpy(key.x, credential.x, sizeof key.x);
        memcpy(key.y, credential.y, sizeof key.y);
        memcpy(key.secret, record->secret, sizeof key.secret);
        is_done = software_keys_add(&state->vkey.keys, &key);
        OPENSSL_cleanse(&key, sizeof key);
    }
    return is_done;
}

// Reads the records from the contents of a state file. Returns the offset of the snapshot that follows them, or 0 if
// the contents are invalid.
static size_t read_records(struct state *state, const uint8_t *bytes, size_t len) {
    if (len < STATE_RECORDS_AT || bytes[STATE_COUNT_AT] > SOFTWARE_KEYS) {
        return 0;
    }
    state->count = bytes[STATE_COUNT_AT];
    size_t records = state->count * sizeof *state->records;
    if (len < STATE_RECORDS_AT + records) {
        return 0;
    }
    memcpy(state->records, bytes + STATE_RECORDS_AT, records);
    for (size_t i = 0; i < state->count; i++) {
        if (state->records[i].application[APPLICATION - 1] != 0) {
            return 0;
        }
    }
    return STATE_RECORDS_AT + records;
}

static bool begins_with(const uint8_t *bytes, size_t len, const char prefix[8]) {
    return len >= sizeof magic && memcmp(bytes, prefix, sizeof magic) == 0;
}

static bool compute_checksum(const uint8_t *bytes, size_t len, uint8_t sum[STATE_SUM]) {
    return EVP_Digest(bytes, len, sum, NULL, EVP_sha256(), NULL) == 1;
}

// Verifies the checksum at the end of a state file's contents, and reduces *len to the length without the checksum.
// Returns false if the checksum is wrong.
static bool remove_checksum(const uint8_t *bytes, size_t *len) {
    uint8_t sum[STATE_SUM];
    if (*len < sizeof magic + sizeof sum || !compute_checksum(bytes, *len - sizeof sum, sum)) {
        return false;
    }
    *len -= sizeof sum;
    return memcmp(bytes + *len, sum, sizeof sum) == 0;
}

const char *state_read(struct state *state, const uint8_t *bytes, size_t len) {
    if (begins_with(bytes, len, magic)) {
        if (!remove_checksum(bytes, &len)) {
            return "the file is damaged: its checksum does not match its contents";
        }
    } else if (!begins_with(bytes, len, magic_without_sum)) {
        return "the file is not a state file: it begins with neither hidlogS2 nor hidlogS1";
    }
    size_t snapshot = read_records(state, bytes, len);
    if (snapshot == 0) {
        return "the file is damaged: its records are incomplete or invalid";
    }
    if (!virtual_key_open(&state->vkey, bytes + snapshot, len - snapshot)) {
        return "the credentials are damaged, or there is not enough memory";
    }
    if (!add_key_pairs(state)) {
        virtual_key_close(&state->vkey);
        return "the private keys do not match the credentials";
    }
    return NULL;
}

// Reads the key from the state file, which the caller has locked. Without a file, creates a key without credentials.
static bool open_locked_state(struct state *state) {
    long len = private_file_read(state->path, state->saved, sizeof state->saved);
    if (len == PRIVATE_FILE_REFUSED) {
        return false;
    }
    if (len == PRIVATE_FILE_NONE) {
        return virtual_key_open(&state->vkey, state->saved, 0);
    }
    state->saved_len = (size_t)len;
    const char *error = state_read(state, state->saved, state->saved_len);
    if (error != NULL) {
        fprintf(stderr, "hidlog: %s: %s\n", state->path, error);
    }
    return error == NULL;
}

bool state_open(struct state *state) {
    const char *path = getenv("HIDLOG_SK_STATE");
    memset(state, 0, sizeof *state);
    if (path == NULL || *path == 0 || strlen(path) >= sizeof state->path) {
        fprintf(stderr, "hidlog: the environment variable HIDLOG_SK_STATE must be the path of the state file\n");
        return false;
    }
    strcpy(state->path, path);
    state->lock = private_file_lock(state->path);
    if (state->lock < 0) {
        return false;
    }
    if (!open_locked_state(state)) {
        close(state->lock);
        OPENSSL_cleanse(state, sizeof *state);
        return false;
    }
    return true;
}

bool state_add(struct state *state, const uint8_t id[32], const char *application) {
    const struct software_key *key = software_keys_find(&state->vkey.keys, id);
    if (key == NULL || state->count == SOFTWARE_KEYS || strlen(application) >= APPLICATION) {
        return false;
    }
    struct record *record = &state->records[state->count++];
    memcpy(record->id, id, sizeof record->id);
    memcpy(record->secret, key->secret, sizeof record->secret);
    strcpy(record->application, application);
    return true;
}

const char *state_application(const struct state *state, const uint8_t id[32]) {
    const struct record *record = find_record(state, id);
    return record == NULL ? NULL : record->application;
}

// Removes the records of credentials that the key no longer has.
static void remove_unused_records(struct state *state) {
    struct hidlog_credential credential;
    struct record kept[SOFTWARE_KEYS] = {0};
    size_t count = 0;
    for (size_t i = 0; hidlog_key_get_credential(&state->vkey.key, i, &credential) == 0; i++) {
        const struct record *record = find_record(state, credential.id);
        if (record != NULL) {
            kept[count++] = *record;
        }
    }
    memcpy(state->records, kept, sizeof kept);
    state->count = count;
    OPENSSL_cleanse(kept, sizeof kept);
}

size_t state_write(struct state *state, uint8_t bytes[STATE_MAX_BYTES]) {
    remove_unused_records(state);
    size_t records = state->count * sizeof *state->records;
    memcpy(bytes, magic, sizeof magic);
    bytes[STATE_COUNT_AT] = (uint8_t)state->count;
    memcpy(bytes + STATE_RECORDS_AT, state->records, records);
    uint8_t *snapshot = bytes + STATE_RECORDS_AT + records;
    size_t len = STATE_RECORDS_AT + records + snapshot_write(&state->vkey.key, snapshot);
    return compute_checksum(bytes, len, bytes + len) ? len + STATE_SUM : 0;
}

bool state_save(struct state *state) {
    static uint8_t bytes[STATE_MAX_BYTES];
    if (hidlog_key_credential_count(&state->vkey.key) < 0) {
        fprintf(stderr, "hidlog: %s: the key is not initialized, so nothing was saved, and the file is unchanged\n",
                state->path);
        return false;
    }
    size_t len = state_write(state, bytes);
    if (len == 0) {
        fprintf(stderr, "hidlog: %s: out of memory for the checksum, so nothing was saved, and the file is unchanged\n",
                state->path);
        OPENSSL_cleanse(bytes, sizeof bytes);
        return false;
    }
    bool is_saved = len == state->saved_len && memcmp(bytes, state->saved, len) == 0;
    if (!is_saved && private_file_replace(state->path, bytes, len)) {
        memcpy(state->saved, bytes, len);
        state->saved_len = len;
        is_saved = true;
    }
    OPENSSL_cleanse(bytes, sizeof bytes);
    return is_saved;
}

void state_close(struct state *state) {
    virtual_key_close(&state->vkey);
    close(state->lock);
    OPENSSL_cleanse(state, sizeof *state);
}
