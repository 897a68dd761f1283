// Tests the functions for the credentials of an in-memory key. Replays the log on standard input, and compares the
// output of hidlog_key_save_snapshot with SNAPSHOT, which the program hidlog has saved for the same log. Then removes
// the credentials, adds them one by one, and expects the same snapshot again. Makes invalid calls, too, and expects
// errors.
//
//     credentials SNAPSHOT < LOG
#include "hidlog.h"

#include <inttypes.h>
#include <stdio.h>
#include <stdlib.h>
#include <string.h>

enum { LOG = 4 << 20, TEXT = 20000, SNAPSHOT = HIDLOG_SNAPSHOT_MAX_LEN, AT = 1 << 30 };

static void fail(const char *error) {
    fprintf(stderr, "credentials: %s\n", error);
    exit(1);
}

static void expect(int32_t found, int32_t expected, const char *call) {
    if (found != expected) {
        fprintf(stderr, "credentials: %s returned %" PRId32 ", expected %" PRId32 "\n", call, found, expected);
        exit(1);
    }
}

static void replay_log(struct hidlog_key *key) {
    static uint8_t text[TEXT];
    char line[257];
    struct hidlog_result result;
    while (fgets(line, sizeof line, stdin) != NULL) {
        if (hidlog_key_replay_lines(key, (const uint8_t *)line, strlen(line), text, sizeof text, &result) != 0) {
            fail("hidlog_key_replay_lines rejected a line of the log on standard input");
        }
    }
}

// Reads the snapshot file, which the program hidlog has saved. Returns its length.
static int32_t read_snapshot(const char *path, uint8_t *snapshot) {
    FILE *file = fopen(path, "rb");
    if (file == NULL) {
        fail("cannot open the file SNAPSHOT");
    }
    size_t len = fread(snapshot, 1, SNAPSHOT, file);
    fclose(file);
    return (int32_t)len;
}

static void expect_snapshot(struct hidlog_key *key, const uint8_t *snapshot, int32_t len, const char *what) {
    static uint8_t saved[SNAPSHOT + 1];
    memset(saved, 0xee, sizeof saved);
    expect(hidlog_key_save_snapshot(key, saved, SNAPSHOT), len, what);
    if (memcmp(saved, snapshot, (size_t)len) != 0) {
        fail("the snapshot that hidlog_key_save_snapshot wrote differs from the expected one");
    }
    for (size_t i = (size_t)len; i < sizeof saved; i++) {
        if (saved[i] != 0xee) {
            fail("hidlog_key_save_snapshot changed a byte after the snapshot");
        }
    }
    expect(hidlog_key_save_snapshot(key, saved, SNAPSHOT - 1), HIDLOG_KEY_ERR_BUFFER_TOO_SMALL,
           "save into a buffer that is too small");
}

// Copies all credentials of the key to an array. Returns their number.
static int32_t read_credentials(struct hidlog_key *key, struct hidlog_credential *credentials) {
    int32_t count = hidlog_key_credential_count(key);
    for (int32_t i = 0; i < count; i++) {
        expect(hidlog_key_get_credential(key, (size_t)i, &credentials[i]), 0, "hidlog_key_get_credential");
    }
    return count;
}

static void test_invalid_adds(struct hidlog_key *key, const struct hidlog_credential *credential) {
    struct hidlog_credential wrong = *credential;
    wrong.user_id_len = 65;
    expect(hidlog_key_add_credential(key, AT, &wrong), HIDLOG_KEY_ERR_INVALID_ARGUMENT, "a user handle of 65 bytes");
    wrong = *credential;
    wrong.user_name_len = 65;
    expect(hidlog_key_add_credential(key, AT, &wrong), HIDLOG_KEY_ERR_INVALID_ARGUMENT, "a name of 65 bytes");
    wrong = *credential;
    wrong.user_name[0] = 0xff;
    wrong.user_name_len = 1;
    expect(hidlog_key_add_credential(key, AT, &wrong), HIDLOG_KEY_ERR_INVALID_ARGUMENT, "a name that is not UTF-8");
    wrong = *credential;
    wrong.discoverable = 2;
    expect(hidlog_key_add_credential(key, AT, &wrong), HIDLOG_KEY_ERR_INVALID_ARGUMENT, "a `discoverable` of 2");
    wrong = *credential;
    wrong.id[0] ^= 1;
    wrong.discoverable = 1;
    if (credential->discoverable) {
        expect(hidlog_key_add_credential(key, AT, &wrong), HIDLOG_KEY_ERR_DUPLICATE_USER,
               "another ID for the same RP and user");
    }
    expect(hidlog_key_remove_credential(key, AT, wrong.id), HIDLOG_KEY_ERR_INVALID_ARGUMENT,
           "remove of a missing credential");
}

// Removes all credentials, adds them again in the same order, and expects the same snapshot. Then removes them one by
// one.
static void test_add_again(struct hidlog_key *key, const uint8_t *snapshot, int32_t len) {
    static struct hidlog_credential credentials[HIDLOG_CAPACITY];
    int32_t count = read_credentials(key, credentials);
    expect(hidlog_key_clear_credentials(key, AT), 0, "clear");
    expect(hidlog_key_credential_count(key), 0, "credentials after clear");
    for (int32_t i = 0; i < count; i++) {
        expect(hidlog_key_add_credential(key, AT, &credentials[i]), 0, "add");
        expect(hidlog_key_credential_count(key), i + 1, "credentials after add");
        test_invalid_adds(key, &credentials[i]);
    }
    expect_snapshot(key, snapshot, len, "save after add");
    for (int32_t i = 0; i < count; i++) {
        expect(hidlog_key_add_credential(key, AT, &credentials[i]), 0, "add of an existing credential");
    }
    expect_snapshot(key, snapshot, len, "save after each credential was added again");
    for (int32_t i = 0; i < count; i++) {
        expect(hidlog_key_remove_credential(key, AT, credentials[i].id), 0, "remove");
        expect(hidlog_key_credential_count(key), count - i - 1, "credentials after remove");
    }
}

// Fills the key to its capacity, with credentials that differ only in their IDs, and expects that one more is rejected.
static void fill_key(struct hidlog_key *key) {
    struct hidlog_credential credential = {.sign_count = 7};
    for (unsigned i = 0; i < HIDLOG_CAPACITY; i++) {
        credential.id[31] = (uint8_t)i;
        expect(hidlog_key_add_credential(key, AT, &credential), 0, "add until the key is full");
    }
    credential.id[30] = 1;
    expect(hidlog_key_add_credential(key, AT, &credential), HIDLOG_KEY_ERR_FULL, "add to a full key");
    credential.id[30] = 0;
    expect(hidlog_key_add_credential(key, AT, &credential), 0, "add of the last credential again");
    expect(hidlog_key_credential_count(key), HIDLOG_CAPACITY, "credentials of a full key");
}

static void test_rejected_changes(struct hidlog_key *key, int32_t error) {
    struct hidlog_credential credential = {0};
    expect(hidlog_key_add_credential(key, AT, &credential), error, "an add that must be rejected");
    expect(hidlog_key_remove_credential(key, AT, credential.id), error, "a remove that must be rejected");
    expect(hidlog_key_clear_credentials(key, AT), error, "a clear that must be rejected");
}

int main(int count, char **words) {
    static const uint8_t aaguid[16], init[64] = {0xff, 0xff, 0xff, 0xff, 0x86, 0x00, 0x08, 1, 2, 3, 4, 5, 6, 7, 8};
    static uint8_t snapshot[SNAPSHOT];
    struct hidlog_key key = {0};
    struct hidlog_need need;
    if (count != 2) {
        fail("expected one argument; usage: credentials SNAPSHOT < LOG");
    }
    key.memory = aligned_alloc(16, (hidlog_key_size() + 15) / 16 * 16);
    if (key.memory == NULL) {
        fail("out of memory");
    }
    test_rejected_changes(&key, HIDLOG_KEY_ERR_NOT_INITIALIZED);
    expect(hidlog_key_save_snapshot(&key, snapshot, sizeof snapshot), HIDLOG_KEY_ERR_NOT_INITIALIZED,
           "save of an uninitialized key");
    expect(hidlog_key_init(&key, aaguid, 0, snapshot, 0), 0, "init");
    replay_log(&key);
    int32_t len = read_snapshot(words[1], snapshot);
    expect_snapshot(&key, snapshot, len, "save");
    if (hidlog_key_get_need(&key, &need) != HIDLOG_NEED_NONE) {
        test_rejected_changes(&key, HIDLOG_KEY_ERR_BUSY);
    } else {
        test_add_again(&key, snapshot, len);
        fill_key(&key);
        expect(hidlog_key_write_packet(&key, AT, init), 1, "INIT");
        test_rejected_changes(&key, HIDLOG_KEY_ERR_PACKETS_QUEUED);
    }
    expect(hidlog_key_destroy(&key), 0, "destroy");
    free(key.memory);
    return 0;
}
