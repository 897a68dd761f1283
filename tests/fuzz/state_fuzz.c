// A libFuzzer target for the bridges' state files (bridges/ssh/state.c). The fuzzer's data is the contents of a file.
// If state_read accepts it, each credential must have a private key and an application; and the contents that
// state_write then returns must be the same after they have been read and written again. tests/fuzz/guided.sh builds
// it.
#include "state.h"

#include <openssl/crypto.h>
#include <stdlib.h>
#include <string.h>

static struct state state;

static void close_state(void) {
    virtual_key_close(&state.vkey);
    OPENSSL_cleanse(&state, sizeof state);
}

// Checks that each credential of the opened state has a private key and an application.
static void check_credentials(void) {
    struct hidlog_credential credential;
    for (size_t i = 0; hidlog_key_get_credential(&state.vkey.key, i, &credential) == 0; i++) {
        const char *application = state_application(&state, credential.id);
        if (application == NULL || strlen(application) >= APPLICATION ||
            software_keys_find(&state.vkey.keys, credential.id) == NULL) {
            abort();
        }
    }
}

int LLVMFuzzerTestOneInput(const uint8_t *data, size_t size) {
    static uint8_t first[STATE_MAX_BYTES], second[STATE_MAX_BYTES];
    if (size > STATE_MAX_BYTES || state_read(&state, data, size) != NULL) {
        OPENSSL_cleanse(&state, sizeof state);
        return 0;
    }
    check_credentials();
    size_t len = state_write(&state, first);
    close_state();
    if (state_read(&state, first, len) != NULL || state_write(&state, second) != len ||
        memcmp(first, second, len) != 0) {
        abort();
    }
    close_state();
    return 0;
}
