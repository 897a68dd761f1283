// Calls the functions of the OpenSSH security key provider in bridges/ssh, as OpenSSH's ssh-sk-helper does, for
// tests/clients/bridge_faults.py:
//
//     sk_call enroll         prints the key handle in hex
//     sk_call sign HANDLE    prints the signature counter
//
// If the provider returns an error, prints the error and exits with 1.
#include "sk_api.h"

#include <stdio.h>
#include <stdlib.h>
#include <string.h>

static const uint8_t data[32] = "a challenge, or the data to sign";

static int report_error(int result) {
    fprintf(stderr, "sk_call: the provider returned the error code %d (sk_api.h)\n", result);
    return 1;
}

// Ends the line on standard output, and flushes it. Returns the exit status: 0, or 1 after an error.
static int finish_output(void) {
    if (puts("") < 0 || fflush(stdout) != 0) {
        perror("sk_call: standard output");
        return 1;
    }
    return 0;
}

static int enroll(void) {
    struct sk_enroll_response *made = NULL;
    int result = sk_enroll(SK_ECDSA, data, sizeof data, "ssh:", SK_PRESENCE, NULL, NULL, &made);
    if (result != SK_DONE) {
        return report_error(result);
    }
    for (size_t i = 0; i < made->key_handle_len; i++) {
        printf("%02x", made->key_handle[i]);
    }
    return finish_output();
}

static int sign(const char *digits) {
    struct sk_sign_response *made = NULL;
    uint8_t handle[32];
    for (size_t i = 0; i < sizeof handle; i++) {
        char two[3] = {digits[2 * i], digits[2 * i + 1], 0};
        handle[i] = (uint8_t)strtoul(two, NULL, 16);
    }
    int result = sk_sign(SK_ECDSA, data, sizeof data, "ssh:", handle, sizeof handle, SK_PRESENCE, NULL, NULL, &made);
    if (result != SK_DONE) {
        return report_error(result);
    }
    printf("%u", (unsigned)made->counter);
    return finish_output();
}

int main(int count, char **words) {
    if (count == 2 && strcmp(words[1], "enroll") == 0) {
        return enroll();
    }
    return count == 3 && strlen(words[2]) == 64 ? sign(words[2]) : 2;
}
