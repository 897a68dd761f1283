/* Prints the output of hidlog_show, or of hidlog_transactions, for the log on standard input, and the error message on
 * standard error. Begins with a buffer of a few bytes, and calls again with a larger one while it is too small, so that
 * calls with small buffers are tested as well.
 *
 *     show [explain | transactions] */
#include "hidlog.h"

#include <stdio.h>
#include <stdlib.h>
#include <string.h>

enum { MAX_LOG = 1 << 26, CANARY = 0xa5 };
enum form { PLAIN, EXPLAINED, TRANSACTIONS };

/* Reads the log from standard input into newly allocated memory. */
static uint8_t *read_log(size_t *size) {
    uint8_t *bytes = malloc(MAX_LOG);
    if (!bytes) {
        perror("show");
        exit(2);
    }
    *size = fread(bytes, 1, MAX_LOG, stdin);
    return bytes;
}

/* Calls the function for this form, and returns its output in a newly allocated buffer of this capacity. Fails if the
 * function changes the canary byte after the buffer; a sanitizer finds other writes past the buffer. */
static uint8_t *show(const uint8_t *log, size_t size, enum form form, size_t out_cap, struct hidlog_result *result) {
    uint8_t *out = malloc(out_cap + 1);
    if (!out) {
        perror("show");
        exit(2);
    }
    out[out_cap] = CANARY;
    if (form == TRANSACTIONS)
        hidlog_transactions(log, size, out, out_cap, result);
    else
        hidlog_show(log, size, form == EXPLAINED, out, out_cap, result);
    if (out[out_cap] != CANARY || result->written > out_cap || result->packet != 0 ||
        result->status > HIDLOG_LOG_ERROR) {
        fprintf(stderr,
                "show: a call with an output buffer of %zu bytes wrote past it, or returned an invalid result\n",
                out_cap);
        exit(2);
    }
    return out;
}

int main(int count, char **words) {
    enum form form = count < 2 ? PLAIN : strcmp(words[1], "transactions") ? EXPLAINED : TRANSACTIONS;
    size_t size, out_cap = 3, known = 0;
    uint8_t *log = read_log(&size), *before = malloc(1);
    struct hidlog_result result;
    for (;;) {
        uint8_t *out = show(log, size, form, out_cap, &result);
        if (known > result.written || memcmp(before, out, known)) {
            fprintf(stderr,
                    "show: the output in a buffer of %zu bytes does not begin with the output in the smaller buffer\n",
                    out_cap);
            return 2;
        }
        free(before);
        before = out;
        known = result.written;
        if (result.error != HIDLOG_ERR_BUFFER_TOO_SMALL)
            break;
        if (known != out_cap || result.line != 0 || result.status != HIDLOG_LOG_ERROR) {
            fprintf(stderr,
                    "show: HIDLOG_ERR_BUFFER_TOO_SMALL for a buffer of %zu bytes: expected a full buffer, line 0 and "
                    "status %u, got %zu bytes, line %llu and status %u\n",
                    out_cap, (unsigned)HIDLOG_LOG_ERROR, known, (unsigned long long)result.line, result.status);
            return 2;
        }
        out_cap = out_cap * 3 / 2;
    }
    fwrite(before, 1, known, stdout);
    free(before);
    free(log);
    uint8_t text[64];
    fwrite(text, 1, hidlog_result_message(&result, text, sizeof text), stderr);
    return result.status == HIDLOG_LOG_ERROR;
}
