// A libFuzzer target for the command functions of hidlog.h. The fuzzer's data is the log. The output of hidlog_replay
// and of hidlog_live must be a log that hidlog_replay writes unchanged and hidlog_check accepts. The output of
// hidlog_show must have no control characters except newlines. tests/fuzz/guided.sh builds it.
#include "hidlog.h"

#include <stdlib.h>
#include <string.h>

enum { TEXT = 1 << 20, MAX_LOG = 1 << 16 };

static uint8_t written[TEXT], again[TEXT];

typedef void command(const uint8_t *, size_t, const uint8_t *, size_t, uint8_t *, size_t, struct hidlog_result *);

// Runs a command, and checks that the members of its result are valid. Returns the length of the output, or 0 if the
// command reports an error.
static size_t run_command(command *function, const uint8_t *log, size_t len, uint8_t *text) {
    struct hidlog_result result;
    function(log, len, (const uint8_t *)"", 0, text, TEXT, &result);
    if (result.status > HIDLOG_SNAPSHOT_ERROR || result.written > TEXT ||
        (result.status == HIDLOG_OK) != (result.error == 0)) {
        abort();
    }
    return result.status == HIDLOG_OK ? result.written : 0;
}

static void check_replays_to_itself(command *function, const uint8_t *log, size_t len) {
    size_t first = run_command(function, log, len, written);
    if (first == 0 || first > MAX_LOG) {
        return;
    }
    if (run_command(hidlog_replay, written, first, again) != first || memcmp(written, again, first) != 0 ||
        run_command(hidlog_check, written, first, again) == 0) {
        abort();
    }
}

static void check_shown_text(const uint8_t *log, size_t len, uint32_t explain) {
    struct hidlog_result result;
    hidlog_show(log, len, explain, written, TEXT, &result);
    for (size_t i = 0; i < result.written; i++) {
        if ((written[i] < ' ' && written[i] != '\n') || written[i] == 0x7f) {
            abort();
        }
    }
}

int LLVMFuzzerTestOneInput(const uint8_t *data, size_t size) {
    if (size > MAX_LOG) {
        return 0;
    }
    check_replays_to_itself(hidlog_replay, data, size);
    check_replays_to_itself(hidlog_live, data, size);
    run_command(hidlog_check, data, size, written);
    run_command(hidlog_quiet, data, size, written);
    check_shown_text(data, size, 0);
    check_shown_text(data, size, 1);
    return 0;
}
