// Calls each command function of hidlog.h (hidlog_replay to hidlog_transactions) on each log, replays the log on an
// in-memory key as well, and prints all results, so that tests/portable can compare those of two libraries. Standard
// input has a snapshot and the logs, each as "LENGTH NAME\n" followed by its bytes.
#include "hidlog.h"

#include <inttypes.h>
#include <stdio.h>
#include <stdlib.h>
#include <string.h>

// A snapshot or a log.
struct input {
    char name[256];
    uint8_t *bytes;
    size_t len;
};

static void fail(const char *error) {
    fprintf(stderr, "all_commands: %s\n", error);
    exit(2);
}

static void *allocate(size_t len) {
    void *memory = malloc(len + 1);
    if (memory == NULL) {
        fail("out of memory");
    }
    return memory;
}

// Reads a snapshot or a log from standard input. Returns 0 at the end of standard input.
static int read_input(struct input *input) {
    unsigned long len;
    if (scanf("%lu %255[^\n]", &len, input->name) != 2) {
        return 0;
    }
    getchar();
    input->len = len;
    input->bytes = allocate(len);
    if (fread(input->bytes, 1, len, stdin) != len) {
        fail("standard input ends within a snapshot or a log");
    }
    return 1;
}

static void write_result(const char *name, const char *command, const struct hidlog_result *result,
                         const uint8_t *out) {
    uint8_t message[64];
    size_t message_len = hidlog_result_message(result, message, sizeof message);
    printf("%s %s %u %u %" PRIu64 " %" PRIu64 " %u %" PRIu64 "\n", name, command, (unsigned)result->status,
           (unsigned)result->error, result->line, result->packet, (unsigned)message_len, result->written);
    fwrite(message, 1, message_len, stdout);
    fwrite(out, 1, (size_t)result->written, stdout);
}

static void call_command(const char *command, const struct input *log, const struct input *snapshot, uint8_t *out,
                 size_t out_cap, struct hidlog_result *result) {
    static const struct input none;
    const struct input *start = strncmp(command, "loaded_", 7) == 0 ? snapshot : &none;
    const char *function = start == snapshot ? command + 7 : command;
    const uint8_t *start_bytes = start == snapshot ? snapshot->bytes : (const uint8_t *)"";
    if (strcmp(function, "replay") == 0) {
        hidlog_replay(log->bytes, log->len, start_bytes, start->len, out, out_cap, result);
    } else if (strcmp(function, "live") == 0) {
        hidlog_live(log->bytes, log->len, start_bytes, start->len, out, out_cap, result);
    } else if (strcmp(function, "check") == 0) {
        hidlog_check(log->bytes, log->len, start_bytes, start->len, out, out_cap, result);
    } else if (strcmp(function, "quiet") == 0) {
        hidlog_quiet(log->bytes, log->len, start_bytes, start->len, out, out_cap, result);
    } else if (strcmp(function, "transactions") == 0) {
        hidlog_transactions(log->bytes, log->len, out, out_cap, result);
    } else {
        hidlog_show(log->bytes, log->len, strcmp(function, "explain") == 0, out, out_cap, result);
    }
}

// Replays a log on an in-memory key, and prints the output, a snapshot of the key, and its totals.
static void play_on_key(const struct input *log, uint8_t *out, size_t out_cap) {
    static const uint8_t aaguid[16];
    static uint8_t saved[HIDLOG_SNAPSHOT_MAX_LEN];
    struct hidlog_key key = {allocate(hidlog_key_size()), 0};
    struct hidlog_result result = {0};
    struct hidlog_stats stats;
    if (hidlog_key_init(&key, aaguid, 0, log->bytes, 0) != 0) {
        fail("out of memory, or hidlog_key_init failed");
    }
    hidlog_key_replay_lines(&key, log->bytes, log->len, out, out_cap, &result);
    write_result(log->name, "key", &result, out);
    memset(&result, 0, sizeof result);
    result.written = (uint64_t)hidlog_key_save_snapshot(&key, saved, sizeof saved);
    write_result(log->name, "saved", &result, saved);
    hidlog_key_get_stats(&key, &stats);
    printf("%s totals %" PRIu64 " %" PRIu64 " %" PRIu64 " %u %u %u 0\n", log->name, stats.requests, stats.bytes,
           stats.steps, (unsigned)stats.peak_message_bytes, (unsigned)stats.peak_credentials,
           (unsigned)stats.peak_pending);
    hidlog_key_destroy(&key);
    free(key.memory);
}

int main(void) {
    static const char *const commands[] = {"replay", "live",    "check",         "quiet",       "show",
                                           "explain", "transactions", "loaded_replay", "loaded_check"};
    struct input snapshot, log;
    if (!read_input(&snapshot)) {
        fail("standard input does not begin with a snapshot (\"LENGTH NAME\" and its bytes)");
    }
    while (read_input(&log)) {
        size_t out_cap = 20 * log.len + 200000;
        uint8_t *out = allocate(out_cap);
        for (size_t i = 0; i < sizeof commands / sizeof *commands; i++) {
            struct hidlog_result result;
            call_command(commands[i], &log, &snapshot, out, out_cap, &result);
            write_result(log.name, commands[i], &result, out);
        }
        play_on_key(&log, out, out_cap);
        free(out);
        free(log.bytes);
    }
    free(snapshot.bytes);
    return ferror(stdout) || fflush(stdout) != 0;
}
