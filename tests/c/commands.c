/* Tests the command functions of hidlog.h, such as hidlog_replay, with the worked logs in FOLDER.
 *
 *     commands FOLDER */
#include "hidlog.h"

#include <inttypes.h>
#include <stdio.h>
#include <stdlib.h>
#include <string.h>

enum { CAPACITY = 1 << 20, CANARY = 0xa5 };

typedef void command(const uint8_t *, size_t, const uint8_t *, size_t, uint8_t *, size_t, struct hidlog_result *);

static uint8_t log_bytes[CAPACITY], snapshot[CAPACITY], out[CAPACITY];
static struct hidlog_result result;
static const char *folder;
static int failures;

/* Returns whether the result of the last command has these values. */
static int is_result(uint32_t status, uint32_t error, uint64_t line, uint64_t packet, uint64_t written) {
    return result.status == status && result.error == error && result.line == line && result.packet == packet &&
           result.written == written;
}

static void expect(int is_met, const char *expectation) {
    if (!is_met) {
        fprintf(stderr,
                "FAILED: %s (the result has status %u, error %u, line %" PRIu64 ", packet %" PRIu64
                " and written %" PRIu64 ")\n",
                expectation, result.status, result.error, result.line, result.packet, result.written);
        failures++;
    }
}

static size_t read_file(const char *name, uint8_t *to) {
    char path[512];
    snprintf(path, sizeof path, "%s/%s", folder, name);
    FILE *file = fopen(path, "rb");
    if (!file) {
        perror(path);
        exit(2);
    }
    size_t size = fread(to, 1, CAPACITY, file);
    fclose(file);
    return size;
}

/* Runs a command on the log in log_bytes with an output buffer of this capacity. Returns whether the byte after the
 * buffer is unchanged. */
static int run(command *command_fn, size_t log_len, size_t snapshot_len, size_t out_cap) {
    memset(out, CANARY, sizeof out);
    command_fn(log_bytes, log_len, snapshot, snapshot_len, out, out_cap, &result);
    return out[out_cap] == CANARY;
}

/* Tests that hidlog_replay writes a worked log unchanged, and that hidlog_check accepts it. */
static void test_worked_log(const char *name, const char *snapshot_name) {
    size_t size = read_file(name, log_bytes), snapshot_len = snapshot_name ? read_file(snapshot_name, snapshot) : 0;
    run(hidlog_replay, size, snapshot_len, CAPACITY - 1);
    expect(result.status == HIDLOG_OK && result.written == size && !memcmp(out, log_bytes, size), name);
    run(hidlog_check, size, snapshot_len, CAPACITY - 1);
    expect(result.status == HIDLOG_OK && !memcmp(out, "same ", 5), name);
}

/* Tests that hidlog_live writes what the key needs after an input, and that hidlog_replay writes this output
 * unchanged. */
static void test_live(void) {
    size_t size = read_file("registration.log", log_bytes);
    run(hidlog_live, size, 0, CAPACITY - 1);
    expect(result.status == HIDLOG_OK, "hidlog_live replays registration.log");
    out[result.written] = 0;
    expect(strstr((char *)out, "\n# need presence\n") && strstr((char *)out, "\n# need key\n"),
           "the output of hidlog_live has the needs");
    size = result.written;
    memcpy(log_bytes, out, size);
    run(hidlog_replay, size, 0, CAPACITY - 1);
    expect(result.status == HIDLOG_OK && result.written == size && !memcmp(out, log_bytes, size),
           "the output of hidlog_live is replayed unchanged");
}

/* Tests hidlog_replay with each capacity that is too small: the result is an error, and the buffer has the start of the
 * output. */
static void test_small_buffers(void) {
    size_t size = read_file("registration.log", log_bytes);
    for (size_t out_cap = 0; out_cap < size; out_cap++) {
        expect(run(hidlog_replay, size, 0, out_cap), "the byte after the buffer is unchanged");
        expect(is_result(HIDLOG_LOG_ERROR, HIDLOG_ERR_BUFFER_TOO_SMALL, 0, 0, out_cap),
               "the error is HIDLOG_ERR_BUFFER_TOO_SMALL");
        expect(!memcmp(out, log_bytes, out_cap), "the start of the text was written");
    }
    expect(run(hidlog_replay, size, 0, size) && result.status == HIDLOG_OK, "a buffer that is just large enough");
}

/* Tests the output of each command for a log of one tick. The expected outputs are written by hand from
 * docs/use/LOG_FORMAT.md. */
static void test_tick(void) {
    static const struct {
        command *function;
        const char *text;
    } commands[] = {
        {hidlog_replay, "t 5\n= held 0 rows 0 pending 0 requests 0 bytes 0 steps 0\n"},
        {hidlog_live, "t 5\n# need nothing\n= held 0 rows 0 pending 0 requests 0 bytes 0 steps 0\n"},
        {hidlog_check, "same 1 inputs 0 packets\n"},
        {hidlog_quiet, "t 5\n"},
    };
    memcpy(log_bytes, "t 5\n", 4);
    for (size_t i = 0; i < sizeof commands / sizeof *commands; i++) {
        size_t size = strlen(commands[i].text);
        expect(run(commands[i].function, 4, 0, size), "the byte after the buffer is unchanged");
        expect(is_result(HIDLOG_OK, 0, 0, 0, size) && !memcmp(out, commands[i].text, size), commands[i].text);
        expect(run(commands[i].function, 4, 0, size - 1), "the byte after the buffer is unchanged");
        expect(is_result(HIDLOG_LOG_ERROR, HIDLOG_ERR_BUFFER_TOO_SMALL, 0, 0, size - 1),
               "the error is HIDLOG_ERR_BUFFER_TOO_SMALL");
    }
}

static void test_errors(void) {
    const char bad[] = "t 1\nt 2\nt x\n";
    memcpy(log_bytes, bad, sizeof bad - 1);
    run(hidlog_replay, sizeof bad - 1, 0, CAPACITY - 1);
    expect(is_result(HIDLOG_LOG_ERROR, HIDLOG_ERR_BAD_LINE, 3, 0, 8), "a bad line");
    memset(log_bytes, '#', 256);
    run(hidlog_quiet, 256, 0, CAPACITY - 1);
    expect(is_result(HIDLOG_LOG_ERROR, HIDLOG_ERR_LINE_TOO_LONG, 1, 0, 0), "a line of 256 bytes");
    run(hidlog_quiet, 0, 0, 0);
    expect(is_result(HIDLOG_OK, 0, 0, 0, 0), "an empty log");
}

/* Tests that hidlog_check finds a changed digit in a packet of the key: it reports the line of the input before, and
 * the packet's number among the packets after that input. */
static void test_difference(void) {
    size_t size = read_file("registration.log", log_bytes);
    char *response = strstr((char *)log_bytes, "< 00000001bb0001");
    response[20] = '1';
    run(hidlog_check, size, 0, CAPACITY - 1);
    expect(is_result(HIDLOG_LOG_ERROR, HIDLOG_ERR_MISMATCH, 5, 1, 0), "a packet that differs");
}

static void test_snapshots(void) {
    size_t size = read_file("sign_in_again.log", log_bytes), snapshot_len = read_file("example_com.snapshot", snapshot);
    run(hidlog_check, size, 0, CAPACITY - 1);
    expect(result.error == HIDLOG_ERR_MISMATCH, "a sign-in without its credential");
    expect(run(hidlog_check, size, snapshot_len - 1, 64), "a truncated snapshot");
    expect(is_result(HIDLOG_SNAPSHOT_ERROR, HIDLOG_ERR_NOT_A_SNAPSHOT, 0, 0, 0), "a truncated snapshot");
    expect(out[0] == CANARY, "nothing is written if the snapshot is rejected");
}

/* Tests hidlog_result_message: the message for each error that a command function returns, also truncated to a small
 * buffer. docs/use/LOG_FORMAT.md lists the texts in "Faults". */
static void test_messages(void) {
    static const struct {
        struct hidlog_result result;
        const char *text;
    } rows[] = {
        {{HIDLOG_LOG_ERROR, HIDLOG_ERR_BAD_LINE, 3, 0, 9}, "hidlog: line 3: not a log line\n"},
        {{HIDLOG_LOG_ERROR, HIDLOG_ERR_LINE_TOO_LONG, UINT64_MAX, 0, 9},
         "hidlog: line 18446744073709551615: longer than 255 bytes\n"},
        {{HIDLOG_LOG_ERROR, HIDLOG_ERR_MISMATCH, 12, 130, 9}, "hidlog: line 12: differs at packet 130\n"},
        {{HIDLOG_LOG_ERROR, HIDLOG_ERR_BUFFER_TOO_SMALL, 0, 0, 9}, "hidlog: writing failed\n"},
        {{HIDLOG_LOG_ERROR, HIDLOG_ERR_TOO_MANY_LINES, 0, 0, 9}, "hidlog: too many lines\n"},
        {{HIDLOG_SNAPSHOT_ERROR, HIDLOG_ERR_NOT_A_SNAPSHOT, 0, 0, 0}, "hidlog: snapshot refused: 1\n"},
        {{HIDLOG_SNAPSHOT_ERROR, HIDLOG_ERR_TOO_MANY_CREDENTIALS, 0, 0, 0}, "hidlog: snapshot refused: 2\n"},
        {{HIDLOG_SNAPSHOT_ERROR, HIDLOG_ERR_BAD_CREDENTIAL, 0, 0, 0}, "hidlog: snapshot refused: 3\n"},
        {{HIDLOG_OK, 0, 0, 0, 9}, ""},
        {{HIDLOG_LOG_ERROR, 99, 0, 0, 9}, ""},
        {{HIDLOG_SNAPSHOT_ERROR, 99, 0, 0, 0}, ""},
    };
    for (size_t i = 0; i < sizeof rows / sizeof *rows; i++) {
        size_t len = strlen(rows[i].text), truncated_len = len < 10 ? len : 10;
        memset(out, CANARY, sizeof out);
        expect(hidlog_result_message(&rows[i].result, out, 64) == len, "the length of a message");
        expect(!memcmp(out, rows[i].text, len) && out[64] == CANARY, "a message");
        memset(out, CANARY, sizeof out);
        expect(hidlog_result_message(&rows[i].result, out, 10) == truncated_len, "the length of a truncated message");
        expect(!memcmp(out, rows[i].text, truncated_len) && out[10] == CANARY, "a truncated message");
    }
}

int main(int count, char **words) {
    static const char *const logs[] = {"registration.log", "sign_in.log", "selection.log"};
    if (count != 2) {
        fprintf(stderr, "usage: commands FOLDER\n");
        return 2;
    }
    folder = words[1];
    for (size_t i = 0; i < sizeof logs / sizeof *logs; i++)
        test_worked_log(logs[i], NULL);
    test_worked_log("sign_in_again.log", "example_com.snapshot");
    test_live();
    test_small_buffers();
    test_tick();
    test_errors();
    test_difference();
    test_snapshots();
    test_messages();
    printf("%s\n", failures ? "the C tests FAILED" : "the C tests passed");
    return failures != 0;
}
