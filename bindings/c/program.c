// The program hidlog for systems that the proved program does not run on, built with the portable library. It has the
// commands replay, live, check, quiet and show. Output, errors and exit statuses equal those of the proved program with
// --plain. The options --save, --json, --summary, --all and --wide are missing, and --explain works with show only.
#include "hidlog.h"

#include <stdio.h>
#include <stdlib.h>
#include <string.h>
#if defined(_WIN32)
#include <fcntl.h>
#include <io.h>
#endif

#define VERSION "0.2.0"

static const char help_text[] =
    "Record, replay and check CTAPHID sessions of a FIDO2 security key\n"
    "\n"
    "Usage: hidlog <COMMAND> [OPTIONS] [FILE]\n"
    "\n"
    "Commands:\n"
    "  replay  Replay a log and print it with the key's response packets\n"
    "  live    Replay a log interactively, line by line\n"
    "  check   Check that the key sends the packets recorded in the logs\n"
    "  quiet   Print the log's inputs with ignored ones replaced by ticks\n"
    "  show    Print a log in readable form\n"
    "\n"
    "Arguments:\n"
    "  [FILE]  The log file [default: standard input, also `-`]\n"
    "\n"
    "Options:\n"
    "      --load <F>  Load credentials from snapshot file F\n"
    "      --explain   show: add names, fields and notes\n"
    "      --plain     Print the stable, machine-readable format [default]\n"
    "  -h, --help      Print help\n"
    "  -V, --version   Print version\n";

enum { EXIT_LOG_ERROR = 1, EXIT_FAILED = 2 };
// The error number for a log that cannot be read. hidlog.h reserves it for this program: no library function returns
// it.
enum { READ_ERROR = 4 };
// Maximum lengths of a log line, and of what hidlog_key_replay_lines writes for one line (hidlog.h).
enum { LINE_CAP = 255, LINE_OUT_CAP = 18000 };
enum { MESSAGE_CAP = 64 };

struct options {
    const char *command;
    const char *snapshot_path; // or NULL
    int is_explained;
    char **files;
    int file_count;
};

struct bytes {
    uint8_t *data;
    size_t len;
};

static int print_error(const char *text, int status) {
    fflush(stdout);
    fprintf(stderr, "hidlog: %s\n", text);
    return status;
}

// Changes the size of the allocated block `data` to `cap` bytes, and returns the block. Exits if there is no memory.
static uint8_t *resize(uint8_t *data, size_t cap) {
    uint8_t *resized = realloc(data, cap);
    if (resized == NULL) {
        exit(print_error("no memory", EXIT_FAILED));
    }
    return resized;
}

// Reads a file to its end. Returns whether that succeeded; after a read error, `bytes` has the data before the error.
static int read_all(FILE *file, struct bytes *bytes) {
    size_t cap = 1 << 16, count = 1;
    bytes->data = resize(NULL, cap);
    bytes->len = 0;
    while (count > 0) {
        if (bytes->len == cap) {
            bytes->data = resize(bytes->data, cap *= 2);
        }
        count = fread(bytes->data + bytes->len, 1, cap - bytes->len, file);
        bytes->len += count;
    }
    return !ferror(file);
}

static FILE *open_log(const char *path) {
    FILE *file = strcmp(path, "-") == 0 ? stdin : fopen(path, "rb");
    int next = file == NULL || file == stdin ? 0 : getc(file);
    if (file != NULL && file != stdin && next == EOF && ferror(file)) { // a directory
        fclose(file);
        return NULL;
    }
    if (file != NULL && file != stdin && next != EOF) {
        ungetc(next, file);
    }
    return file;
}

static void close_log(FILE *file) {
    if (file != stdin) {
        fclose(file);
    }
}

// Reads the snapshot file that --load named; the snapshot is empty if `path` is NULL. Returns whether that succeeded.
// Fails if a checksum file PATH.hidlog-sum exists, since this program cannot verify checksums. The first line of each
// error message equals that of the proved program with --plain.
static int read_snapshot(const char *path, struct bytes *snapshot) {
    FILE *file, *sums;
    int is_read = 0;
    snapshot->data = resize(NULL, 1);
    snapshot->len = 0;
    if (path == NULL) {
        return 1;
    }
    char *sums_path = (char *)resize(NULL, strlen(path) + sizeof ".hidlog-sum");
    sprintf(sums_path, "%s.hidlog-sum", path);
    sums = fopen(sums_path, "rb");
    free(sums_path);
    if (sums != NULL) {
        fclose(sums);
        print_error("cannot read snapshot\n"
                    "  SNAPSHOT.hidlog-sum exists, but this program cannot verify checksums: remove that file",
                    EXIT_FAILED);
        return 0;
    }
    file = fopen(path, "rb");
    if (file != NULL) {
        free(snapshot->data);
        is_read = read_all(file, snapshot);
        fclose(file);
    }
    if (!is_read) {
        print_error("cannot read snapshot", EXIT_FAILED);
    }
    return is_read;
}

// Prints the error message of a result, if any: it begins with "hidlog: ", or with the file's name in place of "hidlog"
// if `file_name` is not NULL. Returns the exit status.
static int print_result(const struct hidlog_result *result, const char *file_name) {
    static const char prefix[] = "hidlog: ";
    uint8_t message[MESSAGE_CAP];
    size_t len = hidlog_result_message(result, message, sizeof message);
    fflush(stdout);
    if (len > sizeof prefix - 1 && file_name != NULL) {
        fprintf(stderr, "%s: %.*s", file_name, (int)(len - (sizeof prefix - 1)),
                (const char *)message + sizeof prefix - 1);
    } else {
        fwrite(message, 1, len, stderr);
    }
    return (int)result->status;
}

static void call_command(const struct options *options, struct bytes log, struct bytes snapshot, struct bytes out,
                         struct hidlog_result *result) {
    const char *command = options->command;
    if (strcmp(command, "show") == 0) {
        hidlog_show(log.data, log.len, (uint32_t)options->is_explained, out.data, out.len, result);
    } else if (strcmp(command, "replay") == 0) {
        hidlog_replay(log.data, log.len, snapshot.data, snapshot.len, out.data, out.len, result);
    } else if (strcmp(command, "check") == 0) {
        hidlog_check(log.data, log.len, snapshot.data, snapshot.len, out.data, out.len, result);
    } else {
        hidlog_quiet(log.data, log.len, snapshot.data, snapshot.len, out.data, out.len, result);
    }
}

// Returns how much of the output to print if the log could not be read to its end: everything except the final line,
// which has the totals of replay, or the result of check.
static size_t output_len_before_error(const char *command, struct bytes out, size_t written) {
    if (strcmp(command, "check") == 0) {
        return 0;
    }
    if (strcmp(command, "replay") == 0) {
        while (written > 0 && !(out.data[written - 1] == '=' && (written == 1 || out.data[written - 2] == '\n'))) {
            written--;
        }
        return written > 0 ? written - 1 : 0;
    }
    return written;
}

// Reads a log to its end, and runs a command other than live on it. Returns the exit status.
static int run_command(const struct options *options, FILE *file, struct bytes snapshot, const char *file_name) {
    struct bytes log, out = {NULL, 0};
    struct hidlog_result result;
    int is_read = read_all(file, &log);
    while (!is_read && log.len > 0 && log.data[log.len - 1] != '\n') {
        log.len--;
    }
    out.len = 2 * log.len + 4096;
    do {
        out.data = resize(out.data, out.len);
        call_command(options, log, snapshot, out, &result);
        out.len *= 4;
    } while (result.status == HIDLOG_LOG_ERROR && result.error == HIDLOG_ERR_BUFFER_TOO_SMALL);
    size_t written = (size_t)result.written;
    if (!is_read && result.status == HIDLOG_OK) {
        result.line = 1;
        for (size_t i = 0; i < log.len; i++) {
            result.line += log.data[i] == '\n';
        }
        result.status = HIDLOG_LOG_ERROR;
        result.error = READ_ERROR;
        written = output_len_before_error(options->command, out, written);
    }
    if (file_name != NULL && written > 0) {
        printf("%s: ", file_name);
    }
    fwrite(out.data, 1, written, stdout);
    free(out.data);
    free(log.data);
    return print_result(&result, file_name);
}

// Replays one log line, which ends with a newline, and prints the output. Returns the exit status.
static int replay_line(struct hidlog_key *key, const uint8_t *line, size_t len, uint64_t number) {
    static uint8_t out[LINE_OUT_CAP];
    struct hidlog_result result = {HIDLOG_LOG_ERROR, HIDLOG_ERR_LINE_TOO_LONG, number, 0, 0};
    if (len <= LINE_CAP + 1) {
        hidlog_key_replay_lines(key, line, len, out, sizeof out, &result);
        fwrite(out, 1, (size_t)result.written, stdout);
        result.line = number;
    }
    fflush(stdout);
    return result.status == HIDLOG_OK ? 0 : print_result(&result, NULL);
}

static int print_totals(struct hidlog_key *key) {
    struct hidlog_stats stats;
    hidlog_key_get_stats(key, &stats);
    printf("= held %lu rows %lu pending %lu", (unsigned long)stats.peak_message_bytes,
           (unsigned long)stats.peak_credentials, (unsigned long)stats.peak_pending);
    printf(" requests %llu bytes %llu steps %llu\n", (unsigned long long)stats.requests,
           (unsigned long long)stats.bytes, (unsigned long long)stats.steps);
    return 0;
}

// Replays each line of a log as soon as it arrives, and prints the totals at the end. Returns the exit status.
static int replay_lines(struct hidlog_key *key, FILE *file) {
    uint8_t line[LINE_CAP + 2];
    size_t len = 0;
    uint64_t number = 1;
    int next, status;
    while ((next = getc(file)) != EOF) {
        line[len++] = (uint8_t)next;
        if (next == '\n' || len == sizeof line) {
            status = replay_line(key, line, len, number++);
            if (status != 0) {
                return status;
            }
            len = 0;
        }
    }
    if (ferror(file)) {
        struct hidlog_result failed = {HIDLOG_LOG_ERROR, READ_ERROR, number, 0, 0};
        return print_result(&failed, NULL);
    }
    if (len > 0) {
        line[len++] = '\n';
        status = replay_line(key, line, len, number);
        if (status != 0) {
            return status;
        }
    }
    return print_totals(key);
}

static int run_live(FILE *file, struct bytes snapshot) {
    static const uint8_t aaguid[16];
    uint8_t out[4096];
    struct hidlog_result result;
    struct hidlog_key key = {NULL, 0};
    hidlog_live(aaguid, 0, snapshot.data, snapshot.len, out, sizeof out, &result);
    if (result.status != HIDLOG_OK) {
        return print_result(&result, NULL);
    }
    key.memory = resize(NULL, hidlog_key_size());
    int status = EXIT_FAILED;
    if (hidlog_key_init(&key, aaguid, 0, snapshot.data, snapshot.len) == 0) {
        status = replay_lines(&key, file);
        hidlog_key_destroy(&key);
    }
    free(key.memory);
    return status;
}

// Runs the command on the log with this path. Returns the exit status.
static int run_file(const struct options *options, const char *path) {
    struct bytes snapshot;
    FILE *file = open_log(path);
    if (file == NULL) {
        return print_error("cannot read log", EXIT_LOG_ERROR);
    }
    if (!read_snapshot(options->snapshot_path, &snapshot)) {
        exit(EXIT_FAILED);
    }
    int status = strcmp(options->command, "live") == 0
                     ? run_live(file, snapshot)
                     : run_command(options, file, snapshot, options->file_count > 1 ? path : NULL);
    free(snapshot.data);
    close_log(file);
    return status;
}

static int is_command(const char *word) {
    static const char *const commands[] = {"replay", "live", "check", "quiet", "show"};
    for (size_t i = 0; i < sizeof commands / sizeof *commands; i++) {
        if (strcmp(word, commands[i]) == 0) {
            return 1;
        }
    }
    return 0;
}

static int report_usage_error(const char *error, const char *argument) {
    fprintf(stderr, "error: %s '%s'\n\nFor more information, try '--help'.\n", error, argument);
    return EXIT_FAILED;
}

// Parses the arguments after the command into *options, whose `files` are moved to the start of `words`. Returns 0, or
// the exit status after an error.
static int parse_arguments(int count, char **words, struct options *options) {
    int is_show = strcmp(options->command, "show") == 0, takes_many = strcmp(options->command, "check") == 0;
    options->files = words;
    for (int i = 0; i < count; i++) {
        if (strcmp(words[i], "--load") == 0 && !is_show) {
            if (++i == count) {
                return report_usage_error("a value is required for", "--load <F>");
            }
            options->snapshot_path = words[i];
        } else if (strncmp(words[i], "--load=", 7) == 0 && !is_show) {
            options->snapshot_path = words[i] + 7;
        } else if (strcmp(words[i], "--explain") == 0 && is_show) {
            options->is_explained = 1;
        } else if (words[i][0] == '-' && words[i][1] != 0) {
            if (strcmp(words[i], "--plain") != 0) {
                return report_usage_error("unsupported argument", words[i]);
            }
        } else if (options->file_count == 1 && !takes_many) {
            return report_usage_error("unexpected argument", words[i]);
        } else {
            options->files[options->file_count++] = words[i];
        }
    }
    return 0;
}

static int run(int count, char **words) {
    struct options options = {NULL, NULL, 0, NULL, 0};
    const char *first = count > 1 ? words[1] : "";
    static char standard_input[] = "-";
    int status = 0;
    if (strcmp(first, "--help") == 0 || strcmp(first, "-h") == 0 || strcmp(first, "help") == 0) {
        return fputs(help_text, stdout) == EOF;
    }
    if (strcmp(first, "--version") == 0 || strcmp(first, "-V") == 0) {
        return printf("hidlog %s\n", VERSION) < 0;
    }
    if (!is_command(first)) {
        return report_usage_error("expected replay, live, check, quiet or show, not", first);
    }
    options.command = first;
    status = parse_arguments(count - 2, words + 2, &options);
    if (status != 0) {
        return status;
    }
    if (options.file_count == 0) {
        return run_file(&options, standard_input);
    }
    for (int i = 0; i < options.file_count; i++) {
        int one = run_file(&options, options.files[i]);
        status = one > status ? one : status;
    }
    return status;
}

int main(int count, char **words) {
#if defined(_WIN32)
    _setmode(0, _O_BINARY);
    _setmode(1, _O_BINARY);
    _setmode(2, _O_BINARY);
#endif
    int status = run(count, words);
    if (fflush(stdout) != 0 || ferror(stdout)) {
        return print_error("writing failed", EXIT_LOG_ERROR);
    }
    return status;
}
