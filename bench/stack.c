/* Measures how many bytes of stack the functions of the C library use: calls each function on a thread whose stack has
 * been filled with a pattern, and finds the deepest byte that was overwritten.
 *
 *     stack LOG SNAPSHOT */
#include <pthread.h>
#include <stdio.h>
#include <stdlib.h>
#include <string.h>

#include "hidlog.h"

enum { STACK = 1 << 20, PATTERN = 0xA5 };

struct bytes {
    uint8_t *data;
    size_t len;
};

static struct bytes session_log, snapshot;
static uint8_t out[1 << 20];
static struct hidlog_key key;
static uint8_t *stack;

static struct bytes read_file(const char *path) {
    FILE *file = fopen(path, "rb");
    struct bytes read = {malloc(1 << 20), 0};
    if (file == NULL || read.data == NULL) {
        perror(path);
        exit(2);
    }
    read.len = fread(read.data, 1, 1 << 20, file);
    fclose(file);
    return read;
}

static void do_nothing(void) {}

static void run_on_log(void (*command)(const uint8_t *, size_t, const uint8_t *, size_t, uint8_t *, size_t,
                                   struct hidlog_result *),
                   size_t snapshot_len) {
    struct hidlog_result result;
    command(session_log.data, session_log.len, snapshot.data, snapshot_len, out, sizeof out, &result);
}

static void replay(void) { run_on_log(hidlog_replay, 0); }
static void replay_loaded(void) { run_on_log(hidlog_replay, snapshot.len); }
static void replay_live(void) { run_on_log(hidlog_live, 0); }
static void check(void) { run_on_log(hidlog_check, 0); }
static void quiet(void) { run_on_log(hidlog_quiet, 0); }

static void show(void) {
    struct hidlog_result result;
    hidlog_show(session_log.data, session_log.len, 1, out, sizeof out, &result);
}

static void transactions(void) {
    struct hidlog_result result;
    hidlog_transactions(session_log.data, session_log.len, out, sizeof out, &result);
}

static void init_key(void) {
    static const uint8_t aaguid[16];
    hidlog_key_init(&key, aaguid, 0, snapshot.data, snapshot.len);
}

static void replay_lines(void) {
    struct hidlog_result result;
    hidlog_key_replay_lines(&key, session_log.data, session_log.len, out, sizeof out, &result);
}

/* Sends INIT on the broadcast channel, and reads the response. */
static void exchange_init(void) {
    uint8_t bytes[64] = {0xff, 0xff, 0xff, 0xff, 0x86, 0, 8, 0, 1, 2, 3, 4, 5, 6, 7};
    hidlog_key_write_packet(&key, 100000, bytes);
    while (hidlog_key_read_packet(&key, bytes) >= 0) {
    }
}

static void get_need(void) {
    struct hidlog_need needed;
    hidlog_key_get_need(&key, &needed);
}

static void get_credential(void) {
    struct hidlog_credential found;
    hidlog_key_get_credential(&key, 0, &found);
}

static void add_credential(void) {
    struct hidlog_credential added;
    memset(&added, 7, sizeof added);
    added.user_id_len = added.user_name_len = 1;
    added.discoverable = 1;
    hidlog_key_add_credential(&key, 200000, &added);
}

static void remove_credential(void) {
    uint8_t id[32];
    memset(id, 7, sizeof id);
    hidlog_key_remove_credential(&key, 300000, id);
}

static void save_snapshot(void) { hidlog_key_save_snapshot(&key, out, sizeof out); }
static void clear_credentials(void) { hidlog_key_clear_credentials(&key, 400000); }

static void *run_call(void *call) {
    (*(void (**)(void))call)();
    return NULL;
}

/* Calls `call` on a new thread, and returns how many bytes of the thread's stack were overwritten. */
static size_t measure_stack_use(void (*call)(void)) {
    pthread_attr_t attributes;
    pthread_t thread;
    size_t left = 0;
    memset(stack, PATTERN, STACK);
    if (pthread_attr_init(&attributes) || pthread_attr_setstack(&attributes, stack, STACK) ||
        pthread_create(&thread, &attributes, run_call, &call) || pthread_join(thread, NULL)) {
        fputs("stack: cannot start or join a thread\n", stderr);
        exit(2);
    }
    pthread_attr_destroy(&attributes);
    while (left < STACK && stack[left] == PATTERN) {
        left++;
    }
    return STACK - left;
}

int main(int count, char **words) {
    static const struct {
        const char *name;
        void (*call)(void);
    } calls[] = {
        {"hidlog_replay", replay},
        {"hidlog_replay, a snapshot", replay_loaded},
        {"hidlog_live", replay_live},
        {"hidlog_check", check},
        {"hidlog_quiet", quiet},
        {"hidlog_show", show},
        {"hidlog_transactions", transactions},
        {"hidlog_key_init", init_key},
        {"hidlog_key_write_packet, hidlog_key_read_packet", exchange_init},
        {"hidlog_key_replay_lines", replay_lines},
        {"hidlog_key_get_need", get_need},
        {"hidlog_key_get_credential", get_credential},
        {"hidlog_key_add_credential", add_credential},
        {"hidlog_key_remove_credential", remove_credential},
        {"hidlog_key_save_snapshot", save_snapshot},
        {"hidlog_key_clear_credentials", clear_credentials},
    };
    size_t thread_use; // stack use of a thread that calls nothing
    if (count != 3) {
        fputs("usage: stack LOG SNAPSHOT\n", stderr);
        return 2;
    }
    session_log = read_file(words[1]);
    snapshot = read_file(words[2]);
    key.memory = aligned_alloc(16, (hidlog_key_size() + 15) / 16 * 16);
    stack = aligned_alloc(4096, STACK);
    if (key.memory == NULL || stack == NULL) {
        return 2;
    }
    thread_use = measure_stack_use(do_nothing);
    for (size_t i = 0; i < sizeof calls / sizeof calls[0]; i++) {
        printf("%7zu  %s\n", measure_stack_use(calls[i].call) - thread_use, calls[i].name);
    }
    return 0;
}
