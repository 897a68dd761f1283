// Tests the portable library in several threads at the same time, and in child processes that are forked while threads
// call the library. Each key must send the same packets as in a single thread.
//
//     concurrency LOG            tests with threads and with child processes
//     concurrency LOG threads    tests only with threads
#define _POSIX_C_SOURCE 200809L
#include "hidlog.h"

#include <pthread.h>
#include <stdatomic.h>
#include <stdio.h>
#include <stdlib.h>
#include <string.h>
#if !defined(_WIN32)
#include <sys/wait.h>
#include <unistd.h>
#endif

enum { THREADS = 20, ROUNDS = 20, FORKS = 20, CAP = 1 << 20 };

static uint8_t session[CAP], expected[CAP];
static size_t session_len, expected_len;
static atomic_int failures, is_ending;

// Replays the log on a new key, and checks the log with hidlog_check. Returns whether the output of the replay equals
// that of a single thread, and the check succeeds.
static int matches_single_thread(void) {
    static const uint8_t aaguid[16];
    struct hidlog_key key = {malloc(hidlog_key_size()), 0};
    struct hidlog_result result, checked;
    uint8_t *out = malloc(CAP), summary[200];
    int is_same = 0;
    if (key.memory != NULL && out != NULL && hidlog_key_init(&key, aaguid, 0, session, 0) == 0) {
        hidlog_key_replay_lines(&key, session, session_len, out, CAP, &result);
        hidlog_check(session, session_len, session, 0, summary, sizeof summary, &checked);
        is_same = result.status == HIDLOG_OK && result.written == expected_len &&
                  memcmp(out, expected, expected_len) == 0 && checked.status == HIDLOG_OK;
        hidlog_key_destroy(&key);
    }
    free(key.memory);
    free(out);
    return is_same;
}

static void *run_thread(void *rounds) {
    for (int i = 0; rounds == NULL ? !is_ending : i < ROUNDS; i++) {
        failures += !matches_single_thread();
    }
    return NULL;
}

static void start_threads(pthread_t *threads, void *rounds) {
    for (int i = 0; i < THREADS; i++) {
        if (pthread_create(&threads[i], NULL, run_thread, rounds) != 0) {
            perror("pthread_create");
            exit(2);
        }
    }
}

static void join_threads(const pthread_t *threads) {
    for (int i = 0; i < THREADS; i++) {
        pthread_join(threads[i], NULL);
    }
}

// Forks child processes while threads call the library. Each child process replays the log.
static void fork_children(void) {
#if !defined(_WIN32)
    pthread_t threads[THREADS];
    start_threads(threads, NULL);
    for (int i = 0; i < FORKS; i++) {
        int status = 1;
        pid_t child = fork();
        if (child == 0) {
            _exit(!matches_single_thread());
        }
        failures += child < 0 || waitpid(child, &status, 0) != child || status != 0;
    }
    is_ending = 1;
    join_threads(threads);
#endif
}

int main(int count, char **words) {
    static const uint8_t aaguid[16];
    static int rounds;
    struct hidlog_key key = {malloc(hidlog_key_size()), 0};
    struct hidlog_result result;
    pthread_t threads[THREADS];
    FILE *file = count == 2 || count == 3 ? fopen(words[1], "rb") : NULL;
    if (file == NULL || (session_len = fread(session, 1, CAP, file)) == 0 ||
        hidlog_key_init(&key, aaguid, 0, session, 0) != 0) {
        fputs("usage: concurrency LOG [threads]\n", stderr);
        return 2;
    }
    fclose(file);
    hidlog_key_replay_lines(&key, session, session_len, expected, CAP, &result);
    expected_len = (size_t)result.written;
    hidlog_key_destroy(&key);
    free(key.memory);
    start_threads(threads, &rounds);
    join_threads(threads);
    if (count == 2) {
        fork_children();
    }
    if (failures != 0) {
        fprintf(stderr, "concurrency: %d replays of the log failed, or their output differs from that of a single thread\n",
                (int)failures);
    }
    return failures != 0;
}
