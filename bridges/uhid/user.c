#define _POSIX_C_SOURCE 200809L
#include "user.h"

#include <errno.h>
#include <stdio.h>
#include <stdlib.h>
#include <string.h>
#include <unistd.h>

static const char *const words[] = {"granted", "denied", "timeout"};

// Parses a line of a script: granted, denied or timeout, optionally followed by the delay in milliseconds. Without one,
// the delay is `delay_ms`.
static bool parse_touch(char *line, uint64_t delay_ms, struct touch *touch) {
    char *rest, *word = strtok_r(line, " \t\n", &rest), *number = strtok_r(NULL, " \t\n", &rest), *end = "";
    errno = 0;
    touch->word = NULL;
    touch->delay_ms = number == NULL ? delay_ms : strtoull(number, &end, 10);
    for (size_t i = 0; i < sizeof words / sizeof *words; i++) {
        touch->word = strcmp(word, words[i]) == 0 ? words[i] : touch->word;
    }
    bool is_number = number == NULL || (*number >= '0' && *number <= '9' && *end == 0);
    return touch->word != NULL && is_number && errno == 0 && touch->delay_ms <= INT32_MAX &&
           strtok_r(NULL, " \t\n", &rest) == NULL;
}

// Reads the lines of a script. Skips empty lines and lines that begin with #.
static bool read_script_lines(struct user *user, FILE *file, const char *path, uint64_t delay_ms) {
    char line[USER_LINE];
    for (unsigned number = 1; fgets(line, sizeof line, file) != NULL; number++) {
        if (line[strspn(line, " \t\n")] == 0 || *line == '#') {
            continue;
        }
        if (user->count == USER_TOUCHES || !parse_touch(line, delay_ms, &user->touches[user->count])) {
            fprintf(stderr,
                    "hidlog-uhid: %s, line %u: expected granted, denied or timeout, optionally followed by "
                    "milliseconds, and at most %d such lines\n",
                    path, number, USER_TOUCHES);
            return false;
        }
        user->count++;
    }
    if (ferror(file) || user->count == 0) {
        fprintf(stderr, "hidlog-uhid: %s: %s\n", path,
                ferror(file) ? strerror(errno) : "expected at least one line with granted, denied or timeout");
        return false;
    }
    return true;
}

static bool read_script(struct user *user, const char *path, uint64_t delay_ms) {
    FILE *file = fopen(path, "re");
    if (file == NULL) {
        fprintf(stderr, "hidlog-uhid: %s: %s\n", path, strerror(errno));
        return false;
    }
    user->kind = USER_SCRIPT;
    bool is_read = read_script_lines(user, file, path, delay_ms);
    fclose(file);
    return is_read;
}

bool user_parse(struct user *user, const char *word, uint64_t delay_ms) {
    memset(user, 0, sizeof *user);
    if (strncmp(word, "script:", 7) == 0 && word[7] != 0) {
        return read_script(user, word + 7, delay_ms);
    }
    if (strcmp(word, "granted") != 0 && strcmp(word, "ask") != 0) {
        fprintf(stderr, "hidlog-uhid: invalid value '%s' for --presence: expected granted, ask or script:FILE\n", word);
        return false;
    }
    user->kind = *word == 'a' ? USER_ASKED : USER_FIXED;
    user->touches[0] = (struct touch){words[0], delay_ms};
    user->count = 1;
    return true;
}

void user_start_asking(struct user *user, uint64_t now_ms) {
    if (user->kind == USER_ASKED) {
        fprintf(stderr,
                "hidlog-uhid: the key asks for a touch: type y to touch the key or n to refuse, then Enter "
                "(timeout: %d s)\n",
                USER_SECONDS);
        user->due_ms = now_ms + USER_SECONDS * 1000;
        return;
    }
    user->due_ms = now_ms + user->touches[user->next].delay_ms;
}

void user_read_input(struct user *user) {
    size_t capacity = sizeof user->typed - user->typed_len;
    ssize_t len = read(STDIN_FILENO, user->typed + user->typed_len, capacity);
    // A line that is too long is discarded.
    user->typed_len = len > 0 ? user->typed_len + (size_t)len : capacity == 0 ? 0 : user->typed_len;
    user->is_input_closed = capacity > 0 && (len == 0 || (len < 0 && errno != EINTR && errno != EAGAIN));
}

bool user_expects_input(const struct user *user) {
    return user->kind == USER_ASKED && !user->is_input_closed;
}

// Removes the first line that was typed, if any. Returns "granted" if it begins with y, "denied" if it begins with n,
// or NULL otherwise.
static const char *take_typed_line(struct user *user) {
    char *end = memchr(user->typed, '\n', user->typed_len);
    if (end == NULL) {
        return NULL;
    }
    char first = *user->typed;
    user->typed_len -= (size_t)(end + 1 - user->typed);
    memmove(user->typed, end + 1, user->typed_len);
    return first == 'y' ? words[0] : first == 'n' ? words[1] : NULL;
}

const char *user_take_reply(struct user *user, uint64_t now_ms) {
    if (user->kind == USER_ASKED) {
        const char *word = take_typed_line(user);
        return word != NULL ? word : now_ms >= user->due_ms ? words[2] : NULL;
    }
    if (now_ms < user->due_ms) {
        return NULL;
    }
    const char *word = user->touches[user->next].word;
    user->next += user->next + 1 < user->count;
    return word;
}
