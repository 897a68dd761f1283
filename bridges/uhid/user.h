// The user of the virtual key: what the user does when the key asks for a touch. A simulated user always touches the
// key, or acts as a script says. A person replies at the terminal.
#ifndef USER_H
#define USER_H

#include <stdbool.h>
#include <stddef.h>
#include <stdint.h>

// Maximum numbers of lines in a script and of characters in a line, and the time in seconds that a person has to reply.
enum { USER_TOUCHES = 1000, USER_LINE = 200, USER_SECONDS = 30 };
enum user_kind { USER_FIXED, USER_ASKED, USER_SCRIPT };

struct touch {
    const char *word;  // "granted", "denied" or "timeout", as in a log
    uint64_t delay_ms; // time until the user acts
};

struct user {
    enum user_kind kind;
    struct touch touches[USER_TOUCHES]; // of a script; otherwise only the first one
    size_t count, next;
    uint64_t due_ms;       // when the user acts
    char typed[USER_LINE]; // typed by a person and not processed yet
    size_t typed_len;
    bool is_input_closed; // standard input has ended
};

// Parses the value of --presence: `granted`, `ask` or `script:FILE`. The simulated user touches the key after
// `delay_ms`, unless the script has another delay. Returns false after an error, which is printed to standard error.
bool user_parse(struct user *user, const char *word, uint64_t delay_ms);

// Called when the key starts to ask for a touch: prints the question to a person, or schedules the simulated user's
// action.
void user_start_asking(struct user *user, uint64_t now_ms);

// Reads the characters that a person has typed. Call it only if poll reports that standard input is readable.
void user_read_input(struct user *user);

// Returns whether a person replies on standard input, and standard input has not ended.
bool user_expects_input(const struct user *user);

// Returns what the user did since user_start_asking: "granted", "denied" or "timeout", or NULL if nothing yet.
const char *user_take_reply(struct user *user, uint64_t now_ms);

#endif
