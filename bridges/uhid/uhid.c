// hidlog-uhid, a virtual USB security key for Linux: makes the kernel create a device /dev/hidrawN, through /dev/uhid,
// so that browsers, libfido2 and OpenSSH find an in-memory key like a USB key that is plugged in.
//
//     gcc -I release -I examples/c -I bridges/ssh -o hidlog-uhid bridges/uhid/*.c bridges/ssh/state.c
//         examples/c/{virtual_key,private_file,software_keys,snapshot}.c release/libhidlog.a -lcrypto
//     sudo ./hidlog-uhid --record session.log key.state
//
// For tests only: the private keys are stored in clear text in the state file.
#define _POSIX_C_SOURCE 200809L
#include "options.h"
#include "packet_queue.h"
#include "private_file.h"
#include "snapshot.h"
#include "state.h"

#include <errno.h>
#include <fcntl.h>
#include <linux/input.h>
#include <linux/uhid.h>
#include <openssl/crypto.h>
#include <poll.h>
#include <signal.h>
#include <stdio.h>
#include <stdlib.h>
#include <string.h>
#include <sys/signalfd.h>
#include <sys/stat.h>
#include <time.h>
#include <unistd.h>

// An incomplete message times out after 500 ms. A log line has at most 255 bytes, and hidlog_key_replay_lines writes at
// most 18,000 for it. The kernel queues fewer than 64 events.
enum {
    MESSAGE_MS = 500,
    MAX_LINE = 255,
    MAX_TEXT = 18000,
    MAX_EVENTS = 64,
    PATH = 4096
};

// The HID report descriptor of a FIDO device (CTAP 2.1, section 11.2.8): usage page 0xF1D0, reports of 64 bytes in
// both directions.
static const uint8_t descriptor[] = {0x06, 0xd0, 0xf1, 0x09, 0x01, 0xa1, 0x01, 0x09, 0x20, 0x15, 0x00, 0x26,
                                     0xff, 0x00, 0x75, 0x08, 0x95, 0x40, 0x81, 0x02, 0x09, 0x21, 0x15, 0x00,
                                     0x26, 0xff, 0x00, 0x75, 0x08, 0x95, 0x40, 0x91, 0x02, 0xc0};

static struct state state;
static struct packet_queue queue;
static int device = -1;
static int recording = -1;
static struct options options;
static uint64_t last_tick_ms; // time of the last tick while the key waits for the user
static bool is_user_asked;    // whether the key waits for the user

static uint64_t now_ms(void) {
    struct timespec time;
    clock_gettime(CLOCK_MONOTONIC, &time);
    return (uint64_t)time.tv_sec * 1000 + (uint64_t)time.tv_nsec / 1000000 - state.vkey.powered_up;
}

// Prints what failed (an action or a path), and why, by errno. Returns false.
static bool print_system_error(const char *failed) {
    fprintf(stderr, "hidlog-uhid: %s: %s\n", failed, strerror(errno));
    return false;
}

static char *write_hex(char *to, const uint8_t *bytes, size_t len) {
    for (size_t i = 0; i < len; i++) {
        to += sprintf(to, "%02x", bytes[i]);
    }
    return to;
}

static unsigned parse_hex_digit(uint8_t letter) {
    return (unsigned)(letter <= '9' ? letter - '0' : letter - 'a' + 10);
}

// Sends a packet of the key, which is in hexadecimal, to the kernel.
static bool send_packet(const uint8_t digits[2 * HIDLOG_PACKET_SIZE]) {
    struct uhid_event event = {.type = UHID_INPUT2};
    event.u.input2.size = HIDLOG_PACKET_SIZE;
    for (size_t i = 0; i < HIDLOG_PACKET_SIZE; i++) {
        event.u.input2.data[i] = (uint8_t)(parse_hex_digit(digits[2 * i]) << 4 | parse_hex_digit(digits[2 * i + 1]));
    }
    packet_queue_record_channel(&queue, event.u.input2.data);
    return write_all(device, (const uint8_t *)&event, sizeof event) || print_system_error("cannot send a packet");
}

static bool report_missing_private_key(void) {
    fprintf(stderr, "hidlog-uhid: cannot save the key's state: no private key for a new credential\n");
    return false;
}

// Saves the key's state. The application (RP ID) of a new credential is stored as an empty string, since the key knows
// only the RP ID's hash.
static bool save_state(void) {
    struct hidlog_credential credential;
    for (size_t i = 0; hidlog_key_get_credential(&state.vkey.key, i, &credential) == 0; i++) {
        if (state_application(&state, credential.id) == NULL && !state_add(&state, credential.id, "")) {
            return report_missing_private_key();
        }
    }
    return state_save(&state);
}

// Passes an input to the key, as its log line, and sends the packets that the key sends. After presence, a key pair or
// a signature, saves the key's state before it sends them, since the credentials may have changed.
static bool pass_line(const char *line) {
    static uint8_t text[MAX_TEXT];
    struct hidlog_result result;
    if (hidlog_key_replay_lines(&state.vkey.key, (const uint8_t *)line, strlen(line), text, sizeof text, &result) !=
        0) {
        fprintf(stderr, "hidlog-uhid: the key rejected an input, whose log line is: %s", line);
        return false;
    }
    if (recording >= 0 && !write_all(recording, text, result.written)) {
        return print_system_error("cannot write the recording");
    }
    if (strchr("pks", line[0]) != NULL && !save_state()) {
        return false;
    }
    for (uint8_t *at = text, *end = text + result.written; at < end; at = (uint8_t *)memchr(at, '\n', end - at) + 1) {
        if (*at == '<' && !send_packet(at + 2)) {
            return false;
        }
    }
    return true;
}

// Passes an input to the key. Its log line is the letter, the current timestamp, and the word unless it is empty.
static bool pass_input(char letter, const char *word) {
    char line[MAX_LINE + 2];
    snprintf(line, sizeof line, "%c %llu%s%s\n", letter, (unsigned long long)now_ms(), *word == 0 ? "" : " ", word);
    return pass_line(line);
}

static bool pass_bytes(char letter, const uint8_t *bytes, size_t len) {
    char word[2 * MAX_SIGNATURE + 1];
    write_hex(word, bytes, len);
    return pass_input(letter, word);
}

// Frees the key pairs that belong to no credential in the state, such as those of replaced credentials.
static void free_unused_key_pairs(void) {
    for (size_t i = 0; i < SOFTWARE_KEYS; i++) {
        struct software_key *pair = &state.vkey.keys.slots[i];
        if (pair->pair != NULL && state_application(&state, pair->id) == NULL) {
            EVP_PKEY_free(pair->pair);
            OPENSSL_cleanse(pair, sizeof *pair);
        }
    }
}

static bool provide_key_pair(void) {
    char word[MAX_LINE];
    free_unused_key_pairs();
    const struct software_key *pair = software_keys_generate(&state.vkey.keys);
    if (pair == NULL) {
        return pass_input('k', "no");
    }
    char *at = write_hex(word, pair->id, sizeof pair->id);
    *at = ' ';
    at = write_hex(at + 1, pair->x, sizeof pair->x);
    *at = ' ';
    write_hex(at + 1, pair->y, sizeof pair->y);
    return pass_input('k', word);
}

static bool provide_signature(const struct hidlog_need *need) {
    uint8_t signature[MAX_SIGNATURE];
    size_t len = software_keys_sign(&state.vkey.keys, need->id, need->to_sign, need->to_sign_len, signature);
    return len == 0 ? pass_input('s', "no") : pass_bytes('s', signature, len);
}

// Provides what the key needs: a key pair, a signature, or what the user did. If the user has not done anything yet,
// sends a tick if a KEEPALIVE is due.
static bool provide_need(const struct hidlog_need *need) {
    const char *word;
    switch (need->kind) {
    case HIDLOG_NEED_KEY_PAIR:
        return provide_key_pair();
    case HIDLOG_NEED_SIGNATURE:
        return provide_signature(need);
    case HIDLOG_NEED_PRESENCE:
        word = user_take_reply(&options.user, now_ms());
        if (word != NULL) {
            return pass_input('p', word);
        }
        if (now_ms() - last_tick_ms >= HIDLOG_KEEPALIVE_MS) {
            last_tick_ms = now_ms();
            return pass_input('t', "");
        }
        return true;
    default:
        return true;
    }
}

// Passes the next packet in the queue to the key, if any.
static bool pass_next_packet(void) {
    uint8_t packet[HIDLOG_PACKET_SIZE];
    return !packet_queue_take(&queue, packet) || pass_bytes('>', packet, sizeof packet);
}

// Handles the event that the last program has closed the device: passes all queued packets to the key, and if the key
// then needs user presence, reports that the user did nothing.
static bool handle_close(void) {
    struct hidlog_need need;
    while (queue.count > 0) {
        if (!pass_next_packet()) {
            return false;
        }
    }
    return hidlog_key_get_need(&state.vkey.key, &need) != HIDLOG_NEED_PRESENCE || pass_input('p', "timeout");
}

// Reads one event from the kernel. Queues the packet if a program wrote one to the device, and calls handle_close if
// the last program closed the device. Ignores other events.
static bool handle_event(void) {
    struct uhid_event event = {0};
    ssize_t len = read(device, &event, sizeof event);
    if (len <= 0) {
        errno = len == 0 ? EPIPE : errno;
        return print_system_error("cannot read /dev/uhid");
    }
    if (event.type == UHID_CLOSE) {
        return handle_close();
    }
    if (event.type != UHID_OUTPUT) {
        return true;
    }
    // Skip the report ID (0) before the packet, if any, and pad a short packet with zeros.
    size_t skipped = event.u.output.size > HIDLOG_PACKET_SIZE ? 1 : 0;
    size_t size = event.u.output.size - skipped;
    if (size < HIDLOG_PACKET_SIZE) {
        memset(event.u.output.data + skipped + size, 0, HIDLOG_PACKET_SIZE - size);
    }
    packet_queue_add(&queue, event.u.output.data + skipped);
    return true;
}

// Handles all events that the kernel has queued, so that its queue doesn't overflow. Returns after MAX_EVENTS events
// even if there are more, in case a program floods the device.
static bool handle_events(void) {
    struct pollfd file = {.fd = device, .events = POLLIN};
    for (int i = 0; i < MAX_EVENTS; i++) {
        int ready = poll(&file, 1, 0);
        if (ready < 0) {
            return print_system_error("cannot check for events of /dev/uhid");
        }
        if (ready == 0) {
            return true;
        }
        if (!handle_event()) {
            return false;
        }
    }
    return true;
}

// Returns the maximum time to wait for events in milliseconds, or -1 for no limit. `kind` is what the key needs.
static int get_poll_timeout_ms(uint32_t kind, bool is_idle) {
    if (queue.count > 0 || kind == HIDLOG_NEED_KEY_PAIR || kind == HIDLOG_NEED_SIGNATURE) {
        return 0;
    }
    if (kind == HIDLOG_NEED_NONE) {
        return is_idle ? -1 : MESSAGE_MS;
    }
    uint64_t now = now_ms(), keepalive_ms = last_tick_ms + HIDLOG_KEEPALIVE_MS;
    uint64_t due_ms = keepalive_ms < options.user.due_ms ? keepalive_ms : options.user.due_ms;
    return due_ms <= now ? 0 : (int)(due_ms - now);
}

// Stores what the key needs now in *need, and returns its kind. If the key has just started to need user presence,
// starts to ask the user.
static uint32_t update_need(struct hidlog_need *need) {
    uint32_t kind = (uint32_t)hidlog_key_get_need(&state.vkey.key, need);
    if (kind == HIDLOG_NEED_PRESENCE && !is_user_asked) {
        last_tick_ms = now_ms();
        user_start_asking(&options.user, last_tick_ms);
    }
    is_user_asked = kind == HIDLOG_NEED_PRESENCE;
    return kind;
}

// Handles requests until a signal arrives at the descriptor `signals`. Each iteration handles the kernel's queued
// events, but passes only one packet to the key, and provides what the key needs, so that a program that floods the
// device does not block other programs.
static bool handle_requests(int signals) {
    struct pollfd files[] = {{.fd = device, .events = POLLIN}, {.fd = signals, .events = POLLIN}, {.events = POLLIN}};
    struct hidlog_need need;
    bool is_idle = true;
    for (;;) {
        uint32_t kind = update_need(&need);
        files[2].fd = is_user_asked && user_expects_input(&options.user) ? STDIN_FILENO : -1;
        int ready = poll(files, 3, get_poll_timeout_ms(kind, is_idle));
        if (ready < 0) {
            return print_system_error("cannot wait for events of /dev/uhid");
        }
        if (files[1].revents != 0) {
            return true;
        }
        if (files[2].fd >= 0 && files[2].revents != 0) {
            user_read_input(&options.user);
        }
        bool is_quiet = ready == 0 && kind == HIDLOG_NEED_NONE && queue.count == 0;
        // Send a tick, so that an incomplete message times out.
        if (is_quiet && !pass_input('t', "")) {
            return false;
        }
        is_idle = is_quiet;
        if (!provide_need(&need) || (files[0].revents != 0 && !handle_events()) || !pass_next_packet()) {
            return false;
        }
    }
}

static bool open_uhid(void) {
    device = open("/dev/uhid", O_RDWR | O_CLOEXEC);
    if (device < 0) {
        const char *advice = errno == ENOENT ? "load the kernel's module uhid: modprobe uhid"
                                             : "run hidlog-uhid as root, or pass an open descriptor with --fd";
        print_system_error("cannot open /dev/uhid");
        fprintf(stderr, "hidlog-uhid: %s\n", advice);
    }
    return device >= 0;
}

static bool create_device(void) {
    struct uhid_event event = {.type = UHID_CREATE2};
    if (device < 0 && !open_uhid()) {
        return false;
    }
    strcpy((char *)event.u.create2.name, "hidlog software security key");
    memcpy(event.u.create2.rd_data, descriptor, sizeof descriptor);
    event.u.create2.rd_size = sizeof descriptor;
    event.u.create2.bus = BUS_USB;
    event.u.create2.vendor = 0x1209; // pid.codes, product 1: for tests
    event.u.create2.product = 1;
    return write(device, &event, sizeof event) == sizeof event || print_system_error("cannot create the HID device");
}

// Returns whether a recording may be written to a path: not if the path is that of the state file, or of a link to it.
static bool is_recording_path_allowed(const char *path) {
    struct stat recorded, saved;
    bool is_there = stat(path, &recorded) == 0;
    if (!is_there && errno != ENOENT) {
        return print_system_error(path);
    }
    bool has_state = stat(state.path, &saved) == 0;
    if (!has_state && errno != ENOENT) {
        return print_system_error(state.path);
    }
    bool is_same = is_there && has_state && recorded.st_dev == saved.st_dev && recorded.st_ino == saved.st_ino;
    if (is_same || strcmp(path, state.path) == 0) {
        fprintf(stderr, "hidlog-uhid: %s: the recording would overwrite the state file; choose another path\n", path);
        return false;
    }
    return true;
}

// Writes the path of a recording's initial snapshot to `path`. Returns false if it is too long.
static bool format_snapshot_path(const char *recording_path, char path[PATH]) {
    if (snprintf(path, PATH, "%s.snapshot", recording_path) >= PATH) {
        errno = ENAMETOOLONG;
        return print_system_error(recording_path);
    }
    return true;
}

// Replaces the contents of the open file `file`. `path` is for the error message.
static bool overwrite_file(const char *path, int file, const uint8_t *bytes, size_t len) {
    return (ftruncate(file, 0) == 0 && write_all(file, bytes, len)) || print_system_error(path);
}

// Opens and empties the recording's log, and writes the snapshot of the credentials at its start, if any, to another
// file. Changes neither file unless both can be opened.
static bool open_recording(const char *path, const uint8_t *snapshot, size_t len) {
    char snapshot_path[PATH];
    if (!format_snapshot_path(path, snapshot_path) || !is_recording_path_allowed(path) ||
        !is_recording_path_allowed(snapshot_path)) {
        return false;
    }
    recording = private_file_open(path);
    int file = recording >= 0 && len > 0 ? private_file_open(snapshot_path) : -1;
    if (recording < 0 || (len > 0 && file < 0)) {
        return false;
    }
    bool is_written =
        overwrite_file(path, recording, NULL, 0) && (len == 0 || overwrite_file(snapshot_path, file, snapshot, len));
    if (file >= 0 && close(file) != 0 && is_written) {
        is_written = print_system_error(snapshot_path);
    }
    return is_written;
}

// Initializes the key again, with an AAGUID of zeros, which `hidlog check` expects. Then starts the recording, unless
// `path` is NULL.
static bool start_recording(const char *path) {
    static const uint8_t aaguid[16];
    static uint8_t snapshot[HIDLOG_SNAPSHOT_MAX_LEN];
    size_t len = snapshot_write(&state.vkey.key, snapshot);
    hidlog_key_destroy(&state.vkey.key);
    int error = hidlog_key_init(&state.vkey.key, aaguid, 0, snapshot, len);
    if (error != 0) {
        fprintf(stderr, "hidlog-uhid: cannot initialize the key again: hidlog_key_init returned error %d\n", error);
        return false;
    }
    return path == NULL || open_recording(path, snapshot, len);
}

// Blocks the signals that end this program, and returns a descriptor that becomes readable when one of them arrives.
// Returns -1 on failure.
static int open_signal_descriptor(void) {
    sigset_t ending;
    sigemptyset(&ending);
    sigaddset(&ending, SIGTERM);
    sigaddset(&ending, SIGINT);
    sigaddset(&ending, SIGHUP);
    if (sigprocmask(SIG_BLOCK, &ending, NULL) != 0) {
        return -1;
    }
    // Ignore the signals for a write over the file size limit or to a closed pipe, so that the write returns an error.
    signal(SIGXFSZ, SIG_IGN);
    signal(SIGPIPE, SIG_IGN);
    return signalfd(-1, &ending, SFD_CLOEXEC);
}

// Creates the device, handles requests until a signal arrives, and saves the key's state, even if it has not changed.
// After an error, saves nothing: no program has got a response that depends on unsaved changes.
static bool run_session(void) {
    int signals = open_signal_descriptor();
    if (signals < 0) {
        return print_system_error("cannot wait for signals");
    }
    if (!start_recording(options.recorded) || !create_device()) {
        return false;
    }
    return handle_requests(signals) && save_state();
}

int main(int count, char **words) {
    if (!options_parse(&options, count, words)) {
        return 2;
    }
    if (options.is_help) {
        return 0;
    }
    device = options.device;
    if (setenv("HIDLOG_SK_STATE", options.state, 1) != 0 || !state_open(&state)) {
        return 1;
    }
    bool is_done = run_session();
    if (recording >= 0 && close(recording) != 0) {
        is_done = print_system_error("cannot write the recording");
    }
    state_close(&state);
    return is_done ? 0 : 1;
}
