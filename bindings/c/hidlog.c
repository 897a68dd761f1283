// Implements hidlog.h for any little-endian machine with a C11 compiler: calls the functions of the proved WebAssembly
// module, which is translated to C in hidlog_module.h. Each call takes an instance of the module from a pool, and maps
// the caller's buffers into the instance's address space. An instance keeps nothing between calls: all of a key's state
// is in its caller's memory, so calls on different keys need no lock. The first instance is static; more instances are
// allocated only if several calls run at the same time. If that fails, the call returns the error for a buffer that is
// too small (hidlog_result_message returns 0).
#include "hidlog.h"
#include "hidlog_module.h"

// A slot of the pool has an instance that no call uses, or NULL. EXCHANGE stores a value in a slot, and returns the old
// value. STORE_IF_EMPTY stores a value if the slot has NULL, and returns whether it did. Both are atomic.
#if defined(_MSC_VER)
#include <intrin.h>
typedef void *volatile pool_slot;
#define EXCHANGE(slot, value) _InterlockedExchangePointer((slot), (value))
#define STORE_IF_EMPTY(slot, value) (_InterlockedCompareExchangePointer((slot), (value), NULL) == NULL)
#else
#include <stdatomic.h>
typedef _Atomic(void *) pool_slot;
#define EXCHANGE(slot, value) atomic_exchange((slot), (value))
#define STORE_IF_EMPTY(slot, value) atomic_compare_exchange_strong((slot), &(void *){NULL}, (value))
#endif

// The module reads and writes the caller's structs in place, so their layouts must be those of the module.
_Static_assert(sizeof(struct hidlog_result) == 32, "layout of hidlog_result");
_Static_assert(sizeof(struct hidlog_need) == 236, "layout of hidlog_need");
_Static_assert(sizeof(struct hidlog_cause) == 24, "layout of hidlog_cause");
_Static_assert(sizeof(struct hidlog_credential) == 272, "layout of hidlog_credential");
_Static_assert(sizeof(struct hidlog_stats) == 40, "layout of hidlog_stats");
_Static_assert(sizeof(struct hidlog_client_report) == 16, "layout of hidlog_client_report");

struct instance {
    Z_hidlog_instance_t module;
    u32 is_ready;
};

enum { POOL_SLOTS = 16 };
static struct instance first_instance;
static pool_slot pool[POOL_SLOTS] = {&first_instance};

// Takes an instance from the pool, or allocates one if the pool is empty. Returns NULL if there is no memory for it.
static struct instance *acquire_instance(void) {
    struct instance *instance = NULL;
    for (u32 i = 0; i < POOL_SLOTS && instance == NULL; i++) {
        instance = EXCHANGE(&pool[i], NULL);
    }
    if (instance == NULL) {
        instance = calloc(1, sizeof *instance);
    }
    if (instance != NULL && !instance->is_ready) {
        init_globals(&instance->module);
        memcpy(instance->module.w2c_memory.own + MODULE_DATA_AT, data_segment_data_w2c_d0,
               sizeof data_segment_data_w2c_d0);
        instance->is_ready = 1;
    }
    return instance;
}

// Puts an instance back into the pool, or frees its memory if the pool is full.
static void release_instance(struct instance *instance) {
    for (u32 i = 0; i < POOL_SLOTS; i++) {
        if (STORE_IF_EMPTY(&pool[i], instance)) {
            return;
        }
    }
    if (instance != &first_instance) {
        free(instance);
    }
}

// Numbers of windows (machine.h): for the key's memory, for its struct hidlog_key, and the first and the last window
// for other buffers. Window 15 always has size 0.
enum { MEMORY_WINDOW = 1, KEY_WINDOW = 2, FIRST_BUFFER = 3, LAST_BUFFER = 14 };
#define ADDRESS_OF(window) ((u64)(window) << WINDOW_BITS)
#define KEY_ADDRESS ADDRESS_OF(KEY_WINDOW)

// struct hidlog_key as the module lays it out, with a 64-bit address of the module in place of the pointer.
struct module_key {
    u64 memory;
    u32 state;
    u32 padding;
};

// What one call uses: its instance of the module, and the windows that are already mapped to buffers.
struct call {
    struct instance *instance;
    Z_hidlog_instance_t *module;
    struct module_key key;
    u32 next_window;
    u32 is_too_long; // whether a buffer did not fit into the free windows
};

// Starts a call: acquires an instance. Returns 1, or 0 if there is no memory for an instance.
static int begin_call(struct call *call) {
    call->instance = acquire_instance();
    if (call->instance == NULL) {
        return 0;
    }
    call->module = &call->instance->module;
    call->next_window = FIRST_BUFFER;
    call->is_too_long = 0;
    return 1;
}

static void end_call(struct call *call) {
    for (u32 i = MEMORY_WINDOW; i < call->next_window; i++) {
        call->module->w2c_memory.windows[i].size = 0;
    }
    release_instance(call->instance);
}

static void open_window(struct call *call, u32 number, const void *bytes, u64 len) {
    struct window *window = &call->module->w2c_memory.windows[number];
    window->bytes = (u8 *)(uintptr_t)bytes;
    window->size = (u32)len;
}

// Returns the size of a buffer that fills all windows that are still free.
static u64 free_windows_len(const struct call *call) {
    return ADDRESS_OF(LAST_BUFFER + 1 - call->next_window);
}

// Maps a buffer to the next free windows. Returns the buffer's address in the module, or 0 if the buffer does not fit;
// then `is_too_long` is set.
static u64 map_buffer(struct call *call, const void *buffer, u64 len) {
    u64 address = ADDRESS_OF(call->next_window), offset = 0;
    if (len > free_windows_len(call) || call->next_window > LAST_BUFFER) {
        call->is_too_long = 1;
        return 0;
    }
    do {
        open_window(call, call->next_window++, (const u8 *)buffer + offset, len - offset);
        offset += ADDRESS_OF(1);
    } while (offset < len);
    return address;
}

// Like map_buffer, for the output buffer, which must be mapped last. If the buffer is larger than the free windows (at
// least 256 MiB), maps its beginning and reduces *out_cap accordingly.
static u64 map_output(struct call *call, void *out, size_t *out_cap) {
    if (*out_cap > free_windows_len(call)) {
        *out_cap = (size_t)free_windows_len(call);
    }
    return map_buffer(call, out, *out_cap);
}

// ---- Commands on logs

typedef void command_function(Z_hidlog_instance_t *, u64, u64, u64, u64, u64, u64, u64);

static void set_error(struct hidlog_result *result, u32 error) {
    memset(result, 0, sizeof *result);
    result->status = HIDLOG_LOG_ERROR;
    result->error = error;
}

static void run_command(command_function *function, const uint8_t *log, size_t log_len, const uint8_t *snapshot,
                        size_t snapshot_len, uint8_t *out, size_t out_cap, struct hidlog_result *result) {
    struct call call;
    if (!begin_call(&call)) {
        set_error(result, HIDLOG_ERR_BUFFER_TOO_SMALL);
        return;
    }
    u64 result_at = map_buffer(&call, result, sizeof *result);
    u64 snapshot_at = map_buffer(&call, snapshot, snapshot_len);
    u64 log_at = map_buffer(&call, log, log_len);
    u64 out_at = map_output(&call, out, &out_cap);
    if (call.is_too_long) {
        set_error(result, HIDLOG_ERR_TOO_MANY_LINES);
    } else {
        function(call.module, log_at, log_len, snapshot_at, snapshot_len, out_at, out_cap, result_at);
    }
    end_call(&call);
}

void hidlog_replay(const uint8_t *log, size_t log_len, const uint8_t *snapshot, size_t snapshot_len, uint8_t *out,
                   size_t out_cap, struct hidlog_result *result) {
    run_command(w2c_hidlog_replay, log, log_len, snapshot, snapshot_len, out, out_cap, result);
}

void hidlog_live(const uint8_t *log, size_t log_len, const uint8_t *snapshot, size_t snapshot_len, uint8_t *out,
                 size_t out_cap, struct hidlog_result *result) {
    run_command(w2c_hidlog_live, log, log_len, snapshot, snapshot_len, out, out_cap, result);
}

void hidlog_check(const uint8_t *log, size_t log_len, const uint8_t *snapshot, size_t snapshot_len, uint8_t *out,
                  size_t out_cap, struct hidlog_result *result) {
    run_command(w2c_hidlog_check, log, log_len, snapshot, snapshot_len, out, out_cap, result);
}

void hidlog_quiet(const uint8_t *log, size_t log_len, const uint8_t *snapshot, size_t snapshot_len, uint8_t *out,
                  size_t out_cap, struct hidlog_result *result) {
    run_command(w2c_hidlog_quiet, log, log_len, snapshot, snapshot_len, out, out_cap, result);
}

// Implements hidlog_show, and hidlog_transactions if `is_transactions` is 1; then `explain` is ignored.
static void show_log(int is_transactions, const uint8_t *log, size_t log_len, uint32_t explain, uint8_t *out,
                     size_t out_cap, struct hidlog_result *result) {
    struct call call;
    if (!begin_call(&call)) {
        set_error(result, HIDLOG_ERR_BUFFER_TOO_SMALL);
        return;
    }
    u64 result_at = map_buffer(&call, result, sizeof *result);
    u64 log_at = map_buffer(&call, log, log_len);
    u64 out_at = map_output(&call, out, &out_cap);
    if (call.is_too_long) {
        set_error(result, HIDLOG_ERR_TOO_MANY_LINES);
    } else if (is_transactions) {
        w2c_hidlog_transactions(call.module, log_at, log_len, out_at, out_cap, result_at);
    } else {
        w2c_hidlog_show(call.module, log_at, log_len, explain, out_at, out_cap, result_at);
    }
    end_call(&call);
}

void hidlog_show(const uint8_t *log, size_t log_len, uint32_t explain, uint8_t *out, size_t out_cap,
                 struct hidlog_result *result) {
    show_log(0, log, log_len, explain, out, out_cap, result);
}

void hidlog_transactions(const uint8_t *log, size_t log_len, uint8_t *out, size_t out_cap,
                         struct hidlog_result *result) {
    show_log(1, log, log_len, 0, out, out_cap, result);
}

size_t hidlog_result_message(const struct hidlog_result *result, uint8_t *out, size_t out_cap) {
    struct call call;
    if (!begin_call(&call)) {
        return 0;
    }
    u64 result_at = map_buffer(&call, result, sizeof *result);
    u64 out_at = map_output(&call, out, &out_cap);
    u64 written = w2c_hidlog_result_message(call.module, result_at, out_at, out_cap);
    end_call(&call);
    return (size_t)written;
}

// ---- A key

size_t hidlog_key_size(void) {
    return MODULE_KEY_SIZE;
}

size_t hidlog_key_capacity(void) {
    return MODULE_CAPACITY;
}

// Starts a call on a key: acquires an instance, and maps the key's memory and struct. Returns 1, or 0 if there is no
// memory for an instance.
static int begin_key_call(struct call *call, const struct hidlog_key *key) {
    if (!begin_call(call)) {
        return 0;
    }
    call->key.memory = ADDRESS_OF(MEMORY_WINDOW);
    call->key.state = key->state;
    call->key.padding = 0;
    open_window(call, MEMORY_WINDOW, key->memory, MODULE_KEY_SIZE);
    open_window(call, KEY_WINDOW, &call->key, sizeof call->key);
    return 1;
}

static int32_t end_key_call(struct call *call, struct hidlog_key *key, u32 returned) {
    key->state = call->key.state;
    end_call(call);
    return (int32_t)returned;
}

#define BEGIN_KEY_CALL                                                                                                 \
    struct call call;                                                                                                  \
    if (!begin_key_call(&call, key)) {                                                                                 \
        return HIDLOG_KEY_ERR_BUFFER_TOO_SMALL;                                                                        \
    }

int32_t hidlog_key_init(struct hidlog_key *key, const uint8_t aaguid[16], uint64_t now_ms, const uint8_t *snapshot,
                        size_t snapshot_len) {
    BEGIN_KEY_CALL
    u64 aaguid_at = map_buffer(&call, aaguid, 16), snapshot_at = map_buffer(&call, snapshot, snapshot_len);
    if (call.is_too_long) {
        return end_key_call(&call, key, (u32)HIDLOG_KEY_ERR_NOT_A_SNAPSHOT);
    }
    u32 returned = w2c_hidlog_key_init(call.module, KEY_ADDRESS, aaguid_at, now_ms, snapshot_at, snapshot_len);
    return end_key_call(&call, key, returned);
}

int32_t hidlog_key_destroy(struct hidlog_key *key) {
    BEGIN_KEY_CALL
    return end_key_call(&call, key, w2c_hidlog_key_destroy(call.module, KEY_ADDRESS));
}

int32_t hidlog_key_write_packet(struct hidlog_key *key, uint64_t now_ms, const uint8_t packet[64]) {
    BEGIN_KEY_CALL
    u64 packet_at = map_buffer(&call, packet, 64);
    return end_key_call(&call, key, w2c_hidlog_key_write_packet(call.module, KEY_ADDRESS, now_ms, packet_at));
}

int32_t hidlog_key_tick(struct hidlog_key *key, uint64_t now_ms) {
    BEGIN_KEY_CALL
    return end_key_call(&call, key, w2c_hidlog_key_tick(call.module, KEY_ADDRESS, now_ms));
}

int32_t hidlog_key_provide_presence(struct hidlog_key *key, uint64_t now_ms, uint32_t presence) {
    BEGIN_KEY_CALL
    return end_key_call(&call, key, w2c_hidlog_key_provide_presence(call.module, KEY_ADDRESS, now_ms, presence));
}

int32_t hidlog_key_provide_key_pair(struct hidlog_key *key, uint64_t now_ms, const uint8_t id[32], const uint8_t x[32],
                                    const uint8_t y[32]) {
    BEGIN_KEY_CALL
    u64 id_at = map_buffer(&call, id, 32), x_at = map_buffer(&call, x, 32), y_at = map_buffer(&call, y, 32);
    return end_key_call(&call, key,
                        w2c_hidlog_key_provide_key_pair(call.module, KEY_ADDRESS, now_ms, id_at, x_at, y_at));
}

int32_t hidlog_key_refuse_key_pair(struct hidlog_key *key, uint64_t now_ms) {
    BEGIN_KEY_CALL
    return end_key_call(&call, key, w2c_hidlog_key_refuse_key_pair(call.module, KEY_ADDRESS, now_ms));
}

int32_t hidlog_key_provide_signature(struct hidlog_key *key, uint64_t now_ms, const uint8_t *signature,
                                     size_t signature_len) {
    BEGIN_KEY_CALL
    u64 signature_at = map_buffer(&call, signature, signature_len);
    if (call.is_too_long) {
        return end_key_call(&call, key, (u32)HIDLOG_KEY_ERR_INVALID_ARGUMENT);
    }
    return end_key_call(
        &call, key, w2c_hidlog_key_provide_signature(call.module, KEY_ADDRESS, now_ms, signature_at, signature_len));
}

int32_t hidlog_key_refuse_signature(struct hidlog_key *key, uint64_t now_ms) {
    BEGIN_KEY_CALL
    return end_key_call(&call, key, w2c_hidlog_key_refuse_signature(call.module, KEY_ADDRESS, now_ms));
}

int32_t hidlog_key_queued_packets(struct hidlog_key *key) {
    BEGIN_KEY_CALL
    return end_key_call(&call, key, w2c_hidlog_key_queued_packets(call.module, KEY_ADDRESS));
}

int32_t hidlog_key_read_packet(struct hidlog_key *key, uint8_t packet[64]) {
    BEGIN_KEY_CALL
    u64 packet_at = map_buffer(&call, packet, 64);
    return end_key_call(&call, key, w2c_hidlog_key_read_packet(call.module, KEY_ADDRESS, packet_at));
}

int32_t hidlog_key_get_need(struct hidlog_key *key, struct hidlog_need *need) {
    BEGIN_KEY_CALL
    u64 need_at = map_buffer(&call, need, sizeof *need);
    return end_key_call(&call, key, w2c_hidlog_key_get_need(call.module, KEY_ADDRESS, need_at));
}

int32_t hidlog_key_cause(struct hidlog_key *key, uint32_t which, struct hidlog_cause *cause, uint8_t *out,
                         size_t out_cap) {
    BEGIN_KEY_CALL
    u64 cause_at = map_buffer(&call, cause, sizeof *cause), out_at = map_output(&call, out, &out_cap);
    return end_key_call(&call, key, w2c_hidlog_key_cause(call.module, KEY_ADDRESS, which, cause_at, out_at, out_cap));
}

int32_t hidlog_key_credential_count(struct hidlog_key *key) {
    BEGIN_KEY_CALL
    return end_key_call(&call, key, w2c_hidlog_key_credential_count(call.module, KEY_ADDRESS));
}

int32_t hidlog_key_get_credential(struct hidlog_key *key, size_t index, struct hidlog_credential *credential) {
    BEGIN_KEY_CALL
    u64 credential_at = map_buffer(&call, credential, sizeof *credential);
    return end_key_call(&call, key, w2c_hidlog_key_get_credential(call.module, KEY_ADDRESS, index, credential_at));
}

int32_t hidlog_key_add_credential(struct hidlog_key *key, uint64_t now_ms, const struct hidlog_credential *credential) {
    BEGIN_KEY_CALL
    u64 credential_at = map_buffer(&call, credential, sizeof *credential);
    return end_key_call(&call, key, w2c_hidlog_key_add_credential(call.module, KEY_ADDRESS, now_ms, credential_at));
}

int32_t hidlog_key_remove_credential(struct hidlog_key *key, uint64_t now_ms, const uint8_t id[32]) {
    BEGIN_KEY_CALL
    u64 id_at = map_buffer(&call, id, 32);
    return end_key_call(&call, key, w2c_hidlog_key_remove_credential(call.module, KEY_ADDRESS, now_ms, id_at));
}

int32_t hidlog_key_clear_credentials(struct hidlog_key *key, uint64_t now_ms) {
    BEGIN_KEY_CALL
    return end_key_call(&call, key, w2c_hidlog_key_clear_credentials(call.module, KEY_ADDRESS, now_ms));
}

int32_t hidlog_key_save_snapshot(struct hidlog_key *key, uint8_t *out, size_t out_cap) {
    BEGIN_KEY_CALL
    u64 out_at = map_output(&call, out, &out_cap);
    return end_key_call(&call, key, w2c_hidlog_key_save_snapshot(call.module, KEY_ADDRESS, out_at, out_cap));
}

int32_t hidlog_key_pending_assertions(struct hidlog_key *key) {
    BEGIN_KEY_CALL
    return end_key_call(&call, key, w2c_hidlog_key_pending_assertions(call.module, KEY_ADDRESS));
}

int32_t hidlog_key_get_stats(struct hidlog_key *key, struct hidlog_stats *stats) {
    BEGIN_KEY_CALL
    u64 stats_at = map_buffer(&call, stats, sizeof *stats);
    return end_key_call(&call, key, w2c_hidlog_key_get_stats(call.module, KEY_ADDRESS, stats_at));
}

int32_t hidlog_key_replay_lines(struct hidlog_key *key, const uint8_t *log, size_t log_len, uint8_t *out,
                                size_t out_cap, struct hidlog_result *result) {
    BEGIN_KEY_CALL
    u64 result_at = map_buffer(&call, result, sizeof *result), log_at = map_buffer(&call, log, log_len);
    u64 out_at = map_output(&call, out, &out_cap);
    if (call.is_too_long) {
        set_error(result, HIDLOG_ERR_TOO_MANY_LINES);
        return end_key_call(&call, key, HIDLOG_LOG_ERROR);
    }
    u32 status = w2c_hidlog_key_replay_lines(call.module, KEY_ADDRESS, log_at, log_len, out_at, out_cap, result_at);
    return end_key_call(&call, key, status);
}

// ---- The WebAuthn client

// Addresses, in the module, of the buffers that both hidlog_client_request and hidlog_client_response have as
// parameters.
struct client_parameters {
    u64 options, mediation, origin, suffix, report;
};

static int64_t end_client_call(struct call *call, u64 returned) {
    end_call(call);
    return (int64_t)returned;
}

int64_t hidlog_client_request(uint32_t ceremony, const uint8_t *options, size_t options_len, const uint8_t *mediation,
                              size_t mediation_len, const uint8_t *origin, size_t origin_len, const uint8_t *suffix,
                              size_t suffix_len, uint32_t abilities, struct hidlog_client_report *report, uint8_t *out,
                              size_t out_cap) {
    struct call call;
    memset(report, 0, sizeof *report);
    if (!begin_call(&call)) {
        return HIDLOG_CLIENT_TOO_SMALL;
    }
    struct client_parameters at = {map_buffer(&call, options, options_len), map_buffer(&call, mediation, mediation_len),
                                   map_buffer(&call, origin, origin_len), map_buffer(&call, suffix, suffix_len),
                                   map_buffer(&call, report, sizeof *report)};
    u64 out_at = map_output(&call, out, &out_cap);
    if (call.is_too_long) {
        return end_client_call(&call, (u64)HIDLOG_CLIENT_TOO_SMALL);
    }
    return end_client_call(&call,
                           w2c_hidlog_client_request(call.module, ceremony, at.options, options_len, at.mediation,
                                                     mediation_len, at.origin, origin_len, at.suffix, suffix_len,
                                                     abilities, at.report, out_at, out_cap));
}

int64_t hidlog_client_response(uint32_t ceremony, const uint8_t *options, size_t options_len, const uint8_t *mediation,
                               size_t mediation_len, const uint8_t *origin, size_t origin_len, const uint8_t *suffix,
                               size_t suffix_len, uint32_t abilities, const uint8_t *response, size_t response_len,
                               struct hidlog_client_report *report, uint8_t *out, size_t out_cap) {
    struct call call;
    memset(report, 0, sizeof *report);
    if (!begin_call(&call)) {
        return HIDLOG_CLIENT_TOO_SMALL;
    }
    struct client_parameters at = {map_buffer(&call, options, options_len), map_buffer(&call, mediation, mediation_len),
                                   map_buffer(&call, origin, origin_len), map_buffer(&call, suffix, suffix_len),
                                   map_buffer(&call, report, sizeof *report)};
    u64 response_at = map_buffer(&call, response, response_len), out_at = map_output(&call, out, &out_cap);
    if (call.is_too_long) {
        return end_client_call(&call, (u64)HIDLOG_CLIENT_TOO_SMALL);
    }
    return end_client_call(&call, w2c_hidlog_client_response(call.module, ceremony, at.options, options_len,
                                                             at.mediation, mediation_len, at.origin, origin_len,
                                                             at.suffix, suffix_len, abilities, response_at,
                                                             response_len, at.report, out_at, out_cap));
}
