// Implements the functions of hidlog.h that the fuzz targets call, so that libFuzzer can instrument the verified core:
// calls the functions of release/hidlog.wasm, which wasm2c translates to C. Copies the caller's buffers into the
// module's memory and back. Puts guard bytes after each area that the module may write, and checks that they stay
// unchanged.
#include "hidlog.h"
#include "module.h"

#include <stdio.h>
#include <stdlib.h>
#include <string.h>

// Sizes of areas in the module's memory: for struct hidlog_key, the two input buffers, the output buffer, and the guard
// bytes after each area that the module may write. PAGE is the size of a WebAssembly page.
enum { KEY_SPACE = 64, MAX_READ = 1 << 20, MAX_MORE = 1 << 16, MAX_WRITE = 1 << 20, GUARD = 256, PAGE = 65536 };
enum { ID = 32, GUARD_BYTE = 0xee };

static Z_hidlog_instance_t module;
static void *loaded_memory; // the caller's memory of the key that has been copied into the module, or NULL
static u64 key_at, memory_at, read_at, more_at, write_at, result_at, key_size;

static _Noreturn void fail(const char *error) {
    fprintf(stderr, "module_key: %s\n", error);
    abort();
}

// The code that wasm2c generates calls this function when the WebAssembly module traps.
_Noreturn void module_trap(wasm_rt_trap_t code) {
    fprintf(stderr, "module_key: the WebAssembly module trapped with code %d\n", (int)code);
    abort();
}

static void start_module(void) {
    static int is_started;
    if (is_started) {
        return;
    }
    is_started = 1;
    wasm_rt_init();
    Z_hidlog_init_module();
    Z_hidlog_instantiate(&module);
    key_size = Z_hidlogZ_hidlog_key_size(&module);
    key_at = (*Z_hidlogZ___heap_base(&module) + 15) / 16 * 16;
    memory_at = key_at + KEY_SPACE;
    read_at = (memory_at + key_size + GUARD + 15) / 16 * 16;
    more_at = read_at + MAX_READ;
    write_at = more_at + MAX_MORE;
    result_at = write_at + MAX_WRITE + GUARD;
    u64 pages = result_at / PAGE + 2, old_pages = module.w2c_memory.pages;
    if (pages > old_pages && wasm_rt_grow_memory(&module.w2c_memory, pages - old_pages) == (u32)-1) {
        fail("cannot allocate memory for the WebAssembly module");
    }
}

static u8 *to_address(u64 address) {
    return module.w2c_memory.data + address;
}

static u64 copy_in(u64 address, const void *bytes, size_t len, size_t cap) {
    if (len > cap) {
        fail("an input of the fuzz target is too long for its area in the module's memory");
    }
    memcpy(to_address(address), bytes, len);
    return address;
}

static void put_guard(u64 address) {
    memset(to_address(address), GUARD_BYTE, GUARD);
}

static void check_guard(u64 address, const char *error) {
    for (size_t i = 0; i < GUARD; i++) {
        if (*to_address(address + i) != GUARD_BYTE) {
            fail(error);
        }
    }
}

// Copies the memory of the loaded key, if any, from the module back to the caller. This is necessary only when another
// key is loaded or the key is destroyed, since the caller must not read the memory while the key is initialized.
static void copy_key_out(void) {
    if (loaded_memory != NULL) {
        memcpy(loaded_memory, to_address(memory_at), key_size);
        loaded_memory = NULL;
    }
}

// Copies a key's memory into the module, unless it is already there, and the key's struct. Returns the struct's address
// in the module.
static u64 load_key(const struct hidlog_key *key) {
    start_module();
    if (loaded_memory != key->memory) {
        copy_key_out();
        copy_in(memory_at, key->memory, key_size, key_size);
        put_guard(memory_at + key_size);
        loaded_memory = key->memory;
    }
    memset(to_address(key_at), 0, KEY_SPACE);
    copy_in(key_at, &memory_at, sizeof memory_at, KEY_SPACE);
    copy_in(key_at + 8, &key->state, sizeof key->state, KEY_SPACE);
    return key_at;
}

// Copies the state in the key's struct from the module back to the caller. If the result says that the key is not
// initialized, copies its memory back as well.
static int32_t store_key(struct hidlog_key *key, u32 result) {
    check_guard(memory_at + key_size, "bytes after the key's memory were written");
    memcpy(&key->state, to_address(key_at + 8), sizeof key->state);
    if ((int32_t)result == HIDLOG_KEY_ERR_NOT_INITIALIZED) {
        copy_key_out();
    }
    return (int32_t)result;
}

size_t hidlog_key_size(void) {
    start_module();
    return key_size;
}

int32_t hidlog_key_init(struct hidlog_key *key, const uint8_t aaguid[16], uint64_t time_ms, const uint8_t *snapshot,
                        size_t len) {
    u64 key_address = load_key(key), name = copy_in(read_at, aaguid, 16, MAX_READ), more = copy_in(more_at, snapshot, len, MAX_MORE);
    int32_t result = store_key(key, Z_hidlogZ_hidlog_key_init(&module, key_address, name, time_ms, more, len));
    if (result < 0) {
        copy_key_out();
    }
    return result;
}

int32_t hidlog_key_destroy(struct hidlog_key *key) {
    int32_t result = store_key(key, Z_hidlogZ_hidlog_key_destroy(&module, load_key(key)));
    copy_key_out();
    return result;
}

int32_t hidlog_key_write_packet(struct hidlog_key *key, uint64_t time_ms, const uint8_t packet[64]) {
    u64 key_address = load_key(key);
    return store_key(key, Z_hidlogZ_hidlog_key_write_packet(&module, key_address, time_ms, copy_in(read_at, packet, 64, MAX_READ)));
}

int32_t hidlog_key_tick(struct hidlog_key *key, uint64_t time_ms) {
    return store_key(key, Z_hidlogZ_hidlog_key_tick(&module, load_key(key), time_ms));
}

int32_t hidlog_key_provide_presence(struct hidlog_key *key, uint64_t time_ms, uint32_t presence) {
    return store_key(key, Z_hidlogZ_hidlog_key_provide_presence(&module, load_key(key), time_ms, presence));
}

int32_t hidlog_key_provide_key_pair(struct hidlog_key *key, uint64_t time_ms, const uint8_t id[ID], const uint8_t x[ID],
                           const uint8_t y[ID]) {
    u64 key_address = load_key(key);
    copy_in(read_at, id, ID, MAX_READ);
    copy_in(read_at + ID, x, ID, MAX_READ);
    copy_in(read_at + 2 * ID, y, ID, MAX_READ);
    return store_key(key, Z_hidlogZ_hidlog_key_provide_key_pair(&module, key_address, time_ms, read_at, read_at + ID, read_at + 2 * ID));
}

int32_t hidlog_key_refuse_key_pair(struct hidlog_key *key, uint64_t time_ms) {
    return store_key(key, Z_hidlogZ_hidlog_key_refuse_key_pair(&module, load_key(key), time_ms));
}

int32_t hidlog_key_provide_signature(struct hidlog_key *key, uint64_t time_ms, const uint8_t *signature, size_t len) {
    u64 key_address = load_key(key), bytes = copy_in(read_at, signature, len, MAX_READ);
    return store_key(key, Z_hidlogZ_hidlog_key_provide_signature(&module, key_address, time_ms, bytes, len));
}

int32_t hidlog_key_refuse_signature(struct hidlog_key *key, uint64_t time_ms) {
    return store_key(key, Z_hidlogZ_hidlog_key_refuse_signature(&module, load_key(key), time_ms));
}

int32_t hidlog_key_queued_packets(struct hidlog_key *key) {
    return store_key(key, Z_hidlogZ_hidlog_key_queued_packets(&module, load_key(key)));
}

// The body of a function that fills a structure of the caller: copies the structure into the module, calls the module's
// function, and copies the structure back.
#define DEFINE_GETTER(call, structure)                                                                                        \
    u64 key_address = load_key(key), address = copy_in(read_at, structure, sizeof *(structure), MAX_READ);                         \
    put_guard(read_at + sizeof *(structure));                                                                          \
    int32_t result = store_key(key, call);                                                                                 \
    check_guard(read_at + sizeof *(structure), "guard bytes were overwritten");                            \
    memcpy(structure, to_address(read_at), sizeof *(structure));                                                               \
    return result

int32_t hidlog_key_read_packet(struct hidlog_key *key, uint8_t packet[64]) {
    uint8_t(*whole)[64] = (uint8_t(*)[64])packet;
    DEFINE_GETTER(Z_hidlogZ_hidlog_key_read_packet(&module, key_address, address), whole);
}

int32_t hidlog_key_get_need(struct hidlog_key *key, struct hidlog_need *need) {
    DEFINE_GETTER(Z_hidlogZ_hidlog_key_get_need(&module, key_address, address), need);
}

int32_t hidlog_key_get_credential(struct hidlog_key *key, size_t number, struct hidlog_credential *credential) {
    DEFINE_GETTER(Z_hidlogZ_hidlog_key_get_credential(&module, key_address, number, address), credential);
}

int32_t hidlog_key_get_stats(struct hidlog_key *key, struct hidlog_stats *stats) {
    DEFINE_GETTER(Z_hidlogZ_hidlog_key_get_stats(&module, key_address, address), stats);
}

int32_t hidlog_key_credential_count(struct hidlog_key *key) {
    return store_key(key, Z_hidlogZ_hidlog_key_credential_count(&module, load_key(key)));
}

int32_t hidlog_key_add_credential(struct hidlog_key *key, uint64_t time_ms, const struct hidlog_credential *credential) {
    u64 key_address = load_key(key), address = copy_in(read_at, credential, sizeof *credential, MAX_READ);
    return store_key(key, Z_hidlogZ_hidlog_key_add_credential(&module, key_address, time_ms, address));
}

int32_t hidlog_key_remove_credential(struct hidlog_key *key, uint64_t time_ms, const uint8_t id[ID]) {
    u64 key_address = load_key(key), address = copy_in(read_at, id, ID, MAX_READ);
    return store_key(key, Z_hidlogZ_hidlog_key_remove_credential(&module, key_address, time_ms, address));
}

int32_t hidlog_key_clear_credentials(struct hidlog_key *key, uint64_t time_ms) {
    return store_key(key, Z_hidlogZ_hidlog_key_clear_credentials(&module, load_key(key), time_ms));
}

// Puts guard bytes after the first `cap` bytes of the output area. Returns the address of the output area.
static u64 reserve_output(size_t cap) {
    if (cap > MAX_WRITE) {
        fail("an output buffer of the fuzz target is too large for its area in the module's memory");
    }
    put_guard(write_at + cap);
    return write_at;
}

int32_t hidlog_key_save_snapshot(struct hidlog_key *key, uint8_t *out, size_t cap) {
    u64 key_address = load_key(key), address = reserve_output(cap);
    int32_t len = store_key(key, Z_hidlogZ_hidlog_key_save_snapshot(&module, key_address, address, cap));
    check_guard(write_at + cap, "bytes after the snapshot were written");
    memcpy(out, to_address(write_at), len > 0 ? (size_t)len : 0);
    return len;
}

// Copies the output and the result of a command from the module to the caller, and checks the guard bytes.
static void copy_output(uint8_t *out, size_t cap, struct hidlog_result *result) {
    memcpy(result, to_address(result_at), sizeof *result);
    check_guard(write_at + cap, "bytes after the text were written");
    if (result->written > cap) {
        fail("the result says that more bytes were written than the output buffer can hold");
    }
    memcpy(out, to_address(write_at), result->written);
}

#define DEFINE_COMMAND(name)                                                                                                    \
    void name(const uint8_t *log, size_t log_len, const uint8_t *snapshot, size_t snapshot_len, uint8_t *out,          \
              size_t cap, struct hidlog_result *result) {                                                           \
        start_module();                                                                                                       \
        u64 lines = copy_in(read_at, log, log_len, MAX_READ), more = copy_in(more_at, snapshot, snapshot_len, MAX_MORE);     \
        Z_hidlogZ_##name(&module, lines, log_len, more, snapshot_len, reserve_output(cap), cap, result_at);             \
        copy_output(out, cap, result);                                                                                 \
    }

DEFINE_COMMAND(hidlog_replay)
DEFINE_COMMAND(hidlog_live)
DEFINE_COMMAND(hidlog_check)
DEFINE_COMMAND(hidlog_quiet)

void hidlog_show(const uint8_t *log, size_t log_len, uint32_t explain, uint8_t *out, size_t cap,
                 struct hidlog_result *result) {
    start_module();
    u64 lines = copy_in(read_at, log, log_len, MAX_READ);
    Z_hidlogZ_hidlog_show(&module, lines, log_len, explain, reserve_output(cap), cap, result_at);
    copy_output(out, cap, result);
}
