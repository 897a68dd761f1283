// Tests how the portable library manages memory, by including its source with its own calloc and free: if no instance
// of the module can be allocated, a call returns an error and changes nothing; instances that don't fit into the pool
// are freed; a large buffer has several windows; a key may be copied; and 10,000 keys need only their own memory.
#include <stddef.h>
#include <stdlib.h>

static int is_calloc_failing;
static int allocated_count;

static void *counted_calloc(size_t count, size_t size) {
    void *memory = is_calloc_failing ? NULL : calloc(count, size);
    allocated_count += memory != NULL;
    return memory;
}

static void counted_free(void *memory) {
    allocated_count -= memory != NULL;
    free(memory);
}

#define calloc counted_calloc
#define free counted_free
#include "hidlog.c"
#undef calloc
#undef free

static void expect(long long actual, long long expected, const char *value_name) {
    if (actual != expected) {
        fprintf(stderr, "allocation: %s is %lld, expected %lld\n", value_name, actual, expected);
        exit(1);
    }
}

// Takes all instances out of the pool, as calls do that run at the same time.
static void empty_pool(struct instance **taken) {
    for (u32 i = 0; i < POOL_SLOTS; i++) {
        taken[i] = EXCHANGE(&pool[i], NULL);
    }
}

static void test_failed_allocation(struct hidlog_key *key) {
    static const uint8_t packet[64] = {0xff, 0xff, 0xff, 0xff, 0x86, 0, 8};
    static const uint8_t log[] = "t 1\n";
    struct instance *taken[POOL_SLOTS];
    struct hidlog_result result;
    struct hidlog_client_report report;
    uint8_t out[200];
    empty_pool(taken);
    is_calloc_failing = 1;
    expect(hidlog_key_write_packet(key, 1, packet), HIDLOG_KEY_ERR_BUFFER_TOO_SMALL, "a refused packet");
    hidlog_check(log, sizeof log - 1, log, 0, out, sizeof out, &result);
    expect(result.status, HIDLOG_LOG_ERROR, "a refused check's status");
    expect(result.error, HIDLOG_ERR_BUFFER_TOO_SMALL, "a refused check's error");
    expect((long long)result.written, 0, "a refused check's output");
    expect(hidlog_client_request(0, log, 0, log, 0, log, 0, log, 0, 0, &report, out, sizeof out),
           HIDLOG_CLIENT_TOO_SMALL, "a refused request");
    is_calloc_failing = 0;
    release_instance(taken[0]);
    expect(hidlog_key_queued_packets(key), 0, "packets after a refused one");
    expect(hidlog_key_write_packet(key, 1, packet), 1, "packets after the next packet");
    hidlog_check(log, sizeof log - 1, log, 0, out, sizeof out, &result);
    expect(result.status, HIDLOG_OK, "a check's status");
}

static void test_freed_instances(void) {
    struct instance *acquired[POOL_SLOTS + 5];
    for (int i = 0; i < POOL_SLOTS + 5; i++) {
        acquired[i] = acquire_instance();
    }
    expect(allocated_count, POOL_SLOTS + 4, "the number of allocated instances");
    for (int i = 0; i < POOL_SLOTS + 5; i++) {
        release_instance(acquired[i]);
    }
    expect(allocated_count < POOL_SLOTS + 1, 1, "whether the instances that don't fit into the pool are freed");
}

// Tests that a copy of a key and of its memory is an independent key.
static void test_copied_key(const struct hidlog_key *key) {
    uint8_t packet[64];
    struct hidlog_key copy = *key;
    copy.memory = malloc(hidlog_key_size());
    memcpy(copy.memory, key->memory, hidlog_key_size());
    struct hidlog_key original = *key;
    expect(hidlog_key_queued_packets(&copy), 1, "packets of the copy");
    expect(hidlog_key_read_packet(&copy, packet), 0, "packets left of the copy");
    expect(hidlog_key_queued_packets(&original), 1, "packets of the original");
    free(copy.memory);
}

// Tests that a buffer with several windows is contiguous in the module's address space, and that a buffer that needs
// more windows than are left is rejected.
static void test_windows(void) {
    static uint8_t bytes[1];
    struct call call;
    begin_call(&call);
    u64 first = map_buffer(&call, bytes, 3ull << WINDOW_BITS), second = map_buffer(&call, bytes, 16);
    expect((long long)first, (long long)ADDRESS_OF(FIRST_BUFFER), "the first buffer's address");
    expect((long long)second, (long long)ADDRESS_OF(FIRST_BUFFER + 3), "the second buffer's address");
    expect(bytes_at(&call.module->w2c_memory, first + (1u << WINDOW_BITS) - 4, 8) == bytes + (1u << WINDOW_BITS) - 4, 1,
           "whether an access may cross windows");
    map_buffer(&call, bytes, 9ull << WINDOW_BITS);
    expect(call.is_too_long, 1, "whether a buffer beyond the last window is refused");
    end_call(&call);
    expect(call.module->w2c_memory.windows[FIRST_BUFFER].size, 0, "a window's size after the call");
}

// Tests that each of 10,000 keys in one process responds, without memory other than its own.
static void test_many_keys(void) {
    enum { KEYS = 10000 };
    static const uint8_t aaguid[16], packet[64] = {0xff, 0xff, 0xff, 0xff, 0x86, 0, 8};
    static struct hidlog_key keys[KEYS];
    uint8_t response[64];
    expect(hidlog_key_size() <= 100000, 1, "whether a key has at most 100 kB");
    for (int i = 0; i < KEYS; i++) {
        keys[i].memory = malloc(hidlog_key_size());
        expect(hidlog_key_init(&keys[i], aaguid, 0, aaguid, 0), 0, "hidlog_key_init of many");
    }
    for (int i = 0; i < KEYS; i++) {
        expect(hidlog_key_write_packet(&keys[i], 1, packet), 1, "packets of one of many");
        expect(hidlog_key_read_packet(&keys[i], response), 0, "packets left of one of many");
        free(keys[i].memory);
    }
    expect(allocated_count, 0, "the number of allocations for many keys");
}

int main(void) {
    static const uint8_t aaguid[16];
    struct hidlog_key key = {malloc(hidlog_key_size()), 0};
    expect(hidlog_key_init(&key, aaguid, 0, aaguid, 0), 0, "hidlog_key_init");
    expect(allocated_count, 0, "the number of allocations in a single thread");
    test_many_keys();
    test_failed_allocation(&key);
    test_copied_key(&key);
    test_windows();
    test_freed_instances();
    free(key.memory);
    return 0;
}
