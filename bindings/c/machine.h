// Replaces the runtime library of wasm2c: WebAssembly's memory and instructions, as hidlog_module.h uses them. The
// memory is divided into windows of 256 MiB; the highest four bits of a 32-bit address select one of 16 windows. The
// first window is the module's own memory. Each other window is mapped to a buffer of the caller, so that the module
// reads and writes the buffer in place. An access outside a window ends the process, as does a division by zero; the
// proof of the module excludes both.
#ifndef HIDLOG_MACHINE_H
#define HIDLOG_MACHINE_H

#include <stdint.h>
#include <stdio.h>
#include <stdlib.h>
#include <string.h>

#if defined(__BYTE_ORDER__) && __BYTE_ORDER__ == __ORDER_LITTLE_ENDIAN__
#elif defined(_MSC_VER) /* Windows is little-endian on all its processors */
#else
#error "hidlog needs a little-endian processor: the WebAssembly module reads the structs of hidlog.h in place"
#endif

// Loads are always inlined. If the compiler chooses which loads to inline, a call executes a fifth more instructions.
#if defined(__GNUC__)
#define ALWAYS_INLINE inline __attribute__((always_inline))
#elif defined(_MSC_VER)
#define ALWAYS_INLINE __forceinline
#else
#define ALWAYS_INLINE inline
#endif

// Integer types, with the names that wasm2c's output uses.
typedef uint8_t u8;
typedef int8_t s8;
typedef uint16_t u16;
typedef uint32_t u32;
typedef int32_t s32;
typedef uint64_t u64;
typedef int64_t s64;

// An instruction adds a constant offset to its 32-bit address. The sum is less than 2^33, so it can lie in one of 32
// windows of 2^28 bytes. The upper 16 windows always have size 0.
enum { WINDOW_BITS = 28, WINDOWS = 32, PAGE_BYTES = 65536 };

// The bytes of the caller's buffer that a window is mapped to. A buffer of more than 256 MiB has several windows; then
// `size` of each window counts all bytes up to the buffer's end.
struct window {
    u8 *bytes;
    u32 size;
};

// The module's memory. hidlog_module.h defines MODULE_PAGES, the size of `own` in pages, before it includes this file.
typedef struct {
    struct window windows[WINDOWS];
    u8 own[MODULE_PAGES * PAGE_BYTES];
} wasm_rt_memory_t;

static _Noreturn void trap(void) {
    fputs("hidlog: internal error in the portable library\n", stderr);
    abort();
}

// Returns a pointer to the `len` bytes at an address outside the module's own memory. Ends the process if they are not
// in a window. Not inlined, since most accesses are to the module's own memory.
static u8 *window_bytes(const wasm_rt_memory_t *memory, u64 address, u64 len) {
    const struct window *window = &memory->windows[address >> WINDOW_BITS];
    u64 offset = address & ((1u << WINDOW_BITS) - 1);
    if (offset + len > window->size) {
        trap();
    }
    return window->bytes + offset;
}

// Returns a pointer to the `len` bytes at an address of the module.
static ALWAYS_INLINE u8 *bytes_at(wasm_rt_memory_t *memory, u64 address, u64 len) {
    if (len <= sizeof memory->own && address <= sizeof memory->own - len) {
        return memory->own + address;
    }
    return window_bytes(memory, address, len);
}

#define DEFINE_LOAD(name, stored, extended, loaded)                            \
    static ALWAYS_INLINE loaded name(wasm_rt_memory_t *memory, u64 address) {   \
        stored value;                                                          \
        memcpy(&value, bytes_at(memory, address, sizeof value), sizeof value); \
        return (loaded)(extended)value;                                        \
    }

DEFINE_LOAD(i32_load, u32, u32, u32)
DEFINE_LOAD(i32_load8_s, s8, s32, u32)
DEFINE_LOAD(i32_load8_u, u8, u32, u32)
DEFINE_LOAD(i32_load16_u, u16, u32, u32)
DEFINE_LOAD(i64_load, u64, u64, u64)
DEFINE_LOAD(i64_load8_u, u8, u64, u64)
DEFINE_LOAD(i64_load16_u, u16, u64, u64)
DEFINE_LOAD(i64_load32_u, u32, u64, u64)

#define DEFINE_STORE(name, stored, value_type)                                               \
    static inline void name(wasm_rt_memory_t *memory, u64 address, value_type value) { \
        stored wrapped = (stored)value;                                                 \
        memcpy(bytes_at(memory, address, sizeof wrapped), &wrapped, sizeof wrapped);    \
    }

DEFINE_STORE(i32_store, u32, u32)
DEFINE_STORE(i32_store8, u8, u32)
DEFINE_STORE(i32_store16, u16, u32)
DEFINE_STORE(i64_store, u64, u64)
DEFINE_STORE(i64_store8, u8, u64)
DEFINE_STORE(i64_store16, u16, u64)
DEFINE_STORE(i64_store32, u32, u64)

static inline void memory_fill(wasm_rt_memory_t *memory, u32 address, u32 value, u32 len) {
    if (len != 0) {
        memset(bytes_at(memory, address, len), (int)(value & 0xff), len);
    }
}

static inline void memory_copy(wasm_rt_memory_t *to, wasm_rt_memory_t *from, u32 to_address,
                               u32 from_address, u32 len) {
    if (len != 0) {
        memmove(bytes_at(to, to_address, len), bytes_at(from, from_address, len), len);
    }
}

static inline u64 count_leading_zeros(u64 value) {
    u64 count = 0;
    while (count < 64 && (value >> (63 - count) & 1) == 0) {
        count++;
    }
    return count;
}

static inline u64 count_trailing_zeros(u64 value) {
    u64 count = 0;
    while (count < 64 && (value >> count & 1) == 0) {
        count++;
    }
    return count;
}

static inline u64 checked_divisor(u64 value) {
    if (value == 0) {
        trap();
    }
    return value;
}

// ROTATE_LEFT, ROTATE_RIGHT, DIV_U and REM_U are macros, so that they take operands of 32 and of 64 bits.
#define ROTATE_LEFT(value, count, mask) ((value) << ((count) & (mask)) | (value) >> ((0 - (count)) & (mask)))
#define ROTATE_RIGHT(value, count, mask) ((value) >> ((count) & (mask)) | (value) << ((0 - (count)) & (mask)))
#define I32_ROTL(value, count) ROTATE_LEFT(value, count, 31)
#define I32_ROTR(value, count) ROTATE_RIGHT(value, count, 31)
#define I64_ROTL(value, count) ROTATE_LEFT(value, count, 63)
#define I64_ROTR(value, count) ROTATE_RIGHT(value, count, 63)
#define I64_CLZ(value) count_leading_zeros(value)
#define I64_CTZ(value) count_trailing_zeros(value)
#define DIV_U(value, divisor) ((value) / checked_divisor(divisor))
#define REM_U(value, divisor) ((value) % checked_divisor(divisor))
#define UNREACHABLE trap()
#define FUNC_PROLOGUE
#define FUNC_EPILOGUE

#endif
