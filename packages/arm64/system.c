// The runtime library of the program hidlog on aarch64, written with POSIX calls: arguments, environment variables,
// errno and the heap. The Rattle toolchain has a runtime library for x86-64 only. Each function must fulfil the
// contract that the toolchain's libraries `os` and `libc` declare for it. This is tested, not proved: tests/packages.sh
// runs the program with the worked logs in qemu.
#include <errno.h>
#include <stdbool.h>
#include <stddef.h>
#include <stdint.h>
#include <stdlib.h>
#include <string.h>
#include <sys/types.h>

enum { NOTHING = -1, TOO_LONG = -2 };

extern char **environ;

static int argument_count;
static char **arguments;

// Stores the arguments of main before main is called: the C library calls each function in the section .init_array with
// them.
static void store_arguments(int count, char **words)
{
    argument_count = count;
    arguments = words;
}
__attribute__((section(".init_array"), used)) static void (*const call_before_main)(int, char **) = store_arguments;

// Copies a text to a buffer. Returns the text's length, or TOO_LONG if it was truncated to the buffer's size.
static ssize_t copy_text(const char *text, uint8_t *buffer, size_t size)
{
    size_t length = strlen(text);
    if (length > size) {
        memcpy(buffer, text, size);
        return TOO_LONG;
    }
    memcpy(buffer, text, length);
    return (ssize_t)length;
}

ssize_t rattle_arg(size_t index, uint8_t *buffer, size_t size)
{
    if (index >= (size_t)argument_count || arguments[index] == NULL)
        return NOTHING;
    return copy_text(arguments[index], buffer, size);
}

ssize_t rattle_env(const char *name, uint8_t *buffer, size_t size)
{
    const char *value = getenv(name);
    return value == NULL ? NOTHING : copy_text(value, buffer, size);
}

ssize_t rattle_env_at(size_t index, uint8_t *buffer, size_t size)
{
    for (size_t at = 0; environ != NULL && environ[at] != NULL; at++)
        if (at == index)
            return copy_text(environ[at], buffer, size);
    return NOTHING;
}

int32_t rattle_errno(void)
{
    return errno;
}

void rattle_set_errno(int32_t error)
{
    errno = error;
}

// What rattle_alloc and rattle_realloc return: whether the allocation succeeded, and the allocated block. If it failed,
// `block` points to unused_block, since the caller expects a valid pointer.
struct allocation {
    bool ok;
    uint8_t *block;
};
static _Alignas(16) uint8_t unused_block[16];

struct allocation rattle_alloc(size_t size, size_t alignment)
{
    (void)alignment; // at most 16, the alignment of malloc
    uint8_t *block = malloc(size == 0 ? 1 : size);
    return (struct allocation){block != NULL, block != NULL ? block : unused_block};
}

struct allocation rattle_realloc(uint8_t *block, size_t kept, size_t size, size_t alignment)
{
    (void)kept;
    (void)alignment;
    uint8_t *resized = realloc(block, size == 0 ? 1 : size);
    return (struct allocation){resized != NULL, resized != NULL ? resized : unused_block};
}

void rattle_dealloc(uint8_t *block)
{
    free(block);
}
