/* Initializes a key with the C library, sends INIT on the broadcast channel (CTAP 2.1, section 11.2.9.1.3) and prints
 * the response. To run it:
 *
 *     gcc -std=c11 -I release -o init examples/c/init.c release/libhidlog.a && ./init */
#include "hidlog.h"

#include <stdio.h>
#include <stdlib.h>

int main(void) {
    struct hidlog_key key = {0};
    const uint8_t aaguid[16] = {0};
    uint8_t packet[64] = {0xff, 0xff, 0xff, 0xff, 0x86, 0, 8, 1, 2, 3, 4, 5, 6, 7, 8};

    key.memory = aligned_alloc(16, (hidlog_key_size() + 15) / 16 * 16);
    if (key.memory == NULL || hidlog_key_init(&key, aaguid, 0, aaguid, 0) != 0 ||
        hidlog_key_write_packet(&key, 0, packet) != 1 || hidlog_key_read_packet(&key, packet) != 0 ||
        hidlog_key_destroy(&key) != 0) {
        fputs("init: out of memory, or a function of libhidlog returned another value than expected\n", stderr);
        return 1;
    }
    free(key.memory);
    for (size_t i = 0; i < sizeof packet; i++) {
        printf("%02x", packet[i]);
    }
    putchar('\n');
    return 0;
}
