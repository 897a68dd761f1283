// Initializes a key, sends INIT on the broadcast channel (CTAP 2.1, section 11.2.9.1.3) and prints the response, from
// C++.
//
//     g++ -std=c++17 -I release -o init examples/c/init.cpp release/libhidlog.a
#include "hidlog.h"

#include <array>
#include <cstdio>
#include <cstdlib>

int main() {
    hidlog_key key{};
    key.memory = std::aligned_alloc(16, (hidlog_key_size() + 15) / 16 * 16);
    const std::array<uint8_t, 16> aaguid{};
    std::array<uint8_t, 64> packet{0xff, 0xff, 0xff, 0xff, 0x86, 0, 8, 1, 2, 3, 4, 5, 6, 7, 8};
    if (key.memory == nullptr || hidlog_key_init(&key, aaguid.data(), 0, aaguid.data(), 0) != 0 ||
        hidlog_key_write_packet(&key, 0, packet.data()) != 1 || hidlog_key_read_packet(&key, packet.data()) != 0 ||
        hidlog_key_destroy(&key) != 0) {
        std::fputs("init: out of memory, or a function of the library failed\n", stderr);
        return 1;
    }
    std::free(key.memory);
    for (uint8_t byte : packet) {
        std::printf("%02x", byte);
    }
    std::putchar('\n');
}
