/*
 * A library for LD_PRELOAD that makes a program's reads and writes short: if read, write, send or recv is called with more
 * than one byte, only half of the bytes are transferred.
 */
#define _GNU_SOURCE
#include <sys/socket.h>
#include <sys/syscall.h>
#include <sys/types.h>
#include <unistd.h>

static size_t halve(size_t size) {
    return size - size / 2;
}

ssize_t read(int file, void *data, size_t size) {
    return syscall(SYS_read, file, data, halve(size));
}

ssize_t write(int file, const void *data, size_t size) {
    return syscall(SYS_write, file, data, halve(size));
}

ssize_t send(int file, const void *data, size_t size, int flags) {
    return syscall(SYS_sendto, file, data, halve(size), flags, NULL, 0);
}

ssize_t recv(int file, void *data, size_t size, int flags) {
    /* This includes calls with the flag MSG_PEEK, which leave the bytes in the socket. */
    return syscall(SYS_recvfrom, file, data, halve(size), flags, NULL, NULL);
}
