// Reads and writes files that only their owner may access. A file with private keys is locked, read, and replaced
// atomically; a recording is opened and overwritten in place. Each function that fails prints an error message to
// standard error. Messages of private_file_replace say whether the file has changed, unless the path is too long; then
// it has not.
#ifndef PRIVATE_FILE_H
#define PRIVATE_FILE_H

#include <stdbool.h>
#include <stddef.h>
#include <stdint.h>

// What private_file_read returns if there is no file, or if the file is rejected or cannot be read.
enum { PRIVATE_FILE_NONE = -1, PRIVATE_FILE_REFUSED = -2 };

// Waits for an exclusive lock on a file, and returns a descriptor, or -1 on failure. To release the lock, close the
// descriptor. The lock is on a separate file, PATH.lock, since the file itself is replaced.
int private_file_lock(const char *path);

// Reads a file of at most `max_len` bytes and returns its length. Returns PRIVATE_FILE_NONE only if there is no file;
// if it cannot be opened, it may have private keys, and returns PRIVATE_FILE_REFUSED. Rejects symbolic links, files
// that are not regular, and files that other users may access.
long private_file_read(const char *path, uint8_t *bytes, size_t max_len);

// Opens a file that the caller wants to overwrite, without changing it, or creates it with mode 0600. Returns its
// descriptor, or -1. Rejects links, files that are not regular, and files that other users own or may access.
int private_file_open(const char *path);

// Replaces a file, or creates it, atomically: writes a temporary file to disk, and renames it to `path`.
bool private_file_replace(const char *path, const uint8_t *bytes, size_t len);

// Writes all bytes to a descriptor. If the descriptor is non-blocking, waits until it is writable.
bool write_all(int file, const uint8_t *bytes, size_t len);

#endif
