#define _GNU_SOURCE
#include "private_file.h"

#include <errno.h>
#include <fcntl.h>
#include <poll.h>
#include <stdio.h>
#include <string.h>
#include <sys/file.h>
#include <sys/stat.h>
#include <unistd.h>

enum { PATH = 4096 };

static bool print_error(const char *path, const char *error) {
    fprintf(stderr, "hidlog: %s: %s\n", path, error);
    return false;
}

// Prints what failed for the file with this path, and why, by errno. Returns false.
static bool print_system_error(const char *path, const char *failure) {
    fprintf(stderr, "hidlog: %s: %s: %s\n", path, failure, strerror(errno));
    return false;
}

// Writes the path followed by a suffix to `suffixed`. Returns false if that is too long.
static bool append_suffix(const char *path, const char *suffix, char suffixed[PATH]) {
    return snprintf(suffixed, PATH, "%s%s", path, suffix) < PATH || print_error(path, "the path is too long");
}

static int lock_file(int file, int how) {
    int result;
    do {
        result = flock(file, how);
    } while (result != 0 && errno == EINTR);
    return result;
}

int private_file_lock(const char *path) {
    char lock[PATH];
    if (!append_suffix(path, ".lock", lock)) {
        return -1;
    }
    int file = open(lock, O_RDWR | O_CREAT | O_NOFOLLOW | O_CLOEXEC, 0600);
    if (file < 0) {
        print_system_error(lock, "cannot open the lock file");
        return -1;
    }
    int result = lock_file(file, LOCK_EX | LOCK_NB);
    if (result != 0 && errno == EWOULDBLOCK) {
        print_error(path, "another program has locked the file; waiting until that program exits");
        result = lock_file(file, LOCK_EX);
    }
    if (result != 0) {
        print_system_error(lock, "cannot lock the lock file");
        close(file);
        return -1;
    }
    return file;
}

// Stores facts about an open file, and returns whether it is private by OpenSSH's rule for private keys: a regular file
// that only its owner may access. `contents` says in the error message what the file contains.
static bool is_private(const char *path, int file, const char *contents, struct stat *facts) {
    if (fstat(file, facts) != 0) {
        return print_system_error(path, "cannot get the file's mode and size");
    }
    if (!S_ISREG(facts->st_mode)) {
        return print_error(path, "not a regular file, but a directory, pipe or device");
    }
    if ((facts->st_mode & 077) != 0) {
        fprintf(stderr,
                "hidlog: %s: other users can access this file with %s: its permissions are %04o; run chmod 600\n", path,
                contents, (unsigned)facts->st_mode & 07777);
        return false;
    }
    return true;
}

// Returns whether an open file may be read: it is private, and has at most `max_len` bytes.
static bool is_readable(const char *path, int file, size_t max_len) {
    struct stat facts;
    return is_private(path, file, "private keys", &facts) &&
           ((uint64_t)facts.st_size <= max_len || print_error(path, "the file is too large for a state file"));
}

// Returns whether an open file may be overwritten: it is private, belongs to this user, and has no other hard link.
static bool is_overwritable(const char *path, int file) {
    struct stat facts;
    if (!is_private(path, file, "names of services and users", &facts)) {
        return false;
    }
    if (facts.st_uid != geteuid()) {
        return print_error(path, "the file belongs to another user; remove it or choose another path");
    }
    if (facts.st_nlink != 1) {
        return print_error(path, "the file has other names (hard links); remove this one or choose another path");
    }
    return true;
}

static const char *describe_open_failure(void) {
    return errno == ELOOP ? "the path must not be a symbolic link" : "cannot open the file";
}

// Reads a file to its end, but at most `max_len` bytes. Returns the number of bytes, or -1 on failure.
static long read_all(int file, uint8_t *bytes, size_t max_len) {
    size_t len = 0;
    while (len < max_len) {
        ssize_t part = read(file, bytes + len, max_len - len);
        if (part == 0) {
            break;
        }
        if (part < 0 && errno != EINTR) {
            return -1;
        }
        len += part > 0 ? (size_t)part : 0;
    }
    return (long)len;
}

long private_file_read(const char *path, uint8_t *bytes, size_t max_len) {
    // O_NONBLOCK: if the path is a named pipe, don't wait for a program that writes to it.
    int file = open(path, O_RDONLY | O_NOFOLLOW | O_NONBLOCK | O_CLOEXEC);
    if (file < 0 && errno == ENOENT) {
        return PRIVATE_FILE_NONE;
    }
    if (file < 0) {
        print_system_error(path, describe_open_failure());
        return PRIVATE_FILE_REFUSED;
    }
    long len = is_readable(path, file, max_len) ? read_all(file, bytes, max_len) : PRIVATE_FILE_REFUSED;
    if (len == -1) {
        print_system_error(path, "cannot read the file");
        len = PRIVATE_FILE_REFUSED;
    }
    close(file);
    return len;
}

int private_file_open(const char *path) {
    int file = open(path, O_WRONLY | O_CREAT | O_NOFOLLOW | O_NONBLOCK | O_CLOEXEC, 0600);
    if (file < 0) {
        print_system_error(path, describe_open_failure());
        return -1;
    }
    if (!is_overwritable(path, file)) {
        close(file);
        return -1;
    }
    return file;
}

bool write_all(int file, const uint8_t *bytes, size_t len) {
    while (len > 0) {
        ssize_t part = write(file, bytes, len);
        if (part < 0 && (errno == EAGAIN || errno == EWOULDBLOCK)) {
            struct pollfd writable = {.fd = file, .events = POLLOUT};
            part = poll(&writable, 1, -1) < 0 ? -1 : 0;
        }
        if (part < 0 && errno != EINTR) {
            return false;
        }
        bytes += part > 0 ? part : 0;
        len -= part > 0 ? (size_t)part : 0;
    }
    return true;
}

// Creates a file, and writes its contents to disk. Fails if the path exists, even as a link. On failure, removes the
// file and sets errno.
static bool write_new_file(const char *path, const uint8_t *bytes, size_t len) {
    int file = open(path, O_WRONLY | O_CREAT | O_EXCL | O_NOFOLLOW | O_CLOEXEC, 0600);
    if (file < 0) {
        return false;
    }
    bool is_written = write_all(file, bytes, len) && fsync(file) == 0;
    int error = errno;
    if (close(file) != 0 && is_written) {
        is_written = false;
        error = errno;
    }
    if (!is_written) {
        unlink(path);
        errno = error;
    }
    return is_written;
}

// Opens the directory that contains the file with this path. Returns its descriptor, or -1 on failure.
static int open_parent_directory(const char *path) {
    char folder[PATH];
    const char *name = strrchr(path, '/');
    size_t len = name == NULL ? 0 : name == path ? 1 : (size_t)(name - path);
    if (len >= sizeof folder) {
        errno = ENAMETOOLONG;
        return -1;
    }
    memcpy(folder, path, len);
    folder[len] = 0;
    return open(len == 0 ? "." : folder, O_RDONLY | O_DIRECTORY | O_CLOEXEC);
}

// Renames the file `new_path` to `path`, and syncs the directory `folder`, so that the new name is on disk.
static bool rename_and_sync(const char *new_path, const char *path, int folder) {
    if (rename(new_path, path) != 0) {
        int error = errno;
        unlink(new_path);
        errno = error;
        return print_system_error(path, "nothing was saved, and the file is unchanged");
    }
    // Some file systems cannot sync directories (EINVAL).
    return fsync(folder) == 0 || errno == EINVAL ||
           print_system_error(path, "the file was replaced, but a power loss may bring back its old contents");
}

bool private_file_replace(const char *path, const uint8_t *bytes, size_t len) {
    char new_path[PATH];
    if (!append_suffix(path, ".new", new_path)) {
        return false;
    }
    int folder = open_parent_directory(path);
    // Remove a temporary file that a killed program has left. No other program uses it now, since the caller has the
    // lock.
    bool is_written = folder >= 0 && (unlink(new_path) == 0 || errno == ENOENT) && write_new_file(new_path, bytes, len);
    if (!is_written) {
        print_system_error(path, "nothing was saved, and the file is unchanged");
    }
    bool is_done = is_written && rename_and_sync(new_path, path, folder);
    if (folder >= 0) {
        close(folder);
    }
    return is_done;
}
