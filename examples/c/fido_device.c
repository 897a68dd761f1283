#include "fido_device.h"

#include <string.h>

// Size of the HID report that libfido2 writes for a packet: the report ID (one byte, 0), and the 64 bytes of the
// packet.
enum { REPORT = 65 };

static struct virtual_key *current_key;

static void *open_key(const char *path) {
    (void)path;
    return current_key;
}

static void close_key(void *handle) {
    (void)handle;
}

static int write_packet(void *handle, const unsigned char *report, size_t len) {
    return len == REPORT && virtual_key_write(handle, report + 1) ? (int)len : -1;
}

// Reads a packet of the key. If none is queued, provides what the key needs until one is. If the key needs nothing,
// fails as if the time limit `ms` had passed.
static int read_packet(void *handle, unsigned char *packet, size_t len, int ms) {
    (void)ms;
    if (len < 64) {
        return -1;
    }
    while (!virtual_key_read(handle, packet)) {
        if (!virtual_key_provide_need(handle)) {
            return -1;
        }
    }
    return 64;
}

fido_dev_t *fido_device_open(struct virtual_key *vkey) {
    const fido_dev_io_t io = {open_key, close_key, read_packet, write_packet};
    fido_dev_t *device = fido_dev_new();
    current_key = vkey;
    if (device != NULL &&
        (fido_dev_set_io_functions(device, &io) != FIDO_OK || fido_dev_open(device, "hidlog") != FIDO_OK)) {
        fido_dev_free(&device);
    }
    return device;
}
