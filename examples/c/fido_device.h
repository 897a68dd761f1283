// Lets libfido2 use an in-memory key as its device, through libfido2's custom I/O functions.
#ifndef FIDO_DEVICE_H
#define FIDO_DEVICE_H

#include "virtual_key.h"

#include <fido.h>

// Opens a libfido2 device that is the in-memory key. Returns NULL if libfido2 fails. The caller closes the device with
// fido_dev_close and fido_dev_free, which does not close the key. Only one such device can be open at a time, since the
// custom open function gets only a path from libfido2, and the key is in a static variable.
fido_dev_t *fido_device_open(struct virtual_key *vkey);

#endif
