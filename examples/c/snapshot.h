// Writes the credentials of a key as a snapshot that hidlog_key_init reads, in version 2 of the format that
// docs/use/LOG_FORMAT.md describes.
#ifndef SNAPSHOT_H
#define SNAPSHOT_H

#include "hidlog.h"

// Writes a snapshot of the key's credentials. Returns the snapshot's length, or 0 if the key has no credentials or is
// not initialized.
size_t snapshot_write(struct hidlog_key *key, uint8_t snapshot[HIDLOG_SNAPSHOT_MAX_LEN]);

#endif
