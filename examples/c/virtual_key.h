// An in-memory security key with a clock, a simulated user and private keys. A program writes packets to it and reads
// packets from it, as it would with a USB key.
#ifndef VIRTUAL_KEY_H
#define VIRTUAL_KEY_H

#include "hidlog.h"
#include "software_keys.h"

// Capacity of the queue of packets for the program. One input adds at most 130 packets. If the queue is full, the
// oldest packets are lost, as with a USB device.
enum { VIRTUAL_KEY_PACKETS = 512 };

struct virtual_key {
    struct hidlog_key key;
    struct software_keys keys;
    uint32_t presence; // what the user does: an enum hidlog_presence
    uint64_t powered_up;
    uint8_t packets[VIRTUAL_KEY_PACKETS][64];
    size_t first;
    size_t count;
};

// Powers up a key with the credentials of a snapshot (length 0 for none). Returns false on failure. The caller must
// then add the credentials' private keys to `keys`.
bool virtual_key_open(struct virtual_key *vkey, const uint8_t *snapshot, size_t snapshot_len);
void virtual_key_close(struct virtual_key *vkey);

// Passes a packet of the program to the key. Returns false if the key rejects it.
bool virtual_key_write(struct virtual_key *vkey, const uint8_t packet[64]);

// Removes the oldest packet from the queue and copies it to `packet`. Returns false if the queue is empty.
bool virtual_key_read(struct virtual_key *vkey, uint8_t packet[64]);

// Tells the key the current time, so that it sends a KEEPALIVE if one is due. Returns false on an error.
bool virtual_key_tick(struct virtual_key *vkey);

// Provides what the key needs now: user presence, a key pair or a signature. Returns false if it needs nothing, or on
// an error.
bool virtual_key_provide_need(struct virtual_key *vkey);

// Returns what the key needs: an enum hidlog_need_kind.
int32_t virtual_key_get_need(struct virtual_key *vkey);

#endif
