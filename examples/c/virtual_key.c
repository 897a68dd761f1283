#define _POSIX_C_SOURCE 200809L
#include "virtual_key.h"

#include <stdlib.h>
#include <string.h>
#include <time.h>

static uint64_t clock_ms(void) {
    struct timespec now;
    clock_gettime(CLOCK_MONOTONIC, &now);
    return (uint64_t)now.tv_sec * 1000 + (uint64_t)now.tv_nsec / 1000000;
}

static uint64_t now_ms(const struct virtual_key *vkey) {
    return clock_ms() - vkey->powered_up;
}

bool virtual_key_open(struct virtual_key *vkey, const uint8_t *snapshot, size_t snapshot_len) {
    // The AAGUID identifies the authenticator's model. This one is the text "hidlog-software!".
    static const uint8_t aaguid[16] = {'h', 'i', 'd', 'l', 'o', 'g', '-', 's', 'o', 'f', 't', 'w', 'a', 'r', 'e', '!'};
    memset(vkey, 0, sizeof *vkey);
    vkey->powered_up = clock_ms();
    vkey->key.memory = aligned_alloc(16, (hidlog_key_size() + 15) / 16 * 16);
    if (vkey->key.memory == NULL || hidlog_key_init(&vkey->key, aaguid, 0, snapshot, snapshot_len) != 0) {
        free(vkey->key.memory);
        return false;
    }
    return true;
}

void virtual_key_close(struct virtual_key *vkey) {
    hidlog_key_destroy(&vkey->key);
    free(vkey->key.memory);
    software_keys_free(&vkey->keys);
}

// Moves the packets that the key has queued to the queue in *vkey, since the key accepts no input while it has queued
// packets. `queued` is what the last input function returned: the number of queued packets, or a negative error code;
// then returns false.
static bool queue_packets(struct virtual_key *vkey, int32_t queued) {
    if (queued < 0) {
        return false;
    }
    for (; queued > 0; queued--) {
        if (vkey->count == VIRTUAL_KEY_PACKETS) {
            vkey->first = (vkey->first + 1) % VIRTUAL_KEY_PACKETS;
            vkey->count--;
        }
        hidlog_key_read_packet(&vkey->key, vkey->packets[(vkey->first + vkey->count) % VIRTUAL_KEY_PACKETS]);
        vkey->count++;
    }
    return true;
}

bool virtual_key_write(struct virtual_key *vkey, const uint8_t packet[64]) {
    return queue_packets(vkey, hidlog_key_write_packet(&vkey->key, now_ms(vkey), packet));
}

bool virtual_key_read(struct virtual_key *vkey, uint8_t packet[64]) {
    if (vkey->count == 0) {
        return false;
    }
    memcpy(packet, vkey->packets[vkey->first], 64);
    vkey->first = (vkey->first + 1) % VIRTUAL_KEY_PACKETS;
    vkey->count--;
    return true;
}

bool virtual_key_tick(struct virtual_key *vkey) {
    return queue_packets(vkey, hidlog_key_tick(&vkey->key, now_ms(vkey)));
}

static int32_t provide_key_pair(struct virtual_key *vkey) {
    const struct software_key *pair = software_keys_generate(&vkey->keys);
    if (pair == NULL) {
        return hidlog_key_refuse_key_pair(&vkey->key, now_ms(vkey));
    }
    return hidlog_key_provide_key_pair(&vkey->key, now_ms(vkey), pair->id, pair->x, pair->y);
}

static int32_t provide_signature(struct virtual_key *vkey, const struct hidlog_need *need) {
    uint8_t signature[MAX_SIGNATURE];
    size_t len = software_keys_sign(&vkey->keys, need->id, need->to_sign, need->to_sign_len, signature);
    if (len == 0) {
        return hidlog_key_refuse_signature(&vkey->key, now_ms(vkey));
    }
    return hidlog_key_provide_signature(&vkey->key, now_ms(vkey), signature, len);
}

bool virtual_key_provide_need(struct virtual_key *vkey) {
    struct hidlog_need need;
    switch (hidlog_key_get_need(&vkey->key, &need)) {
    case HIDLOG_NEED_PRESENCE:
        return queue_packets(vkey, hidlog_key_provide_presence(&vkey->key, now_ms(vkey), vkey->presence));
    case HIDLOG_NEED_KEY_PAIR:
        return queue_packets(vkey, provide_key_pair(vkey));
    case HIDLOG_NEED_SIGNATURE:
        return queue_packets(vkey, provide_signature(vkey, &need));
    default:
        return false;
    }
}

int32_t virtual_key_get_need(struct virtual_key *vkey) {
    struct hidlog_need need;
    return hidlog_key_get_need(&vkey->key, &need);
}
