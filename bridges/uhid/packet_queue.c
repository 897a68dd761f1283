#include "packet_queue.h"

#include <string.h>

// The length of a channel ID, and offsets in packets of INIT on the broadcast channel: the end of the nonce, in request
// and response, and the new channel ID in the response. INIT is the command byte.
enum { CHANNEL = 4, NONCE_END = 15, NEW_CHANNEL_AT = 15, INIT = 0x80 | HIDLOG_CTAPHID_INIT };

static const uint8_t broadcast[CHANNEL] = {0xff, 0xff, 0xff, 0xff};

static uint32_t read_channel_id(const uint8_t *bytes) {
    return (uint32_t)bytes[0] << 24 | (uint32_t)bytes[1] << 16 | (uint32_t)bytes[2] << 8 | bytes[3];
}

static bool is_broadcast(const uint8_t *packet) {
    return memcmp(packet, broadcast, CHANNEL) == 0;
}

// Returns whether two packets seem to be from the same sender: if both are on the same channel, on the broadcast
// channel with the same command and nonce, or on channels that the key has not allocated.
static bool is_same_sender(const struct packet_queue *queue, const uint8_t *first, const uint8_t *second) {
    if (is_broadcast(first) || is_broadcast(second)) {
        return memcmp(first, second, NONCE_END) == 0;
    }
    uint32_t one = read_channel_id(first), other = read_channel_id(second);
    return one == other || (one > queue->channel && other > queue->channel);
}

void packet_queue_record_channel(struct packet_queue *queue, const uint8_t packet[HIDLOG_PACKET_SIZE]) {
    if (is_broadcast(packet) && packet[CHANNEL] == INIT) {
        uint32_t allocated = read_channel_id(packet + NEW_CHANNEL_AT);
        queue->channel = allocated > queue->channel ? allocated : queue->channel;
    }
}

static void drop_packet(struct packet_queue *queue, size_t index) {
    queue->count--;
    memmove(queue->packets + index, queue->packets + index + 1, (queue->count - index) * sizeof *queue->packets);
}

// Returns the index of the packet that would be taken last: the newest one with the highest turn.
static size_t find_last_to_take(const struct packet_queue *queue) {
    size_t last = 0;
    for (size_t i = 1; i < queue->count; i++) {
        last = queue->packets[i].turn >= queue->packets[last].turn ? i : last;
    }
    return last;
}

void packet_queue_add(struct packet_queue *queue, const uint8_t packet[HIDLOG_PACKET_SIZE]) {
    uint64_t turn = queue->turn;
    for (size_t i = 0; i < queue->count; i++) {
        const struct waiting_packet *other = &queue->packets[i];
        turn = other->turn > turn && is_same_sender(queue, other->bytes, packet) ? other->turn : turn;
    }
    turn++;
    if (queue->count == QUEUE_CAPACITY) {
        size_t last = find_last_to_take(queue);
        if (queue->packets[last].turn <= turn) {
            return;
        }
        drop_packet(queue, last);
    }
    struct waiting_packet *added = &queue->packets[queue->count++];
    memcpy(added->bytes, packet, sizeof added->bytes);
    added->turn = turn;
}

bool packet_queue_take(struct packet_queue *queue, uint8_t packet[HIDLOG_PACKET_SIZE]) {
    size_t first = 0;
    if (queue->count == 0) {
        return false;
    }
    for (size_t i = 1; i < queue->count; i++) {
        first = queue->packets[i].turn < queue->packets[first].turn ? i : first;
    }
    memcpy(packet, queue->packets[first].bytes, HIDLOG_PACKET_SIZE);
    queue->turn = queue->packets[first].turn;
    drop_packet(queue, first);
    return true;
}
