// The queue of packets that programs have sent to the key. It is fair between senders: packets are taken in turns, and
// each sender has one packet per turn. So a sender that floods the queue delays others by one packet per turn, and if
// the queue is full, loses its own packets.
#ifndef PACKET_QUEUE_H
#define PACKET_QUEUE_H

#include "hidlog_standard.h"
#include <stdbool.h>
#include <stddef.h>
#include <stdint.h>

// Capacity of the queue. A message has at most 129 packets, so three messages always fit.
enum { QUEUE_CAPACITY = 512 };

struct waiting_packet {
    uint8_t bytes[HIDLOG_PACKET_SIZE];
    uint64_t turn; // lower turns go first; older packets first within a turn
};

struct packet_queue {
    struct waiting_packet packets[QUEUE_CAPACITY]; // oldest first
    size_t count;
    uint64_t turn;    // of the last packet taken
    uint32_t channel; // the highest channel that the key has allocated
};

// Adds a packet. If the queue is full, drops the packet that would be taken last, which may be the new one.
void packet_queue_add(struct packet_queue *queue, const uint8_t packet[HIDLOG_PACKET_SIZE]);

// If this packet, which the key sent, is a response to INIT on the broadcast channel, records the channel ID that it
// allocates. Packets on channels that are not allocated count as packets from one sender.
void packet_queue_record_channel(struct packet_queue *queue, const uint8_t packet[HIDLOG_PACKET_SIZE]);

// Removes the packet whose turn is next from the queue, and copies it to `packet`. Returns false if the queue is empty.
bool packet_queue_take(struct packet_queue *queue, uint8_t packet[HIDLOG_PACKET_SIZE]);

#endif
