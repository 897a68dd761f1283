/* Implements CTAPHID (CTAP 2.1, section 11.2): allocates channels, reassembles messages from packets, and handles their
 * timeouts. */
#include "peer.h"

#include <string.h>

enum {
    MESSAGE_TIMEOUT_MS = 500,
    INVALID_COMMAND = 1,
    INVALID_LENGTH = 3,
    INVALID_SEQUENCE = 4,
    MESSAGE_TIMEOUT = 5,
    CHANNEL_BUSY = 6,
    INVALID_CHANNEL = 11
};

static const uint32_t BROADCAST = 0xffffffff;

static uint32_t last_channel;
static size_t peak_message_bytes;
static struct {
    uint8_t data[MAX_MESSAGE_BYTES];
    uint32_t channel;
    size_t len, received;
    uint64_t last_packet_ms;
    uint8_t command, sequence;
    bool is_open;
} message;

static void write_channel_id(uint8_t *bytes, uint32_t channel) {
    bytes[0] = (uint8_t)(channel >> 24);
    bytes[1] = (uint8_t)(channel >> 16);
    bytes[2] = (uint8_t)(channel >> 8);
    bytes[3] = (uint8_t)channel;
}

void transport_send(uint32_t channel, enum command command, const uint8_t *bytes, size_t len) {
    uint8_t packet[PACKET_BYTES] = {0};
    write_channel_id(packet, channel);
    packet[4] = (uint8_t)(0x80 | command);
    packet[5] = (uint8_t)(len >> 8);
    packet[6] = (uint8_t)len;
    size_t sent = len < INIT_DATA_BYTES ? len : INIT_DATA_BYTES;
    memcpy(packet + 7, bytes, sent);
    log_sent_packet(packet);
    for (uint8_t sequence = 0; sent < len; sequence++) {
        size_t part = len - sent < CONT_DATA_BYTES ? len - sent : CONT_DATA_BYTES;
        memset(packet + 4, 0, PACKET_BYTES - 4);
        packet[4] = sequence;
        memcpy(packet + 5, bytes + sent, part);
        log_sent_packet(packet);
        sent += part;
    }
}

static void send_error(uint32_t channel, uint8_t code) {
    transport_send(channel, ERROR, &code, 1);
}

size_t transport_peak_message_bytes(void) {
    return peak_message_bytes;
}

void transport_advance_time(uint64_t now_ms) {
    if (message.is_open && now_ms - message.last_packet_ms >= MESSAGE_TIMEOUT_MS) {
        message.is_open = false;
        send_error(message.channel, MESSAGE_TIMEOUT);
    } else {
        authenticator_advance_time(now_ms);
    }
}

static void handle_message(uint64_t now_ms, uint32_t channel, uint8_t command, const uint8_t *data, size_t len) {
    switch (command) {
    case PING:
        transport_send(channel, PING, data, len);
        break;
    case CBOR:
        if (len == 0) {
            send_error(channel, INVALID_LENGTH);
        } else {
            authenticator_request(now_ms, channel, data, len);
        }
        break;
    default:
        send_error(channel, INVALID_COMMAND);
    }
}

/* Responds to an INIT: allocates a channel if it came on the broadcast channel, and otherwise aborts the transaction on
 * its channel. */
static void handle_init(uint32_t channel, const uint8_t *nonce, size_t len) {
    if (message.is_open && message.channel == channel) {
        message.is_open = false;
    }
    if (len != 8) {
        send_error(channel, INVALID_LENGTH);
        return;
    }
    if (authenticator_is_pending_on(channel)) {
        authenticator_abort();
    }
    uint8_t response[17];
    memcpy(response, nonce, 8);
    write_channel_id(response + 8, channel == BROADCAST ? ++last_channel : channel);
    memcpy(response + 12, "\x02\x01\0\0\x0c", 5);
    transport_send(channel, INIT, response, sizeof response);
}

static void handle_initialization(uint64_t now_ms, uint32_t channel, const uint8_t *packet) {
    uint8_t command = packet[4] & 0x7f;
    size_t len = (size_t)packet[5] << 8 | packet[6];
    if (command == CANCEL) {
        if (authenticator_is_pending_on(channel)) {
            authenticator_cancel();
        }
    } else if ((channel == 0 || channel > last_channel) && (channel != BROADCAST || command != INIT)) {
        send_error(channel, INVALID_CHANNEL);
    } else if (command == INIT) {
        handle_init(channel, packet + 7, len);
    } else if (message.is_open && message.channel == channel) {
        message.is_open = false;
        send_error(channel, INVALID_SEQUENCE);
    } else if (message.is_open || authenticator_is_pending()) {
        send_error(channel, CHANNEL_BUSY);
    } else if (len > MAX_MESSAGE_BYTES) {
        send_error(channel, INVALID_LENGTH);
    } else if (len <= INIT_DATA_BYTES) {
        handle_message(now_ms, channel, command, packet + 7, len);
    } else {
        memcpy(message.data, packet + 7, INIT_DATA_BYTES);
        message.channel = channel;
        message.len = len;
        message.received = INIT_DATA_BYTES;
        message.last_packet_ms = now_ms;
        message.command = command;
        message.sequence = 0;
        message.is_open = true;
        peak_message_bytes = peak_message_bytes < INIT_DATA_BYTES ? INIT_DATA_BYTES : peak_message_bytes;
    }
}

static void handle_continuation(uint64_t now_ms, uint32_t channel, const uint8_t *packet) {
    if (!message.is_open || message.channel != channel) {
        return;
    }
    if (packet[4] != message.sequence) {
        message.is_open = false;
        send_error(channel, INVALID_SEQUENCE);
        return;
    }
    size_t left = message.len - message.received, part = left < CONT_DATA_BYTES ? left : CONT_DATA_BYTES;
    memcpy(message.data + message.received, packet + 5, part);
    message.received += part;
    message.sequence++;
    message.last_packet_ms = now_ms;
    if (message.received == message.len) {
        message.is_open = false;
        handle_message(now_ms, channel, message.command, message.data, message.len);
    } else if (message.received > peak_message_bytes) {
        peak_message_bytes = message.received;
    }
}

void transport_handle_packet(uint64_t now_ms, const uint8_t packet[PACKET_BYTES]) {
    uint32_t channel = (uint32_t)packet[0] << 24 | (uint32_t)packet[1] << 16 | (uint32_t)packet[2] << 8 | packet[3];
    if (packet[4] & 0x80) {
        handle_initialization(now_ms, channel, packet);
    } else {
        handle_continuation(now_ms, channel, packet);
    }
}
