// CTAPHID packets and messages (CTAP 2.1, "USB HID").
import { concatBytes } from "./bytes.js";
import { KEEPALIVE, PACKET_SIZE } from "./standard.js";

/** @typedef {{ command: number, bytes: Uint8Array }} Message */

/**
 * Splits a message into packets.
 * @param {number} channel @param {number} command @param {Uint8Array} bytes
 */
export const fragmentMessage = (channel, command, bytes) => {
    const packets = [];
    let from = 0;
    do {
        const packet = new Uint8Array(PACKET_SIZE);
        const view = new DataView(packet.buffer);
        view.setUint32(0, channel);
        view.setUint8(4, packets.length ? packets.length - 1 : 0x80 | command);
        if (!packets.length) {
            view.setUint16(5, bytes.length);
        }
        const head = packets.length ? 5 : 7;
        packet.set(bytes.subarray(from, from + PACKET_SIZE - head), head);
        from += PACKET_SIZE - head;
        packets.push(packet);
    } while (from < bytes.length);
    return packets;
};

/** Reassembles the messages on a channel, without KEEPALIVEs. */
export class MessageReassembler {
    /** @param {number} channel */
    constructor(channel) {
        this.channel = channel;
        this.open = null;
    }

    /**
     * Adds packets, and returns the message that they complete, or null.
     * @param {Uint8Array[]} packets
     */
    add(packets) {
        let complete = null;
        for (const packet of packets) {
            const view = new DataView(packet.buffer);
            if (view.getUint32(0) !== this.channel) {
                continue;
            }
            if (packet[4] >= 0x80) {
                const [command, length] = [packet[4] - 0x80, view.getUint16(5)];
                this.open = { command, length, parts: [packet.subarray(7)], size: PACKET_SIZE - 7 };
            } else if (this.open) {
                this.open.parts.push(packet.subarray(5));
                this.open.size += PACKET_SIZE - 5;
            }
            complete = this.#takeComplete() ?? complete;
        }
        return complete;
    }

    /** @returns {Message | null} */
    #takeComplete() {
        if (!this.open || this.open.size < this.open.length) {
            return null;
        }
        const { command, length, parts } = this.open;
        this.open = null;
        return command === KEEPALIVE ? null : { command, bytes: concatBytes(...parts).subarray(0, length) };
    }
}
