// A session of the key. Each input is passed to the verified core, and recorded with the packets that the core sends
// and with the reply for which the core then waits, if any: user presence, a key pair or a signature.
import { toHex } from "./bytes.js";
import { instantiateCore } from "./core_module.js";
import { playLine, WasmKey } from "./wasm_key.js";
import { fragmentMessage } from "./packets.js";
import { Recording } from "./recording.js";

const USER_COMMENT = /^#(?! (?:need|signed) )/;
// A session starts with INIT, which allocates its channel.
const FIRST_INIT = /^> \d+ ffffffff860008/;

/** @typedef {{ id: Uint8Array, x: Uint8Array, y: Uint8Array }} KeyPair */

export class Session {
    /**
     * @param {Uint8Array} snapshot the initial credentials
     * @param {(passed?: number) => number} clock returns the timestamp of the next input
     * @param {boolean} [records] whether to record
     */
    constructor(snapshot, clock, records = true) {
        this.core = new WasmKey(instantiateCore(), snapshot);
        this.clock = clock;
        this.recording = new Recording(records);
        this.need = this.core.need();
        this.isOpen = false;
    }

    /**
     * @param {(timeMs: number) => [string, Uint8Array[]]} input passes an input, and returns its line and the packets
     * sent
     */
    #play(input, passed = 1) {
        const [line, packets] = input(this.clock(passed));
        this.#record(line, packets);
        return packets;
    }

    /** @param {string} line @param {Uint8Array[]} packets */
    #record(line, packets) {
        this.need = this.core.need();
        this.isOpen = true;
        return this.recording.add(line, packets, this.need);
    }

    /**
     * Sends the packets of a message.
     * @param {number} channel @param {number} command @param {Uint8Array} bytes
     */
    send(channel, command, bytes) {
        return fragmentMessage(channel, command, bytes).flatMap((packet) =>
            this.#play((timeMs) => [`> ${timeMs} ${toHex(packet)}`, this.core.handlePacket(timeMs, packet)]));
    }

    /**
     * Advances the time.
     * @param {number} milliseconds
     */
    pass(milliseconds) {
        return this.#play((timeMs) => [`t ${timeMs}`, this.core.tick(timeMs)], milliseconds);
    }

    /** @param {string} word what the user did */
    providePresence(word) {
        return this.#play((timeMs) => [`p ${timeMs} ${word}`, this.core.providePresence(timeMs, word)]);
    }

    /** @param {KeyPair} keyPair */
    provideKeyPair({ id, x, y }) {
        return this.#play((timeMs) =>
            [`k ${timeMs} ${toHex(id)} ${toHex(x)} ${toHex(y)}`, this.core.provideKeyPair(timeMs, id, x, y)]);
    }

    /** @param {Uint8Array | null} signature DER, or null if there is none */
    provideSignature(signature) {
        return this.#play((timeMs) =>
            signature
                ? [`s ${timeMs} ${toHex(signature)}`, this.core.provideSignature(timeMs, signature)]
                : [`s ${timeMs} no`, this.core.refuseSignature(timeMs)]);
    }

    /**
     * Replays the lines of a recording. Returns whether the key sent and needed what the lines have, and is now idle.
     * @param {string[]} lines
     */
    resume(lines) {
        try {
            return this.#playAll(lines);
        } catch {
            return false;
        }
    }

    /** @param {string[]} lines */
    #playAll(lines) {
        for (let at = 0; at < lines.length;) {
            if (USER_COMMENT.test(lines[at])) {
                this.recording.addLine(lines[at]);
                at += 1;
                continue;
            }
            if (!this.isOpen && !FIRST_INIT.test(lines[at])) {
                return false;
            }
            const recorded = this.#record(lines[at], playLine(this.core, lines[at]));
            if (recorded.some((line, index) => line !== lines[at + index])) {
                return false;
            }
            at += recorded.length;
        }
        return this.need.kind === "nothing";
    }

    /** A snapshot of the current credentials. */
    snapshot() {
        return this.core.snapshot();
    }

    /** Why the key rejected its last input, as a sentence. */
    cause() {
        return this.core.cause();
    }

    /** The log so far. */
    log() {
        return this.recording.text(this.core.statsLine());
    }
}
