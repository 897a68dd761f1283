// The verified key in the memory of a WebAssembly instance (release/hidlog.h). A call that passes an input returns the
// packets that the key sends. The cost of a call does not depend on the number of preceding calls. Used by the page's
// key, and by the viewer to find causes.
import { copyBytes, decodeUtf8, fromHex, toHex } from "./bytes.js";
import { PACKET_SIZE } from "./standard.js";

const PAGE_BYTES = 65536;
const SNAPSHOT_ERRORS = new Map([
    [-17, "not a snapshot"], [-18, "more than 64 credentials"], [-19, "an invalid credential"],
]);
// Maximum length of a sentence of hidlog_key_cause.
const MAX_SENTENCE_BYTES = 160;
// HIDLOG_SNAPSHOT_MAX_LEN.
const MAX_SNAPSHOT_BYTES = 13 + 283 * 64;
const NEED_KINDS = ["nothing", "presence", "key", "signature"];
const MAX_SIGNATURE_BYTES = 72;
export const PRESENCE_WORDS = ["granted", "denied", "timeout"];

/** @typedef {{ kind: string, id: Uint8Array, toSign: Uint8Array }} Need what the key needs to continue */
/**
 * @typedef {object} Row a credential of the core
 * @property {Uint8Array} rpIdHash
 * @property {Uint8Array} id
 * @property {Uint8Array} x
 * @property {Uint8Array} y
 * @property {Uint8Array} userId
 * @property {Uint8Array} userName UTF-8
 * @property {boolean} discoverable
 * @property {number} signCount
 */

/** Addresses in the instance's memory. The first area is struct hidlog_key, and the last area is the key's memory. */
const makeAddresses = (/** @type {number} */ base) => {
    const address = { key: base, packet: base + 16, need: base + 96, credential: base + 336, stats: base + 624 };
    return { ...address, input: base + 672, cause: base + 896, text: base + 928, memory: base + 928 + MAX_SENTENCE_BYTES };
};

const align = (/** @type {number} */ address) => Math.ceil(address / 16) * 16;

const toEnumValue = (/** @type {string[]} */ words, /** @type {string} */ word) => {
    const number = words.indexOf(word);
    if (number < 0) {
        throw new Error(`invalid presence ${JSON.stringify(word)}; expected granted, denied or timeout`);
    }
    return number;
};

/**
 * Grows a memory to at least `size` bytes.
 * @param {WebAssembly.Memory} memory @param {number} size
 */
export const growMemory = (memory, size) => {
    const missing = Math.ceil((size - memory.buffer.byteLength) / PAGE_BYTES);
    if (missing > 0) {
        memory.grow(missing);
    }
};

export class WasmKey {
    /**
     * @param {Record<string, any>} exports of an instance of the module, whose memory the key takes
     * @param {Uint8Array} snapshot the initial credentials; empty for none
     */
    constructor(exports, snapshot) {
        this.exports = exports;
        this.at = makeAddresses(align(Number(this.exports.__heap_base.value)));
        const snapshotAt = align(this.at.memory + Number(this.exports.hidlog_key_size()));
        const { memory } = this.exports;
        growMemory(memory, snapshotAt + Math.max(snapshot.length, MAX_SNAPSHOT_BYTES));
        this.bytes = new Uint8Array(memory.buffer);
        this.view = new DataView(memory.buffer);
        this.bytes.fill(0, this.at.key, this.at.memory);
        this.bytes.set(snapshot, snapshotAt);
        this.view.setBigUint64(this.at.key, BigInt(this.at.memory), true);
        this.snapshotAt = snapshotAt;
        this.call("init", this.at.input, 0, snapshotAt, snapshot.length);
    }

    /**
     * Calls hidlog_key_NAME, and returns its result. Throws on an error.
     * @param {string} name
     * @param {(number | { number: number })[]} args 64-bit numbers, or 32-bit numbers as { number }
     * @returns {number}
     */
    call(name, ...args) {
        const values = args.map((argument) => (typeof argument === "number" ? BigInt(argument) : argument.number));
        const result = this.exports[`hidlog_key_${name}`](BigInt(this.at.key), ...values);
        if (result < 0) {
            const reason = SNAPSHOT_ERRORS.get(result);
            throw new Error(reason ? `snapshot refused: ${reason}` : `hidlog_key_${name} failed with error ${result}`);
        }
        return result;
    }

    /**
     * Copies byte strings to the input area, one after another, and returns their addresses.
     * @param {Uint8Array[]} parts
     */
    copyIn(...parts) {
        let at = this.at.input;
        return parts.map((part) => {
            this.bytes.set(part, at);
            at += part.length;
            return at - part.length;
        });
    }

    /**
     * Reads the queued packets.
     * @param {number} queued @returns {Uint8Array[]}
     */
    readPackets(queued) {
        const packets = [];
        for (let left = queued; left > 0; ) {
            left = this.call("read_packet", this.at.packet);
            packets.push(this.bytes.slice(this.at.packet, this.at.packet + PACKET_SIZE));
        }
        return packets;
    }

    /** @param {number} timeMs @param {Uint8Array} packet */
    handlePacket(timeMs, packet) {
        return this.readPackets(this.call("write_packet", timeMs, ...this.copyIn(packet)));
    }

    /** @param {number} timeMs */
    tick(timeMs) {
        return this.readPackets(this.call("tick", timeMs));
    }

    /** @param {number} timeMs @param {string} word */
    providePresence(timeMs, word) {
        return this.readPackets(this.call("provide_presence", timeMs, { number: toEnumValue(PRESENCE_WORDS, word) }));
    }

    /** @param {number} timeMs @param {Uint8Array} id @param {Uint8Array} x @param {Uint8Array} y */
    provideKeyPair(timeMs, id, x, y) {
        return this.readPackets(this.call("provide_key_pair", timeMs, ...this.copyIn(id, x, y)));
    }

    /** @param {number} timeMs */
    refuseKeyPair(timeMs) {
        return this.readPackets(this.call("refuse_key_pair", timeMs));
    }

    /** @param {number} timeMs @param {Uint8Array} signature DER */
    provideSignature(timeMs, signature) {
        return this.readPackets(this.call("provide_signature", timeMs, ...this.copyIn(signature), signature.length));
    }

    /** @param {number} timeMs */
    refuseSignature(timeMs) {
        return this.readPackets(this.call("refuse_signature", timeMs));
    }

    /** @returns {Need} */
    need() {
        const { need } = this.at;
        const kind = this.call("get_need", need);
        if (NEED_KINDS[kind] !== "signature") {
            return { kind: NEED_KINDS[kind], id: new Uint8Array(0), toSign: new Uint8Array(0) };
        }
        const toSign = copyBytes(this.bytes.subarray(need + 40, need + 40 + this.view.getUint32(need + 4, true)));
        return { kind: "signature", id: this.bytes.slice(need + 8, need + 40), toSign };
    }

    /**
     * Why the last input was rejected: the cause (enum hidlog_cause_code), the status, and a sentence; null if the
     * input was not rejected.
     * @param {number} which 1 for the input, 0 for a timeout before the input
     */
    rejection(which = 1) {
        const { cause, text } = this.at;
        const length = this.call("cause", { number: which }, cause, text, MAX_SENTENCE_BYTES);
        if (!length) {
            return null;
        }
        const sentence = decodeUtf8(this.bytes.subarray(text, text + length));
        return { code: this.view.getUint32(cause, true), status: this.view.getUint32(cause + 4, true), sentence };
    }

    /** Why the last input was rejected, as a sentence; empty if the input was not rejected. */
    cause() {
        return this.rejection()?.sentence ?? "";
    }

    /**
     * The credentials, newest last.
     * @returns {Row[]}
     */
    rows() {
        const { credential: from } = this.at;
        const number = (/** @type {number} */ offset) => this.view.getUint32(from + offset, true);
        const bytes = (/** @type {number} */ offset, /** @type {number} */ length) =>
            this.bytes.slice(from + offset, from + offset + length);
        return Array.from({ length: this.call("credential_count") }, (_, index) => {
            this.call("get_credential", index, from);
            return {
                rpIdHash: bytes(0, 32), id: bytes(32, 32), x: bytes(64, 32), y: bytes(96, 32),
                userId: bytes(128, number(256)), userName: bytes(192, number(260)),
                discoverable: number(264) === 1, signCount: number(268),
            };
        });
    }

    /**
     * Replaces the credentials.
     * @param {Row[]} rows newest last
     */
    setRows(rows) {
        this.call("clear_credentials", 0);
        const { credential: at } = this.at;
        for (const { rpIdHash, id, x, y, userId, userName, discoverable, signCount } of rows) {
            this.bytes.fill(0, at + 128, at + 256);
            [rpIdHash, id, x, y].forEach((part, index) => this.bytes.set(part, at + 32 * index));
            this.bytes.set(userId, at + 128);
            this.bytes.set(userName, at + 192);
            [userId.length, userName.length, Number(discoverable), signCount].forEach((number, index) =>
                this.view.setUint32(at + 256 + 4 * index, number, true));
            this.call("add_credential", 0, at);
        }
    }

    /** A snapshot of the credentials; empty if there are none. */
    snapshot() {
        if (!this.call("credential_count")) {
            return new Uint8Array(0);
        }
        const length = this.call("save_snapshot", this.snapshotAt, MAX_SNAPSHOT_BYTES);
        return this.bytes.slice(this.snapshotAt, this.snapshotAt + length);
    }

    /** The totals line of a log. */
    statsLine() {
        const { stats } = this.at;
        this.call("get_stats", stats);
        const [requests, bytes, steps] = [0, 8, 16].map((offset) => this.view.getBigUint64(stats + offset, true));
        const [held, rows, pending] = [24, 28, 32].map((offset) => this.view.getUint32(stats + offset, true));
        return `= held ${held} rows ${rows} pending ${pending} requests ${requests} bytes ${bytes} steps ${steps}`;
    }
}

/**
 * Decodes a hex field of `least` to `most` bytes.
 * @param {string} text @param {number} least @param {number} most
 */
const readField = (text = "", least, most = least) => {
    const bytes = fromHex(text);
    if (toHex(bytes) !== text || bytes.length < least || bytes.length > most) {
        throw new TypeError(`invalid hexadecimal field in a recorded line: ${text.slice(0, 80)}`);
    }
    return bytes;
};

/**
 * Passes the input of a recorded line (docs/use/LOG_FORMAT.md) to the core, and returns the packets sent.
 * @param {WasmKey} core @param {string} line
 */
export const playLine = (core, line) => {
    const [kind, time, first, ...rest] = line.split(" ");
    const timeMs = Number(time);
    const play = {
        ">": () => core.handlePacket(timeMs, readField(first, PACKET_SIZE)),
        t: () => core.tick(timeMs),
        p: () => core.providePresence(timeMs, PRESENCE_WORDS.find((word) => word === first) ?? ""),
        k: () => (first === "no" ? core.refuseKeyPair(timeMs)
            : core.provideKeyPair(timeMs, readField(first, 32), readField(rest[0], 32), readField(rest[1], 32))),
        s: () => (first === "no"
            ? core.refuseSignature(timeMs) : core.provideSignature(timeMs, readField(first, 1, MAX_SIGNATURE_BYTES))),
    }[kind];
    if (!play || !Number.isSafeInteger(timeMs) || String(timeMs) !== time) {
        throw new TypeError(`invalid line in a recording: ${line.slice(0, 80)}`);
    }
    return play();
};
