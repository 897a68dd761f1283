// The verified core as WebAssembly, with the commands of crates/hidlog_c on logs. This is a classic script, so that
// pages opened from a file can use it. Modules import the script for its side effect. Sets `globalThis.hidlog`.
"use strict";

(() => {
    const RESULT_BYTES = 32;
    // HIDLOG_ERR_BUFFER_TOO_SMALL.
    const BUFFER_TOO_SMALL = 5;
    // The arguments after the log, for commands without a snapshot. For hidlog_show, `explain` is 1.
    const SHOW_EXPLAIN = 1;
    /** @type {Record<string, number[]>} */
    const EXTRA_ARGUMENTS = { show: [SHOW_EXPLAIN], transactions: [] };
    const PAGE_BYTES = 65536;
    // Maximum memory in bytes.
    const MAX_MEMORY = 2048 * 1024 * 1024;

    const { fromBase64, unpack } = globalThis.hidlogBytes;
    const MODULE_MARK = [0x00, 0x61, 0x73, 0x6d];

    /** @param {number} address */
    const align = (address) => Math.ceil(address / 16) * 16;

    /**
     * The text of an error (docs/use/LOG_FORMAT.md).
     * @param {Viewer.Fault} fault
     */
    const formatError = ({ status, errorCode, line, packet }) => {
        if (status === 2) {
            return `snapshot refused: ${errorCode}`;
        }
        const texts = [
            "",
            `line ${line}: not a log line`,
            `line ${line}: longer than 255 bytes`,
            `line ${line}: differs at packet ${packet}`,
            `line ${line}: reading failed`,
            "the output is too long",
            "too many lines",
            `line ${line}: no memory`,
        ];
        return texts[errorCode];
    };

    /** An instance of the module, whose memory grows as needed. */
    class Core {
        /** @param {Record<string, any>} exports */
        constructor(exports) {
            this.exports = exports;
            this.base = align(Number(exports.__heap_base.value));
            this.updateViews();
        }

        /** Updates the views of the memory, whose buffer is replaced when it grows. */
        updateViews() {
            const { buffer } = this.exports.memory;
            this.bytes = new Uint8Array(buffer);
            this.result = new DataView(buffer, this.base, RESULT_BYTES);
        }

        /**
         * Grows the memory up to an address.
         * @param {number} end
         * @this {CoreWithViews}
         */
        grow(end) {
            const pages = Math.ceil((end - this.bytes.length) / PAGE_BYTES);
            if (pages > 0) {
                this.exports.memory.grow(pages);
                this.updateViews();
            }
        }

        /**
         * @param {number} at
         * @this {CoreWithViews}
         */
        number(at) {
            return Number(this.result.getBigUint64(at, true));
        }

        get logAt() {
            return this.base + RESULT_BYTES;
        }

        /**
         * Copies a part of a log of `length` bytes into the memory, at an offset.
         * @param {Uint8Array} part
         * @param {number} offset
         * @param {number} length
         * @this {CoreWithViews}
         */
        hold(part, offset, length) {
            if (this.logAt + length > MAX_MEMORY) {
                throw new Error("the log is too long for the core's memory");
            }
            this.grow(this.logAt + length);
            this.bytes.set(part, this.logAt + offset);
        }

        /**
         * Calls a command on the log of `length` bytes in the memory, with an output buffer of at most `wanted` bytes.
         * @param {string} command
         * @param {number} length
         * @param {Uint8Array} snapshot
         * @param {number} wanted
         * @returns {Viewer.Outcome}
         * @this {CoreWithViews}
         */
        call(command, length, snapshot, wanted) {
            const snapshotAt = align(this.logAt + length);
            const outAt = align(snapshotAt + snapshot.length);
            const capacity = Math.min(wanted, MAX_MEMORY - outAt);
            if (capacity < 0) {
                throw new Error("the log is too long for the core's memory");
            }
            this.grow(outAt + capacity);
            this.bytes.set(snapshot, snapshotAt);
            const args = EXTRA_ARGUMENTS[command] ?? [snapshotAt, snapshot.length].map(BigInt);
            const [log, size, out, outCap, result] = [this.logAt, length, outAt, capacity, this.base].map(BigInt);
            this.exports[`hidlog_${command}`](log, size, ...args, out, outCap, result);
            return {
                status: this.result.getUint32(0, true),
                errorCode: this.result.getUint32(4, true),
                line: this.number(8),
                packet: this.number(16),
                text: this.bytes.slice(outAt, outAt + this.number(24)),
            };
        }

        /**
         * Runs a command on a log.
         * @param {string} command
         * @param {Uint8Array} log
         * @this {CoreWithViews}
         */
        run(command, log, snapshot = new Uint8Array(0)) {
            this.hold(log, 0, log.length);
            return this.runHeld(command, log.length, snapshot);
        }

        /**
         * Runs a command on the log of `length` bytes in the memory. If the buffer is too small, runs it again with a
         * larger one, up to the maximum memory.
         * @param {string} command
         * @param {number} length
         * @param {Uint8Array} snapshot
         * @this {CoreWithViews}
         */
        runHeld(command, length, snapshot) {
            const lines = 2 * length + Math.min(6 * length, 1024 * 1024);
            const wanted = /** @type {Record<string, number>} */ (
                { check: 0, transactions: length / 2 }
            )[command] ?? lines;
            let capacity = Math.ceil(wanted) + 8192;
            let outcome = this.call(command, length, snapshot, capacity);
            while (outcome.errorCode === BUFFER_TOO_SMALL && outcome.status === 1 && capacity < MAX_MEMORY) {
                capacity *= 4;
                outcome = this.call(command, length, snapshot, capacity);
            }
            return outcome;
        }
    }

    /**
     * A Core after its constructor has called updateViews(), which sets the views.
     * @typedef {Core & { bytes: Uint8Array, result: DataView }} CoreWithViews
     */

    /** The module's bytes, which are compressed in the page, but not in the npm package. */
    const readModule = () => {
        const bytes = fromBase64(globalThis.HIDLOG_WASM);
        return MODULE_MARK.every((byte, at) => bytes[at] === byte) ? bytes : unpack(bytes);
    };

    /** @returns {Promise<CoreWithViews>} */
    const instantiate = async () => {
        const { instance } = await WebAssembly.instantiate(readModule(), {});
        return /** @type {CoreWithViews} */ (new Core(instance.exports));
    };

    /** @type {Promise<Viewer.Core> | null} */
    let loading = null;

    /** Loads the core. All callers share one instance, since calls keep no state. */
    const load = () => (loading ??= instantiate());

    globalThis.hidlog = { load, formatError };
})();
