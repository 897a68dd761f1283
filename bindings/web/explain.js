// The output of `hidlog show --explain` for a log, with an index of each line's explanation. The core explains the
// whole log, since the explanation of a line depends on the preceding lines. Sets `globalThis.hidlogExplained`.
"use strict";

(() => {
    const { Column } = globalThis.hidlogLog;
    const [NEWLINE, SPACE, HOST, ZERO] = [10, 32, 62, 48];
    // HIDLOG_ERR_BUFFER_TOO_SMALL.
    const BUFFER_TOO_SMALL = 5;
    // Number of bytes at the start of a long log that are explained immediately, before the rest.
    const FIRST_BYTES = 65536;
    // Maximum number of lines whose explanations are cached as strings.
    const MAX_CACHED = 4096;
    const decoder = new TextDecoder();
    // The texts for a line that is not explained yet, and for a line without an explanation, since the log is too long.
    /** @type {Viewer.Words} */
    const PENDING_TEXT = { head: "…", below: [] };
    /** @type {Viewer.Words} */
    const UNAVAILABLE_TEXT = { head: "(too long to explain here: use hidlog show --explain)", below: [] };

    /**
     * Indexes the core's output: where each line's explanation starts, and which explanations continue after a later
     * line. (Whether a packet is late may be known only after the next packet.) If the output is truncated, only lines
     * before the last packet of a host are `sure`. A worker can post the index.
     * @param {Pick<Viewer.Outcome, "text" | "status" | "errorCode">} outcome
     * @param {boolean} isCut
     * @returns {Viewer.OutputIndex}
     */
    const indexOutput = ({ text, status, errorCode }, isCut = status === 1 && errorCode === BUFFER_TOO_SMALL) => {
        const starts = new Column(Uint32Array);
        const later = new Map();
        let sure = 0;
        for (let at = 0; at < text.length;) {
            const from = at;
            let number = 0;
            while (at < text.length && text[at] !== SPACE) {
                number = number * 10 + text[at] - ZERO;
                at += 1;
            }
            const latest = starts.length - 1;
            if (text[at + 1] !== SPACE) {
                while (starts.length < number) {
                    starts.push(from);
                }
                sure = text[at + 1] === HOST ? number - 1 : sure;
            } else if (number - 1 < latest) {
                later.set(number - 1, latest);
            }
            const end = text.indexOf(NEWLINE, at);
            at = end < 0 ? text.length : end + 1;
        }
        return { text, starts: starts.values.slice(0, starts.length), later, sure: isCut ? sure : Infinity };
    };

    /** The explanations of a log's lines, as far as they are known. */
    class Explained {
        /**
         * `isLast` is true if the core produces no further output.
         * @param {Viewer.OutputIndex} index
         * @param {boolean} isLast
         */
        constructor({ text, starts, later, sure }, isLast) {
            Object.assign(this, { text, starts, later, sure, isLast, read: new Map() });
        }

        /**
         * Whether a line's explanation is final: it is known, or no further output follows.
         * @param {number} place
         * @this {Viewer.Explained}
         */
        has(place) {
            return this.isLast || place < this.sure;
        }

        /**
         * A line's explanation: a head, and the lines below it.
         * @param {number} place
         * @this {Viewer.Explained}
         * @returns {Viewer.Words}
         */
        words(place) {
            if (place >= this.sure) {
                return this.isLast ? UNAVAILABLE_TEXT : PENDING_TEXT;
            }
            if (!this.read.has(place)) {
                if (this.read.size >= MAX_CACHED) {
                    this.read.clear();
                }
                this.read.set(place, this.readWords(place));
            }
            return /** @type {Viewer.Words} */ (this.read.get(place));
        }

        /**
         * @param {number} place
         * @returns {Viewer.Words}
         * @this {Viewer.Explained}
         */
        readWords(place) {
            const number = `${place + 1} `;
            /** @type {Viewer.Words} */
            const words = { head: "", below: [] };
            // If no later line continues the explanation, the index is undefined, and linesAt() returns no lines.
            const lines = [place, /** @type {number} */ (this.later.get(place))]
                .flatMap((index) => this.linesAt(index));
            for (const line of lines.filter((line) => line.startsWith(number))) {
                const rest = line.slice(number.length);
                if (rest.startsWith("  ")) {
                    words.below.push(rest.slice(2));
                } else {
                    words.head = rest;
                }
            }
            return words;
        }

        /**
         * The output lines from the head of a line's explanation to the next head.
         * @param {number} place
         * @this {Viewer.Explained}
         */
        linesAt(place) {
            const { starts, text } = this;
            return place < starts.length ? decoder.decode(text.subarray(starts[place], starts[place + 1])).split("\n") : [];
        }
    }

    /**
     * Explains a log at once.
     * @param {Viewer.Core} core
     * @param {Uint8Array} bytes
     */
    const explain = (core, bytes) =>
        /** @type {Viewer.Explained} */ (new Explained(indexOutput(core.run("show", bytes)), true));

    /**
     * Explains the first lines of a log.
     * @param {Viewer.Core} core
     * @param {Uint8Array} bytes
     */
    const explainFirst = (core, bytes) => /** @type {Viewer.Explained} */ (
        new Explained(indexOutput(core.run("show", bytes.subarray(0, FIRST_BYTES)), true), false));

    // The cast is needed since the constructor of Explained assigns its properties with Object.assign.
    globalThis.hidlogExplained = /** @type {typeof hidlogExplained} */ (
        { Explained, explain, explainFirst, indexOutput });
})();
