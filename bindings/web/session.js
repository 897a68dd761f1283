// Reads a log as a session with lines and transactions (transactions.js). Lines are read in slices, so that the page
// stays responsive. Sets `globalThis.hidlogSession`.
"use strict";

(() => {
    const { Log, Transaction, KIND, NEWLINE, PACKET_DIGITS, hexDigitValues, readTimestamp } = globalThis.hidlogLog;
    const { TableFiller } = globalThis.hidlogTransactions;
    const decoder = new TextDecoder();
    const SPACE = 32;
    const MAX_LINE = 255;
    const BROADCAST = globalThis.hidlogBytes.BROADCAST.toString(16);
    // Maximum number of channels that are listed.
    const MAX_CHANNELS = 200;
    // Number of lines to read before the clock is checked again.
    const BATCH_SIZE = 512;
    /** @type {Record<string, number>} */
    const KIND_BY_LETTER = {
        ">": KIND.HOST, "<": KIND.KEY, t: KIND.TICK, p: KIND.PRESENCE, k: KIND.NEW_KEY, s: KIND.SIGNATURE,
        "#": KIND.COMMENT, "=": KIND.COUNT,
    };
    const kindOf = Array.from({ length: 256 }, (_, code) => KIND_BY_LETTER[String.fromCharCode(code)]);

    /**
     * Whether a range consists of the hex digits of a packet.
     * @param {Uint8Array} bytes
     * @param {number} from
     * @param {number} to
     */
    const isPacket = (bytes, from, to) => {
        if (to - from !== PACKET_DIGITS) {
            return false;
        }
        for (let at = from; at < to; at += 1) {
            if (hexDigitValues[bytes[at]] > 15) {
                return false;
            }
        }
        return true;
    };

    /** Reads the lines of a log, a slice at a time. */
    class LineReader {
        /** @param {Uint8Array} bytes */
        constructor(bytes) {
            this.bytes = bytes;
            this.log = new Log(bytes);
            this.from = 0;
            /** @type {Viewer.Milliseconds} */
            this.latest = 0;
            this.latestLine = 0;
            /** @type {Set<number>} */
            this.seen = new Set();
            /** @type {string[]} */
            this.channels = [];
            // The number of the first invalid line, or 0.
            this.invalidLineNumber = 0;
        }

        get isDone() {
            return this.invalidLineNumber > 0 || this.from >= this.bytes.length;
        }

        /**
         * Reads lines until a time (performance.now()), or to the end.
         * @param {number} end
         */
        readUntil(end) {
            while (!this.isDone) {
                for (let count = 0; count < BATCH_SIZE && !this.isDone; count += 1) {
                    this.readOne();
                }
                if (performance.now() >= end) {
                    return;
                }
            }
        }

        readOne() {
            const { bytes, from, log } = this;
            let to = bytes.indexOf(NEWLINE, from);
            to = to < 0 ? bytes.length : to;
            const kind = to - from > MAX_LINE ? undefined : this.kindBetween(from, to);
            const at = kind === undefined ? null : this.readTime(kind, from, to);
            if (at === null) {
                this.invalidLineNumber = log.length + 1;
                return;
            }
            this.from = to + 1;
            const place = log.length;
            log.add(/** @type {number} */ (kind), from, to);
            if (at > this.latest) {
                this.latest = at;
                this.latestLine = place + 1;
            }
            log.latest.values[place] = this.latestLine;
            if (/** @type {number} */ (kind) <= KIND.KEY) {
                this.addChannel(place);
            }
        }

        /**
         * Adds the channel of a packet.
         * @param {number} place
         */
        addChannel(place) {
            const channel = this.log.channelAt(place);
            if (!this.seen.has(channel)) {
                this.seen.add(channel);
                if (this.seen.size <= MAX_CHANNELS) {
                    this.channels.push(/** @type {string} */ (this.log.line(place).channel));
                }
            }
        }

        /**
         * The kind of a line by its first character, or undefined.
         * @param {number} from
         * @param {number} to
         * @returns {number | undefined}
         */
        kindBetween(from, to) {
            const kind = from === to ? KIND.EMPTY : kindOf[this.bytes[from]];
            return kind === KIND.COMMENT && this.isNeed(from) ? KIND.NEED : kind;
        }

        /**
         * The timestamp of a line, 0 if it has none, or null if the line is invalid.
         * @param {number} kind
         * @param {number} from
         * @param {number} to
         * @returns {Viewer.Milliseconds | null}
         */
        readTime(kind, from, to) {
            const { bytes } = this;
            if (kind === KIND.KEY) {
                return bytes[from + 1] === SPACE && isPacket(bytes, from + 2, to) ? 0 : null;
            }
            if (kind > KIND.SIGNATURE) {
                return 0;
            }
            const time = bytes[from + 1] === SPACE ? readTimestamp(bytes, from + 2, to) : null;
            if (time && kind === KIND.HOST) {
                return bytes[time.next] === SPACE && isPacket(bytes, time.next + 1, to) ? time.at : null;
            }
            return time?.at ?? null;
        }

        /**
         * Whether a comment is `need` or `signed`, which the program writes.
         * @param {number} from
         */
        isNeed(from) {
            const letter = this.bytes[from + 2];
            return (letter === 110 || letter === 115)
                && /^# (need|signed) /.test(decoder.decode(this.bytes.subarray(from, from + 9)));
        }

        /**
         * The session of the first `size` lines [default: all so far].
         * @returns {Viewer.Session}
         */
        session(size = this.log.length) {
            const { log, channels, seen } = this;
            return /** @type {Viewer.Session} */ (/** @type {unknown} */ (new Session(log, {
                size, channels, channelCount: seen.size, transactions: log.transactions.length,
            })));
        }

        /**
         * The session of the lines so far, while further lines are read. Its transactions are not known yet.
         * @returns {Viewer.Session}
         */
        soFar() {
            return /** @type {Viewer.Session} */ (/** @type {unknown} */ (
                new Session(this.log, { size: this.log.length, channels: [], channelCount: 0, transactions: 0 })));
        }
    }

    /** A session: the valid lines of a log, the number of transactions, and the first invalid line, if any. */
    class Session {
        /**
         * `channels` has at most MAX_CHANNELS channels; `channelCount` is the number of all channels in the log.
         * @param {Viewer.Log} log
         * @param {Pick<Viewer.Session, "size" | "channels" | "channelCount" | "transactions">} counts
         */
        constructor(log, { size, channels, channelCount, transactions }) {
            Object.assign(this, { log, size, channels, channelCount, transactions, invalidLine: null });
        }

        /**
         * Number of lines.
         * @this {Viewer.Session}
         */
        get length() {
            return this.size + (this.invalidLine ? 1 : 0);
        }

        /**
         * @param {number} place
         * @returns {Viewer.Line}
         * @this {Viewer.Session}
         */
        line(place) {
            return place < this.size ? this.log.line(place) : /** @type {Viewer.Line} */ (this.invalidLine);
        }

        /**
         * A range of lines.
         * @param {number} from
         * @param {number} to
         * @this {Viewer.Session}
         */
        slice(from, to) {
            const end = Math.min(to, this.length);
            return Array.from({ length: Math.max(0, end - from) }, (_, at) => this.line(from + at));
        }

        /**
         * @param {number} place
         * @this {Viewer.Session}
         */
        transaction(place) {
            return new Transaction(this.log, place);
        }

        /**
         * The index of the transaction of a line, or -1.
         * @param {number} place
         * @this {Viewer.Session}
         */
        transactionAt(place) {
            return place < this.size && this.transactions ? this.log.owners.values[place] - 1 : -1;
        }

        /**
         * The index of a transaction's first line.
         * @param {number} transaction
         * @this {Viewer.Session}
         */
        startOf(transaction) {
            return this.log.transactions.first.values[transaction];
        }

        /**
         * The kind of a line. The invalid line has the kind of a comment.
         * @param {number} place
         * @this {Viewer.Session}
         */
        kindAt(place) {
            return place < this.size ? this.log.kinds.values[place] : KIND.COMMENT;
        }

        /**
         * Whether a line is an input.
         * @param {number} place
         * @this {Viewer.Session}
         */
        isInput(place) {
            const kind = this.kindAt(place);
            return kind <= KIND.SIGNATURE && kind !== KIND.KEY;
        }

        /**
         * The first matching index from `from` on, or -1.
         * @param {(place: number) => boolean} isWanted
         * @this {Viewer.Session}
         */
        find(isWanted, from = 0) {
            for (let place = from; place < this.length; place += 1) {
                if (isWanted(place)) {
                    return place;
                }
            }
            return -1;
        }
    }

    /**
     * Reads a log at once, with its transactions.
     * @param {Uint8Array} bytes
     * @param {Viewer.Core} core
     */
    const readSession = (bytes, core) => {
        const reader = new LineReader(bytes);
        reader.readUntil(Infinity);
        new TableFiller(reader.log, core.run("transactions", bytes).text).fillUntil(Infinity);
        return reader.session();
    };

    globalThis.hidlogSession = { LineReader, readSession, BROADCAST };
})();
