// Stores a log's lines and messages as numbers in typed arrays, since a long log has millions of lines, and an object
// for each would block the page during garbage collection. Objects for lines, messages and transactions are created on
// demand, and read these numbers and the log's bytes. Sets `globalThis.hidlogLog`.
"use strict";

(() => {
    const { CONTINUATION_DATA, INITIALIZATION_DATA, LONGEST_MESSAGE, PACKET_SIZE } = globalThis.hidlogBytes;
    const INITIAL_LENGTH = 1024;
    // Number of hexadecimal digits of a packet.
    const PACKET_DIGITS = 2 * PACKET_SIZE;
    // Numbers with more digits may not be exact.
    const MAX_EXACT_DIGITS = 15;
    const KIND_NAMES = ["host", "key", "tick", "presence", "new key", "signature", "comment", "need", "count", "empty"];
    const [HOST, KEY, TICK, PRESENCE, NEW_KEY, SIGNATURE, COMMENT, NEED, COUNT, EMPTY] = KIND_NAMES.keys();
    const END_NAMES = ["", "answered", "refused", "timed out", "replaced", "dropped", "forgotten", "unknown"];
    const [, ANSWERED, REFUSED, TIMED_OUT, REPLACED, DROPPED, FORGOTTEN, UNKNOWN] = END_NAMES.keys();
    const decoder = new TextDecoder("utf-8", { ignoreBOM: true });
    const NEWLINE = 10;

    /** The value of a hex digit by character code; 16 or more for others. */
    const hexDigitValues = Uint8Array.from({ length: 256 }, (_, code) => {
        const value = parseInt(String.fromCharCode(code), 16);
        return Number.isNaN(value) ? 99 : value;
    });

    /** A growable typed array. */
    class Column {
        /** @param {Viewer.NumbersConstructor} Type */
        constructor(Type) {
            this.values = new Type(INITIAL_LENGTH);
            this.length = 0;
        }

        /** @param {number} value */
        push(value) {
            if (this.length === this.values.length) {
                const more = new (/** @type {Viewer.NumbersConstructor} */ (this.values.constructor))(2 * this.length);
                more.set(this.values);
                this.values = more;
            }
            this.values[this.length] = value;
            this.length += 1;
        }
    }

    /** A table of numbers with named columns. */
    class Table {
        /** @param {Record<string, Viewer.NumbersConstructor>} types */
        constructor(types) {
            Object.entries(types).forEach(([name, Type]) => {
                /** @type {Record<string, any>} */ (this)[name] = new Column(Type);
            });
            /** @type {Viewer.Column[]} */
            this.columns = Object.values(this);
            this.length = 0;
        }

        /** Adds a row of zeros, and returns its index. */
        add() {
            this.columns.forEach((column) => column.push(0));
            this.length += 1;
            return this.length - 1;
        }
    }

    /**
     * Reads a decimal number at an offset. Returns the value and the offset after the number, or null.
     * @param {Uint8Array} bytes
     * @param {number} from
     * @param {number} to
     */
    const readTimestamp = (bytes, from, to) => {
        let [at, value] = [from, 0];
        while (at < to && bytes[at] >= 48 && bytes[at] <= 57) {
            value = value * 10 + bytes[at] - 48;
            at += 1;
        }
        if (at === from) {
            return null;
        }
        const isExact = at - from <= MAX_EXACT_DIGITS;
        return { at: isExact ? value : BigInt(decoder.decode(bytes.subarray(from, at))), next: at };
    };

    /** A line of the log. */
    class Line {
        constructor(/** @type {Viewer.Log} */ log, /** @type {number} */ place) {
            this.log = log;
            this.place = place;
        }

        get number() {
            return this.place + 1;
        }

        get from() {
            return this.log.starts.values[this.place];
        }

        get to() {
            return this.log.endOf(this.place);
        }

        get bytes() {
            return this.log.bytes;
        }

        get text() {
            return decoder.decode(this.bytes.subarray(this.from, this.to));
        }

        get kind() {
            return KIND_NAMES[this.log.kinds.values[this.place]];
        }

        /** The timestamp of this line, or null. */
        get at() {
            const kind = this.log.kinds.values[this.place];
            return kind === HOST || (kind >= TICK && kind <= SIGNATURE) ? this.log.timestampAt(this.place) : null;
        }

        /** The latest timestamp up to this line. */
        get timeMs() {
            const latest = this.log.latest.values[this.place];
            return latest ? this.log.timestampAt(latest - 1) : 0;
        }

        get isPacket() {
            return this.log.kinds.values[this.place] <= KEY;
        }

        get channel() {
            return this.isPacket ? this.log.channelAt(this.place).toString(16).padStart(8, "0") : null;
        }

        /**
         * A byte of the packet.
         * @param {number} place
         */
        byte(place) {
            return this.log.byte(this.place, place);
        }

        /** The message of this packet, or null. */
        get message() {
            return this.log.message(this.log.messages.values[this.place]);
        }

        /** The transaction to which this line belongs, or null. */
        get transaction() {
            const owner = this.log.owners.values[this.place];
            return owner ? new Transaction(this.log, owner - 1) : null;
        }

        get says() {
            const { text, kind } = this;
            if (kind === "need") {
                return text.slice(2);
            }
            if (kind === "comment" || kind === "count") {
                return text.slice(1).trim();
            }
            const word = text.split(" ")[2];
            return { tick: "time passes", presence: word, host: "", key: "", empty: "" }[kind]
                ?? (word === "no" ? "no" : "yes");
        }
    }

    // Only lines that replace ignored inputs have the first two: the replaced line, and its text. Only an invalid line
    // is a fault.
    Object.assign(Line.prototype, { source: null, replaced: undefined, isFault: false });

    /** A line in the output of `hidlog quiet` that replaces an ignored input. */
    class QuietLine extends Line {
        get source() {
            return /** @type {Viewer.Log} */ (this.log.before).line(
                /** @type {number} */ (this.log.sources.get(this.place)));
        }

        get replaced() {
            return this.source.text;
        }

        get kind() {
            return this.source.kind;
        }

        get channel() {
            return this.source.channel;
        }

        get message() {
            return this.source.message;
        }

        get says() {
            return this.source.says;
        }
    }

    /**
     * A message.
     * @template {Viewer.MessageTable} Rows
     */
    class Message {
        /**
         * @param {Viewer.Log} log
         * @param {Rows} table
         * @param {number} place
         */
        constructor(log, table, place) {
            this.log = log;
            this.table = table;
            this.place = place;
            this.start = table.first.values[place];
            this.command = log.byte(this.start, 4) & 0x7f;
            this.length = log.byte(this.start, 5) * 256 + log.byte(this.start, 6);
        }

        /** Number of continuation packets so far: the next sequence number. */
        get next() {
            return this.table.more.values[this.place];
        }

        get received() {
            return Math.min(this.length, INITIALIZATION_DATA + CONTINUATION_DATA * this.next);
        }

        get isWhole() {
            return this.received === this.length && this.length <= LONGEST_MESSAGE;
        }

        /**
         * A data byte of the initialization packet.
         * @param {number} place
         */
        byteAt(place) {
            return this.log.byte(this.start, 7 + place);
        }

        get line() {
            return this.log.line(this.start);
        }

        get channel() {
            return this.line.channel;
        }

        /**
         * The lines of the message's packets.
         * @returns {Viewer.Line[]}
         */
        get lines() {
            const { log, id } = /** @type {this & { id: number }} */ (this);
            const all = [];
            for (let at = this.start; at <= this.table.last.values[this.place]; at += 1) {
                if (log.messages.values[at] === id) {
                    all.push(log.line(at));
                }
            }
            return all;
        }
    }

    /**
     * A message of a host, and how the transaction ended.
     * @extends {Message<Viewer.TransactionTable>}
     */
    class Transaction extends Message {
        constructor(/** @type {Viewer.Log} */ log, /** @type {number} */ place) {
            super(log, log.transactions, place);
        }

        get id() {
            return this.place + 1;
        }

        get end() {
            return END_NAMES[this.table.end.values[this.place]] || (this.isWhole ? "unanswered" : "not whole");
        }

        /** The line that ended the transaction, or null. */
        get by() {
            const by = this.table.by.values[this.place];
            return by ? this.log.line(by - 1) : null;
        }

        /** The code of the ERROR packet that ended the transaction, or null. */
        get code() {
            const code = this.table.code.values[this.place];
            return code ? code - 1 : null;
        }

        /** @returns {Viewer.KeyMessage | null} */
        get answer() {
            const answer = this.table.answer.values[this.place];
            return answer ? new KeyMessage(this.log, answer - 1) : null;
        }

        /** Number of lines that belong to the transaction. */
        get count() {
            return this.table.count.values[this.place];
        }

        /**
         * All lines that belong to the transaction.
         * @returns {Viewer.Line[]}
         */
        get all() {
            const { log, id } = this;
            const all = [];
            for (let at = this.start; at < this.table.until.values[this.place]; at += 1) {
                if (log.owners.values[at] === id) {
                    all.push(log.line(at));
                }
            }
            return all;
        }
    }

    /**
     * A message of the key: a response, KEEPALIVE or ERROR.
     * @extends {Message<Viewer.AnswerTable>}
     */
    class KeyMessage extends Message {
        constructor(/** @type {Viewer.Log} */ log, /** @type {number} */ place) {
            super(log, log.answers, place);
        }

        get id() {
            return -this.place - 1;
        }

        /**
         * The transaction to which the message responds, or null.
         * @returns {Viewer.Transaction | null}
         */
        get asks() {
            const asks = this.table.asks.values[this.place];
            return asks ? new Transaction(this.log, asks - 1) : null;
        }
    }

    /**
     * The part of a log that has been read. In columns, lines, transactions and responses are numbered from 1; 0 means
     * none.
     */
    class Log {
        /** @param {Uint8Array} bytes */
        constructor(bytes) {
            this.bytes = bytes;
            // For each line: the start, the kind, the line with the latest timestamp so far, the transaction, and for a
            // packet the message (> 0 for a transaction, < 0 for a response).
            this.starts = new Column(Uint32Array);
            this.kinds = new Column(Uint8Array);
            this.latest = new Column(Uint32Array);
            this.owners = new Column(Uint32Array);
            this.messages = new Column(Int32Array);
            this.end = 0;
            const packets = { first: Uint32Array, last: Uint32Array, more: Uint8Array };
            this.transactions = /** @type {Viewer.TransactionTable} */ (/** @type {unknown} */ (new Table({
                ...packets, end: Uint8Array, by: Uint32Array, code: Uint16Array, answer: Uint32Array, count: Uint32Array,
                until: Uint32Array,
            })));
            this.answers = /** @type {Viewer.AnswerTable} */ (
                /** @type {unknown} */ (new Table({ ...packets, asks: Uint32Array })));
            // The core's explanations of the lines, once requested (explain.js).
            /** @type {Viewer.Explained | null} */
            this.explained = null;
            /** @type {Map<number, number>} */
            this.sources = new Map();
            /** @type {Viewer.Log | null} */
            this.before = null;
        }

        get length() {
            return this.starts.length;
        }

        /**
         * Adds a line.
         * @param {number} kind
         * @param {number} from
         * @param {number} to
         */
        add(kind, from, to) {
            this.starts.push(from);
            this.kinds.push(kind);
            this.latest.push(0);
            this.owners.push(0);
            this.messages.push(0);
            this.end = to;
        }

        /**
         * @param {number} place
         * @returns {Viewer.Line}
         */
        line(place) {
            return /** @type {Viewer.Line} */ (/** @type {unknown} */ (
                this.sources.has(place) ? new QuietLine(this, place) : new Line(this, place)));
        }

        /**
         * @param {number} id
         * @returns {Viewer.Message | null}
         */
        message(id) {
            if (!id) {
                return null;
            }
            return id > 0 ? new Transaction(this, id - 1) : new KeyMessage(this, -id - 1);
        }

        /**
         * The offset at which a line ends, without the newline.
         * @param {number} place
         */
        endOf(place) {
            return place + 1 < this.length ? this.starts.values[place + 1] - 1 : this.end;
        }

        /** @param {number} place */
        timestampAt(place) {
            return /** @type {{ at: Viewer.Milliseconds }} */ (
                readTimestamp(this.bytes, this.starts.values[place] + 2, this.endOf(place))).at;
        }

        /**
         * A byte of a packet, whose hex digits end the line.
         * @param {number} line
         * @param {number} place
         */
        byte(line, place) {
            const at = this.endOf(line) - PACKET_DIGITS + 2 * place;
            return hexDigitValues[this.bytes[at]] * 16 + hexDigitValues[this.bytes[at + 1]];
        }

        /** @param {number} line */
        channelAt(line) {
            return this.byte(line, 0) * 2 ** 24 + this.byte(line, 1) * 65536 + this.byte(line, 2) * 256 + this.byte(line, 3);
        }
    }

    /**
     * The bytes of the first lines of a log.
     * @param {Uint8Array} bytes
     * @param {number} count
     */
    const takeFirstLines = (bytes, count) => {
        let [end, found] = [0, 0];
        while (found < count && end < bytes.length) {
            const next = bytes.indexOf(NEWLINE, end);
            end = next < 0 ? bytes.length : next + 1;
            found += 1;
        }
        return bytes.subarray(0, end);
    };

    // Number of bytes to decode at once.
    const TEXT_BYTES = 1024 * 1024;

    /**
     * The lines of a log as texts of about a megabyte, with the number of lines before each.
     * @param {Uint8Array} bytes
     */
    const iterateTexts = function* iterating(bytes) {
        let [from, before] = [0, 0];
        while (from < bytes.length) {
            const end = bytes.indexOf(NEWLINE, Math.min(from + TEXT_BYTES, bytes.length) - 1);
            const part = bytes.subarray(from, end < 0 ? bytes.length : end + 1);
            const text = decoder.decode(part);
            yield { text, before, share: from / bytes.length };
            before += text.split("\n").length - 1;
            from += part.length;
        }
    };

    /**
     * Whether a pattern with the flag m occurs in a line of a log.
     * @param {Uint8Array} bytes
     * @param {RegExp} pattern
     */
    const hasMatch = (bytes, pattern) => {
        for (const { text } of iterateTexts(bytes)) {
            if (pattern.test(text)) {
                return true;
            }
        }
        return false;
    };

    globalThis.hidlogLog = {
        NEWLINE, takeFirstLines, hasMatch, iterateTexts, Log, KeyMessage, Column, Transaction, hexDigitValues, readTimestamp, PACKET_DIGITS,
        KIND: { HOST, KEY, TICK, PRESENCE, NEW_KEY, SIGNATURE, COMMENT, NEED, COUNT, EMPTY },
        END: { ANSWERED, REFUSED, TIMED_OUT, REPLACED, DROPPED, FORGOTTEN, UNKNOWN },
    };
})();
