// The fields of messages: the lines of an explanation as a tree, each with the bytes of the packets that the line
// describes. Sets `globalThis.hidlogFields`.
"use strict";

(() => {
    const {
        CBOR, CONTINUATION_DATA, ERROR, INIT, INITIALIZATION_DATA, KEEPALIVE, PACKET_SIZE, fromHex, toHex,
    } = globalThis.hidlogBytes;
    const { PACKET_DIGITS } = globalThis.hidlogLog;
    const { escapeInvisible } = globalThis.hidlogShown;
    const { findSpans, formatItem, KIND: { ARRAY, BYTES, MAP } } = globalThis.hidlogSpans;
    // Bytes before a packet's data.
    const [FIRST_HEAD, NEXT_HEAD] = [PACKET_SIZE - INITIALIZATION_DATA, PACKET_SIZE - CONTINUATION_DATA];
    // The ranges of fields in authenticator data (WebAuthn, section 6.1). A credential ID follows its length.
    const AUTH_DATA_RANGES = new Map([["rpIdHash", [0, 32]], ["flags", [32, 33]], ["signCount", [33, 37]], ["aaguid", [37, 53]]]);
    const [ID_LENGTH_AT, ID_AT] = [53, 55];
    // The fields in the data of messages without CBOR (CTAP 2.1, section 11.2.9), by command and by whether the key
    // sent the message.
    /** @type {Record<string, [string, number, number][]>} */
    const DATA_FIELDS = {
        [`${INIT} host`]: [["nonce", 0, 8]],
        [`${INIT} key`]: [["nonce", 0, 8], ["channel", 8, 12], ["protocol version", 12, 13], ["device version", 13, 16],
            ["capabilities", 16, 17]],
        [`${KEEPALIVE} key`]: [["status", 0, 1]], [`${ERROR} key`]: [["code", 0, 1]],
    };
    const HEX_VALUE = /(?:^|[ '])((?:[0-9a-f]{2}){4,})(?:$|[ '])/;
    const MEMBER_NAME = /^ *(-?\d+|\w+)/;

    /** The packets of a message, and the positions of the message's data in the packets. */
    class MessageBytes {
        /**
         * @param {{ lines: { number: number, text: string }[], received: number }} message
         * @param {number} base
         */
        constructor({ lines, received }, base) {
            this.packets = lines.map(({ number, text }) => ({ number, bytes: fromHex(text.slice(-PACKET_DIGITS)) }));
            this.base = base;
            const data = this.packets.map(({ bytes }, at) => bytes.subarray(at ? NEXT_HEAD : FIRST_HEAD));
            this.data = new Uint8Array(received);
            let from = 0;
            for (const part of data) {
                this.data.set(part.subarray(0, Math.max(0, received - from)), from);
                from += part.length;
            }
        }

        /** Number of bytes in all packets. */
        get size() {
            return PACKET_SIZE * this.packets.length;
        }

        /**
         * The offset of a data byte among the bytes of all packets.
         * @param {number} at
         */
        place(at) {
            const beyond = at - INITIALIZATION_DATA;
            return this.base + (beyond < 0 ? FIRST_HEAD + at
                : PACKET_SIZE * (1 + Math.floor(beyond / CONTINUATION_DATA)) + NEXT_HEAD + beyond % CONTINUATION_DATA);
        }

        /**
         * The ranges of data bytes: one for each packet.
         * @param {number} from
         * @param {number} to
         * @returns {Viewer.ByteRange[]}
         */
        ranges(from, to) {
            /** @type {Viewer.ByteRange[]} */
            const found = [];
            for (let at = from; at < Math.min(to, this.data.length); at += 1) {
                const place = this.place(at);
                const last = found.at(-1);
                if (last && last.to === place) {
                    last.to += 1;
                } else {
                    found.push({ from: place, to: place + 1 });
                }
            }
            return found;
        }

        /**
         * A range in the head of the first packet.
         * @param {number} from
         * @param {number} to
         * @returns {Viewer.ByteRange[]}
         */
        head(from, to) {
            return [{ from: this.base + from, to: this.base + to }];
        }
    }

    /**
     * The index at which bytes occur in a range of other bytes, or -1.
     * @param {Uint8Array} bytes
     * @param {string} hex
     * @param {Viewer.ByteRange} range
     */
    const findBytes = (bytes, hex, { from, to }) => {
        const digits = toHex(bytes.subarray(from, to));
        let at = digits.indexOf(hex);
        while (at % 2 === 1) {
            at = digits.indexOf(hex, at + 1);
        }
        return at < 0 ? -1 : from + at / 2;
    };

    /**
     * A part of a message's data: the range, and the CBOR item if the part is an item.
     * @typedef {Viewer.ByteRange & { span?: Viewer.Span }} Part
     */

    /**
     * The part of authenticator data that a line describes.
     * @param {Uint8Array} data
     * @param {number} start the offset of the byte string's content
     * @param {string} name
     * @returns {Part | null}
     */
    const findInAuthData = (data, start, name) => {
        const fixed = AUTH_DATA_RANGES.get(name);
        if (fixed) {
            return { from: start + fixed[0], to: start + fixed[1] };
        }
        const idEnd = start + ID_AT + data[start + ID_LENGTH_AT] * 256 + data[start + ID_LENGTH_AT + 1];
        if (name === "credentialId") {
            return { from: start + ID_AT, to: idEnd };
        }
        const key = name === "publicKey" ? findSpans(data, idEnd) : null;
        return key && { from: key.from, to: key.to, span: key };
    };

    /**
     * The part of the data that a line describes, within the part of the enclosing line.
     * @param {Uint8Array} data
     * @param {Part} around
     * @param {string} line
     * @returns {Part | null}
     */
    const findPart = (data, around, line) => {
        const name = MEMBER_NAME.exec(line)?.[1] ?? "";
        const { span } = around;
        const entry = span?.major === MAP && span.inner.find(({ key }) => key === name || key === JSON.stringify(name));
        if (entry) {
            return { from: entry.keyFrom ?? entry.from, to: entry.to, span: entry };
        }
        const inData = span?.major === BYTES ? findInAuthData(data, span.content, name) : null;
        if (inData) {
            return inData.to <= around.to ? inData : null;
        }
        const hex = HEX_VALUE.exec(line)?.[1] ?? "";
        const at = hex ? findBytes(data, hex, around) : -1;
        return at < 0 ? null : { from: at, to: at + hex.length / 2 };
    };

    /**
     * The fields inside a CBOR item.
     * @param {MessageBytes} bytes
     * @param {Viewer.Span} span
     * @param {number} level
     * @returns {Viewer.Field[]}
     */
    const makeInnerFields = (bytes, span, level) => span.inner.map((inner, at) => ({
        text: "  ".repeat(level - 1) + escapeInvisible(`${inner.key ?? `[${at}]`}: ${formatItem(bytes.data, inner)}`),
        level,
        ranges: bytes.ranges(inner.keyFrom ?? inner.from, inner.to),
        inner: makeInnerFields(bytes, inner, level + 1),
        isOpen: false,
    }));

    /**
     * The fields of a message's head.
     * @param {MessageBytes} bytes
     * @param {Viewer.Message} message
     * @returns {Viewer.Field[]}
     */
    const makeHeadFields = (bytes, { command, length, channel, received, id }) => {
        const make = (/** @type {string} */ text, /** @type {Viewer.ByteRange[]} */ ranges) =>
            ({ text: `  ${text}`, level: 2, ranges, inner: [], isOpen: false });
        const data = DATA_FIELDS[`${command} ${id > 0 ? "host" : "key"}`] ?? [];
        return [
            make(`channel ${channel}`, bytes.head(0, 4)),
            make(`command ${(command | 0x80).toString(16)}`, bytes.head(4, 5)),
            make(`length ${length}`, bytes.head(5, FIRST_HEAD)),
            ...data.filter(([, , to]) => to <= received).map(([name, from, to]) =>
                make(`${name} ${toHex(bytes.data.subarray(from, to))}`, bytes.ranges(from, to))),
        ];
    };

    /**
     * The lines of a message's explanation as fields. `base` is the offset of the message's packets among all shown
     * packets.
     * @param {Viewer.Message} message @param {string[]} lines @param {number} base
     */
    const makeFields = (message, lines, base) => {
        const bytes = new MessageBytes(message, base);
        const isCbor = message.command === CBOR && bytes.data.length > 0;
        const span = isCbor ? findSpans(bytes.data, 1) : null;
        const whole = { from: 0, to: bytes.data.length };
        const [title = "", ...below] = lines;
        const head = { text: title, level: 1, ranges: [...bytes.head(0, FIRST_HEAD), ...isCbor ? [] : bytes.ranges(0, whole.to)] };
        /** @type {Viewer.Field[]} */
        const fields = [{ ...head, inner: makeHeadFields(bytes, message), isOpen: false }];
        /** @type {{ field: Viewer.Field, part: Part }[]} */
        const open = [];
        for (const line of below) {
            const level = 1 + Math.floor((line.length - line.trimStart().length) / 2);
            while (open.length && open[open.length - 1].field.level >= level) {
                open.pop();
            }
            const isItem = level === 1 && /^(request|answer) /.test(line);
            const around = open.at(-1)?.part ?? whole;
            const part = isItem ? { ...whole, span: span ?? undefined } : level > 1 && findPart(bytes.data, around, line);
            const ranges = part ? bytes.ranges(part.from, part.to) : [];
            const field = { text: line, level, ranges, inner: [], isOpen: true };
            (open.at(-1)?.field.inner ?? fields).push(field);
            open.push({ field, part: part || { from: 0, to: 0 } });
        }
        addInnerFields(bytes, fields, span);
        return { fields, packets: bytes.packets, size: bytes.size };
    };

    /**
     * Adds inner fields, read from the CBOR, to the members whose maps or arrays the explanation shows on one line.
     * @param {MessageBytes} bytes
     * @param {Viewer.Field[]} fields
     * @param {Viewer.Span | null} span
     */
    const addInnerFields = (bytes, fields, span) => {
        const members = fields.find(({ level, text }) => level === 1 && /^(request|answer) /.test(text))?.inner ?? [];
        for (const member of members.filter(({ inner }) => !inner.length)) {
            const name = MEMBER_NAME.exec(member.text)?.[1];
            const entry = span?.inner.find(({ key }) => key === name);
            if (entry && [ARRAY, MAP].includes(entry.major)) {
                Object.assign(member, { inner: makeInnerFields(bytes, entry, member.level + 1), isOpen: false });
            }
        }
    };

    /**
     * The fields of several messages, and their packets.
     * @param {Viewer.Message[]} messages @param {(message: Viewer.Message) => string[]} explain
     */
    const makeAllFields = (messages, explain) => {
        /** @type {{ fields: Viewer.Field[], packets: Viewer.Packet[] }} */
        const all = { fields: [], packets: [] };
        for (const message of messages) {
            const { fields, packets } = makeFields(message, explain(message), PACKET_SIZE * all.packets.length);
            all.fields.push(...fields);
            all.packets.push(...packets);
        }
        return all;
    };

    globalThis.hidlogFields = { makeAllFields };
})();
