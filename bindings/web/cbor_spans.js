// Finds the byte ranges of the parts of a CBOR item, so that a member can be highlighted. Supports the items that CTAP2
// allows: items of definite length without tags. Sets `globalThis.hidlogSpans`.
"use strict";

(() => {
    const { toHex } = globalThis.hidlogBytes;
    const MAX_DEPTH = 8;
    const [UNSIGNED, NEGATIVE, BYTES, TEXT, ARRAY, MAP, TAG] = Array(7).keys();
    const SIMPLE_VALUE_TEXTS = new Map([[20, "false"], [21, "true"], [22, "null"], [23, "undefined"]]);

    /** Reads CBOR items, starting at an offset. */
    class SpanReader {
        /**
         * @param {Uint8Array} bytes
         * @param {number} at
         */
        constructor(bytes, at) {
            this.bytes = bytes;
            this.at = at;
        }

        /** @param {number} count */
        skip(count) {
            this.at += count;
            if (this.at > this.bytes.length) {
                throw new RangeError(`unexpected end of the CBOR item at byte ${this.bytes.length}`);
            }
        }

        /** @param {number} info */
        argument(info) {
            if (info > 27) {
                throw new RangeError(`unsupported CBOR additional information ${info} at byte ${this.at - 1}`);
            }
            const from = this.at;
            this.skip(info < 24 ? 0 : 1 << (info - 24));
            return info < 24 ? info : this.bytes.subarray(from, this.at).reduce((sum, byte) => sum * 256 + byte, 0);
        }

        /**
         * @param {number} [depth]
         * @returns {Viewer.Span}
         */
        item(depth = 0) {
            const from = this.at;
            this.skip(1);
            const [major, info] = [this.bytes[from] >> 5, this.bytes[from] & 31];
            const argument = this.argument(info);
            const content = this.at;
            const hasItems = major === ARRAY || major === MAP;
            if (major === TAG || depth > MAX_DEPTH || (hasItems && argument > this.bytes.length)) {
                throw new RangeError(`unsupported CBOR item at byte ${from}`);
            }
            this.skip(major === BYTES || major === TEXT ? argument : 0);
            const read = () => (major === MAP ? this.entry(depth) : this.item(depth + 1));
            const inner = hasItems ? Array.from({ length: argument }, read) : [];
            return { major, argument, from, content, to: this.at, inner };
        }

        /**
         * @param {number} depth
         * @returns {Viewer.Span}
         */
        entry(depth) {
            const key = this.item(depth + 1);
            return { ...this.item(depth + 1), key: formatItem(this.bytes, key), keyFrom: key.from };
        }
    }

    /**
     * An item in diagnostic notation (RFC 8949, section 8), or the number of entries of an array or map.
     * @param {Uint8Array} bytes
     * @param {Viewer.Span} span
     */
    const formatItem = (bytes, { major, argument, content, to }) => {
        const inside = bytes.subarray(content, to);
        switch (major) {
            case UNSIGNED:
                return String(argument);
            case NEGATIVE:
                return String(-1 - argument);
            case BYTES:
                return `h'${toHex(inside)}'`;
            case TEXT:
                return JSON.stringify(new TextDecoder().decode(inside));
            case ARRAY:
                return `array of ${argument}`;
            case MAP:
                return `map of ${argument}`;
            default:
                return SIMPLE_VALUE_TEXTS.get(argument) ?? `simple(${argument})`;
        }
    };

    /**
     * The item at an offset, or null if it is truncated, nested too deeply, tagged or of indefinite length.
     * @param {Uint8Array} bytes @param {number} at @returns {Viewer.Span | null}
     */
    const findSpans = (bytes, at) => {
        try {
            return new SpanReader(bytes, at).item();
        } catch (error) {
            if (error instanceof RangeError) {
                return null;
            }
            throw error;
        }
    };

    globalThis.hidlogSpans = { findSpans, formatItem, KIND: { BYTES, ARRAY, MAP } };
})();
