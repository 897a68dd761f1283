// Bytes and their encodings as text.

const HEX_PAIRS = Array.from({ length: 256 }, (_, byte) => byte.toString(16).padStart(2, "0"));

/** @param {Uint8Array} bytes */
export const toHex = (bytes) => {
    let text = "";
    for (const byte of bytes) {
        text += HEX_PAIRS[byte];
    }
    return text;
};

/**
 * The value of a hex digit, by its character code.
 * @param {number} code
 */
const parseHexDigit = (code) => (code < 58 ? code - 48 : (code | 32) - 87);

/** @param {string} text */
export const fromHex = (text) => {
    const bytes = new Uint8Array(text.length >> 1);
    for (let at = 0; at < bytes.length; at += 1) {
        bytes[at] = parseHexDigit(text.charCodeAt(2 * at)) * 16 + parseHexDigit(text.charCodeAt(2 * at + 1));
    }
    return bytes;
};

/**
 * Encodes text as UTF-8. Most texts are ASCII, for which TextEncoder is slower.
 * @param {string} text
 */
export const encodeUtf8 = (text) => {
    const bytes = new Uint8Array(text.length);
    for (let at = 0; at < text.length; at += 1) {
        bytes[at] = text.charCodeAt(at);
        if (text.charCodeAt(at) > 127) {
            return new TextEncoder().encode(text);
        }
    }
    return bytes;
};

/**
 * Decodes UTF-8. ASCII is decoded without TextDecoder, which jsdom lacks.
 * @param {Uint8Array} bytes
 */
export const decodeUtf8 = (bytes) => {
    let text = "";
    for (const byte of bytes) {
        if (byte > 127) {
            return new TextDecoder("utf-8", { fatal: true }).decode(bytes);
        }
        text += String.fromCharCode(byte);
    }
    return text;
};

/** @param {string} text base64 */
export const fromBase64 = (text) => {
    const letters = atob(text);
    const bytes = new Uint8Array(letters.length);
    for (let at = 0; at < bytes.length; at += 1) {
        bytes[at] = letters.charCodeAt(at);
    }
    return bytes;
};

/** @param {Uint8Array} bytes */
export const toBase64 = (bytes) => {
    let text = "";
    for (const byte of bytes) {
        text += String.fromCharCode(byte);
    }
    return btoa(text);
};

/** @param {Uint8Array} bytes */
export const toBase64url = (bytes) =>
    toBase64(bytes).replaceAll("+", "-").replaceAll("/", "_").replaceAll("=", "");

/**
 * Decodes base64url. Returns null if the text is invalid.
 * @param {string} text
 */
export const fromBase64url = (text) => {
    if (!/^[\w-]*$/.test(text) || text.length % 4 === 1) {
        return null;
    }
    return fromBase64(text.replaceAll("-", "+").replaceAll("_", "/"));
};

/**
 * Decodes base64url that this code has encoded or checked.
 * @param {string} text
 */
export const decodeBase64url = (text) => /** @type {Uint8Array} */ (fromBase64url(text));

/** @param {unknown} value */
export const isBuffer = (value) => ArrayBuffer.isView(value) || getTypeName(value) === "ArrayBuffer";

/**
 * The type name of a platform object, which may be from another realm.
 * @param {unknown} value
 */
export const getTypeName = (value) => Object.prototype.toString.call(value).slice(8, -1);

/**
 * Copies the bytes of an ArrayBuffer or a view.
 * @param {any} source @returns {Uint8Array}
 */
export const copyBytes = (source) =>
    ArrayBuffer.isView(source)
        ? new Uint8Array(source.buffer.slice(source.byteOffset, source.byteOffset + source.byteLength))
        : new Uint8Array(source.slice(0));

/** @param {Uint8Array} bytes @returns {ArrayBuffer} */
export const toArrayBuffer = (bytes) => copyBytes(bytes).buffer;

/** @param {Uint8Array} one @param {Uint8Array} other */
export const equalBytes = (one, other) => one.length === other.length && one.every((byte, at) => byte === other[at]);

/** @param {...Uint8Array} parts */
export const concatBytes = (...parts) => {
    const bytes = new Uint8Array(parts.reduce((sum, part) => sum + part.length, 0));
    let at = 0;
    for (const part of parts) {
        bytes.set(part, at);
        at += part.length;
    }
    return bytes;
};
