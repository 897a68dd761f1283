// Changes the core's responses: the authenticator data, the attestation statement or the signature. The responses are
// canonical CBOR, with the authenticator data in a byte string (CTAP 2.1, sections 6.1 and 6.2). Also formats status
// codes.
import { concatBytes, encodeUtf8, equalBytes } from "./bytes.js";
import { STATUSES } from "./standard.js";

const BYTES = 2;
const TEXT = 3;
const ARRAY = 4;
const MAP = 5;

/**
 * The head of a CBOR item.
 * @param {number} major @param {number} argument below 2^16
 */
export const encodeHead = (major, argument) => {
    const first = major << 5;
    if (argument < 24) {
        return Uint8Array.of(first | argument);
    }
    return argument < 256 ? Uint8Array.of(first | 24, argument) : Uint8Array.of(first | 25, argument >> 8, argument & 255);
};

/** @param {Uint8Array} bytes */
export const encodeBytes = (bytes) => concatBytes(encodeHead(BYTES, bytes.length), bytes);

/** @param {string} text */
export const encodeText = (text) => concatBytes(encodeHead(TEXT, encodeUtf8(text).length), encodeUtf8(text));

/** @param {number} number */
export const encodeNumber = (number) => (number < 0 ? encodeHead(1, -1 - number) : encodeHead(0, number));

/** @param {Uint8Array[]} items encoded ones */
export const encodeArray = (items) => concatBytes(encodeHead(ARRAY, items.length), ...items);

/** @param {Uint8Array[][]} members encoded keys and values, in canonical order */
export const encodeMap = (members) => concatBytes(encodeHead(MAP, members.length), ...members.flat());

/**
 * @typedef {object} Change
 * @property {Uint8Array} original the authenticator data of the core
 * @property {Uint8Array} data what replaces it
 * @property {string[]} faults descriptions of the changes that injected faults made
 * @property {{ format: string, members: Uint8Array }} [statement] the attestation of a registration, encoded
 * @property {Uint8Array} [signature] the signature of a sign-in
 */

/**
 * The index of `part` in `bytes`, or -1.
 * @param {Uint8Array} bytes @param {Uint8Array} part
 */
const findBytes = (bytes, part) => {
    for (let at = 0; at + part.length <= bytes.length; at += 1) {
        if (equalBytes(bytes.subarray(at, at + part.length), part)) {
            return at;
        }
    }
    return -1;
};

/**
 * A registration's response: fmt, authData, attStmt.
 * @param {Change} change
 */
const encodeRegistration = ({ data, statement }) => {
    const { format, members } = /** @type {{ format: string, members: Uint8Array }} */ (statement);
    const map = encodeMap([[encodeNumber(1), encodeText(format)], [encodeNumber(2), encodeBytes(data)], [encodeNumber(3), members]]);
    return concatBytes(Uint8Array.of(0), map);
};

/**
 * Applies a change to a response. A response without the authenticator data, such as a status, is returned unchanged.
 * @param {Uint8Array} response @param {Change} change
 */
export const changeResponse = (response, change) => {
    const { original, data, statement, signature } = change;
    const at = findBytes(response, original);
    if (at < 0) {
        return response;
    }
    if (statement) {
        return encodeRegistration(change);
    }
    const front = response.subarray(0, at - encodeHead(BYTES, original.length).length);
    const rest = response.subarray(at + original.length);
    if (!signature) {
        return concatBytes(front, encodeBytes(data), rest);
    }
    // The member with the key 3: a byte string of 24 to 72 bytes, whose length is in its second byte.
    const [key, , length] = rest;
    return concatBytes(front, encodeBytes(data), Uint8Array.of(key), encodeBytes(signature), rest.subarray(3 + length));
};

/** @type {Record<number, string>} */
const STATUS_NAMES = STATUSES;

/**
 * A status code with its name (CTAP 2.1, section 8.2).
 * @param {number} status
 */
export const formatStatus = (status) =>
    `0x${status.toString(16).padStart(2, "0")} ${STATUS_NAMES[status] ?? ""}`.trimEnd();
