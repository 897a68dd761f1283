// The WebAuthn client of the core (release/hidlog.h), which converts a page's options to requests, and responses to
// credentials. The client checks options, RP IDs and extensions as Chromium does, and keeps no state between calls.
import { decodeUtf8, encodeUtf8, toBase64url } from "./bytes.js";
import { instantiateCore } from "./core_module.js";
import { makeClientError } from "./errors.js";
import { growMemory } from "./wasm_key.js";

// Values of enum hidlog_client_ceremony.
const CEREMONIES = { create: 0, get: 1 };
const REPORT_BYTES = 16;
const MAX_OUTPUT_BYTES = 16384;
// Maximum numbers of bytes of a value for the client: of a buffer, and of a text, such as a buffer in base64url. Each
// UTF-16 unit of a text has at most three bytes in UTF-8.
export const MAX_BUFFER_BYTES = 1536;
const MAX_TEXT_BYTES = 2048;
const MAX_TEXT_UNITS = Math.floor(MAX_TEXT_BYTES / 3);
// The public suffix of the origin's host, which the client checks RP IDs with. If empty, it is the host's last label.
const PUBLIC_SUFFIX = new Uint8Array(0);

/** @typedef {"create" | "get"} CeremonyName */

/** @type {Record<string, any> | undefined} the exports of the client's own instance of the module */
let exports;

/**
 * Shortens a text to the maximum length for the client. A key stores only 64 bytes of a name.
 * @param {string} text
 */
const shorten = (text) =>
    (text.length > MAX_TEXT_UNITS && encodeUtf8(text).length > MAX_TEXT_BYTES ? text.slice(0, MAX_TEXT_UNITS) : text);

/**
 * Encodes options as JSON, with buffers in base64url. Buffers and texts that are too long for the client are shortened.
 * @param {object} options
 */
const encodeJson = (options) => encodeUtf8(JSON.stringify(options, (_, value) => {
    if (value instanceof Uint8Array) {
        return toBase64url(value.subarray(0, MAX_BUFFER_BYTES));
    }
    return typeof value === "string" ? shorten(value) : value;
}));

/**
 * Reads struct hidlog_client_report and the output after it.
 * @param {ArrayBuffer} memory @param {number} at
 */
const readResults = (memory, at) => {
    const view = new DataView(memory, at, REPORT_BYTES);
    const [isVerified, memberLength, reasonLength] = [4, 8, 12].map((offset) => view.getUint32(offset, true));
    const output = at + REPORT_BYTES;
    /** @param {number} from @param {number} length */
    const read = (from, length) => new Uint8Array(memory.slice(output + from, output + from + length));
    return { isVerified: isVerified === 1, memberLength, reasonLength, read };
};

/** A call of navigator.credentials.create or get. */
export class ClientCall {
    #ceremony;
    #inputs;
    #abilities;

    /**
     * @param {CeremonyName} ceremony @param {object} options @param {string} mediation @param {string} origin
     * @param {number} abilities of the key: flags of enum hidlog_client_ability
     */
    constructor(ceremony, options, mediation, origin, abilities) {
        this.#ceremony = CEREMONIES[ceremony];
        this.#inputs = [encodeJson(options), encodeUtf8(mediation), encodeUtf8(origin), PUBLIC_SUFFIX];
        this.#abilities = abilities;
    }

    /**
     * Calls hidlog_client_NAME, and returns its output.
     * @param {string} name @param {Uint8Array[]} more inputs
     */
    #run(name, ...more) {
        exports ??= instantiateCore();
        const at = Number(exports.__heap_base.value);
        const inputsAt = at + REPORT_BYTES + MAX_OUTPUT_BYTES;
        const all = [...this.#inputs, ...more];
        growMemory(exports.memory, inputsAt + all.reduce((sum, bytes) => sum + bytes.length, 0));
        const memory = new Uint8Array(exports.memory.buffer);
        let next = inputsAt;
        const places = all.map((bytes) => {
            memory.set(bytes, next);
            next += bytes.length;
            return [BigInt(next - bytes.length), BigInt(bytes.length)];
        });
        const results = [BigInt(at), BigInt(at + REPORT_BYTES), BigInt(MAX_OUTPUT_BYTES)];
        const [options, later] = [places.slice(0, this.#inputs.length), places.slice(this.#inputs.length)];
        const length = Number(exports[`hidlog_client_${name}`](
            this.#ceremony, ...options.flat(), this.#abilities, ...later.flat(), ...results));
        const { isVerified, memberLength, reasonLength, read } = readResults(exports.memory.buffer, at);
        if (length < 0) {
            const [member, reason] = [read(0, memberLength), read(memberLength, reasonLength)].map(decodeUtf8);
            throw makeClientError(length, member, reason);
        }
        return { bytes: read(0, length), isVerified };
    }

    /** Checks the options. Returns the request, and whether it requires user verification. */
    request() {
        const { bytes, isVerified } = this.#run("request");
        return { message: bytes, isVerified };
    }

    /**
     * Returns the credential as JSON.
     * @param {Uint8Array} response of the key: a status, and CBOR @returns {any}
     */
    response(response) {
        return JSON.parse(decodeUtf8(this.#run("response", response).bytes));
    }
}
