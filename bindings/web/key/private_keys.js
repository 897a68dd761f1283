// Key pairs, generated and used with WebCrypto. A key pair of another algorithm is stored together with a P-256 key
// pair, which the core uses. The private keys are in the page's memory, so this is for tests only.
import {
    getAlgorithm, ES256, exportPublicKey, generateOtherKey, importOtherKey, signWithAlgorithm,
} from "./algorithms.js";
import { decodeBase64url, fromHex, equalBytes, concatBytes, toHex } from "./bytes.js";

const P256 = { name: "ECDSA", namedCurve: "P-256" };
const SIGNING_ALGORITHM = { name: "ECDSA", hash: "SHA-256" };
// PKCS #8 of a P-256 key: the bytes before the private key, and the bytes between the private key and the public key.
const PKCS8_HEAD = fromHex("308187020100301306072a8648ce3d020106082a8648ce3d030107046d306b0201010420");
const PKCS8_MIDDLE = fromHex("a14403420004");

/**
 * @typedef {object} PrivateKey
 * @property {CryptoKey} [key]
 * @property {Uint8Array} pkcs8
 * @property {Uint8Array} x the x-coordinate of the public key that the core has
 * @property {Uint8Array} y its y-coordinate
 * @property {number} [algorithm] if it is not ES256
 * @property {PrivateKey} [core] the core's private key, if this is of another algorithm
 */

/**
 * Appends a non-negative integer as DER.
 * @param {number[]} to @param {Uint8Array} bytes
 */
const appendDerInteger = (to, bytes) => {
    const first = bytes.findIndex((byte) => byte !== 0);
    const rest = first < 0 ? bytes.subarray(-1) : bytes.subarray(first);
    const isPadded = rest[0] >= 128;
    to.push(2, rest.length + Number(isPadded));
    if (isPadded) {
        to.push(0);
    }
    to.push(...rest);
};

/**
 * Converts an ECDSA signature of r and s, 32 bytes each, to DER.
 * @param {Uint8Array} raw
 */
const toDer = (raw) => {
    /** @type {number[]} */
    const both = [];
    appendDerInteger(both, raw.subarray(0, 32));
    appendDerInteger(both, raw.subarray(32));
    return new Uint8Array([0x30, both.length, ...both]);
};

/**
 * Whether bytes are a private key as encoded by this file.
 * @param {Uint8Array} pkcs8
 */
export const isPkcs8P256 = (pkcs8) =>
    pkcs8.length === PKCS8_HEAD.length + 32 + PKCS8_MIDDLE.length + 64
    && equalBytes(pkcs8.subarray(0, PKCS8_HEAD.length), PKCS8_HEAD)
    && equalBytes(pkcs8.subarray(PKCS8_HEAD.length + 32, -64), PKCS8_MIDDLE);

/**
 * Parses a P-256 private key that this file encoded, with the public key at the end, or a private key of another
 * algorithm, with the core's private key.
 * @param {Uint8Array} pkcs8 @param {Uint8Array} [corePkcs8]
 * @returns {PrivateKey}
 */
export const parsePrivateKey = (pkcs8, corePkcs8) => {
    if (!corePkcs8) {
        return { pkcs8, x: pkcs8.slice(-64, -32), y: pkcs8.slice(-32) };
    }
    const core = parsePrivateKey(corePkcs8);
    return { pkcs8, x: core.x, y: core.y, algorithm: getAlgorithm(pkcs8), core };
};

export class PrivateKeys {
    /** @type {Map<string, PrivateKey>} by credential ID in hex */
    #keys = new Map();

    /** @param {() => Crypto} crypto */
    constructor(crypto) {
        this.crypto = crypto;
    }

    /** @param {Uint8Array} id @returns {PrivateKey | undefined} */
    get(id) {
        return this.#keys.get(toHex(id));
    }

    /** @param {Uint8Array} id @param {PrivateKey} privateKey */
    set(id, privateKey) {
        this.#keys.set(toHex(id), privateKey);
    }

    /** @param {number} count */
    random(count) {
        return this.crypto().getRandomValues(new Uint8Array(count));
    }

    /**
     * Returns the SHA-256 hash of bytes.
     * @param {Uint8Array} bytes
     */
    async hash(bytes) {
        return new Uint8Array(await this.crypto().subtle.digest("SHA-256", bytes));
    }

    /**
     * Returns the HMAC-SHA-256 of bytes.
     * @param {Uint8Array} secret @param {Uint8Array} bytes
     */
    async hmac(secret, bytes) {
        const { subtle } = this.crypto();
        const key = await subtle.importKey("raw", secret, { name: "HMAC", hash: "SHA-256" }, false, ["sign"]);
        return new Uint8Array(await subtle.sign("HMAC", key, bytes));
    }

    /**
     * Generates a key pair.
     * @returns {Promise<PrivateKey>}
     */
    async generate() {
        const { privateKey } = await this.crypto().subtle.generateKey(P256, true, ["sign"]);
        return this.#export(privateKey);
    }

    /**
     * Generates a key pair with a new credential ID.
     * @param {number} [algorithm]
     * @returns {Promise<import("./session.js").KeyPair>}
     */
    async make(algorithm = ES256) {
        const core = await this.generate();
        const id = this.random(32);
        this.set(id, algorithm === ES256 ? core : await this.#generateOtherKey(algorithm, core));
        return { id, x: core.x, y: core.y };
    }

    /** @param {number} algorithm @param {PrivateKey} core @returns {Promise<PrivateKey>} */
    async #generateOtherKey(algorithm, core) {
        const { subtle } = this.crypto();
        const key = await generateOtherKey(subtle, algorithm);
        const pkcs8 = new Uint8Array(await subtle.exportKey("pkcs8", key));
        return { key, pkcs8, x: core.x, y: core.y, algorithm, core };
    }

    /**
     * Imports a private key in PKCS #8.
     * @param {Uint8Array} pkcs8 @returns {Promise<PrivateKey>}
     */
    async import(pkcs8) {
        const algorithm = getAlgorithm(pkcs8);
        try {
            if (algorithm === ES256) {
                return await this.#export(await this.#importKey(pkcs8));
            }
            const key = await importOtherKey(this.crypto().subtle, algorithm, pkcs8);
            const core = await this.generate();
            return { key, pkcs8, x: core.x, y: core.y, algorithm, core };
        } catch (error) {
            throw new TypeError(`privateKey must be a P-256, Ed25519 or RSA key in PKCS #8 (${error})`, { cause: error });
        }
    }

    /**
     * The public key of a private key of another algorithm.
     * @param {PrivateKey} privateKey
     */
    async exportPublicKey(privateKey) {
        const { algorithm = ES256, pkcs8 } = privateKey;
        privateKey.key ??= await importOtherKey(this.crypto().subtle, algorithm, pkcs8);
        return exportPublicKey(this.crypto().subtle, algorithm, privateKey.key);
    }

    /** @param {Uint8Array} pkcs8 @returns {Promise<CryptoKey>} */
    #importKey(pkcs8) {
        return this.crypto().subtle.importKey("pkcs8", pkcs8, P256, true, ["sign"]);
    }

    /** @param {CryptoKey} key @returns {Promise<PrivateKey>} */
    async #export(key) {
        const { d, x, y } = await this.crypto().subtle.exportKey("jwk", key);
        const [secret, left, right] = [d, x, y].map((text) => decodeBase64url(text ?? ""));
        return { key, pkcs8: concatBytes(PKCS8_HEAD, secret, PKCS8_MIDDLE, left, right), x: left, y: right };
    }

    /**
     * Signs bytes for the core. The signature is in DER.
     * @param {PrivateKey} privateKey @param {Uint8Array} toSign
     */
    async sign(privateKey, toSign) {
        const own = privateKey.core ?? privateKey;
        own.key ??= await this.#importKey(own.pkcs8);
        return this.#signWith(own.key, toSign);
    }

    /**
     * Signs bytes with a private key of another algorithm, or with a new private key if `isNewKey`.
     * @param {PrivateKey} privateKey @param {Uint8Array} toSign @param {boolean} isNewKey
     */
    async signWithAlgorithm(privateKey, toSign, isNewKey) {
        const { algorithm = ES256, pkcs8 } = privateKey;
        const { subtle } = this.crypto();
        privateKey.key ??= await importOtherKey(subtle, algorithm, pkcs8);
        const key = isNewKey ? await generateOtherKey(subtle, algorithm, false) : privateKey.key;
        return signWithAlgorithm(subtle, algorithm, key, toSign);
    }

    /**
     * Signs bytes with a P-256 private key in PKCS #8 that belongs to no credential. The signature is in DER.
     * @param {Uint8Array} pkcs8 @param {Uint8Array} toSign
     */
    async signWithPkcs8(pkcs8, toSign) {
        return this.#signWith(await this.crypto().subtle.importKey("pkcs8", pkcs8, P256, false, ["sign"]), toSign);
    }

    /**
     * Signs bytes with a new private key.
     * @param {Uint8Array} toSign
     */
    async signWithNewKey(toSign) {
        const { privateKey } = await this.crypto().subtle.generateKey(P256, false, ["sign"]);
        return this.#signWith(privateKey, toSign);
    }

    /** @param {CryptoKey} key @param {Uint8Array} toSign */
    async #signWith(key, toSign) {
        return toDer(new Uint8Array(await this.crypto().subtle.sign(SIGNING_ALGORITHM, key, toSign)));
    }
}
