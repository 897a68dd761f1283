// Algorithms of credentials other than the core's ES256: COSE keys (RFC 9053) and signatures, with WebCrypto.
import { concatBytes, decodeBase64url, equalBytes, fromHex } from "./bytes.js";
import { encodeBytes, encodeMap, encodeNumber } from "./ctap_response.js";

export const ES256 = -7;
const EDDSA = -8;
const RS256 = -257;
export const ALGORITHMS = [ES256, EDDSA, RS256];

const RSA_PARAMETERS = {
    name: "RSASSA-PKCS1-v1_5", modulusLength: 2048, publicExponent: Uint8Array.of(1, 0, 1), hash: "SHA-256",
};
/** @type {Record<number, any>} of WebCrypto: for keys and signatures */
const PARAMETERS = { [EDDSA]: { name: "Ed25519" }, [RS256]: RSA_PARAMETERS };
/** @type {Record<number, string>} */
const NAMES = { [EDDSA]: "EdDSA", [RS256]: "RS256" };

/**
 * The object identifiers in AlgorithmIdentifier, as DER (RFC 8410, RFC 8017).
 * @type {[number, Uint8Array][]}
 */
const OBJECT_IDENTIFIERS = [[EDDSA, fromHex("06032b6570")], [RS256, fromHex("06092a864886f70d010101")]];
// Number of bytes at the start of PKCS #8 or SubjectPublicKeyInfo that are searched for an object identifier. It ends
// within these bytes for each of the algorithms.
const FRONT_BYTES = 24;

/** @param {number} algorithm */
export const formatAlgorithm = (algorithm) => `${NAMES[algorithm]} (${algorithm})`;

/**
 * The algorithm of a private key in PKCS #8, or of a public key in SubjectPublicKeyInfo. ES256 unless another algorithm
 * is recognized.
 * @param {Uint8Array} der
 */
export const getAlgorithm = (der) => {
    const front = der.subarray(0, FRONT_BYTES);
    const found = OBJECT_IDENTIFIERS.find(([, identifier]) =>
        front.some((_, at) => equalBytes(front.subarray(at, at + identifier.length), identifier)));
    return found ? found[0] : ES256;
};

/**
 * Generates a key pair of another algorithm, and returns the private key.
 * @param {SubtleCrypto} subtle @param {number} algorithm @param {boolean} isExtractable
 */
export const generateOtherKey = async (subtle, algorithm, isExtractable = true) => {
    const pair = await subtle.generateKey(PARAMETERS[algorithm], isExtractable, ["sign", "verify"]);
    return /** @type {CryptoKeyPair} */ (pair).privateKey;
};

/**
 * Imports a private key of another algorithm.
 * @param {SubtleCrypto} subtle @param {number} algorithm @param {Uint8Array} pkcs8
 */
export const importOtherKey = (subtle, algorithm, pkcs8) =>
    subtle.importKey("pkcs8", pkcs8, PARAMETERS[algorithm], true, ["sign"]);

/**
 * Signs with a private key of another algorithm.
 * @param {SubtleCrypto} subtle @param {number} algorithm @param {CryptoKey} key @param {Uint8Array} bytes
 */
export const signWithAlgorithm = async (subtle, algorithm, key, bytes) =>
    new Uint8Array(await subtle.sign(PARAMETERS[algorithm].name, key, bytes));

/** @param {JsonWebKey} jwk */
const encodeOkp = ({ x }) => encodeMap([
    [encodeNumber(1), encodeNumber(1)], [encodeNumber(3), encodeNumber(EDDSA)], [encodeNumber(-1), encodeNumber(6)],
    [encodeNumber(-2), encodeBytes(decodeBase64url(/** @type {string} */ (x)))],
]);

/** @param {JsonWebKey} jwk */
const encodeRsa = ({ n, e }) => encodeMap([
    [encodeNumber(1), encodeNumber(3)], [encodeNumber(3), encodeNumber(RS256)],
    [encodeNumber(-1), encodeBytes(decodeBase64url(/** @type {string} */ (n)))],
    [encodeNumber(-2), encodeBytes(decodeBase64url(/** @type {string} */ (e)))],
]);

/**
 * The public key of a private key of another algorithm: in COSE, and as SubjectPublicKeyInfo.
 * @param {SubtleCrypto} subtle @param {number} algorithm @param {CryptoKey} key
 */
export const exportPublicKey = async (subtle, algorithm, key) => {
    const { kty, crv, x, n, e } = await subtle.exportKey("jwk", key);
    const jwk = algorithm === EDDSA ? { kty, crv, x } : { kty, n, e };
    const publicKey = await subtle.importKey("jwk", jwk, PARAMETERS[algorithm], true, ["verify"]);
    const spki = new Uint8Array(await subtle.exportKey("spki", publicKey));
    return { spki, cose: algorithm === EDDSA ? encodeOkp(jwk) : encodeRsa(jwk) };
};

/**
 * Returns authenticator data with another public key and AAGUID, which follow the flags and the signature counter.
 * @param {Uint8Array} data @param {{ aaguid: Uint8Array, cose?: Uint8Array }} parts
 */
export const replaceAttestedData = (data, { aaguid, cose }) => {
    const [aaguidAt, lengthAt, idAt] = [37, 53, 55];
    const idEnd = idAt + data[lengthAt] * 256 + data[lengthAt + 1];
    return concatBytes(data.subarray(0, aaguidAt), aaguid, data.subarray(lengthAt, idEnd), cose ?? data.subarray(idEnd));
};
