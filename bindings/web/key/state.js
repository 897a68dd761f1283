// The state of a key that can be saved and restored, as JSON: the credentials with signature counters and private keys,
// and the time. In storage, the state also has the recordings. A state is checked completely before it is used.
import { decodeBase64url, fromBase64url, toBase64url } from "./bytes.js";
import { checkType, addOldNames } from "./argument_checks.js";
import { checkValues, MAX_CREDENTIALS, MAX_TEXT_BYTES } from "./credentials.js";
import { CORE_ID_BYTES, MAX_ID_BYTES } from "./credential_metadata.js";
import { MAX_CRED_BLOB_BYTES } from "./key_extensions.js";
import { isPkcs8P256 } from "./private_keys.js";

const FORMAT = "hidlog web key 1";
const HASH_BYTES = 32;
const MAX_PRIVATE_KEY_BYTES = 4096;

/**
 * @typedef {import("./credentials.js").Credential & { rpIdHash: string, coreId?: string, coreKey?: string,
 *     extensions?: import("./key_extensions.js").KeptExtensions }} StoredCredential
 * `coreId` is the ID that the core has, if different; `coreKey` is the core's private key, if the credential's is of
 * another algorithm
 */
/** @typedef {{ format: string, timeMs: number, credentials: StoredCredential[] }} State */

/**
 * @param {number} timeMs
 * @param {import("./wasm_key.js").Row[]} rows
 * @param {import("./credentials.js").Credentials} credentials
 * @returns {State}
 */
export const exportState = (timeMs, rows, credentials) => addOldNames({
    format: FORMAT, timeMs,
    credentials: rows.map((row) => {
        const credential = {
            ...credentials.fromRow(row), rpIdHash: toBase64url(row.rpIdHash), ...credentials.extrasOf(row),
        };
        const coreId = toBase64url(row.id);
        return coreId === credential.credentialId ? credential : { ...credential, coreId };
    }),
}, { form: "format", moment: "timeMs" });

/**
 * The time of a state. Version 0.2 stored the time as `moment`.
 * @param {any} state @returns {number}
 */
export const readTimeMs = (state) => state.timeMs ?? state.moment;

const isObject = (/** @type {unknown} */ value) => typeof value === "object" && value !== null && !Array.isArray(value);
const isText = (/** @type {unknown} */ value) => typeof value === "string";
const isCount = (/** @type {any} */ value) => Number.isSafeInteger(value) && value >= 0;

/**
 * Decodes a member in base64url. Throws if the text is invalid or has another number of bytes.
 * @param {string} name @param {unknown} text @param {number} least @param {number} most
 */
const decodeBytes = (name, text, least, most) => {
    const bytes = isText(text) ? fromBase64url(/** @type {string} */ (text)) : null;
    const isValid = bytes !== null && bytes.length >= least && bytes.length <= most;
    checkType(name, text, isValid, `base64url of ${least === most ? least : `${least} to ${most}`} bytes`);
    return /** @type {Uint8Array} */ (bytes);
};

/** A credential of a state, with defaults for members that older states lack. */
const completeCredential = (/** @type {any} */ credential) =>
    ({ backupEligibility: false, backupState: false, coreId: credential.credentialId, ...credential });

/** @param {any} extensions the extension data of a credential */
const checkExtensions = (extensions) => {
    checkType("extensions", extensions, isObject(extensions), "an object");
    const { prf = true, credProtect = 1, largeBlob = "", credBlob = "" } = extensions;
    checkType("extensions.prf", prf, prf === true, "true");
    checkType("extensions.credProtect", credProtect, [1, 2, 3].includes(credProtect), "1 to 3");
    decodeBytes("extensions.largeBlob", largeBlob, 0, Infinity);
    decodeBytes("extensions.credBlob", credBlob, 0, MAX_CRED_BLOB_BYTES);
};

/** @param {any} credential */
const checkCredential = (credential) => {
    checkType("each credential", credential, isObject(credential), "an object");
    const kept = completeCredential(credential);
    decodeBytes("credentialId", kept.credentialId, 1, MAX_ID_BYTES);
    decodeBytes("coreId", kept.coreId, CORE_ID_BYTES, CORE_ID_BYTES);
    decodeBytes("rpIdHash", kept.rpIdHash, HASH_BYTES, HASH_BYTES);
    decodeBytes("userHandle", kept.userHandle, 0, MAX_TEXT_BYTES);
    decodeBytes("privateKey", kept.privateKey, 1, MAX_PRIVATE_KEY_BYTES);
    const coreKey = kept.coreKey ?? kept.privateKey;
    const pkcs8 = decodeBytes("coreKey", coreKey, 1, MAX_PRIVATE_KEY_BYTES);
    checkType("privateKey", coreKey, isPkcs8P256(pkcs8), "a P-256 key in PKCS #8, as from key.state()");
    checkExtensions(kept.extensions ?? {});
    checkType("rpId", kept.rpId, isText(kept.rpId), "a string");
    checkValues(kept);
};

/**
 * Rejects duplicate credentials.
 * @param {StoredCredential[]} credentials
 */
const checkDuplicates = (credentials) => {
    const areUnique = (/** @type {string[]} */ texts) => new Set(texts).size === texts.length;
    const all = credentials.map(completeCredential);
    const accounts = all.filter(({ isResidentCredential }) => isResidentCredential)
        .map(({ rpIdHash, userHandle }) => `${rpIdHash} ${userHandle}`);
    const ids = [all.map(({ credentialId }) => credentialId), all.map(({ coreId }) => coreId), accounts];
    if (!ids.every(areUnique)) {
        throw new TypeError("credentials must have different IDs, and discoverable credentials different RP IDs or user handles");
    }
};

const isRecording = (/** @type {any} */ recording) => isObject(recording) && isCount(recording.index ?? recording.part)
    && isText(recording.log) && isText(recording.snapshot) && fromBase64url(recording.snapshot) !== null;

/** @param {any} kept the recordings in storage */
const isStoredRecordings = (kept) =>
    isObject(kept) && Array.isArray(kept.ended) && [...kept.ended, kept.last].every(isRecording);

/**
 * Checks a state completely. Throws a TypeError if anything is invalid.
 * @param {any} state
 */
export const checkState = (state) => {
    const isState = isObject(state) && (state.format ?? state.form) === FORMAT && Array.isArray(state.credentials);
    checkType("state", state, isState, `a state from key.state() ("${FORMAT}")`);
    checkType("timeMs", readTimeMs(state), isCount(readTimeMs(state)), "a whole number of milliseconds");
    const { length } = state.credentials;
    checkType("credentials.length", length, length <= MAX_CREDENTIALS, `at most ${MAX_CREDENTIALS}`);
    state.credentials.forEach(checkCredential);
    checkDuplicates(state.credentials);
    const { version = 0, recordings } = state;
    checkType("version", version, isCount(version), "a whole number from 0");
    checkType("recordings", typeof recordings, recordings === undefined || isStoredRecordings(recordings), "those stored by a key");
};

/**
 * The rows of a checked state.
 * @param {State} state @param {import("./credentials.js").Credentials} credentials
 */
export const readRows = (state, credentials) =>
    state.credentials.map(completeCredential).map((credential) =>
        credentials.toRow(credential, decodeBase64url(credential.rpIdHash), decodeBase64url(credential.coreId)));
