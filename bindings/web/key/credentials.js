// Converts the credentials of a key between the form of WebDriver's virtual authenticators and the rows of the core.
import { ES256 } from "./algorithms.js";
import { copyBytes, fromBase64url, isBuffer, equalBytes, toBase64url, toHex, encodeUtf8 } from "./bytes.js";
import { checkType, checkMembers } from "./argument_checks.js";
import { CORE_ID_BYTES, MAX_ID_BYTES } from "./credential_metadata.js";
import { parsePrivateKey } from "./private_keys.js";

export const MAX_CREDENTIALS = 64;
export const MAX_TEXT_BYTES = 64;
const PROPERTIES = ["signCount", "userName", "userDisplayName", "userHandle", "isResidentCredential",
    "backupEligibility", "backupState"];
const MEMBERS = ["credentialId", "rpId", "privateKey", "largeBlob", ...PROPERTIES];

/**
 * @typedef {object} Credential bytes are base64url
 * @property {string} credentialId
 * @property {boolean} isResidentCredential
 * @property {string} rpId
 * @property {string} privateKey PKCS #8
 * @property {string} userHandle
 * @property {string} userName
 * @property {string} userDisplayName
 * @property {number} signCount
 * @property {boolean} backupEligibility
 * @property {boolean} backupState
 * @property {string} [largeBlob] of a credential with one
 */
/** @typedef {import("./wasm_key.js").Row} Row */
/** @typedef {{ rpId: string, userName: string, userDisplayName: string }} Labels */

/**
 * Encodes a name as UTF-8, truncated to the length that the core stores.
 * @param {string} text
 */
const encodeName = (text) => {
    let cut = text;
    while (encodeUtf8(cut).length > MAX_TEXT_BYTES) {
        cut = Array.from(cut).slice(0, -1).join("");
    }
    return encodeUtf8(cut);
};

/**
 * The bytes of a buffer, or of a text in base64 or base64url.
 * @param {string} name @param {any} source
 */
const toBytes = (name, source) => {
    const isText = typeof source === "string";
    const bytes = isText ? fromBase64url(source.replaceAll("+", "-").replaceAll("/", "_").replace(/=+$/, "")) : null;
    checkType(name, source, isBuffer(source) || bytes !== null, "bytes or base64url");
    return bytes ?? copyBytes(source);
};

const isSameAccount = (/** @type {Row} */ one, /** @type {Row} */ other) =>
    one.discoverable && other.discoverable && equalBytes(one.rpIdHash, other.rpIdHash)
    && equalBytes(one.userId, other.userId);

/** @param {Record<string, any>} credential */
export const checkValues = ({ signCount, userName, userDisplayName, ...booleans }) => {
    checkType("signCount", signCount, Number.isInteger(signCount) && signCount >= 0 && signCount < 2 ** 32,
        "an integer from 0 to 2^32-1");
    checkType("userName", userName, typeof userName === "string", "a string");
    checkType("userDisplayName", userDisplayName, typeof userDisplayName === "string", "a string");
    for (const name of ["isResidentCredential", "backupEligibility", "backupState"]) {
        checkType(name, booleans[name], typeof booleans[name] === "boolean", "true or false");
    }
};

export class Credentials {
    /** @type {Map<string, Labels>} RP IDs and full names, by credential ID in hex (the core has the hash of the RP ID and a shortened user name) */
    #labels = new Map();

    /**
     * @param {import("./private_keys.js").PrivateKeys} privateKeys
     * @param {import("./credential_metadata.js").CredentialMetadata} metadata
     */
    constructor(privateKeys, metadata) {
        this.privateKeys = privateKeys;
        this.metadata = metadata;
    }

    /**
     * Stores the names of a credential.
     * @param {Uint8Array} id @param {Labels} names
     */
    setLabel(id, { rpId, userName, userDisplayName }) {
        this.#labels.set(toHex(id), { rpId, userName, userDisplayName });
    }

    /**
     * The credential of a row.
     * @param {Row} row @returns {Credential}
     */
    fromRow({ id, discoverable, userId, signCount }) {
        const { eligibility, state } = this.metadata.backup(id);
        const { largeBlob } = this.metadata.extensions(id);
        const labels = /** @type {Labels} */ (this.#labels.get(toHex(id)));
        const { pkcs8 } = /** @type {import("./private_keys.js").PrivateKey} */ (this.privateKeys.get(id));
        return {
            credentialId: toBase64url(this.metadata.pageId(id)), isResidentCredential: discoverable,
            ...labels, privateKey: toBase64url(pkcs8),
            userHandle: toBase64url(userId), signCount, backupEligibility: eligibility, backupState: state,
            ...(largeBlob && { largeBlob }),
        };
    }

    /**
     * The data of a credential that a state has in addition to `fromRow`: the core's private key if the algorithm is
     * not ES256, and extension data.
     * @param {Row} row
     */
    extrasOf({ id }) {
        const core = this.privateKeys.get(id)?.core;
        const extensions = this.metadata.extensions(id);
        return {
            ...(core && { coreKey: toBase64url(core.pkcs8) }), ...(Object.keys(extensions).length && { extensions }),
        };
    }

    /**
     * Returns the row of a credential from `fromRow`. Stores the private key, the names and the metadata here, since the
     * core does not.
     * @param {import("./state.js").StoredCredential} credential @param {Uint8Array} rpIdHash @param {Uint8Array} id
     */
    toRow(credential, rpIdHash, id) {
        const pageId = toBytes("credentialId", credential.credentialId);
        const pkcs8 = toBytes("privateKey", credential.privateKey);
        const userId = toBytes("userHandle", credential.userHandle);
        const { coreKey } = credential;
        const privateKey = parsePrivateKey(pkcs8, coreKey === undefined ? undefined : toBytes("coreKey", coreKey));
        this.metadata.setExtensions(id, credential.extensions ?? {});
        this.metadata.setPageId(id, pageId);
        this.metadata.setBackup(id, { eligibility: credential.backupEligibility, state: credential.backupState });
        this.privateKeys.set(id, this.privateKeys.get(id) ?? privateKey);
        this.setLabel(id, credential);
        return {
            rpIdHash, id, x: privateKey.x, y: privateKey.y, userId, userName: encodeName(credential.userName),
            discoverable: credential.isResidentCredential, signCount: credential.signCount,
        };
    }

    /**
     * The IDs of a credential to add: the ID for the page, and the ID in the core.
     * @param {unknown} credentialId
     */
    #makeIds(credentialId) {
        const random = this.privateKeys.random(CORE_ID_BYTES);
        const pageId = credentialId === undefined ? random : toBytes("credentialId", credentialId);
        const isValid = pageId.length >= 1 && pageId.length <= MAX_ID_BYTES;
        checkType("credentialId", credentialId, isValid, `1 to ${MAX_ID_BYTES} bytes`);
        return { pageId, id: pageId.length === CORE_ID_BYTES ? pageId : random };
    }

    /**
     * Returns the row of a new credential, and stores its private key, names and metadata.
     * @param {any} credential @param {import("./abilities.js").AuthenticatorOptions} abilities
     * @returns {Promise<Row>}
     */
    async create(credential, abilities) {
        const { backup } = abilities;
        checkMembers("credential member", credential, MEMBERS);
        const { isResidentCredential = false, rpId, signCount = 0, userName = "" } = credential;
        const { userDisplayName = userName } = credential;
        const { backupEligibility = backup.eligibility, backupState = backup.state } = credential;
        checkValues({ signCount, userName, userDisplayName, isResidentCredential, backupEligibility, backupState });
        checkType("rpId", rpId, typeof rpId === "string" && rpId !== "", "an RP ID, such as example.com");
        const { pageId, id } = this.#makeIds(credential.credentialId);
        const userId = toBytes("userHandle", credential.userHandle ?? "");
        checkType("userHandle", credential.userHandle, userId.length <= MAX_TEXT_BYTES, `at most ${MAX_TEXT_BYTES} bytes`);
        const privateKey = credential.privateKey === undefined
            ? await this.privateKeys.generate()
            : await this.#importKey(credential.privateKey, abilities);
        const largeBlob = credential.largeBlob === undefined ? undefined : toBytes("largeBlob", credential.largeBlob);
        const isBlobOk = largeBlob === undefined || (abilities.supports("largeBlob") && isResidentCredential);
        checkType("largeBlob", credential.largeBlob, isBlobOk, "absent, unless the key supports largeBlob and the credential is discoverable");
        const rpIdHash = await this.privateKeys.hash(encodeUtf8(rpId));
        this.privateKeys.set(id, privateKey);
        this.metadata.setPageId(id, pageId);
        this.metadata.setBackup(id, { eligibility: backupEligibility, state: backupState });
        this.metadata.setExtensions(id, {
            ...(abilities.supports("prf") && { prf: true }), ...(largeBlob && { largeBlob: toBase64url(largeBlob) }),
        });
        this.setLabel(id, { rpId, userName, userDisplayName });
        return {
            rpIdHash, id, x: privateKey.x, y: privateKey.y, userId, userName: encodeName(userName),
            discoverable: isResidentCredential, signCount,
        };
    }

    /** @param {unknown} source @param {import("./abilities.js").AuthenticatorOptions} abilities */
    async #importKey(source, abilities) {
        const privateKey = await this.privateKeys.import(toBytes("privateKey", source));
        const { algorithm = ES256 } = privateKey;
        const isSupported = abilities.get("algorithms").includes(algorithm);
        checkType("privateKey", algorithm, isSupported, "a P-256 key, or a key of an algorithm in the option algorithms");
        return privateKey;
    }

    /**
     * Returns the rows with a further row. If it is discoverable, it replaces a discoverable one of the same account.
     * @param {Row[]} rows @param {Row} row
     */
    with(rows, row) {
        if (rows.some((other) => equalBytes(other.id, row.id))) {
            const id = toBase64url(this.metadata.pageId(row.id));
            throw new TypeError(`the key already has a credential with ID ${id}`);
        }
        const kept = rows.filter((other) => !isSameAccount(other, row));
        if (kept.length >= MAX_CREDENTIALS) {
            throw new RangeError(`the key has ${MAX_CREDENTIALS} credentials, the maximum; remove one first (0x28 KEY_STORE_FULL)`);
        }
        return [...kept, row];
    }

    /**
     * The index of a credential.
     * @param {Row[]} rows @param {any} credentialId
     */
    indexOf(rows, credentialId) {
        const id = toBytes("credentialId", credentialId);
        const index = rows.findIndex((row) => equalBytes(this.metadata.pageId(row.id), id));
        if (index < 0) {
            throw new RangeError(`no credential with ID ${toBase64url(id)}`);
        }
        return index;
    }

    /**
     * Returns the rows without a credential.
     * @param {Row[]} rows @param {any} credentialId
     */
    without(rows, credentialId) {
        const index = this.indexOf(rows, credentialId);
        return rows.filter((_, at) => at !== index);
    }

    /**
     * Returns the rows with an updated credential.
     * @param {Row[]} rows @param {any} credentialId @param {any} properties
     */
    update(rows, credentialId, properties) {
        checkMembers("credential property", properties, PROPERTIES);
        const index = this.indexOf(rows, credentialId);
        const credential = { ...this.fromRow(rows[index]), ...properties };
        checkValues(credential);
        const row = {
            ...rows[index], userId: toBytes("userHandle", credential.userHandle),
            userName: encodeName(credential.userName), discoverable: credential.isResidentCredential,
            signCount: credential.signCount,
        };
        if (rows.some((other, at) => at !== index && isSameAccount(other, row))) {
            throw new TypeError("another discoverable credential has the same RP and user");
        }
        this.setLabel(row.id, credential);
        this.metadata.setBackup(row.id, { eligibility: credential.backupEligibility, state: credential.backupState });
        return rows.map((other, at) => (at === index ? row : other));
    }
}
