// The data of credentials that is stored outside the verified core: IDs that do not have 32 bytes, backup flags and
// extensions.
import { decodeBase64url, toBase64url } from "./bytes.js";

export const CORE_ID_BYTES = 32;
export const MAX_ID_BYTES = 1023;
// Maximum length in bytes of an ID that the key does not know. In requests, a longer ID is replaced by its hash, so
// that 64 IDs fit into a message.
const MAX_SENT_ID_BYTES = 64;
// Flags of the authenticator data (WebAuthn Level 3, section 6.1).
const FLAGS = { UV: 0x04, BE: 0x08, BS: 0x10 };
export const { UV, BE, BS } = FLAGS;

/** @typedef {{ eligibility: boolean, state: boolean }} Backup the flags BE and BS */

/** @type {Backup} */
const NO_BACKUP = { eligibility: false, state: false };

/**
 * The names of flags, comma-separated.
 * @param {number} flags
 */
export const formatFlags = (flags) =>
    Object.entries(FLAGS).filter(([, bit]) => flags & bit).map(([name]) => name).join(", ");

/** IDs, backup flags and extension data, by the core's IDs in base64url. */
export class CredentialMetadata {
    /** @type {Map<string, string>} */
    #pages = new Map();
    /** @type {Map<string, string>} */
    #cores = new Map();
    /** @type {Map<string, Backup>} */
    #backups = new Map();
    /** @type {Map<string, import("./key_extensions.js").KeptExtensions>} */
    #extensions = new Map();

    /**
     * Stores the extension data of a credential.
     * @param {Uint8Array} coreId @param {import("./key_extensions.js").KeptExtensions} kept
     */
    setExtensions(coreId, kept) {
        this.#extensions.set(toBase64url(coreId), { ...kept });
    }

    /** @param {Uint8Array} coreId @returns {import("./key_extensions.js").KeptExtensions} */
    extensions(coreId) {
        return this.#extensions.get(toBase64url(coreId)) ?? {};
    }

    /**
     * Sets the ID of a credential for the page.
     * @param {Uint8Array} coreId @param {Uint8Array} pageId
     */
    setPageId(coreId, pageId) {
        const [core, page] = [coreId, pageId].map(toBase64url);
        if (core !== page) {
            this.#pages.set(core, page);
            this.#cores.set(page, core);
        }
    }

    /**
     * The ID of the credential for the page.
     * @param {Uint8Array} coreId @returns {Uint8Array}
     */
    pageId(coreId) {
        const found = this.#pages.get(toBase64url(coreId));
        return found ? decodeBase64url(found) : coreId;
    }

    /**
     * The ID of the credential in the core.
     * @param {Uint8Array} pageId @returns {Uint8Array}
     */
    coreId(pageId) {
        const found = this.#cores.get(toBase64url(pageId));
        return found ? decodeBase64url(found) : pageId;
    }

    /**
     * The credential IDs to send in a request.
     * @param {Uint8Array[]} pageIds @param {(bytes: Uint8Array) => Promise<Uint8Array>} hash SHA-256
     */
    sentIds(pageIds, hash) {
        return Promise.all(pageIds.map(this.coreId, this).map((id) => (id.length > MAX_SENT_ID_BYTES ? hash(id) : id)));
    }

    /**
     * Sets the backup flags of a credential.
     * @param {Uint8Array} coreId @param {Backup} backup
     */
    setBackup(coreId, backup) {
        this.#backups.set(toBase64url(coreId), backup);
    }

    /** @param {Uint8Array} coreId @returns {Backup} */
    backup(coreId) {
        return this.#backups.get(toBase64url(coreId)) ?? NO_BACKUP;
    }

    /**
     * The flags to set in the authenticator data of a credential.
     * @param {Uint8Array} coreId @param {boolean} isVerified
     */
    flags(coreId, isVerified) {
        const { eligibility, state } = this.backup(coreId);
        return (isVerified ? FLAGS.UV : 0) | (eligibility ? FLAGS.BE : 0) | (state ? FLAGS.BS : 0);
    }
}
