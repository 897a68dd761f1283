// A registration or a sign-in of a page: the request to the key, and the credential from the key's response. The core's
// client (client.js) checks the options and writes both. This file adds the features that the client lacks.
import { ES256 } from "./algorithms.js";
import { equalBytes, fromHex, toBase64url } from "./bytes.js";
import { ClientCall, MAX_BUFFER_BYTES } from "./client.js";
import { makeNotAllowedError, markAsKeyError } from "./errors.js";
import { encodeClientData, makeCrossOriginMembers } from "./frames.js";
import { replaceCredentialIds, dropListInputs } from "./key_extensions.js";

const PUBLIC_KEY = "public-key";
const LIST_NAMES = { create: "excludeCredentials", get: "allowCredentials" };
// Maximum length of a credential ID in a request. A longer ID is sent as its hash, which is not known yet when the
// client checks the options.
const MAX_SENT_ID_BYTES = 64;
// The head of a byte string of 32 bytes, which precedes the client data hash in a request.
const HASH_HEAD = [0x58, 0x20];
// The end of a request for a discoverable credential: the key 7 with the value {"rk": true}.
const DISCOVERABLE_END = fromHex("07a162726bf5");

/** @typedef {import("./client.js").CeremonyName} CeremonyName */
/** @typedef {(bytes: Uint8Array) => Promise<Uint8Array>} Hash SHA-256 */

/**
 * Returns a request with another hash of the client data.
 * @param {Uint8Array} message @param {Uint8Array} hash
 */
const replaceHash = (message, hash) => {
    // The first match is the hash, since only heads and an RP ID, which has no spaces, may precede it.
    const at = message.findIndex((byte, index) => byte === HASH_HEAD[0] && message[index + 1] === HASH_HEAD[1]);
    const changed = message.slice();
    changed.set(hash, at + HASH_HEAD.length);
    return changed;
};

/**
 * Rejects an RP ID that is not allowed for the page's origin.
 * @param {string} rpId @param {string} origin
 */
export const checkRpId = (rpId, origin) => {
    new ClientCall("get", { challenge: "", rpId }, "optional", origin, 0).request();
};

/**
 * Returns the clientDataJSON of a cross-origin frame or with a long challenge, which the client cannot write; otherwise
 * null.
 */
const makeOwnClientData = (/** @type {Ceremony} */ { name, options: { challenge }, origin }) => {
    const members = makeCrossOriginMembers(origin);
    const isOwn = members.crossOrigin || challenge.length > MAX_BUFFER_BYTES;
    return isOwn ? encodeClientData(name, challenge, origin, members) : null;
};

export class Ceremony {
    #abilities;
    #call;
    #checked;
    #isNarrowed;
    #ownClientData;

    /**
     * Checks the options. Throws the error that a page gets if they are invalid.
     * @param {CeremonyName} name @param {any} options converted ones @param {string} mediation @param {string} origin
     * @param {import("./abilities.js").AuthenticatorOptions} abilities
     * @param {boolean} [isNarrowed] whether the list has only some of the page's credentials, and was checked before
     */
    constructor(name, options, mediation, origin, abilities, isNarrowed = false) {
        this.name = name;
        this.options = options;
        this.mediation = mediation;
        this.origin = origin;
        this.#abilities = abilities;
        this.#isNarrowed = isNarrowed;
        const listed = options[LIST_NAMES[name]] ?? [];
        /** @type {Uint8Array[]} the credential IDs of the page's list */
        this.ids = listed.filter((/** @type {any} */ { type }) => type === PUBLIC_KEY)
            .map((/** @type {any} */ { id }) => id);
        /** @type {number} the algorithm of a new credential */
        this.algorithm = name === "create" ? abilities.selectAlgorithm(options.pubKeyCredParams) : ES256;
        this.#call = this.#makeCall(this.ids.map((id) => id.subarray(0, MAX_SENT_ID_BYTES)));
        this.#checked = this.#call.request();
        this.#ownClientData = makeOwnClientData(this);
        /** @type {string} */
        this.rpId = (name === "create" ? options.rp.id : options.rpId) ?? new URL(origin).hostname;
    }

    /**
     * Creates a call of the client with these credential IDs.
     * @param {Uint8Array[]} ids
     */
    #makeCall(ids) {
        const { extensions, [LIST_NAMES[this.name]]: listed, ...rest } = this.options;
        const left = [...ids];
        const descriptors = listed?.map((/** @type {any} */ { id, type, transports }) => ({
            id: type === PUBLIC_KEY ? left.shift() : "", type,
            transports: transports?.map(this.#abilities.toClientTransport, this.#abilities),
        }));
        const options = {
            ...rest, [LIST_NAMES[this.name]]: descriptors, timeout: undefined,
            // The client rejects credProps in a sign-in, even if its value is false.
            extensions: extensions && {
                ...this.#makeInputs(extensions, ids), credProps: extensions.credProps || undefined,
            },
        };
        if (this.algorithm !== ES256) {
            options.pubKeyCredParams = [{ type: PUBLIC_KEY, alg: ES256 }];
        }
        return new ClientCall(this.name, options, this.mediation, this.origin, this.#abilities.clientAbilities);
    }

    /**
     * Extension inputs for a call with these credential IDs.
     * @param {any} extensions @param {Uint8Array[]} ids
     */
    #makeInputs(extensions, ids) {
        if (this.#isNarrowed) {
            return dropListInputs(extensions);
        }
        return extensions.prf
            ? { ...extensions, prf: replaceCredentialIds(extensions.prf, this.ids, ids) } : extensions;
    }

    /** Whether a registration requests a discoverable credential. */
    get isDiscoverable() {
        return equalBytes(this.#checked.message.subarray(-DISCOVERABLE_END.length), DISCOVERABLE_END);
    }

    /** Whether the request requires user verification. */
    get isVerified() {
        return this.#checked.isVerified;
    }

    /** The question for the user. */
    get question() {
        const { name, options, rpId } = this;
        return name === "create" ? `Register ${options.user.name} at ${rpId}?` : `Sign in at ${rpId}?`;
    }

    /** The RP ID and the user names of a new credential. */
    get label() {
        return { rpId: this.rpId, userName: this.options.user.name, userDisplayName: this.options.user.displayName };
    }

    /**
     * Returns this sign-in, limited to these credentials.
     * @param {Uint8Array[]} ids
     */
    withCredentials(ids) {
        const options = { ...this.options, allowCredentials: ids.map((id) => ({ type: PUBLIC_KEY, id })) };
        return new Ceremony(this.name, options, "optional", this.origin, this.#abilities, true);
    }

    /**
     * Returns the request, with these credential IDs of the core.
     * @param {Uint8Array[]} ids @param {Hash} hash
     */
    async encode(ids, hash) {
        if (!ids.every((id, index) => equalBytes(id, this.ids[index]))) {
            this.#call = this.#makeCall(ids);
            this.#checked = this.#call.request();
        }
        const { message } = this.#checked;
        return this.#ownClientData ? replaceHash(message, await hash(this.#ownClientData)) : message;
    }

    /**
     * Returns the page's credential as JSON.
     * @param {Uint8Array} response of the key @returns {any}
     */
    read(response) {
        const json = this.#call.response(response);
        if (this.#ownClientData) {
            json.response.clientDataJSON = toBase64url(this.#ownClientData);
        }
        this.#abilities.adapt(json);
        return json;
    }

    /**
     * Returns the error that a page gets for a status.
     * @param {import("./authenticator.js").CtapError} error
     */
    makeError({ status, message }) {
        try {
            this.#call.response(Uint8Array.of(status));
        } catch (error) {
            const { name } = /** @type {Error} */ (error);
            return markAsKeyError(
                name === "NotAllowedError" ? makeNotAllowedError(message) : /** @type {Error} */ (error),
            );
        }
        return markAsKeyError(new Error(message));
    }
}
