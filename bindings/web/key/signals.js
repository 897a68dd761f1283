// The Signal API (WebAuthn Level 3, section 5.1.10), by which a page signals which credentials and user details are
// current.
import { fromBase64url } from "./bytes.js";
import { checkRpId } from "./ceremony.js";
import { dictionary, required, sequence, text } from "./webidl.js";

/** @typedef {import("./security_key.js").SecurityKey} SecurityKey */

/**
 * The options of each method, in the order of conversion, which is alphabetical.
 * @type {Record<string, Record<string, import("./webidl.js").Member>>}
 */
const DICTIONARIES = {
    UnknownCredential: { credentialId: required(text), rpId: required(text) },
    AllAcceptedCredentials: {
        allAcceptedCredentialIds: required(sequence(text)), rpId: required(text), userId: required(text),
    },
    CurrentUserDetails: {
        displayName: required(text), name: required(text), rpId: required(text), userId: required(text),
    },
};

/** @param {string} name @param {string} value */
const checkBase64url = (name, value) => {
    if (!fromBase64url(value)) {
        throw new TypeError(`Invalid base64url string for ${name}.`);
    }
};

/**
 * Converts and checks the options of a method.
 * @param {string} name @param {unknown[]} args @param {string} origin
 */
const readOptions = (name, args, origin) => {
    const where = `Failed to execute 'signal${name}' on 'PublicKeyCredential': `;
    if (!args.length) {
        throw new TypeError(`${where}1 argument required, but only 0 present.`);
    }
    const options = dictionary(`${name}Options`, DICTIONARIES[name])(args[0], where);
    const { credentialId, userId, allAcceptedCredentialIds: accepted = [] } = options;
    const listed = accepted.map((/** @type {string} */ id) => ["allAcceptedCredentialIds", id]);
    const ids = [["credentialId", credentialId], ["userId", userId], ...listed];
    ids.filter(([, id]) => id !== undefined).forEach(([member, id]) => checkBase64url(member, id));
    checkRpId(options.rpId, origin);
    return options;
};

/** @param {any} credential @param {any} options */
const isOfUser = (credential, { rpId, userId }) => credential.isResidentCredential && credential.rpId === rpId
    && credential.userHandle === userId;

/** @typedef {import("./credentials.js").Credential} Credential */

/**
 * How each method changes a key's credentials.
 * @type {Record<string, (key: SecurityKey, options: any, credentials: Credential[]) => Promise<void>>}
 */
const ACTIONS = {
    async UnknownCredential(key, { rpId, credentialId }, credentials) {
        if (credentials.some((credential) => credential.rpId === rpId && credential.credentialId === credentialId)) {
            await key.removeCredential(credentialId);
        }
    },
    async AllAcceptedCredentials(key, options, credentials) {
        const accepted = new Set(options.allAcceptedCredentialIds);
        for (const { credentialId } of credentials.filter((credential) => isOfUser(credential, options))) {
            if (!accepted.has(credentialId)) {
                await key.removeCredential(credentialId);
            }
        }
    },
    async CurrentUserDetails(key, options, credentials) {
        for (const { credentialId } of credentials.filter((credential) => isOfUser(credential, options))) {
            const names = { userName: options.name, userDisplayName: options.displayName };
            await key.setCredentialProperties(credentialId, names);
        }
    },
};

/**
 * The static methods of the Signal API for a key.
 * @param {SecurityKey} key
 */
export const makeSignalMethods = (key) => Object.fromEntries(Object.keys(DICTIONARIES).map((name) => [`signal${name}`, {
    /** @param {unknown[]} args */
    async [`signal${name}`](...args) {
        const options = readOptions(name, args, key.pageOrigin);
        await ACTIONS[name](key, options, await key.getCredentials());
    },
}[`signal${name}`]]));
