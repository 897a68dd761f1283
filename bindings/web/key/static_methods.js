// The static methods of PublicKeyCredential, with the capabilities of this key.
import { fromBase64url } from "./bytes.js";
import { makeDomError } from "./errors.js";
import { readCreationJson, readRequestJson } from "./options.js";
import { makeSignalMethods } from "./signals.js";

// The capabilities that do not depend on the key's options.
const CAPABILITIES = {
    conditionalCreate: false, hybridTransport: false, relatedOrigins: false, signalAllAcceptedCredentials: true,
    signalCurrentUserDetails: true, signalUnknownCredential: true, "extension:appid": false,
    "extension:appidExclude": false, "extension:credProps": true,
};

/**
 * Returns a function that decodes a base64url member.
 * @param {string} where
 */
const makeDecoder = (where) => (/** @type {string} */ name, /** @type {string} */ text) => {
    const bytes = fromBase64url(text);
    if (!bytes) {
        throw makeDomError("EncodingError", `${where}'${name}' contains invalid base64url data`);
    }
    return bytes.buffer;
};

/** @typedef {(name: string, text: string) => ArrayBuffer} Decoder */

/** @param {Record<string, string>} values @param {Decoder} decode @param {string} path */
const decodeMembers = (values, decode, path) =>
    Object.fromEntries(Object.entries(values).map(([name, text]) => [name, decode(`${path}.${name}`, text)]));

/**
 * Extensions with their base64url members decoded.
 * @param {any} extensions @param {Decoder} decode
 */
const decodeExtensions = (extensions, decode) => {
    const made = { ...extensions };
    if (made.credBlob !== undefined) {
        made.credBlob = decode("extensions.credBlob", made.credBlob);
    }
    if (made.largeBlob?.write !== undefined) {
        made.largeBlob = { ...made.largeBlob, write: decode("extensions.largeBlob.write", made.largeBlob.write) };
    }
    if (made.prf?.eval) {
        made.prf = { ...made.prf, eval: decodeMembers(made.prf.eval, decode, "extensions.prf.eval") };
    }
    if (made.prf?.evalByCredential) {
        const each = Object.entries(made.prf.evalByCredential);
        const path = "extensions.prf.evalByCredential";
        made.prf.evalByCredential = Object.fromEntries(
            each.map(([id, values]) => [id, decodeMembers(values, decode, path)]));
    }
    return made;
};

/**
 * Options with their base64url members decoded.
 * @param {{ where: string, options: any }} read @param {string[]} lists the names of lists of credentials
 */
const decodeOptions = ({ where, options }, lists) => {
    const decode = makeDecoder(where);
    const made = { hints: [], ...options, challenge: decode("challenge", options.challenge) };
    for (const name of lists.filter((list) => options[list])) {
        made[name] = options[name].map((/** @type {any} */ descriptor) => ({ ...descriptor, id: decode(`${name}.id`, descriptor.id) }));
    }
    if (options.user) {
        made.user = { ...options.user, id: decode("user.id", options.user.id) };
    }
    if (options.extensions) {
        made.extensions = decodeExtensions(options.extensions, decode);
    }
    return made;
};

/**
 * Returns the static methods of PublicKeyCredential, implemented by this key.
 * @param {import("./security_key.js").SecurityKey} key
 */
export const makeStaticMethods = (key) => ({
    ...makeSignalMethods(key),
    async isUserVerifyingPlatformAuthenticatorAvailable() {
        return key.capabilities.userVerifyingPlatformAuthenticator;
    },
    async isConditionalMediationAvailable() {
        return key.capabilities.conditionalGet;
    },
    async getClientCapabilities() {
        return { ...CAPABILITIES, ...key.capabilities };
    },
    /** @param {unknown[]} args */
    parseCreationOptionsFromJSON(...args) {
        return decodeOptions(readCreationJson(args), ["excludeCredentials"]);
    },
    /** @param {unknown[]} args */
    parseRequestOptionsFromJSON(...args) {
        const read = readRequestJson(args);
        read.options.userVerification ??= "preferred";
        return decodeOptions(read, ["allowCredentials"]);
    },
});
