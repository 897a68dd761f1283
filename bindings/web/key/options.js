// The arguments of navigator.credentials.create and get: the dictionaries of WebAuthn Level 3 and Credential
// Management, converted as in Chromium.
import {
    abortSignal, boolean, buffer, dictionary, enumeration, long, optional, record, required, sequence, text,
    unsignedLong,
} from "./webidl.js";

/** @typedef {import("./webidl.js").Converter} Converter */

const MEDIATIONS = ["silent", "optional", "conditional", "required"];
const ENTITY_DICTIONARY = "PublicKeyCredentialEntity";

/**
 * The dictionary of extensions.
 * @param {Converter} bytes @param {string} suffix
 */
const makeExtensionsDictionary = (bytes, suffix) => {
    const prfValues = dictionary("AuthenticationExtensionsPRFValues", {
        first: required(bytes), second: optional(bytes),
    });
    const prf = dictionary("AuthenticationExtensionsPRFInputs", {
        eval: optional(prfValues), evalByCredential: optional(record(prfValues)),
    });
    const largeBlob = dictionary("AuthenticationExtensionsLargeBlobInputs", {
        read: optional(boolean), support: optional(text), write: optional(bytes),
    });
    return dictionary(`AuthenticationExtensionsClientInputs${suffix}`, {
        appid: optional(text), appidExclude: optional(text), credBlob: optional(bytes),
        // Only the JSON dictionary has this default.
        credProps: suffix ? optional(boolean, false) : optional(boolean),
        credentialProtectionPolicy: optional(text), enforceCredentialProtectionPolicy: optional(boolean, false),
        getCredBlob: optional(boolean), hmacCreateSecret: optional(boolean), largeBlob: optional(largeBlob),
        minPinLength: optional(boolean), prf: optional(prf), uvm: optional(boolean),
    });
};

/**
 * The dictionaries of both calls, with buffers converted by `bytes`: buffers, or base64url for JSON.
 * @param {Converter} bytes @param {string} suffix
 */
const makeDictionaries = (bytes, suffix) => {
    const descriptor = dictionary(`PublicKeyCredentialDescriptor${suffix}`, {
        id: required(bytes), transports: optional(sequence(text)), type: required(text),
    });
    const extensions = makeExtensionsDictionary(bytes, suffix);
    const rp = dictionary("PublicKeyCredentialRpEntity", { name: required(text, ENTITY_DICTIONARY), id: optional(text) });
    const user = dictionary(`PublicKeyCredentialUserEntity${suffix}`, {
        name: required(text, ENTITY_DICTIONARY), displayName: required(text), id: required(bytes),
    });
    const parameter = dictionary("PublicKeyCredentialParameters", { alg: required(long), type: required(text) });
    const selection = dictionary("AuthenticatorSelectionCriteria", {
        authenticatorAttachment: optional(text), requireResidentKey: optional(boolean, false),
        residentKey: optional(text), userVerification: optional(text),
    });
    const creation = {
        attestation: optional(text, "none"), authenticatorSelection: optional(selection), challenge: required(bytes),
        excludeCredentials: optional(sequence(descriptor), []), extensions: optional(extensions),
        hints: optional(sequence(text)), pubKeyCredParams: required(sequence(parameter)), rp: required(rp),
        timeout: optional(unsignedLong), user: required(user),
    };
    const request = {
        allowCredentials: optional(sequence(descriptor), []), challenge: required(bytes),
        extensions: optional(extensions), hints: optional(sequence(text)), rpId: optional(text), timeout: optional(unsignedLong),
        userVerification: optional(text),
    };
    return {
        creation: dictionary(`PublicKeyCredentialCreationOptions${suffix}`, creation),
        request: dictionary(`PublicKeyCredentialRequestOptions${suffix}`, request),
    };
};

const { creation: creationOptions, request: requestOptions } = makeDictionaries(buffer, "");
const { creation: creationJson, request: requestJson } = makeDictionaries(text, "JSON");
const shared = {
    mediation: optional(enumeration("CredentialMediationRequirement", MEDIATIONS), "optional"),
    signal: optional(abortSignal),
};
const credentialCreation = dictionary("CredentialCreationOptions", {
    publicKey: optional(creationOptions), ...shared,
});
const credentialRequest = dictionary("CredentialRequestOptions", { publicKey: optional(requestOptions), ...shared });

const makeErrorPrefix = (/** @type {string} */ name, /** @type {string} */ type) =>
    `Failed to execute '${name}' on '${type}': `;

/** @param {unknown} options of navigator.credentials.create */
export const readCreationOptions = (options) =>
    credentialCreation(options, makeErrorPrefix("create", "CredentialsContainer"));

/** @param {unknown} options of navigator.credentials.get */
export const readRequestOptions = (options) =>
    credentialRequest(options, makeErrorPrefix("get", "CredentialsContainer"));

/** @param {unknown[]} args the arguments @param {string} where the prefix of an error message */
const requireFirstArgument = (args, where) => {
    if (!args.length) {
        throw new TypeError(`${where}1 argument required, but only 0 present.`);
    }
    return args[0];
};

/** @param {unknown[]} args the arguments of PublicKeyCredential.parseCreationOptionsFromJSON */
export const readCreationJson = (args) => {
    const where = makeErrorPrefix("parseCreationOptionsFromJSON", "PublicKeyCredential");
    return { where, options: creationJson(requireFirstArgument(args, where), where) };
};

/** @param {unknown[]} args the arguments of PublicKeyCredential.parseRequestOptionsFromJSON */
export const readRequestJson = (args) => {
    const where = makeErrorPrefix("parseRequestOptionsFromJSON", "PublicKeyCredential");
    return { where, options: requestJson(requireFirstArgument(args, where), where) };
};
