// Extensions that a key supports outside the core (WebAuthn Level 3, section 10; CTAP 2.1, section 12): prf, largeBlob,
// credProtect, credBlob and minPinLength, with the results of Chromium's virtual authenticator.
import { concatBytes, decodeBase64url, encodeUtf8, equalBytes, fromBase64url, toBase64url } from "./bytes.js";
import { encodeBytes, encodeMap, encodeNumber, encodeText } from "./ctap_response.js";

const POLICIES = ["userVerificationOptional", "userVerificationOptionalWithCredentialIDList", "userVerificationRequired"];
const [, WITH_LIST, VERIFIED] = [1, 2, 3];
export const MAX_CRED_BLOB_BYTES = 32;
const MIN_PIN_LENGTH = 4;
const PRF_CONTEXT = encodeUtf8("WebAuthn PRF\0");
const CBOR_TRUE = Uint8Array.of(0xf5);

/** @typedef {import("./abilities.js").AuthenticatorOptions} AuthenticatorOptions */
/** @typedef {import("./private_keys.js").PrivateKeys} PrivateKeys */

/**
 * The extension data of a credential. Bytes are in base64url; a large blob is "" until a page writes one.
 * @typedef {{ prf?: boolean, largeBlob?: string, credBlob?: string, credProtect?: number }} KeptExtensions
 */

/**
 * Returns the extension inputs without those that are checked against the page's list.
 * @param {any} inputs
 */
export const dropListInputs = ({ prf, largeBlob, ...inputs }) => ({
    ...inputs,
    ...(prf && { prf: { ...prf, evalByCredential: undefined } }),
    ...(largeBlob && { largeBlob: { ...largeBlob, write: undefined } }),
});

/**
 * Returns the inputs of the extension prf with other IDs of the same credentials.
 * @param {any} prf @param {Uint8Array[]} ids @param {Uint8Array[]} others
 */
export const replaceCredentialIds = ({ evalByCredential, ...prf }, ids, others) => {
    const rename = (/** @type {string} */ name) => {
        const id = fromBase64url(name);
        const place = id ? ids.findIndex((other) => equalBytes(id, other)) : -1;
        return place < 0 ? name : toBase64url(others[place]);
    };
    const renamed = Object.entries(evalByCredential ?? {}).map(([name, values]) => [rename(name), values]);
    return evalByCredential ? { ...prf, evalByCredential: Object.fromEntries(renamed) } : prf;
};

/**
 * Returns the protection policy of a discoverable credential if the page requests none. As in Chromium, user
 * verification is required if residentKey is "required" and userVerification is "preferred".
 * @param {any} selection authenticatorSelection
 */
const selectProtection = ({ residentKey, requireResidentKey, userVerification } = {}) => {
    const isRequired = ["preferred", "discouraged"].includes(residentKey) ? false
        : residentKey === "required" || requireResidentKey;
    return isRequired && !["required", "discouraged"].includes(userVerification) ? VERIFIED : WITH_LIST;
};

/**
 * Returns the extension data of a new credential.
 * @param {any} options @param {AuthenticatorOptions} abilities @param {boolean} isDiscoverable
 * @returns {KeptExtensions}
 */
export const makeExtensionData = ({ extensions = {}, authenticatorSelection }, abilities, isDiscoverable) => {
    const { prf, hmacCreateSecret, largeBlob, credBlob, credentialProtectionPolicy: policy } = extensions;
    const byDefault = isDiscoverable ? selectProtection(authenticatorSelection ?? {}) : 0;
    const level = policy === undefined ? byDefault : POLICIES.indexOf(policy) + 1;
    const hasBlob = credBlob?.length <= MAX_CRED_BLOB_BYTES;
    return {
        ...(abilities.supports("prf") && (prf || hmacCreateSecret) && { prf: true }),
        ...(abilities.supports("largeBlob") && largeBlob?.support && isDiscoverable && { largeBlob: "" }),
        ...(abilities.supports("credBlob") && hasBlob && { credBlob: toBase64url(credBlob) }),
        ...(abilities.supports("credProtect") && level && { credProtect: level }),
    };
};

/** @param {[string, Uint8Array][]} members in canonical order */
const encodeOutputs = (members) =>
    (members.length ? encodeMap(members.map(([name, value]) => [encodeText(name), value])) : new Uint8Array(0));

/**
 * The extension outputs in the authenticator data of a registration, as CBOR; empty if there are none.
 * @param {KeptExtensions} kept @param {any} extensions @param {AuthenticatorOptions} abilities
 */
export const encodeRegistrationOutputs = ({ credBlob, credProtect }, extensions, abilities) => {
    /** @type {[string, Uint8Array][]} */
    const members = [];
    if (credBlob !== undefined) {
        members.push(["credBlob", CBOR_TRUE]);
    }
    if (credProtect) {
        members.push(["credProtect", encodeNumber(credProtect)]);
    }
    if (extensions.minPinLength && abilities.supports("minPinLength")) {
        members.push(["minPinLength", encodeNumber(MIN_PIN_LENGTH)]);
    }
    return encodeOutputs(members);
};

/**
 * The extension outputs in the authenticator data of a sign-in.
 * @param {KeptExtensions} kept @param {any} extensions @param {AuthenticatorOptions} abilities
 */
export const encodeSignInOutputs = ({ credBlob = "" }, { getCredBlob }, abilities) =>
    encodeOutputs(getCredBlob && abilities.supports("credBlob") ? [["credBlob", encodeBytes(decodeBase64url(credBlob))]] : []);

/**
 * Evaluates the PRF of a credential. The secret is derived from the core's public key, so the results stay the same if
 * an ES256 credential is added to another key.
 * @param {PrivateKeys} privateKeys @param {Uint8Array} id @param {any} inputs first, and perhaps second
 */
const evaluatePrf = async (privateKeys, id, inputs) => {
    const { x, y } = /** @type {import("./private_keys.js").PrivateKey} */ (privateKeys.get(id));
    const secret = await privateKeys.hash(concatBytes(encodeUtf8("hidlog prf"), x, y));
    const evaluate = async (/** @type {Uint8Array} */ input) =>
        toBase64url(await privateKeys.hmac(secret, await privateKeys.hash(concatBytes(PRF_CONTEXT, input))));
    const results = /** @type {Record<string, string>} */ ({ first: await evaluate(inputs.first) });
    if (inputs.second) {
        results.second = await evaluate(inputs.second);
    }
    return { results };
};

/**
 * The client extension results of a registration, besides those of the core's client.
 * @param {KeptExtensions} kept @param {any} extensions @param {PrivateKeys} privateKeys @param {Uint8Array} id
 */
export const makeRegistrationResults = async (kept, extensions, privateKeys, id) => {
    const { prf, hmacCreateSecret, largeBlob, credBlob } = extensions;
    return {
        ...(kept.prf && prf && { prf: { enabled: true, ...(prf.eval && await evaluatePrf(privateKeys, id, prf.eval)) } }),
        ...(kept.prf && hmacCreateSecret && { hmacCreateSecret: true }),
        ...(kept.largeBlob !== undefined && largeBlob && { largeBlob: { supported: true } }),
        ...(kept.credBlob !== undefined && credBlob && { credBlob: true }),
    };
};

/**
 * The client extension results of a sign-in, besides those of the core's client. Writes the large blob, if requested.
 * @param {KeptExtensions} kept @param {any} extensions @param {PrivateKeys} privateKeys
 * @param {{ id: Uint8Array, pageId: Uint8Array }} ids
 */
export const makeSignInResults = async (kept, { prf, largeBlob, getCredBlob }, privateKeys, { id, pageId }) => {
    const inputs = prf?.evalByCredential?.[toBase64url(pageId)] ?? prf?.eval;
    const hasBlob = kept.largeBlob !== undefined;
    if (hasBlob && largeBlob?.write) {
        kept.largeBlob = toBase64url(largeBlob.write);
    }
    return {
        ...(kept.prf && inputs && { prf: await evaluatePrf(privateKeys, id, inputs) }),
        ...(hasBlob && largeBlob?.write && { largeBlob: { written: true } }),
        ...(kept.largeBlob && largeBlob?.read && { largeBlob: { blob: kept.largeBlob } }),
        ...(kept.credBlob !== undefined && getCredBlob && { getCredBlob: kept.credBlob }),
    };
};

/**
 * Whether the protection policy of a credential allows the sign-in (CTAP 2.1, section 12.1).
 * @param {KeptExtensions} kept @param {boolean} isVerified @param {boolean} isListed whether the page's allow list has
 * the credential
 */
export const isUsable = ({ credProtect = 0 }, isVerified, isListed) =>
    isVerified || credProtect < (isListed ? VERIFIED : WITH_LIST);
