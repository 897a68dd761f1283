// Functions shared by the tests of the key: options, registrations, sign-ins, expected errors, and the verification of
// signatures.
import { install } from "../../bindings/web/dist/security_key.mjs";
import { expect, getRejection } from "./harness.js";

export const makeCreationOptions = (more = {}) => ({
    challenge: new Uint8Array(32), rp: { id: "localhost", name: "A service" },
    user: { id: Uint8Array.of(1), name: "ann", displayName: "Ann" },
    pubKeyCredParams: [{ type: "public-key", alg: -7 }], ...more,
});

/** Options for a discoverable credential of a user with this name. */
export const makeOptionsForUser = (name) => ({
    user: { id: new TextEncoder().encode(name), name, displayName: name },
    authenticatorSelection: { residentKey: "required" },
});

export const createCredential = (more = {}, rest = {}) =>
    navigator.credentials.create({ publicKey: makeCreationOptions(more), ...rest });

export const getAssertion = (more = {}, rest = {}) =>
    navigator.credentials.get({ publicKey: { challenge: new Uint8Array(32), rpId: "localhost", ...more }, ...rest });

export const getAssertionWith = (made, rest = {}) =>
    getAssertion({ allowCredentials: [{ type: "public-key", id: made.rawId }] }, rest);

/** Encodes bytes as base64url. */
export const toBase64url = (bytes) =>
    btoa(String.fromCharCode(...new Uint8Array(bytes))).replace(/\+/g, "-").replace(/\//g, "_").replace(/=+$/, "");

export const P256 = { name: "ECDSA", namedCurve: "P-256" };
const SIG_LABEL = [0x63, 0x73, 0x69, 0x67, 0x58];

export const readSignCount = (assertion) => new DataView(assertion.response.authenticatorData).getUint32(33);

/** Returns a test that installs its own key, and uninstalls it afterwards. */
export const makeKeyTest = (test, options = {}) => async () => {
    const key = install(typeof options === "function" ? options() : options);
    try {
        await test(key);
    } finally {
        key.uninstall();
    }
};

/** Expects an error with this name, and with this text in its message. */
export const expectError = async (promised, name, part = "") => {
    const error = await getRejection(typeof promised === "function" ? (async () => promised())() : promised);
    expect(error.name === name && error.message.includes(part), `expected ${name}, got ${error.name}: ${error.message}`);
    return error;
};

/** Imports a P-256 public key in SubjectPublicKeyInfo. */
export const importPublicKey = (spki) => crypto.subtle.importKey("spki", spki, P256, true, ["verify"]);

/**
 * Whether the signature of a response, over its authenticator data and the hash of its client data, is valid, as a
 * relying party verifies it (WebAuthn Level 3, sections 7.2 and 8.2): ECDSA on P-256 with SHA-256, in DER.
 */
export const isSignedBy = async (publicKey, { authenticatorData, clientDataJSON, signature }) => {
    const hash = await crypto.subtle.digest("SHA-256", clientDataJSON);
    const signed = new Uint8Array([...new Uint8Array(authenticatorData), ...new Uint8Array(hash)]);
    const der = new Uint8Array(signature);
    const raw = new Uint8Array(64);
    let at = 2;
    for (const end of [32, 64]) {
        const part = der.subarray(at + 2, at + 2 + der[at + 1]).slice(-32);
        raw.set(part, end - part.length);
        at += 2 + der[at + 1];
    }
    return crypto.subtle.verify({ name: "ECDSA", hash: "SHA-256" }, publicKey, raw, signed);
};

/** The signature in a packed attestation: after the text "sig" and a head of two bytes. */
const findAttestationSignature = (attestationObject) => {
    const bytes = new Uint8Array(attestationObject);
    const at = bytes.findIndex((_, index) => SIG_LABEL.every((byte, offset) => bytes[index + offset] === byte));
    return bytes.slice(at + SIG_LABEL.length + 1, at + SIG_LABEL.length + 1 + bytes[at + SIG_LABEL.length]);
};

/**
 * Whether the self attestation of a registration is valid. The arguments are members of the registration's response.
 */
export const isSelfAttested = async ({ publicKey, attestationObject, ...data }) =>
    isSignedBy(await importPublicKey(publicKey), { ...data, signature: findAttestationSignature(attestationObject) });
