// Returns, as JSON, what the page of a test suite sees. seen.py runs this script with the name of a function in `calls`
// and its argument.
"use strict";
const [name, words, done] = arguments;
const toBytes = (text) => new TextEncoder().encode(text);
const toBase64url = (buffer) => btoa(String.fromCharCode(...new Uint8Array(buffer)))
    .replace(/\+/g, "-").replace(/\//g, "_").replace(/=+$/, "");
const fromBase64url = (text) => Uint8Array.from(atob(text.replace(/-/g, "+").replace(/_/g, "/")), (letter) => letter.charCodeAt(0));
const challenge = toBytes("a challenge");

/** Extension results with buffers as base64url. */
const toPlainValue = (value) => {
    if (value instanceof ArrayBuffer || ArrayBuffer.isView(value)) {
        return toBase64url(value.buffer ?? value);
    }
    return value && typeof value === "object"
        ? Object.fromEntries(Object.entries(value).map(([member, inner]) => [member, toPlainValue(inner)])) : value;
};

/** Extension inputs with texts in `prf`, `largeBlob.write` and `credBlob` as bytes. */
const toExtensionInputs = ({ prf, largeBlob, credBlob, ...rest }) => ({
    ...rest,
    ...prf && { prf: { ...prf, ...prf.eval && { eval: Object.fromEntries(
        Object.entries(prf.eval).map(([member, text]) => [member, toBytes(text)])) } } },
    ...largeBlob && { largeBlob: { ...largeBlob, ...largeBlob.write && { write: toBytes(largeBlob.write) } } },
    ...credBlob && { credBlob: toBytes(credBlob) },
});

const create = async ({ user = "ann", algorithms = [-7], mediation = "optional", extensions = {}, ...more }) => {
    const made = await navigator.credentials.create({ mediation, publicKey: {
        challenge, rp: { name: "A service" }, user: { id: toBytes(user), name: user, displayName: `${user} Smith` },
        pubKeyCredParams: algorithms.map((alg) => ({ type: "public-key", alg })), extensions: toExtensionInputs(extensions), ...more,
    } });
    const { response } = made;
    return {
        id: made.id, attachment: made.authenticatorAttachment, transports: response.getTransports(),
        algorithm: response.getPublicKeyAlgorithm(), spki: response.getPublicKey() && toBase64url(response.getPublicKey()),
        attestation: toBase64url(response.attestationObject), authData: toBase64url(response.getAuthenticatorData()),
        clientData: toBase64url(response.clientDataJSON), extensions: toPlainValue(made.getClientExtensionResults()),
        json: Object.keys(made.toJSON().response).sort(),
    };
};

const get = async ({ allow, mediation = "optional", waits = 0, extensions = {}, ...more }) => {
    const used = await navigator.credentials.get({
        mediation, signal: waits ? AbortSignal.timeout(waits) : undefined,
        publicKey: {
            challenge, extensions: toExtensionInputs(extensions),
            allowCredentials: (allow ?? []).map((id) => ({ type: "public-key", id: fromBase64url(id) })), ...more,
        },
    });
    const { response } = used;
    return {
        id: used.id, user: response.userHandle && new TextDecoder().decode(response.userHandle),
        authData: toBase64url(response.authenticatorData), signature: toBase64url(response.signature),
        clientData: toBase64url(response.clientDataJSON), extensions: toPlainValue(used.getClientExtensionResults()),
    };
};

const calls = {
    create, get,
    signal: async ({ method, ...options }) => (await PublicKeyCredential[method](options)) ?? null,
    ask: async ({ method }) => PublicKeyCredential[method](),
};
calls[name](words).then(done, (error) => done({ error: error.name, message: error.message }));
