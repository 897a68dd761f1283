// Functions of the pages under test.
"use strict";
const toBytes = (text) => new TextEncoder().encode(text);
const base = { challenge: toBytes("a challenge"), rp: { name: "A service" },
    user: { id: toBytes("ann"), name: "ann", displayName: "Ann" }, pubKeyCredParams: [{ type: "public-key", alg: -7 }] };
// A timeout that does not expire during a test.
const TIMEOUT_MS = 600_000;
const readFlags = (data) => new Uint8Array(data)[32];
const toCharCode = (letter) => letter.charCodeAt(0);
const decodeId = (text) => Uint8Array.from(atob(text.replace(/-/g, "+").replace(/_/g, "/")), toCharCode);
const toDescriptors = (list) => list.map((id) => ({ type: "public-key", id: decodeId(id) }));

/** The message of the last error that a call returned. */
let lastMessage = "";

/** Registers a credential. Returns what a page sees, or the name of the error. */
const register = async ({ exclude, name = "ann", ...selection } = {}) => {
    const user = { id: toBytes(name), name, displayName: name };
    const excludeCredentials = toDescriptors(exclude ?? []);
    const publicKey = { ...base, user, excludeCredentials, authenticatorSelection: selection, timeout: TIMEOUT_MS };
    try {
        const made = await navigator.credentials.create({ publicKey });
        window.keyOf = { ...window.keyOf, [made.id]: made.response.getPublicKey() };
        return { id: made.id, attachment: made.authenticatorAttachment, flags: readFlags(made.response.getAuthenticatorData()),
            transports: made.response.getTransports() };
    } catch (error) {
        lastMessage = error.message;
        return error.name;
    }
};

/** Signs in. Returns what a page sees, or the name of the error. */
const signIn = async ({ allow, ...more } = {}) => {
    const allowCredentials = toDescriptors(allow ?? []);
    try {
        const used = await navigator.credentials.get({ publicKey: {
            challenge: base.challenge, allowCredentials, timeout: TIMEOUT_MS, ...more } });
        return { id: used.id, flags: readFlags(used.response.authenticatorData), attachment: used.authenticatorAttachment,
            user: used.response.userHandle && new TextDecoder().decode(used.response.userHandle) };
    } catch (error) {
        lastMessage = error.message;
        return error.name;
    }
};
const isPlatform = () => PublicKeyCredential.isUserVerifyingPlatformAuthenticatorAvailable();
// Whether the page's first script sees the browser's own WebAuthn functions.
document.getElementById("at-first").textContent = String(/native code/.test(navigator.credentials.create));
