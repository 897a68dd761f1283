// Runs the cases of browser_cases.json on the key in node, and tests long challenges and texts, empty user handles,
// transports, and credProps.
import assert from "node:assert/strict";
import { test } from "node:test";
import { install } from "../../bindings/web/dist/security_key.mjs";
import { ORIGIN, runCases } from "./cases.mjs";
import { importPublicKey, isSelfAttested, isSignedBy } from "./ceremonies.js";

const PARSERS = { create: "parseCreationOptionsFromJSON", get: "parseRequestOptionsFromJSON" };
const USER = { id: Uint8Array.of(1), name: "ann", displayName: "Ann" };
const PARAMETERS = [{ type: "public-key", alg: -7 }];

/** The key as a browser for the cases. */
const makeBrowser = (key) => ({
    start: async (options) => {
        key.setAuthenticatorOptions(options);
        await key.clearCredentials();
        key.presence = "granted";
    },
    setPresence: (word) => {
        key.presence = word;
    },
    setUserVerified: (isVerified) => key.setUserVerified(isVerified),
    call: async (name, options, more) => {
        const publicKey = PublicKeyCredential[PARSERS[name]]("publicKey" in options ? options.publicKey : options);
        return (await navigator.credentials[name]({ publicKey, ...more })).toJSON();
    },
});

test("the cases recorded from Chromium", async () => {
    const key = install({ origin: ORIGIN });
    try {
        assert.ok(await runCases(makeBrowser(key)) > 200);
    } finally {
        key.uninstall();
    }
});

test("a challenge of any length is signed", async () => {
    const key = install({ origin: "https://example.com" });
    try {
        for (const length of [0, 1, 1536, 1537, 5000]) {
            const challenge = new Uint8Array(length).fill(length);
            const made = await navigator.credentials.create({
                publicKey: { challenge, rp: { name: "A" }, user: USER, pubKeyCredParams: PARAMETERS } });
            const used = await navigator.credentials.get({
                publicKey: { challenge, allowCredentials: [{ type: "public-key", id: made.rawId }] } });
            for (const [{ response }, type] of [[made, "webauthn.create"], [used, "webauthn.get"]]) {
                // WebAuthn Level 3, section 5.8.1.1.
                const expected = `{"type":"${type}","challenge":"${Buffer.from(challenge).toString("base64url")}"`
                    + ',"origin":"https://example.com","crossOrigin":false}';
                assert.equal(Buffer.from(response.clientDataJSON).toString(), expected);
            }
            const { clientDataJSON, attestationObject } = made.response;
            const publicKey = made.response.getPublicKey();
            const registered = { publicKey, clientDataJSON, attestationObject,
                authenticatorData: made.response.getAuthenticatorData() };
            assert.ok(await isSelfAttested(registered), `a registration, ${length} bytes`);
            assert.ok(await isSignedBy(await importPublicKey(publicKey), used.response), `a sign-in, ${length} bytes`);
        }
    } finally {
        key.uninstall();
    }
});

test("texts longer than the core's client takes", async () => {
    const key = install({ origin: "https://example.com" });
    try {
        const name = "\u{1F511}".repeat(1000);
        const user = { ...USER, name, displayName: name };
        const extensions = { credBlob: new Uint8Array(5000) };
        const made = await navigator.credentials.create({ publicKey: {
            challenge: new Uint8Array(1), rp: { name }, user, pubKeyCredParams: PARAMETERS, extensions } });
        const [{ userName }] = await key.getCredentials();
        assert.equal(userName, name);
        assert.deepEqual(made.getClientExtensionResults(), { credBlob: false });
        const unknown = Array.from({ length: 63 }, (_, at) => ({ type: "public-key", id: new Uint8Array(5000).fill(at) }));
        const listed = [...unknown, { type: "public-key", id: made.rawId }];
        const used = await navigator.credentials.get({ publicKey: {
            challenge: new Uint8Array(1), allowCredentials: listed,
            extensions: { largeBlob: { read: true }, prf: { eval: { first: new Uint8Array(5000) } } } } });
        assert.equal(used.id, made.id);
        assert.deepEqual(used.getClientExtensionResults(), { largeBlob: {}, prf: {} });
    } finally {
        key.uninstall();
    }
});

test("an empty user handle is null, as in Chromium", async () => {
    const key = install({ origin: "https://example.com" });
    try {
        await navigator.credentials.create({ publicKey: {
            challenge: new Uint8Array(1), rp: { name: "A" }, user: { ...USER, id: new Uint8Array(0) },
            pubKeyCredParams: PARAMETERS, authenticatorSelection: { residentKey: "required" } } });
        const used = await navigator.credentials.get({ publicKey: { challenge: new Uint8Array(1) } });
        assert.equal(used.response.userHandle, null);
        assert.ok(!("userHandle" in used.toJSON().response));
    } finally {
        key.uninstall();
    }
});

test("transports that the core's client does not know", async () => {
    const key = install({ origin: "https://example.com", transport: "nfc" });
    const challenge = new Uint8Array(1);
    try {
        const made = await navigator.credentials.create({
            publicKey: { challenge, rp: { name: "A" }, user: USER, pubKeyCredParams: PARAMETERS } });
        assert.deepEqual(made.response.getTransports(), ["nfc"]);
        assert.deepEqual(made.toJSON().response.transports, ["nfc"]);
        const signIn = (...transports) => navigator.credentials.get({
            publicKey: { challenge, allowCredentials: [{ type: "public-key", id: made.rawId, transports }] } });
        for (const transports of [[], ["nfc"], ["usb", "nfc"], ["pigeon"]]) {
            assert.equal((await signIn(...transports)).id, made.id, transports.join());
        }
        for (const transports of [["usb"], ["internal"], ["usb", "ble"]]) {
            await assert.rejects(signIn(...transports), { name: "NotAllowedError" }, transports.join());
        }
    } finally {
        key.uninstall();
    }
});

// As in Chromium, credProps.rk is omitted for a FIDO 2.0 key with discoverable credentials, since such a key may make
// any credential discoverable.
test("credProps by protocol", async () => {
    const options = { publicKey: { challenge: new Uint8Array(1), rp: { name: "A" }, user: USER,
        pubKeyCredParams: PARAMETERS, extensions: { credProps: true } } };
    for (const [protocol, hasResidentKey, expected] of [
        ["ctap2", true, {}], ["ctap2", false, { rk: false }], ["ctap2_1", true, { rk: false }],
        ["ctap1/u2f", false, { rk: false }],
    ]) {
        const key = install({ origin: "https://example.com", protocol, hasResidentKey });
        try {
            const made = await navigator.credentials.create(options);
            assert.deepEqual(made.getClientExtensionResults(), { credProps: expected }, protocol);
        } finally {
            key.uninstall();
        }
    }
});
