// Tests the WebIDL interfaces of the key in node: members of credentials, defaults of options as JSON, and the Signal
// API (WebAuthn Level 3, sections 5.1, 5.1.8 to 5.1.10 and 5.4).
import assert from "node:assert/strict";
import { test } from "node:test";
import { install } from "../../bindings/web/dist/security_key.mjs";

const RP_ID = "example.com";
const encode = (text) => Buffer.from(text).toString("base64url");

/** Returns a test that runs with an installed key. */
const withKey = (run) => async () => {
    const key = install({ origin: `https://${RP_ID}` });
    try {
        await run(key);
    } finally {
        key.uninstall();
    }
};

const register = (name = "ann") => navigator.credentials.create({ publicKey: {
    challenge: new Uint8Array(16), rp: { name: "A" }, pubKeyCredParams: [{ type: "public-key", alg: -7 }],
    user: { id: new TextEncoder().encode(name), name, displayName: name.toUpperCase() },
    authenticatorSelection: { residentKey: "required" },
} });
const signIn = (...made) => navigator.credentials.get({ publicKey: {
    challenge: new Uint8Array(16), allowCredentials: made.map(({ rawId }) => ({ type: "public-key", id: rawId })),
} });
const getGetter = (type, name) => Object.getOwnPropertyDescriptor(globalThis[type].prototype, name).get;

test("members of credentials are getters and functions of prototypes", withKey(async () => {
    const made = await register();
    const used = await signIn(made);
    for (const object of [made, made.response, used, used.response]) {
        assert.deepEqual(Reflect.ownKeys(object), []);
        assert.deepEqual({ ...object }, {});
    }
    for (const [type, object, names] of [
        ["Credential", made, ["id", "type"]],
        ["PublicKeyCredential", used, ["rawId", "response", "authenticatorAttachment"]],
        ["AuthenticatorResponse", made.response, ["clientDataJSON"]],
        ["AuthenticatorAttestationResponse", made.response, ["attestationObject"]],
        ["AuthenticatorAssertionResponse", used.response, ["authenticatorData", "signature", "userHandle"]],
    ]) {
        assert.ok(object instanceof globalThis[type]);
        for (const name of names) {
            const { get, set, enumerable, configurable } = Object.getOwnPropertyDescriptor(globalThis[type].prototype, name);
            assert.deepEqual([get.name, set, enumerable, configurable], [`get ${name}`, undefined, true, true], name);
            assert.equal(get.call(object), object[name]);
            assert.throws(() => get.call({}), TypeError, name);
            assert.throws(() => get.call(globalThis[type].prototype), TypeError, name);
        }
    }
    assert.throws(() => getGetter("AuthenticatorAssertionResponse", "signature").call(made.response), TypeError);
    for (const [object, names] of [
        [made, ["toJSON", "getClientExtensionResults"]],
        [made.response, ["getAuthenticatorData", "getPublicKey", "getPublicKeyAlgorithm", "getTransports"]],
    ]) {
        for (const name of names) {
            const { [name]: operation } = object;
            assert.equal(operation.length, 0);
            assert.throws(() => operation(), TypeError, name);
        }
    }
    assert.throws(() => made.response.getPublicKey.call(used.response), TypeError);
    assert.equal(made.rawId, made.rawId);
    assert.notEqual(made.getClientExtensionResults(), made.getClientExtensionResults());
}));

test("options as JSON have their defaults", withKey(() => {
    const creation = { challenge: "AQ", rp: { name: "A" }, user: { id: "AQ", name: "a", displayName: "A" },
        pubKeyCredParams: [] };
    const { challenge, user, ...made } = PublicKeyCredential.parseCreationOptionsFromJSON(creation);
    assert.deepEqual([new Uint8Array(challenge), new Uint8Array(user.id)], [Uint8Array.of(1), Uint8Array.of(1)]);
    assert.deepEqual(made, { rp: { name: "A" }, pubKeyCredParams: [], attestation: "none", excludeCredentials: [], hints: [] });
    const { challenge: other, ...request } = PublicKeyCredential.parseRequestOptionsFromJSON({ challenge: "AQ" });
    assert.deepEqual(new Uint8Array(other), Uint8Array.of(1));
    assert.deepEqual(request, { allowCredentials: [], hints: [], userVerification: "preferred" });
    const wrong = { ...creation, user: { ...creation.user, id: "AQ==" } };
    assert.throws(() => PublicKeyCredential.parseCreationOptionsFromJSON(wrong), { name: "EncodingError" });
}));

test("signals remove and rename credentials", withKey(async (key) => {
    const [ann, bob] = [await register("ann"), await register("bob")];
    const listNames = async () => (await key.getCredentials()).map(({ userName, userDisplayName }) =>
        `${userName} ${userDisplayName}`);
    const signals = PublicKeyCredential;
    assert.equal(await signals.signalCurrentUserDetails(
        { rpId: RP_ID, userId: encode("ann"), name: "anna", displayName: "Anna" }), undefined);
    assert.deepEqual(await listNames(), ["anna Anna", "bob BOB"]);
    await signals.signalUnknownCredential({ rpId: RP_ID, credentialId: encode("another") });
    await signals.signalAllAcceptedCredentials(
        { rpId: RP_ID, userId: encode("bob"), allAcceptedCredentialIds: [bob.id] });
    await signals.signalAllAcceptedCredentials(
        { rpId: RP_ID, userId: encode("eve"), allAcceptedCredentialIds: [] });
    assert.deepEqual(await listNames(), ["anna Anna", "bob BOB"]);
    await signals.signalUnknownCredential({ rpId: RP_ID, credentialId: ann.id });
    assert.deepEqual(await listNames(), ["bob BOB"]);
    await assert.rejects(signIn(ann), { name: "NotAllowedError" });
    await signals.signalAllAcceptedCredentials(
        { rpId: RP_ID, userId: encode("bob"), allAcceptedCredentialIds: [ann.id] });
    assert.deepEqual(await listNames(), []);
}));

test("signals of other sites and with wrong IDs are refused", withKey(async (key) => {
    const { id } = await register();
    for (const [rpId, name] of [["other.com", "SecurityError"], ["com", "SecurityError"], ["", "SecurityError"]]) {
        await assert.rejects(PublicKeyCredential.signalUnknownCredential({ rpId, credentialId: id }), { name }, rpId);
    }
    await assert.rejects(PublicKeyCredential.signalUnknownCredential({ rpId: RP_ID, credentialId: "a+b" }), TypeError);
    await assert.rejects(PublicKeyCredential.signalUnknownCredential({ rpId: RP_ID }), TypeError);
    await assert.rejects(PublicKeyCredential.signalAllAcceptedCredentials(
        { rpId: RP_ID, userId: encode("ann"), allAcceptedCredentialIds: ["!"] }), TypeError);
    assert.equal((await key.getCredentials()).length, 1);
}));
