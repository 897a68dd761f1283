// Tests the authenticator options of the page's key: user verification, transports, discoverable credentials,
// credential IDs of other lengths, backup flags, and the options of DevTools. compare.js compares the options with
// Chromium's virtual authenticator.
import { install, SecurityKey, sendDevToolsCommand } from "../../bindings/web/dist/security_key.mjs";
import {
    createCredential, getAssertion, getAssertionWith, makeOptionsForUser, expectError, toBase64url, makeKeyTest,
} from "./ceremonies.js";
import { expect, results } from "./harness.js";

const VERIFYING_OPTIONS = { hasUserVerification: true, isUserVerified: true };
const required = { authenticatorSelection: { userVerification: "required", residentKey: "required" } };
const readFlags = ({ response }) => new Uint8Array(response.authenticatorData ?? response.getAuthenticatorData())[32];

const testUserVerification = async (key) => {
    const made = await createCredential(required);
    expect(readFlags(made) === 0x45, `UP, UV and AT: ${readFlags(made)}`);
    expect(readFlags(await getAssertion({ userVerification: "required" })) === 0x05, "UP and UV");
    expect(readFlags(await getAssertion({ userVerification: "discouraged" })) === 0x01, "UP");
    key.isUserVerified = false;
    await expectError(getAssertion({ userVerification: "required" }), "NotAllowedError", "isUserVerified");
    await key.setUserVerified(true);
    expect(readFlags(await getAssertion()) === 0x05, "verified again");
    const comments = key.log().match(/^# outside of the core: flags UV, and the signature over them$/gm) ?? [];
    expect(comments.length === 3 && !key.log().includes("# fault"), "each is a comment, not a fault");
    results.logs["verified.log"] = key.log();
};

const testPlatformKey = async (key) => {
    const made = await createCredential({ authenticatorSelection: { authenticatorAttachment: "platform" } });
    expect(made.authenticatorAttachment === "platform" && made.response.getTransports().join() === "internal", "made");
    expect(await PublicKeyCredential.isUserVerifyingPlatformAuthenticatorAvailable(), "it says so");
    const used = await getAssertionWith(made);
    expect(used.authenticatorAttachment === "platform" && used.toJSON().authenticatorAttachment === "platform", "used");
    const other = { authenticatorSelection: { authenticatorAttachment: "cross-platform" } };
    await expectError(createCredential(other), "NotAllowedError", "cross-platform");
    key.transport = "nfc";
    expect((await createCredential(other)).response.getTransports().join() === "nfc", "another transport");
    expect(!await PublicKeyCredential.isUserVerifyingPlatformAuthenticatorAvailable(), "it says so");
};

const testWithoutResidentKeys = async (key) => {
    await expectError(createCredential(makeOptionsForUser("ann")), "NotAllowedError", "hasResidentKey");
    const preferred = { authenticatorSelection: { residentKey: "preferred" }, extensions: { credProps: true } };
    const made = await createCredential(preferred);
    expect(made.getClientExtensionResults().credProps.rk === false, "credProps");
    expect(!(await key.getCredential(made.id)).isResidentCredential, "not discoverable");
    const resident = { rpId: "localhost", isResidentCredential: true, userHandle: "AQ" };
    await expectError(key.addCredential(resident), "TypeError", "hasResidentKey");
};

/** Credential IDs of the lengths that WebAuthn allows. */
const testCredentialIdLengths = async (key) => {
    for (const length of [1, 16, 31, 32, 33, 64, 65, 255, 1023]) {
        const credentialId = toBase64url(new Uint8Array(length).fill(length));
        const added = await key.addCredential({ rpId: "localhost", credentialId, signCount: length });
        expect(added.credentialId === credentialId, `${length} bytes are shown`);
        const id = new Uint8Array(length).fill(length);
        const used = await getAssertion({ allowCredentials: [{ type: "public-key", id }] });
        expect(used.id === credentialId && used.rawId.byteLength === length, `${length} bytes sign in`);
        expect((await key.getCredential(credentialId)).signCount === length + 1, "its counter");
        await expectError(createCredential({ excludeCredentials: [{ type: "public-key", id }] }), "InvalidStateError");
    }
    const unknown = [{ type: "public-key", id: new Uint8Array(1000) }];
    await expectError(getAssertion({ allowCredentials: unknown }), "NotAllowedError", "NO_CREDENTIALS");
    await createCredential({ excludeCredentials: unknown });
    for (const wrong of ["", toBase64url(new Uint8Array(1024))]) {
        await expectError(key.addCredential({ rpId: "localhost", credentialId: wrong }), "TypeError", "1 to 1023 bytes");
    }
    const next = new SecurityKey({ state: JSON.parse(JSON.stringify(key.state())) });
    const id = new Uint8Array(16).fill(16);
    const used = await next.get({ publicKey: {
        challenge: new Uint8Array(32), allowCredentials: [{ type: "public-key", id }] } });
    expect(used.rawId.byteLength === 16, "after a state");
    await key.removeCredential(toBase64url(id));
    await expectError(getAssertion({ allowCredentials: [{ type: "public-key", id }] }), "NotAllowedError", "NO_CREDENTIALS");
    const { snapshot, log } = key.recordings().at(-1);
    results.logs["long_ids.log"] = log;
    results.logs["long_ids.log.snapshot"] = btoa(String.fromCharCode(...snapshot));
};

const testBackupFlags = async (key) => {
    const made = await createCredential();
    expect(readFlags(made) === 0x59 && readFlags(await getAssertionWith(made)) === 0x19, "BE and BS");
    await key.setCredentialProperties(made.id, { backupState: false });
    expect(readFlags(await getAssertionWith(made)) === 0x09, "BE alone");
    const { backupEligibility, backupState } = await key.getCredential(made.id);
    expect(backupEligibility && !backupState, "shown");
    const added = await key.addCredential({ rpId: "localhost", backupEligibility: false });
    expect(!added.backupEligibility && added.backupState, "one that is added: its own, or else the key's");
    expect(key.log().includes("# outside of the core") === false && key.recordings().length > 1, "a log of its own");
};

const testInvalidOptions = async () => {
    await expectError(() => install({ transport: "pigeon" }), "TypeError", "smart-card");
    await expectError(() => install({ isUserVerified: true }), "TypeError", "hasUserVerification");
    await expectError(() => install({ hasUserVerification: "yes" }), "TypeError", "true or false");
    const key = install(VERIFYING_OPTIONS);
    await expectError(() => key.setAuthenticatorOptions({ hasUserVerification: false, transport: "nfc" }), "TypeError",
        "no user verification");
    expect(key.transport === "usb" && key.hasUserVerification, "nothing was set");
    key.uninstall();
};

const testAddVirtualAuthenticator = async () => {
    const add = (options) => sendDevToolsCommand("WebAuthn.addVirtualAuthenticator", { options });
    for (const wrong of [{ hasHmacSecret: true }, { hasHmacSecretMc: true }, { protocol: "ctap3" }, { transport: "pigeon" }]) {
        await expectError(add(wrong), "TypeError", Object.keys(wrong)[0]);
        expect(hidlogKey.installedKey() === null, "no key is installed");
    }
    await expectError(add({ protocol: "u2f", hasResidentKey: true }), "TypeError", "hasResidentKey");
    await add({ protocol: "ctap2", ctap2Version: "ctap2_1" });
    expect(hidlogKey.installedKey().protocol === "ctap2_1", "its version");
    await add({ protocol: "u2f" });
    expect(hidlogKey.installedKey().protocol === "ctap1/u2f", "a U2F key");
    await expectError(createCredential(required), "NotAllowedError");
    await add({ protocol: "ctap2", transport: "internal", hasResidentKey: true, ...VERIFYING_OPTIONS });
    expect(readFlags(await createCredential(required)) === 0x45, "verified");
    await sendDevToolsCommand("WebAuthn.setUserVerified", { isUserVerified: false });
    await expectError(createCredential(required), "NotAllowedError", "isUserVerified");
    await add({ transport: "cable", hasUserVerification: false, isUserVerified: true });
    const { transport, hasResidentKey, isUserVerified } = hidlogKey.installedKey();
    expect(transport === "hybrid" && !hasResidentKey && !isUserVerified, "another authenticator");
    await sendDevToolsCommand("WebAuthn.setUserVerified", { isUserVerified: true });
    await sendDevToolsCommand("WebAuthn.removeVirtualAuthenticator");
};

export const abilitiesTests = {
    "user verification": makeKeyTest(testUserVerification, VERIFYING_OPTIONS),
    "a platform authenticator": makeKeyTest(testPlatformKey, { ...VERIFYING_OPTIONS, transport: "internal" }),
    "a key without discoverable credentials": makeKeyTest(testWithoutResidentKeys, { hasResidentKey: false }),
    "credential IDs of any length": makeKeyTest(testCredentialIdLengths),
    "backup flags": makeKeyTest(testBackupFlags, { defaultBackupEligibility: true, defaultBackupState: true }),
    "invalid options": testInvalidOptions,
    "virtual authenticators of DevTools": testAddVirtualAuthenticator,
};
