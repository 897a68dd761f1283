// Tests the methods of a virtual authenticator, for credentials, presence, events and faults, and DevTools commands.
import { installedKey, sendDevToolsCommand } from "../../bindings/web/dist/security_key.mjs";
import {
    readSignCount, createCredential, getAssertion, getAssertionWith, makeOptionsForUser, P256, expectError,
    toBase64url, makeKeyTest, importPublicKey, isSignedBy,
} from "./ceremonies.js";
import { expect, results } from "./harness.js";

// A delay in milliseconds that does not end during a test, even on a slow machine.
const LONG_DELAY_MS = 1_000_000;

/** A key pair that the key did not create: PKCS #8 and public key. */
const makeForeignKey = async () => {
    const { privateKey, publicKey } = await crypto.subtle.generateKey(P256, true, ["sign", "verify"]);
    return { pkcs8: new Uint8Array(await crypto.subtle.exportKey("pkcs8", privateKey)), publicKey };
};

const testAddCredential = async (key) => {
    const { pkcs8, publicKey } = await makeForeignKey();
    const credentialId = toBase64url(new Uint8Array(32).fill(7));
    await key.addCredential({
        credentialId, isResidentCredential: true, rpId: "localhost", privateKey: toBase64url(pkcs8),
        userHandle: toBase64url([1, 2]), userName: "ann", signCount: 41,
    });
    const used = await getAssertion();
    expect(used.id === credentialId && readSignCount(used) === 42, "it signs in with its counter");
    expect(await isSignedBy(publicKey, used.response), "by its private key");
    expect(toBase64url(new Uint8Array(used.response.userHandle)) === toBase64url([1, 2]), "its user handle");
    const [listed] = await key.getCredentials();
    expect(listed.signCount === 42 && listed.rpId === "localhost" && listed.userName === "ann", "it is listed");
    expect(listed.privateKey === toBase64url(pkcs8), "with its private key");
    const made = await key.addCredential({ rpId: "localhost", isResidentCredential: true, userHandle: toBase64url([3]) });
    expect((await getAssertion()).id === made.credentialId, "one that is made whole");
};

// Algorithms of WebCrypto besides ECDSA on P-256.
const OTHER_ALGORITHMS = [
    { name: "Ed25519" },
    { name: "RSASSA-PKCS1-v1_5", modulusLength: 2048, publicExponent: Uint8Array.of(1, 0, 1), hash: "SHA-256" },
];

/** Adds a credential with a private key of another algorithm, and signs in with it. */
const signInWithAlgorithm = async (key, algorithm) => {
    const { privateKey, publicKey } = await crypto.subtle.generateKey(algorithm, true, ["sign", "verify"]);
    const added = { rpId: "localhost", isResidentCredential: true,
        privateKey: new Uint8Array(await crypto.subtle.exportKey("pkcs8", privateKey)) };
    key.algorithms = [-7];
    await expectError(key.addCredential(added), "TypeError", "algorithms");
    key.algorithms = [-7, -8, -257];
    await key.clearCredentials();
    await key.addCredential(added);
    const { response: { authenticatorData, clientDataJSON, signature } } = await getAssertion();
    const hash = await crypto.subtle.digest("SHA-256", clientDataJSON);
    const signed = new Uint8Array([...new Uint8Array(authenticatorData), ...new Uint8Array(hash)]);
    expect(await crypto.subtle.verify(algorithm.name, publicKey, signature, signed), `a signature of ${algorithm.name}`);
    expect(key.log().includes("# outside of the core: a key of "), "a comment in the log");
};

const testOtherAlgorithms = async (key) => {
    for (const algorithm of OTHER_ALGORITHMS) {
        // Older browsers do not support Ed25519.
        const isThere = await crypto.subtle.generateKey(algorithm, false, ["sign", "verify"]).then(() => true, () => false);
        if (isThere) {
            await signInWithAlgorithm(key, algorithm);
        }
    }
};

const testInvalidCredentials = async (key) => {
    const { credentialId } = await key.addCredential({ rpId: "localhost" });
    await expectError(key.addCredential({ rpId: "localhost", credentialId }), "TypeError", "already");
    await expectError(key.addCredential({ rpid: "localhost" }), "TypeError", "rpId");
    await expectError(key.addCredential({ rpId: "localhost", credentialId: "" }), "TypeError", "1 to 1023 bytes");
    await expectError(key.addCredential({ rpId: "localhost", privateKey: "AQID" }), "TypeError", "PKCS #8");
    await expectError(key.addCredential({ rpId: "localhost", signCount: -1 }), "TypeError", "signCount");
    await expectError(key.removeCredential("AQID"), "RangeError", "AQID");
    await expectError(key.setUserVerified(true), "TypeError", "no user verification");
    await expectError(key.setCredentialProperties(credentialId, { counter: 1 }), "TypeError", "signCount");
    expect((await key.getCredentials()).length === 1, "nothing has changed");
};

const testCredentialProperties = async (key) => {
    const made = await createCredential(makeOptionsForUser("ann"));
    await key.setCredentialProperties(made.id, { signCount: 100, userName: "anna" });
    expect(readSignCount(await getAssertion()) === 101 && (await key.getCredential(made.id)).userName === "anna", "changed");
    await createCredential(makeOptionsForUser("bob"));
    await key.removeCredential(made.id);
    await expectError(getAssertionWith(made), "NotAllowedError", "NO_CREDENTIALS");
    await key.removeAllCredentials();
    await expectError(getAssertion(), "NotAllowedError");
    expect(!(await key.getCredentials()).length, "none is left");
    await createCredential(makeOptionsForUser("eve"));
    await key.clearCredentials();
    expect(!key.state().credentials.length, "cleared");
};

const testPresenceSimulation = async (key) => {
    await key.setAutomaticPresenceSimulation(false);
    await expectError(createCredential({ timeout: 100 }), "NotAllowedError");
    await key.setAutomaticPresenceSimulation(true);
    await createCredential();
};

const testEvents = async (key) => {
    const [added, asserted] = [key.once("credentialAdded"), key.once("credentialAsserted")];
    const told = [];
    key.addEventListener("credentialAsserted", ({ detail }) => told.push(detail.credential.signCount));
    const made = await createCredential(makeOptionsForUser("ann"));
    expect((await added).credential.credentialId === made.id, "a registration");
    await getAssertion();
    await getAssertion();
    expect((await asserted).credential.signCount === 1 && told.join() === "1,2", "sign-ins");
    const deleted = key.once("credentialDeleted");
    await key.removeCredential(made.id);
    expect((await deleted).credentialId === made.id, "a removal");
    await expectError(() => key.once("credentialadded"), "TypeError", "credentialAdded");
};

const testFullKey = async (key) => {
    for (let count = 0; count < 64; count += 1) {
        await createCredential({ user: { id: Uint8Array.of(count), name: `${count}`, displayName: "" } });
    }
    await expectError(createCredential(), "NotAllowedError", "0x28 KEY_STORE_FULL");
    await expectError(key.addCredential({ rpId: "localhost" }), "RangeError", "64");
    results.logs["full.log"] = key.log();
};

const testDevToolsCommands = async () => {
    await expectError(sendDevToolsCommand("WebAuthn.getCredentials"), "Error", "addVirtualAuthenticator");
    const options = { protocol: "ctap2", transport: "usb", hasResidentKey: true, automaticPresenceSimulation: true };
    const { authenticatorId } = await sendDevToolsCommand("WebAuthn.addVirtualAuthenticator", { options });
    const { pkcs8 } = await makeForeignKey();
    const toBase64 = (bytes) => btoa(String.fromCharCode(...bytes));
    const credentialId = toBase64(new Uint8Array(32).fill(255));
    await sendDevToolsCommand("WebAuthn.addCredential", { authenticatorId, credential: {
        credentialId, isResidentCredential: true, rpId: "localhost", privateKey: toBase64(pkcs8), userHandle: "AQ==",
        signCount: 1,
    } });
    await getAssertion();
    const { credentials } = await sendDevToolsCommand("WebAuthn.getCredentials", { authenticatorId });
    expect(credentials[0].credentialId === credentialId && credentials[0].signCount === 2, "listed in base64");
    await sendDevToolsCommand("WebAuthn.setResponseOverrideBits", { authenticatorId, isBogusSignature: true });
    expect(installedKey().faults.badSignature, "a bad signature");
    await sendDevToolsCommand("WebAuthn.setCredentialProperties", { authenticatorId, credentialId, signCount: 9 });
    expect((await sendDevToolsCommand("WebAuthn.getCredential", { credentialId })).credential.signCount === 9, "changed");
    await sendDevToolsCommand("WebAuthn.removeCredential", { authenticatorId, credentialId });
    const secret = sendDevToolsCommand("WebAuthn.addVirtualAuthenticator", { options: { hasHmacSecret: true } });
    await expectError(secret, "TypeError", "false");
    await sendDevToolsCommand("WebAuthn.addVirtualAuthenticator", { options: { hasLargeBlob: true, hasPrf: true } });
    expect(installedKey().extensions.join() === "prf,largeBlob", "its extensions");
    await expectError(sendDevToolsCommand("WebAuthn.getCredental"), "TypeError", "getCredential");
    await sendDevToolsCommand("WebAuthn.removeVirtualAuthenticator", { authenticatorId });
    expect(installedKey() === null, "uninstalled");
};

const testAssertionFaults = async (key) => {
    const made = await createCredential(makeOptionsForUser("ann"));
    const publicKey = await importPublicKey(made.response.getPublicKey());
    const first = await getAssertion();
    expect(await isSignedBy(publicKey, first.response), "good before");
    key.faults.badSignature = true;
    expect(!await isSignedBy(publicKey, (await getAssertion()).response), "a wrong signature");
    key.faults.clear();
    key.faults.staleSignCount = true;
    const [one, other] = [await getAssertion(), await getAssertion()];
    expect(readSignCount(one) === 2 && readSignCount(other) === 2, "a stale counter");
    expect(await isSignedBy(publicKey, other.response), "with a valid signature");
    key.faults.clear();
    key.faults.wrongRpId = "example.com";
    const foreign = new Uint8Array((await getAssertion()).response.authenticatorData).subarray(0, 32);
    const hash = new Uint8Array(await crypto.subtle.digest("SHA-256", new TextEncoder().encode("example.com")));
    expect(foreign.join() === hash.join(), "another RP ID hash");
    key.faults.clear();
    expect(await isSignedBy(publicKey, (await getAssertion()).response), "good afterwards");
    expect((key.log().match(/^# fault( injected)?: /gm) ?? []).length === 4, "each is a comment");
    results.logs["faults.log"] = key.log();
};

const testResponseFaults = async (key) => {
    await createCredential(makeOptionsForUser("ann"));
    key.faults.status = "KEY_STORE_FULL";
    await expectError(createCredential(), "NotAllowedError", "0x28");
    key.faults.status = 0x19;
    await expectError(createCredential(), "InvalidStateError");
    key.faults.clear();
    key.faults.truncateBy = 10;
    await expectError(getAssertion(), "NotAllowedError", "not CBOR");
    key.faults.clear();
    const countKeepalives = () => key.log().match(/^< 00000001bb000101/gm).length;
    const before = countKeepalives();
    // A busy machine sends fewer KEEPALIVEs.
    for (let delay = 350; countKeepalives() - before < 2; delay *= 2) {
        expect(delay < 200_000, "with KEEPALIVEs");
        key.faults.delay = delay;
        const begun = performance.now();
        await getAssertion();
        expect(performance.now() - begun > delay - 10, "after the delay");
    }
    key.faults.delay = LONG_DELAY_MS;
    await expectError(getAssertion({ timeout: 100 }), "NotAllowedError");
    key.faults.clear();
    await getAssertion();
    await expectError(() => { key.faults.status = "FULL"; }, "TypeError", "KEY_STORE_FULL");
    await expectError(() => { key.faults.delay = "1"; }, "TypeError", "milliseconds");
    results.logs["failures.log"] = key.log();
};

export const credentialsTests = {
    "credentials are added": makeKeyTest(testAddCredential),
    "invalid credentials are rejected": makeKeyTest(testInvalidCredentials),
    "credentials are changed, removed and cleared": makeKeyTest(testCredentialProperties),
    "presence is turned off and on": makeKeyTest(testPresenceSimulation),
    "events of registrations and sign-ins": makeKeyTest(testEvents),
    "the 65th registration": makeKeyTest(testFullKey),
    "private keys of other algorithms": makeKeyTest(testOtherAlgorithms),
    "DevTools commands": testDevToolsCommands,
    "faults in signatures, counters and authenticator data": makeKeyTest(testAssertionFaults),
    "faults in responses": makeKeyTest(testResponseFaults),
};
