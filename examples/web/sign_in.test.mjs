// Tests a sign-in function with node alone: node --test examples/web/sign_in.test.mjs (node 20).
//
// With Vitest and Jest, use the same lines with their own `test`. If an environment such as jsdom hides node's
// WebCrypto, pass the option crypto to install: (await import("node:crypto")).webcrypto.
import assert from "node:assert/strict";
import { after, before, test } from "node:test";
import { install } from "../../bindings/web/dist/security_key.mjs";

/** The function under test: signs in with the options of a server. */
const signIn = async (json) => {
    const publicKey = PublicKeyCredential.parseRequestOptionsFromJSON(json);
    try {
        return (await navigator.credentials.get({ publicKey })).toJSON();
    } catch (error) {
        return { error: error.name };
    }
};

const options = { challenge: "AAECAwQFBgcICQoLDA0ODw", rpId: "example.com" };
let key = null;

before(() => {
    key = install({ origin: "https://login.example.com" });
});

after(() => key.uninstall());

test("a user without a credential", async () => {
    assert.deepEqual(await signIn(options), { error: "NotAllowedError" });
});

test("a user with a credential", async () => {
    const { credentialId } = await key.addCredential({
        rpId: "example.com", userName: "ann", userHandle: "YW5u", isResidentCredential: true,
    });
    const { id, response } = await signIn(options);
    assert.equal(id, credentialId);
    assert.equal(response.userHandle, "YW5u");
    assert.equal((await key.getCredential(id)).signCount, 1);
});

test("a user who denies", async () => {
    key.presence = "denied";
    assert.deepEqual(await signIn(options), { error: "NotAllowedError" });
});
