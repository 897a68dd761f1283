// Tests what a page sees in every browser: arguments and errors as in Chromium, and the credentials that the page
// receives.
import { install } from "../../bindings/web/dist/security_key.mjs";
import { listCalls, summarizeResult, getResult } from "./calls.js";
import {
    createCredential, makeCreationOptions, getAssertion, getAssertionWith, makeOptionsForUser, toBase64url,
    makeKeyTest, isSelfAttested,
} from "./ceremonies.js";
import { expect, results, loadFrame, loadResult } from "./harness.js";
import { AUTHENTICATOR_KINDS, mayDiffer } from "./reasons.js";

/**
 * Returns a message for each call whose result differs from that of Chromium's virtual authenticator with the same
 * options, except for the differences that reasons.js lists.
 */
const findDifferences = async (kind, expected) => {
    const key = install(AUTHENTICATOR_KINDS[kind]);
    const calls = listCalls({
        presence: (enabled) => key.setAutomaticPresenceSimulation(enabled), clear: () => key.clearCredentials(),
    });
    const wrong = [];
    for (const [name, call] of Object.entries(calls)) {
        await key.clearCredentials();
        const end = summarizeResult(await getResult(call));
        if (end !== expected[name] && !mayDiffer(kind, name, expected[name], end)) {
            wrong.push(`${kind}: ${name}: expected ${expected[name]}, got ${end}`);
        }
    }
    key.uninstall();
    results.figures.push(`${kind}: ${Object.keys(calls).length} calls have Chromium's results, except for`
        + " those in reasons.js");
    expect(Object.keys(calls).length >= 190, "too few calls");
    return wrong;
};

const testSameResultsAsChromium = async () => {
    const expected = await (await fetch("chromium_outcomes.json")).json();
    const wrong = [];
    for (const kind of Object.keys(AUTHENTICATOR_KINDS)) {
        wrong.push(...await findDifferences(kind, expected[kind]));
    }
    expect(!wrong.length, wrong.join("\n"));
};

const REGISTRATION_MEMBERS = ["attestationObject", "authenticatorData", "clientDataJSON", "publicKey", "publicKeyAlgorithm",
    "transports"];

const testToJson = async () => {
    const made = await createCredential(makeOptionsForUser("ann"));
    const json = JSON.parse(JSON.stringify(made));
    expect(Object.keys(json.response).sort().join() === REGISTRATION_MEMBERS.join(), "the members of a registration");
    expect(json.response.publicKey === toBase64url(made.response.getPublicKey()), "the public key");
    expect(json.response.authenticatorData === toBase64url(made.response.getAuthenticatorData()), "authenticator data");
    expect(json.response.publicKeyAlgorithm === -7 && json.response.transports.join() === "usb", "the rest");
    expect(made.response instanceof AuthenticatorAttestationResponse, "its type");
    const used = JSON.parse(JSON.stringify(await getAssertion()));
    expect(used.response.userHandle === "YW5u" && used.rawId === made.id && used.type === "public-key", "a sign-in");
    const other = JSON.parse(JSON.stringify(await getAssertionWith(await createCredential())));
    expect(!("userHandle" in other.response), "a sign-in without a user handle");
};

const testContainer = async () => {
    const { credentials } = navigator;
    const { create: before } = credentials;
    const key = install();
    expect(navigator.credentials === credentials && credentials instanceof CredentialsContainer, "the same container");
    expect(before !== credentials.create && credentials.create.length === 0, "another function");
    const detached = await credentials.create.call({}, { publicKey: makeCreationOptions() }).catch((error) => error);
    expect(detached instanceof TypeError, "not called on a container");
    key.uninstall();
    expect(credentials.create === before && !Object.keys(credentials).length, "put back");
};

/** Registers in a frame, and returns the client data that the key signed. */
const loadClientData = async (address, policy) => {
    const made = await loadResult(address, policy);
    expect(await isSelfAttested(made), `the signature over the client data of ${address}`);
    return JSON.parse(new TextDecoder().decode(made.clientDataJSON));
};

const testClientDataOrigins = async () => {
    const own = await loadClientData("frame.html?tell");
    expect(own.crossOrigin === false && !("topOrigin" in own), "a frame of the same origin");
    const policy = "publickey-credentials-create *; publickey-credentials-get *";
    const address = `http://a.localhost:${location.port}/tests/web/frame.html?tell`;
    const clientData = await loadClientData(address, policy);
    expect(clientData.crossOrigin === true && clientData.topOrigin === location.origin, JSON.stringify(clientData));
    expect(clientData.origin === `http://a.localhost:${location.port}`, "the frame's own origin");
    if (document.featurePolicy) {
        const refused = await loadResult(address, "");
        const isRefused = refused.error === "NotAllowedError" && refused.text.includes("Permissions Policy");
        expect(isRefused, "a frame without permission");
    }
};

const testOtherRealms = async () => {
    const frame = await loadFrame("frame.html");
    const { AbortController: Other, Uint8Array: Bytes, eval: run } = frame.contentWindow;
    const controller = new Other();
    const made = await createCredential({ challenge: new Bytes(16), user: run(
        '({ id: new Uint8Array([1]).buffer, name: "ann", displayName: "Ann" })') }, { signal: controller.signal });
    expect(made.id.length === 43, "buffers and a signal of another frame");
    frame.remove();
};

const testIpAddresses = async () => {
    const told = await loadResult(`http://127.0.0.1:${location.port}/tests/web/frame.html?tell`,
        "publickey-credentials-create *");
    expect(told.error === "SecurityError", `an IP address: ${told.error}`);
};

const testWithoutEval = async () => {
    const policy = encodeURIComponent("default-src 'none'; script-src 'self' 'wasm-unsafe-eval'");
    const frame = await loadFrame(`frame.html?csp=${policy}`);
    expect((await frame.contentWindow.register()).id.length === 43, "a page with wasm-unsafe-eval");
    expect(frame.contentWindow.atFirst.isKey, "the key is installed before the page's first script");
    frame.remove();
    const strict = await loadFrame(`frame.html?csp=${encodeURIComponent("script-src 'self'")}`);
    const error = await strict.contentWindow.register().catch((caught) => caught);
    expect(error.message.includes("'wasm-unsafe-eval'") && !error.message.includes("\n"), `a strict page: ${error}`);
    strict.remove();
};

export const callsTests = {
    "calls have Chromium's results": testSameResultsAsChromium,
    "a credential's JSON": makeKeyTest(testToJson),
    "navigator.credentials is the same container": testContainer,
    "clientDataJSON has the origins of frames": testClientDataOrigins,
    "arguments of another frame": makeKeyTest(testOtherRealms),
    "an IP address is not an RP ID": testIpAddresses,
    "the key and a Content-Security-Policy": testWithoutEval,
};
