// Tests the key, which replaces navigator.credentials, with python-fido2's server.
import { install, SecurityKey } from "../../bindings/web/dist/security_key.mjs";
import { abilitiesTests } from "./abilities_tests.js";
import { callsTests } from "./calls_tests.js";
import { makeCreationOptions, P256, importPublicKey } from "./ceremonies.js";
import { credentialsTests } from "./credentials_tests.js";
import { guardTests } from "./guard_tests.js";
import { expect, post, getRejection, results, run, waitUntil } from "./harness.js";
import { readmeTests } from "./readme_tests.js";
import { recordingsTests } from "./recordings_tests.js";
import { stateTests } from "./state_tests.js";
import { waitsTests } from "./waits_tests.js";

// A delay in milliseconds that does not end during a test, even on a slow machine.
const LONG_DELAY_MS = 1_000_000;

const decodeBase64url = (text) => {
    const plain = atob(text.replaceAll("-", "+").replaceAll("_", "/"));
    return Uint8Array.from(plain, (letter) => letter.charCodeAt(0));
};

/** Decodes the JSON options of a server, as a page does. */
const decodeOptions = ({ publicKey }) => {
    const decodeDescriptors = (list) => list?.map((descriptor) => ({ ...descriptor, id: decodeBase64url(descriptor.id) }));
    const options = { ...publicKey, challenge: decodeBase64url(publicKey.challenge) };
    if (publicKey.user) {
        options.user = { ...publicKey.user, id: decodeBase64url(publicKey.user.id) };
    }
    options.excludeCredentials = decodeDescriptors(publicKey.excludeCredentials);
    options.allowCredentials = decodeDescriptors(publicKey.allowCredentials);
    return options;
};

const register = async (body, more = {}) => {
    const options = decodeOptions(await post("/rp/register_begin", body));
    const publicKey = { ...options, ...more.publicKey };
    const made = await navigator.credentials.create({ publicKey, signal: more.signal });
    const known = await post("/rp/register_complete", { user: body.user, ...made.toJSON().response });
    return { made, known };
};

const signIn = async (body = {}, more = {}) => {
    const options = decodeOptions(await post("/rp/sign_in_begin", body));
    const publicKey = { ...options, ...more.publicKey };
    const used = await navigator.credentials.get({ publicKey, signal: more.signal });
    return post("/rp/sign_in_complete", { id: used.id, ...used.toJSON().response });
};

/** A clock that does not depend on the machine's speed, so that recordings differ only in their key pairs. */
const makeSteadyClock = () => {
    let timeMs = 0;
    return (passed = 1) => (timeMs += passed);
};

/** Returns a test that installs its own key, and keeps its log. */
const makeKeyTest = (log, test, options = {}) => async () => {
    const before = navigator.credentials;
    const key = await install({ clock: makeSteadyClock(), ...options });
    await post("/rp/forget", {});
    try {
        await test(key);
    } finally {
        key.uninstall();
        results.logs[log] = key.log();
    }
    expect(navigator.credentials === before, "uninstall restores what was there");
};

const expectError = async (promise, name, text = "") => {
    const error = await getRejection(promise);
    const isExpected = error.name === name && error instanceof DOMException && error.message.includes(text);
    expect(isExpected, `expected ${name}, got ${error.name}: ${error.message}`);
};

const testRegisterAndSignIn = async () => {
    const { made, known } = await register({ user: "ann" });
    expect(known.id === made.id && known.format === "packed", "the server took another credential");
    expect(made instanceof PublicKeyCredential, "no PublicKeyCredential");
    expect(made.response.getTransports()[0] === "usb", "its transport");
    const key = await importPublicKey(made.response.getPublicKey());
    expect(key.type === "public", "its public key");
    const first = await signIn({ user: "ann" });
    const second = await signIn({ user: "ann" });
    expect(second.counter === first.counter + 1, "counters rise by one");
};

const testDiscoverableSignIn = async () => {
    await register({ user: "ann", resident: true });
    expect((await signIn()).user === "ann", "a sign-in without a name");
};

const testAccountSelection = async (key) => {
    await register({ user: "ann", resident: true });
    await register({ user: "bob", resident: true });
    expect((await signIn()).user === "bob", "the newest account comes first");
    const isAnnSelected = ({ userHandle, userName }) => userHandle === btoa("ann") && userName === "ann";
    key.account = (accounts) => accounts.find(isAnnSelected);
    expect((await signIn()).user === "ann", "the selected account");
};

const testExcludeList = async () => {
    await register({ user: "ann" });
    await expectError(register({ user: "ann", exclude: true }), "InvalidStateError");
    await register({ user: "bob", exclude: true });
};

const testDeniedPresence = async (key) => {
    key.presence = "denied";
    await expectError(register({ user: "ann" }), "NotAllowedError", "0x27 OPERATION_DENIED: the user refused)");
    key.presence = () => "granted";
    await register({ user: "ann" });
    key.presence = "timeout";
    await expectError(signIn({ user: "ann" }), "NotAllowedError",
        "0x27 OPERATION_DENIED: the user did not respond in time)");
};

const testDelayedPresence = async (key) => {
    key.delay = 250;
    await register({ user: "ann" });
    expect(/^t \d+\n< 00000001bb000102/m.test(key.log()), "KEEPALIVE while the user is awaited");
    key.delay = LONG_DELAY_MS;
    await expectError(signIn({ user: "ann" }, { publicKey: { timeout: 120 } }), "NotAllowedError");
    expect(/^> \d+ 0000000191/m.test(key.log()), "CANCEL at the time-out");
};

const testAbort = async (key) => {
    key.delay = LONG_DELAY_MS;
    const abort = new AbortController();
    setTimeout(() => abort.abort(), 150);
    await expectError(register({ user: "ann" }, { signal: abort.signal }), "AbortError");
    await expectError(register({ user: "ann" }, { signal: AbortSignal.abort() }), "AbortError");
};

const testConcurrentRequests = async (key) => {
    key.presence = "none";
    const first = register({ user: "ann" });
    await waitUntil(() => key.log().includes("# need presence"), "the first request");
    const options = { challenge: new Uint8Array(32), rpId: "localhost" };
    await expectError(navigator.credentials.get({ publicKey: options }), "OperationError");
    key.presence = "granted";
    await first;
};

const testDialog = async (key) => {
    key.presence = "click";
    const registering = register({ user: "ann" });
    await waitUntil(() => document.querySelector("dialog button"), "a dialog");
    document.querySelector("dialog button").click();
    await registering;
    const signing = expectError(signIn({ user: "ann" }), "NotAllowedError");
    await waitUntil(() => document.querySelector("dialog button"), "a dialog");
    document.querySelectorAll("dialog button")[1].click();
    await signing;
    expect(!document.querySelector("dialog"), "the dialog is gone");
};

const testUnsupportedRequests = async () => {
    await expectError(register({ user: "ann", verification: "required" }), "NotAllowedError");
    const foreign = { rp: { id: "example.com", name: "" } };
    await expectError(register({ user: "ann" }, { publicKey: foreign }), "SecurityError");
    const other = { pubKeyCredParams: [{ type: "public-key", alg: -257 }] };
    await expectError(register({ user: "ann" }, { publicKey: other }), "NotAllowedError");
    const none = { pubKeyCredParams: [{ type: "password", alg: -7 }] };
    await expectError(register({ user: "ann" }, { publicKey: none }), "NotSupportedError");
    await expectError(signIn({ user: "ann" }), "NotAllowedError");
};

const ROUNDS = 50;
const BATCHES = 3;

/** The browser's processor time per round, in milliseconds. */
const measureProcessorTime = async (round) => {
    const before = await post("/processor", {});
    for (let count = 0; count < ROUNDS; count += 1) {
        await round();
    }
    const after = await post("/processor", {});
    return (1000 * (after.seconds - before.seconds)) / ROUNDS;
};

/** The WebCrypto calls of a registration and a sign-in. */
const callWebCrypto = async () => {
    const [clientData, signed] = [new Uint8Array(120), new Uint8Array(196)];
    const { publicKey, privateKey } = await crypto.subtle.generateKey(P256, false, ["sign"]);
    await crypto.subtle.exportKey("raw", publicKey);
    for (let count = 0; count < 2; count += 1) {
        await crypto.subtle.digest("SHA-256", clientData);
        await crypto.subtle.sign({ name: "ECDSA", hash: "SHA-256" }, privateKey, signed);
    }
};

/** A registration and a sign-in with a new key. */
const registerAndSignIn = async () => {
    const key = new SecurityKey({ clock: makeSteadyClock() });
    const made = await key.create({ publicKey: makeCreationOptions() });
    const allowCredentials = [{ type: "public-key", id: made.rawId }];
    await key.get({ publicKey: { challenge: new Uint8Array(32), allowCredentials } });
};

/** The times of the first batch, which includes compilation, and of the fastest later batch. */
const measureBatches = async (round) => {
    const first = await measureProcessorTime(round);
    const later = [];
    for (let count = 0; count < BATCHES; count += 1) {
        later.push(await measureProcessorTime(round));
    }
    return { first, least: Math.min(...later) };
};

/** The processor time is that of all processes of the browser, so no other test runs at the same time. */
const testProcessorTime = async () => {
    const all = await measureBatches(registerAndSignIn);
    const crypto = await measureBatches(callWebCrypto);
    const own = (all.least - crypto.least).toFixed(2);
    results.figures.push(`a registration and a sign-in: ${all.least.toFixed(2)} ms of processor time, of which`
        + ` WebCrypto takes ${crypto.least.toFixed(2)} ms and the key ${own} ms (the fastest of ${BATCHES} times`
        + ` ${ROUNDS}; the first ${ROUNDS} took ${all.first.toFixed(2)} ms)`);
};

const keyTests = {
    "a registration and two sign-ins": makeKeyTest("registration_and_sign_in.log", testRegisterAndSignIn),
    "a discoverable credential": makeKeyTest("discoverable.log", testDiscoverableSignIn),
    "two accounts": makeKeyTest("two_accounts.log", testAccountSelection),
    "an exclude list": makeKeyTest("excluded.log", testExcludeList),
    "a user who denies, and one who does nothing": makeKeyTest("denied.log", testDeniedPresence),
    "a user who is late, and too late": makeKeyTest("late.log", testDelayedPresence),
    "requests that are aborted": makeKeyTest("aborted.log", testAbort),
    "a request while another is pending": makeKeyTest("one_at_a_time.log", testConcurrentRequests),
    "presence by a click": makeKeyTest("click.log", testDialog),
    "unsupported options": makeKeyTest("refused.log", testUnsupportedRequests),
    "how long it takes": testProcessorTime,
};

run({
    ...keyTests, ...waitsTests, ...stateTests, ...callsTests, ...credentialsTests, ...abilitiesTests,
    ...recordingsTests, ...readmeTests, ...guardTests,
});
