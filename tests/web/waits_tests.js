// Tests waiting for the user: what ends the wait, which request is served next, and the cost of a wait and of a
// sign-in.
import { install, SecurityKey } from "../../bindings/web/dist/security_key.mjs";
import {
    readSignCount, createCredential, makeCreationOptions, getAssertion, getAssertionWith, makeOptionsForUser,
    expectError, makeKeyTest,
} from "./ceremonies.js";
import { expect, results, waitUntil, sleep } from "./harness.js";

const testThrowingPresence = async (key) => {
    const mistake = new RangeError("an error in the test");
    key.presence = () => {
        throw mistake;
    };
    expect(await expectError(createCredential(), "RangeError") === mistake, "createCredential throws the error of key.presence");
    key.presence = async () => {
        throw mistake;
    };
    await expectError(createCredential(), "RangeError");
    key.presence = () => "grantd";
    await expectError(createCredential(), "TypeError", '"grantd"');
    expect(key.log().match(/^> \d+ 0000000191/gm).length === 3, "a CANCEL each");
    key.presence = "granted";
    await createCredential();
};

const testInvalidProperties = async (key) => {
    await expectError(() => { key.presence = "grantd"; }, "TypeError", "granted");
    await expectError(() => { key.delay = -1; }, "TypeError", "milliseconds");
    await expectError(() => { key.presense = "denied"; }, "TypeError");
    await expectError(() => { key.faults.wrongSignatur = true; }, "TypeError", "badSignature");
    expect(key.presence === "granted" && key.delay === 0, "nothing has changed");
};

const testUnknownOptions = async () => {
    await expectError(() => install({ presense: "granted" }), "TypeError", "presence, delay");
    await expectError(() => install({ presence: "yes" }), "TypeError", "timeout");
    await expectError(() => install({ storage: {} }), "TypeError", "sessionStorage");
    await expectError(() => install({ state: {} }), "TypeError", "key.state()");
    await expectError(() => install("granted"), "TypeError", "an object");
    const key = install();
    await expectError(() => install(), "Error", "uninstall it first");
    key.uninstall();
};

const testAbortEndsAtOnce = async (key) => {
    const made = await createCredential();
    key.presence = "none";
    const controller = new AbortController();
    const first = createCredential({}, { signal: controller.signal });
    await sleep(20);
    key.presence = "granted";
    controller.abort();
    const second = getAssertionWith(made);
    await expectError(first, "AbortError");
    expect(readSignCount(await second) === 1, "the next is served");
};

/** After a request is aborted at any point, the next request is served. */
const testAbortAtAnyTime = async (key) => {
    const made = await createCredential();
    for (let turns = 0; turns < 30; turns += 1) {
        const controller = new AbortController();
        const first = getAssertionWith(made, { signal: controller.signal }).catch((error) => error);
        for (let turn = 0; turn < turns; turn += 1) {
            await null;
        }
        controller.abort(new RangeError("enough"));
        await getAssertionWith(made);
        const outcome = await first;
        expect(outcome.name === "RangeError" || outcome.id === made.id, `after ${turns} turns: ${outcome}`);
    }
};

const makeSharedStorageOptions = () => {
    localStorage.clear();
    return { storage: localStorage };
};

const testSecondRequest = async (key) => {
    key.presence = "none";
    const controller = new AbortController();
    const first = createCredential({}, { signal: controller.signal });
    await expectError(createCredential(), "OperationError", "already pending");
    await expectError(getAssertion({}, { mediation: "conditional" }), "OperationError");
    controller.abort();
    await expectError(first, "AbortError");
    await expectError(createCredential({ timeout: 100 }), "NotAllowedError", "100 ms");
    key.presence = "granted";
    await createCredential();
};

const testPresenceChange = async (key) => {
    key.presence = "none";
    const waiting = createCredential();
    await sleep(20);
    key.presence = "granted";
    await waiting;
};

/** Ticks are at least 100 ms apart. Missed ticks are not repeated, so there are fewer on a slow machine. */
const testTicks = async (key) => {
    key.presence = "none";
    const listTicks = () => key.log().match(/^t \d+$/gm)?.length ?? 0;
    const controller = new AbortController();
    const before = key.log().length;
    const begun = performance.now();
    const waiting = createCredential({}, { signal: controller.signal });
    await waitUntil(() => listTicks() >= 5, "five ticks");
    const [count, grown] = [listTicks(), key.log().length - before];
    const took = performance.now() - begun;
    expect(count <= took / 90 + 1 && grown < 400 * count + 4000, `${grown} bytes, ${count} ticks in ${took} ms`);
    controller.abort();
    await expectError(waiting, "AbortError");
};

const testSelectAccount = async (key) => {
    await createCredential(makeOptionsForUser("ann"));
    await createCredential(makeOptionsForUser("bob"));
    const conditional = getAssertion({}, { mediation: "conditional" });
    await sleep(20);
    await expectError(key.selectAccount("eve"), "RangeError", "bob, ann");
    const chosen = key.selectAccount("ann");
    const used = await conditional;
    expect(new TextDecoder().decode(used.response.userHandle) === "ann", "the selected account");
    expect((await chosen).userName === "ann" && readSignCount(used) === 1, "the selection ends with the sign-in");
};

const testReplacedRequest = async (key) => {
    const made = await createCredential(makeOptionsForUser("ann"));
    const conditional = getAssertion({}, { mediation: "conditional" });
    await sleep(20);
    await getAssertionWith(made);
    await expectError(conditional, "AbortError", "took over");
    const controller = new AbortController();
    const other = getAssertion({}, { mediation: "conditional", signal: controller.signal });
    controller.abort();
    await expectError(other, "AbortError");
    const choosing = key.selectAccount();
    await getAssertion({}, { mediation: "conditional" });
    await choosing;
};

const testUninstall = async () => {
    const key = install({ presence: "none" });
    const waiting = createCredential();
    await sleep(20);
    key.uninstall();
    await expectError(waiting, "AbortError", "uninstalled");
    const length = key.log().length;
    await sleep(250);
    expect(key.log().length === length && install().uninstall() === undefined, "nothing goes on");
};

const STATIC_METHODS = ["isUserVerifyingPlatformAuthenticatorAvailable", "isConditionalMediationAvailable",
    "getClientCapabilities", "parseCreationOptionsFromJSON", "parseRequestOptionsFromJSON"];

const testStaticMethods = async () => {
    const before = STATIC_METHODS.map((name) => PublicKeyCredential[name]);
    const functions = [navigator.credentials, navigator.credentials.create, navigator.credentials.get];
    const key = install();
    expect(await PublicKeyCredential.isConditionalMediationAvailable() === true, "conditional mediation");
    expect(await PublicKeyCredential.isUserVerifyingPlatformAuthenticatorAvailable() === false, "no platform authenticator");
    expect((await PublicKeyCredential.getClientCapabilities()).conditionalGet === true, "capabilities");
    const json = { challenge: "AQID", rpId: "localhost", allowCredentials: [{ type: "public-key", id: "AQI" }] };
    const { challenge, allowCredentials } = PublicKeyCredential.parseRequestOptionsFromJSON(json);
    expect(challenge.byteLength === 3 && allowCredentials[0].id.byteLength === 2, "bytes of the JSON");
    key.uninstall();
    expect(STATIC_METHODS.every((name, at) => PublicKeyCredential[name] === before[at]), "the static methods are restored");
    const after = [navigator.credentials, navigator.credentials.create, navigator.credentials.get];
    expect(after.every((one, at) => one === functions[at]), "the functions are restored");
};

const FIRST_SIGN_INS = 40;
const ROUNDS = 25;
// The time of a sign-in after many others may be at most this multiple of the time of an early one. If the time grew
// with the length of the log, the multiple would be far higher. Other processes cannot cause it.
const MAX_RATIO = 5;
const MAX_ATTEMPTS = 3;

/** Returns the lower quartile of times, which other processes on the machine hardly affect. */
const computeLowerQuartile = (times) => times.sort((one, other) => one - other)[times.length / 4];

/** Registers a credential on a new key, and returns a function that signs in with it. */
const prepareSignIn = async (key) => {
    const made = await key.create({ publicKey: makeCreationOptions() });
    const publicKey = { challenge: new Uint8Array(32), allowCredentials: [{ type: "public-key", id: made.rawId }] };
    return () => key.get({ publicKey });
};

const measureSignIn = async (signIn) => {
    const begun = performance.now();
    await signIn();
    return performance.now() - begun;
};

/**
 * Measures a new key and a key with a thousand sign-ins alternately, so that both are affected equally by other load.
 */
const measureAlternately = async (signInLate) => {
    const [first, late] = [[], []];
    for (let round = 0; round < ROUNDS; round += 1) {
        const signIn = await prepareSignIn(new SecurityKey());
        for (let count = 0; count < FIRST_SIGN_INS; count += 1) {
            first.push(await measureSignIn(signIn));
            late.push(await measureSignIn(signInLate));
        }
    }
    const [one, other] = [computeLowerQuartile(first), computeLowerQuartile(late)];
    results.figures.push(`a sign-in takes ${one.toFixed(2)} ms among the first ${FIRST_SIGN_INS}, and ${other.toFixed(2)} ms`
        + " after the 1,000th (lower quartiles)");
    return other / one;
};

const testConstantTime = async () => {
    const signInLate = await prepareSignIn(new SecurityKey());
    for (let count = 0; count < 1000; count += 1) {
        await signInLate();
    }
    let least = Infinity;
    for (let tries = 0; tries < MAX_ATTEMPTS && least >= MAX_RATIO; tries += 1) {
        least = Math.min(least, await measureAlternately(signInLate));
    }
    expect(least < MAX_RATIO, `the 1,000th sign-in takes ${least.toFixed(2)} times as long as the first`);
};

export const waitsTests = {
    "a presence that throws leaves the key free": makeKeyTest(testThrowingPresence),
    "unknown names are rejected": makeKeyTest(testInvalidProperties),
    "unknown options are rejected": testUnknownOptions,
    "an aborted request ends immediately": makeKeyTest(testAbortEndsAtOnce),
    "a request is aborted at any point": makeKeyTest(testAbortAtAnyTime),
    "a request with storage shared by tabs is aborted at any point": makeKeyTest(testAbortAtAnyTime, makeSharedStorageOptions),
    "a second request is an OperationError": makeKeyTest(testSecondRequest),
    "presence is granted while a request waits": makeKeyTest(testPresenceChange),
    "a wait follows the clock": makeKeyTest(testTicks),
    "conditional mediation waits for a selection": makeKeyTest(testSelectAccount),
    "conditional mediation is replaced and aborted": makeKeyTest(testReplacedRequest),
    "uninstalling a key aborts its requests": testUninstall,
    "static methods describe the key": testStaticMethods,
    "the 1,000th sign-in costs as much as the first": testConstantTime,
};
