// Tests the saved state of a key: as a value, in storage, and in storage that two tabs share.
import { SecurityKey } from "../../bindings/web/dist/security_key.mjs";
import {
    readSignCount, createCredential, makeCreationOptions, getAssertion, makeOptionsForUser, expectError, makeKeyTest,
} from "./ceremonies.js";
import { expect, results, loadFrame, reload } from "./harness.js";

const getOptions = { publicKey: { challenge: new Uint8Array(32) } };

/** Keeps a recording for `hidlog check --load`. */
const keepRecording = (name, { snapshot, log }) => {
    results.logs[`${name}.log`] = log;
    if (snapshot.length) {
        results.logs[`${name}.log.snapshot`] = btoa(String.fromCharCode(...snapshot));
    }
};

const testStateAsValue = async (key) => {
    await createCredential(makeOptionsForUser("ann"));
    expect(readSignCount(await getAssertion()) === 1, "the first sign-in");
    const state = JSON.parse(JSON.stringify(key.state()));
    expect(state.credentials[0].signCount === 1 && state.credentials[0].userName === "ann", "what it says");
    const other = new SecurityKey({ state });
    expect(readSignCount(await other.get(getOptions)) === 2, "the counter goes on");
    expect(other.state().timeMs >= state.timeMs, "the time goes on");
    keepRecording("from_a_state", other.recordings()[0]);
    const { format: form, timeMs: moment, ...rest } = state;
    expect(readSignCount(await new SecurityKey({ state: { form, moment, ...rest } }).get(getOptions)) === 2, "old names");
    state.format = "other";
    await expectError(() => new SecurityKey({ state }), "TypeError", "key.state()");
};

const testReloads = async () => {
    sessionStorage.clear();
    const frame = await loadFrame("frame.html?store=session");
    const { id } = await frame.contentWindow.register("ann");
    for (let counter = 1; counter < 4; counter += 1) {
        expect(await frame.contentWindow.signIn() === counter, `the counter after ${counter} reloads`);
        await reload(frame);
    }
    const [credential] = await frame.contentWindow.key.getCredentials();
    expect(credential.credentialId === id && credential.signCount === 3, "the credential is listed");
    frame.remove();
    expect(sessionStorage.getItem("hidlogKey").includes(id), "the storage has it");
    sessionStorage.clear();
};

const testSharedStorage = async () => {
    localStorage.clear();
    const frames = await Promise.all([1, 2].map(() => loadFrame("frame.html?store=local")));
    const [one, other] = frames.map((frame) => frame.contentWindow);
    await one.register("ann");
    const counters = [await one.signIn(), await other.signIn(), await one.signIn()];
    expect(counters.join() === "1,2,3", `in turn: ${counters}`);
    const runRounds = async (page) => {
        const found = [];
        for (let count = 0; count < 20; count += 1) {
            found.push(await page.signIn());
        }
        return found;
    };
    const both = (await Promise.all([runRounds(one), runRounds(other)])).flat();
    const expected = Array.from({ length: 40 }, (_, at) => at + 4);
    expect(both.sort((left, right) => left - right).join() === expected.join(), `at the same time: ${both}`);
    await Promise.all([one.register("bob"), other.register("eve")]);
    const held = (await one.key.getCredentials()).map((credential) => credential.userName).sort();
    expect(held.join() === "ann,bob,eve", `registered at the same time: ${held}`);
    one.key.recordings().forEach((recording, at) => keepRecording(`shared_${at}`, recording));
    frames.forEach((frame) => frame.remove());
    localStorage.clear();
};

/** Changes by another tab take effect while this tab waits for the user. */
const testChangesWhileWaiting = async () => {
    localStorage.clear();
    const key = new SecurityKey({ storage: localStorage });
    await key.create({ publicKey: makeCreationOptions(makeOptionsForUser("ann")) });
    key.presence = "none";
    const waiting = key.get(getOptions);
    const tab = new SecurityKey({ storage: localStorage });
    expect(readSignCount(await tab.get(getOptions)) === 1, "the other tab signs in meanwhile");
    key.presence = "granted";
    expect(readSignCount(await waiting) === 2, "the counter rose in the other tab");
    key.presence = "none";
    const gone = key.get(getOptions);
    await tab.removeAllCredentials();
    key.presence = "granted";
    await expectError(gone, "NotAllowedError", "NO_CREDENTIALS");
    key.recordings().forEach((recording, at) => keepRecording(`changed_${at}`, recording));
    localStorage.clear();
};

const testChangesDuringRequest = async (key) => {
    await createCredential(makeOptionsForUser("ann"));
    key.presence = "none";
    const waiting = getAssertion();
    const bob = { rpId: "localhost", userName: "bob", userHandle: "Ym9i", isResidentCredential: true };
    const added = await key.addCredential(bob);
    key.presence = "granted";
    expect((await waiting).id === added.credentialId, "the credential that was added while the user was asked");
};

const testInvalidOrClearedStorage = async () => {
    sessionStorage.setItem("hidlogKey", "{");
    await expectError(() => new SecurityKey({ storage: sessionStorage }), "TypeError", "an invalid state of a key");
    sessionStorage.clear();
    const key = new SecurityKey({ storage: sessionStorage });
    await key.create({ publicKey: makeCreationOptions(makeOptionsForUser("ann")) });
    // A page that clears its storage, for example at logout, does not remove credentials.
    sessionStorage.clear();
    expect(readSignCount(await key.get(getOptions)) === 1, "the credential is kept");
    expect(new SecurityKey({ storage: sessionStorage }).state().credentials.length === 1, "the state is stored again");
    sessionStorage.clear();
};

/** If the storage fails, the request fails, and the next request is served. */
const testFullStorage = async () => {
    const full = new DOMException("full", "QuotaExceededError");
    const items = new Map();
    const storage = { isFull: false, getItem: (name) => items.get(name) ?? null, setItem: (name, text) => {
        if (storage.isFull) {
            throw full;
        }
        items.set(name, text);
    } };
    const key = new SecurityKey({ storage });
    await key.create({ publicKey: makeCreationOptions(makeOptionsForUser("ann")) });
    storage.isFull = true;
    await expectError(key.get(getOptions), "QuotaExceededError");
    storage.isFull = false;
    expect(readSignCount(await key.get(getOptions)) === 2, "the next one is served");
    items.set("hidlogKey", "{");
    await expectError(key.get(getOptions), "TypeError", "an invalid state of a key");
    items.clear();
    expect(readSignCount(await key.get(getOptions)) === 3, "and the next");
};

/** A storage for a test, which keeps its values in a Map. */
const makeObjectStorage = () => {
    const items = new Map();
    return {
        items, getItem: (name) => items.get(name) ?? null, removeItem: (name) => items.delete(name),
        setItem: (name, text) => items.set(name, text),
    };
};

/** Counts the characters that are written to a storage, until `stop` is called. */
const countWrittenCharacters = (storage) => {
    const owner = storage instanceof Storage ? Storage.prototype : storage;
    const { setItem } = owner;
    const counted = { written: 0, stop: () => Object.assign(owner, { setItem }) };
    owner.setItem = function setCounted(name, text) {
        counted.written += this === storage ? name.length + text.length : 0;
        setItem.call(this, name, text);
    };
    return counted;
};

const SIGN_INS = 1000;
const SIGN_INS_PER_BLOCK = 50;
const MAX_STORED_CHARACTERS = 1_300_000;

/** Signs in SIGN_INS times, and returns the number of characters that each sign-in writes. */
const signInRepeatedly = async (key, storage, options) => {
    const counted = countWrittenCharacters(storage);
    const written = [];
    try {
        for (let count = 0; count < SIGN_INS; count += 1) {
            const before = counted.written;
            await key.get(options);
            written.push(counted.written - before);
        }
    } finally {
        counted.stop();
    }
    return written;
};

/** The last sign-ins write at most 5% more characters to the storage than the first, and the next key continues. */
const testConstantCost = (name, makeStorage) => async () => {
    const storage = makeStorage();
    // The timestamps of all inputs have the same number of digits.
    let timeMs = 1_000_000;
    const clock = (passed = 1) => (timeMs += passed);
    const key = new SecurityKey({ storage, clock });
    const made = await key.create({ publicKey: makeCreationOptions(makeOptionsForUser("ann")) });
    const allowCredentials = [{ type: "public-key", id: made.rawId }];
    const options = { publicKey: { ...getOptions.publicKey, allowCredentials } };
    const written = await signInRepeatedly(key, storage, options);
    const sum = (list) => list.reduce((total, count) => total + count, 0);
    const [first, last] = [sum(written.slice(0, SIGN_INS_PER_BLOCK)), sum(written.slice(-SIGN_INS_PER_BLOCK))];
    results.figures.push(`a sign-in writes ${(first / SIGN_INS_PER_BLOCK).toFixed(0)} characters to ${name} among the first`
        + ` ${SIGN_INS_PER_BLOCK}, and ${(last / SIGN_INS_PER_BLOCK).toFixed(0)} among the last of ${SIGN_INS}`);
    expect(first > 0 && last < 1.05 * first, `${first} characters for the first ${SIGN_INS_PER_BLOCK}, ${last} for the last`);
    key.close();
    const next = new SecurityKey({ storage, clock });
    const signIns = next.recordings().map(({ log }) => log.split("\ns ").length - 1);
    expect(readSignCount(await next.get(options)) === SIGN_INS + 1 && signIns.length > 1, "the next key continues");
    keepRecording(`a_thousand_${name.replace(" ", "_")}`, next.recordings().at(-1));
    const stored = storage.items ? [...storage.items.values()] : Object.values(storage);
    const whole = stored.join("").length;
    expect(whole < MAX_STORED_CHARACTERS, `${whole} characters are stored`);
    next.close();
    storage.clear?.();
};

/** Clears a storage of the browser, and returns it. */
const clearStorage = (name) => {
    const storage = globalThis[name];
    storage.clear();
    return storage;
};

export const stateTests = {
    "a thousand sign-ins with an object as storage": testConstantCost("an object", makeObjectStorage),
    "a thousand sign-ins with sessionStorage": testConstantCost("sessionStorage", () => clearStorage("sessionStorage")),
    "a thousand sign-ins with localStorage": testConstantCost("localStorage", () => clearStorage("localStorage")),
    "the state is a value that can be stored": makeKeyTest(testStateAsValue),
    "the state in storage survives reloads": testReloads,
    "two tabs sharing storage lose no counter increment": testSharedStorage,
    "changes by another tab are seen while the user is asked": testChangesWhileWaiting,
    "credentials are added while the user is asked": makeKeyTest(testChangesDuringRequest),
    "storage that is cleared, or has an invalid value": testInvalidOrClearedStorage,
    "storage that fails": testFullStorage,
};
