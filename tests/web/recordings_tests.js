// Tests recordings in storage: one log continues from page to page and from tab to tab, and is complete and limited in
// length. Also tests invalid states.
import { SecurityKey } from "../../bindings/web/dist/security_key.mjs";
import { readSignCount, makeCreationOptions, makeOptionsForUser, expectError } from "./ceremonies.js";
import { expect, results, waitUntil, loadFrame, reload } from "./harness.js";

const getOptions = { publicKey: { challenge: new Uint8Array(32) } };
const countOccurrences = (text, part) => text.split(part).length - 1;

/** Keeps recordings for `hidlog check --load`. */
const keepRecordings = (name, recordings) => recordings.forEach(({ index, snapshot, log }) => {
    results.logs[`${name}_${index}.log`] = log;
    if (snapshot.length) {
        results.logs[`${name}_${index}.log.snapshot`] = btoa(String.fromCharCode(...snapshot));
    }
});

const INIT_HEX = " ffffffff860008";

const testNavigations = async () => {
    sessionStorage.clear();
    const frame = await loadFrame("frame.html?store=session");
    await frame.contentWindow.register("ann");
    for (let count = 1; count <= 5; count += 1) {
        await reload(frame);
        expect(await frame.contentWindow.signIn() === count, `sign-in ${count}`);
    }
    await reload(frame);
    const recordings = frame.contentWindow.key.recordings();
    const [{ log, snapshot }] = recordings;
    expect(recordings.length === 1 && !snapshot.length, `one log from the start: ${recordings.length}`);
    expect(countOccurrences(log, INIT_HEX) === 1 && countOccurrences(log, "\ns ") === 6, "with one INIT, a registration and five sign-ins");
    keepRecordings("navigated", recordings);
    frame.remove();
    sessionStorage.clear();
};

const testRecordedDenialsAndFaults = async () => {
    sessionStorage.clear();
    const key = new SecurityKey({ storage: sessionStorage, presence: "denied" });
    await expectError(key.create({ publicKey: makeCreationOptions() }), "NotAllowedError");
    key.presence = "granted";
    key.faults.status = "KEY_STORE_FULL";
    await expectError(key.create({ publicKey: makeCreationOptions() }), "NotAllowedError");
    const next = new SecurityKey({ storage: sessionStorage });
    expect(next.log().includes(" denied\n") && next.log().includes("# fault: the response has status 0x28"), "both");
    await next.create({ publicKey: makeCreationOptions() });
    keepRecordings("denied", next.recordings());
    sessionStorage.clear();
};

const testTwoTabs = async () => {
    localStorage.clear();
    const frames = await Promise.all([1, 2].map(() => loadFrame("frame.html?store=local")));
    const [one, other] = frames.map((frame) => frame.contentWindow);
    await one.register("ann");
    for (const page of [other, one, other, other, one]) {
        await page.signIn();
    }
    const recordings = one.key.recordings();
    expect(recordings.length === 1 && countOccurrences(recordings[0].log, "\ns ") === 6, "one log of both tabs");
    await one.key.addCredential({ rpId: "localhost", userName: "bob", userHandle: "Ym9i", isResidentCredential: true });
    await other.signIn();
    await reload(frames[0]);
    const parts = frames[0].contentWindow.key.recordings();
    expect(parts.map(({ index }) => index).join() === "1,2", "a change by a method starts a recording");
    expect(parts[1].snapshot.length > 0 && countOccurrences(parts[1].log, "\ns ") === 2, "with its snapshot");
    keepRecordings("tabs", parts);
    frames.forEach((frame) => frame.remove());
    localStorage.clear();
};

/** If another tab changes the credentials, the previous inputs of this tab are in a separate recording. */
const testChangeDuringRequest = async () => {
    localStorage.clear();
    const key = new SecurityKey({ storage: localStorage });
    await key.create({ publicKey: makeCreationOptions(makeOptionsForUser("ann")) });
    key.presence = "none";
    const waiting = key.get(getOptions);
    await waitUntil(() => key.log().includes("# need presence"), "the request is sent");
    const tab = new SecurityKey({ storage: localStorage });
    expect(readSignCount(await tab.get(getOptions)) === 1, "the other tab signs in meanwhile");
    key.presence = "granted";
    expect(readSignCount(await waiting) === 2, "then this one");
    const recordings = key.recordings();
    const { log } = recordings.at(-1);
    expect(recordings.length === 2 && countOccurrences(log, "\ns ") === 3, "the last one is complete");
    expect(recordings[0].log.includes("0000000191"), "the other one ends with CANCEL");
    keepRecordings("under_way", new SecurityKey({ storage: localStorage }).recordings());
    localStorage.clear();
};

const testMaximumLengths = async () => {
    sessionStorage.clear();
    let key = new SecurityKey({ storage: sessionStorage });
    for (let page = 0; page < 4; page += 1) {
        for (let count = 0; count < 30; count += 1) {
            key.faults.delay = 0;
            await key.create({ publicKey: makeCreationOptions(makeOptionsForUser(`${count}`)) });
        }
        await key.clearCredentials();
        for (let count = 0; count < 30; count += 1) {
            await key.create({ publicKey: makeCreationOptions(makeOptionsForUser("ann")) });
            for (let more = 0; more < 4; more += 1) {
                await key.get(getOptions);
            }
        }
        key = new SecurityKey({ storage: sessionStorage });
    }
    const length = Object.values({ ...sessionStorage }).join("").length;
    const parts = key.recordings();
    expect(length < 1_300_000 && length > 400_000, `${length} characters are stored`);
    const indexes = parts.map(({ index }) => index);
    const areConsecutive = indexes.every((index, at) => index === indexes[0] + at);
    expect(indexes[0] > 1 && areConsecutive, `the oldest are gone: ${indexes}`);
    keepRecordings("bounded", parts);
    sessionStorage.clear();
};

const testChangedRecordings = async () => {
    sessionStorage.clear();
    const key = new SecurityKey({ storage: sessionStorage });
    await key.create({ publicKey: makeCreationOptions(makeOptionsForUser("ann")) });
    const stored = Object.entries({ ...sessionStorage });
    for (const [of, to] of [["< 00000001", "< 00000002"], ["\np ", "\nx "], [INIT_HEX, " ffffffff810008"]]) {
        sessionStorage.clear();
        const changed = stored.map(([name, text]) => [name, text.replace(of, to)]);
        expect(changed.join() !== stored.join(), `${of} is there`);
        changed.forEach(([name, text]) => sessionStorage.setItem(name, text));
        const next = new SecurityKey({ storage: sessionStorage });
        expect(readSignCount(await next.get(getOptions)) === 1, `${of}: the credential signs in`);
        const parts = next.recordings();
        expect(parts.length === 2 && parts[1].snapshot.length > 0, `${of}: in a recording of its own`);
        keepRecordings(`after_${to.length}`, [parts[1]]);
    }
    sessionStorage.clear();
};

/** Invalid states, each made from a valid one. */
const INVALID_STATES = {
    "not JSON": () => "{",
    "null": () => "null",
    "an array": () => "[]",
    "another format": (state) => ({ ...state, format: "hidlog web key 9" }),
    "no time": ({ timeMs, ...state }) => state,
    "a time that is a string": (state) => ({ ...state, timeMs: "1" }),
    "an invalid time": (state) => ({ ...state, timeMs: -1.5 }),
    "a version that is a string": (state) => ({ ...state, version: "new" }),
    "no credentials": (state) => ({ ...state, credentials: null }),
    "65 credentials": (state) => ({ ...state, credentials: Array(65).fill(state.credentials[0]) }),
    "an invalid credential": (state) => ({ ...state, credentials: [null] }),
    "a duplicate ID": (state) => ({ ...state, credentials: [state.credentials[0], state.credentials[0]] }),
    "invalid recordings": (state) => ({ ...state, recordings: { ended: [{}], last: null } }),
    ...Object.fromEntries(Object.entries({
        credentialId: "", rpId: 7, privateKey: "AQID", userHandle: "!", signCount: "NaN", userName: null,
        isResidentCredential: "yes", rpIdHash: "AQ", backupState: 1, coreId: "AQ",
    }).map(([name, value]) => [`${name} ${value}`, ({ credentials, ...state }) =>
        ({ ...state, credentials: [{ ...credentials[0], [name]: value }] })])),
};

const testInvalidStates = async () => {
    sessionStorage.clear();
    const key = new SecurityKey({ storage: sessionStorage });
    await key.create({ publicKey: makeCreationOptions(makeOptionsForUser("ann")) });
    const good = sessionStorage.getItem("hidlogKey");
    let counter = 0;
    for (const [name, change] of Object.entries(INVALID_STATES)) {
        const changed = change(JSON.parse(good));
        sessionStorage.setItem("hidlogKey", typeof changed === "string" ? changed : JSON.stringify(changed));
        const error = await expectError(() => new SecurityKey({ storage: sessionStorage }), "TypeError", "removeItem");
        expect(!/BigInt|Cannot|is not/.test(error.message), `${name}: ${error.message}`);
        await expectError(key.get(getOptions), "TypeError", "an invalid state of a key");
        counter += 1;
        expect(readSignCount(await key.get(getOptions)) === counter, `${name}: the key continues`);
        expect((await new SecurityKey({ storage: sessionStorage }).getCredentials()).length === 1, `${name}: stored again`);
    }
    expect(counter === 23, `${counter} states`);
    sessionStorage.clear();
};

export const recordingsTests = {
    "one log over five navigations": testNavigations,
    "denials and faults are recorded": testRecordedDenialsAndFaults,
    "one log of two tabs": testTwoTabs,
    "a pending request of a tab": testChangeDuringRequest,
    "recordings are bounded": testMaximumLengths,
    "a recording that was changed": testChangedRecordings,
    "invalid states leave a working key": testInvalidStates,
};
