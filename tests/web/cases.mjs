// Runs the registrations and sign-ins of tests/python/browser_cases.json on a simulated browser, and compares the
// results with the recorded results of Chromium's virtual authenticator.
import assert from "node:assert/strict";
import { createHash } from "node:crypto";
import { readFileSync } from "node:fs";

export const ORIGIN = "http://localhost:5000";
const readJson = (name) => JSON.parse(readFileSync(new URL(`../python/${name}`, import.meta.url), "utf8"));
const { creation, request, cases } = readJson("browser_cases.json");
const RECORDED = readJson("browser_cases_chromium.json");
const DIFFERENCES = readJson("browser_cases_differences.json");
const RP_ID_HASH = createHash("sha256").update("localhost").digest();
const ATTESTED_DATA_FLAG = 0x40;

const decode = (text) => Buffer.from(text, "base64url");
const encode = (bytes) => Buffer.from(bytes).toString("base64url");

/** Options with the IDs of earlier registrations, and with long values expanded. */
const expandValue = (value, ids) => {
    if (typeof value === "string" && value.startsWith("$")) {
        return ids[Number(value.slice(1))];
    }
    if (typeof value !== "object" || value === null) {
        return value;
    }
    if (Array.isArray(value)) {
        return value.map((item) => expandValue(item, ids));
    }
    if ("$bytes" in value) {
        return encode(new Uint8Array(value.$bytes));
    }
    if ("$repeat" in value) {
        return Array.from({ length: value.$repeat }, (_, index) => ({ type: "public-key", id: encode([index, 255]) }));
    }
    return Object.fromEntries(Object.entries(value).map(([name, inner]) => [expandValue(name, ids), expandValue(inner, ids)]));
};

const makeOptions = ({ call, options = {}, without = [], raw, wrapped }, ids) => {
    if (raw) {
        return raw;
    }
    const made = structuredClone({ ...(call === "create" ? creation : request), ...expandValue(options, ids) });
    const path = [...without];
    const last = path.pop();
    delete path.reduce((inner, name) => inner[name], made)[last];
    return wrapped ? { publicKey: made } : made;
};

/** The members of a credential that do not differ between runs. */
const selectMembers = (credential, ids) => {
    const { authenticatorData, clientDataJSON, ...response } = credential.response;
    const data = decode(authenticatorData);
    const { origin, ...clientData } = JSON.parse(decode(clientDataJSON));
    assert.equal(origin, ORIGIN);
    for (const name of ["signature", "attestationObject", "publicKey"].filter((member) => member in response)) {
        response[name] = "bytes";
    }
    const id = ids.includes(credential.id) ? ids.indexOf(credential.id) : "new";
    return {
        ...credential, id, rawId: credential.rawId === credential.id ? id : "another", clientData, flags: data[32],
        response: data[32] & ATTESTED_DATA_FLAG ? { ...response, idBytes: data.readUInt16BE(53) } : response,
        isForLocalhost: data.subarray(0, 32).equals(RP_ID_HASH),
    };
};

/** The options of a virtual authenticator for the key of a case. */
const makeAuthenticatorOptions = ({ verification = "none", attachment, ...key } = {}) => ({
    transport: attachment === "platform" ? "internal" : "usb", hasResidentKey: key.has_resident_key ?? true,
    hasUserVerification: verification !== "none", isUserVerified: verification === "verified",
    defaultBackupEligibility: key.default_backup_eligibility ?? false,
    defaultBackupState: key.default_backup_state ?? false,
});

/** Makes the calls of a case, and returns the result of the last call. */
const runCase = async (test, browser) => {
    await browser.start(makeAuthenticatorOptions(test.key));
    const ids = [];
    for (const more of test.before ?? []) {
        ids.push((await browser.call("create", { ...creation, ...more }, {})).id);
    }
    await browser.setPresence(test.presence ?? "granted");
    if (test.then === "failed") {
        await browser.setUserVerified(false);
    }
    const more = test.mediation === undefined ? {} : { mediation: test.mediation };
    try {
        return { seen: selectMembers(await browser.call(test.call, makeOptions(test, ids), more), ids) };
    } catch (error) {
        return { error: error.name };
    }
};

/**
 * The result that the key must return: Chromium's, or another one with a reason. Chromium's simulated user cannot deny,
 * so the results of a denial are those of WebAuthn (section 5.1.3).
 */
const getExpectedResult = ({ name }) => {
    const recorded = RECORDED[name] ?? { error: "NotAllowedError" };
    const found = DIFFERENCES.find(({ results, implementations = ["npm"] }) =>
        name in results && implementations.includes("npm"));
    const different = found?.results[name];
    return different?.seen && recorded.seen
        ? { seen: { ...recorded.seen, ...different.seen } } : different ?? recorded;
};

/**
 * Runs all cases on a browser, and returns their number. Fails if a result is not the expected one.
 * @param {{ start: Function, setPresence: Function, setUserVerified: Function, call: Function }} browser `call` returns
 * the credential's JSON, or throws an error with the DOM's name
 */
export const runCases = async (browser) => {
    for (const test of cases) {
        assert.deepEqual(await runCase(test, browser), getExpectedResult(test), test.name);
    }
    return cases.length;
};
