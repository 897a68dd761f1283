// Tests the report of a failed test: with node's test runner, and with a context like Vitest's.
import assert from "node:assert/strict";
import { execFile } from "node:child_process";
import { mkdtempSync, rmSync, writeFileSync } from "node:fs";
import { tmpdir } from "node:os";
import { join } from "node:path";
import { test } from "node:test";
import { SecurityKey } from "../../bindings/web/dist/security_key.mjs";

const MODULE = new URL("../../bindings/web/dist/security_key.mjs", import.meta.url);
const ORIGIN = "https://login.example.com";
const CREATE = {
    challenge: Uint8Array.of(0, 1, 2, 3, 4, 5, 6), rp: { id: "example.com", name: "A" },
    user: { id: new TextEncoder().encode("ann").buffer, name: "ann", displayName: "Ann" },
    pubKeyCredParams: [{ type: "public-key", alg: -7 }], authenticatorSelection: { residentKey: "required" },
};
const GET = { challenge: new Uint8Array(3), rpId: "example.com" };
const GET_OPTIONS = "    options: rpId example.com, userVerification absent (preferred), challenge AAAA,"
    + " allowCredentials absent";

/** A key with a registration of ann, and the shown part of the credential's ID. */
const register = async (options = {}) => {
    const key = new SecurityKey({ origin: ORIGIN, ...options });
    const { id } = await key.create({ publicKey: CREATE });
    return { key, id: `credential ${id.slice(0, 8)}..` };
};

const splitReport = (key) => key.report().split("\n");

test("what the key made, and who refused what and why", async () => {
    const { key, id } = await register();
    await key.get({ publicKey: GET });
    key.presence = "denied";
    await assert.rejects(key.get({ publicKey: GET }), { name: "NotAllowedError" });
    const foreign = { ...CREATE, rp: { id: "other.example", name: "B" }, user: { ...CREATE.user, name: "bob" } };
    await assert.rejects(key.create({ publicKey: foreign }), { name: "SecurityError" });
    const created = "user.id YW5u, residentKey required, userVerification absent (preferred), challenge AAECAwQF..,"
        + " excludeCredentials absent";
    assert.deepEqual(splitReport(key), [
        `created a credential for ann at ${ORIGIN}: user not verified, counter 0, discoverable, ${id}`,
        `    options: rp.id example.com, ${created}`,
        `signed an assertion for ann at ${ORIGIN}: user not verified, counter 1, user handle YW5u, ${id}`,
        GET_OPTIONS,
        `the key refused to sign an assertion at ${ORIGIN}: NotAllowedError: the authenticator returned 0x27`
            + " OPERATION_DENIED: the user refused",
        GET_OPTIONS,
        `the browser refused to create a credential for bob at ${ORIGIN}: SecurityError: The relying party ID is not a`
            + " registrable domain suffix of, nor equal to the current domain.",
        `    options: rp.id other.example, ${created}`,
    ]);
});

test("flags, lists, and credentials that are gone", async () => {
    const key = new SecurityKey({ origin: ORIGIN, hasUserVerification: true, isUserVerified: true,
        defaultBackupEligibility: true, defaultBackupState: true });
    const { id, rawId } = await key.create({ publicKey: { ...CREATE, authenticatorSelection: { userVerification: "required" } } });
    await key.get({ publicKey: { ...GET, allowCredentials: [{ type: "public-key", id: rawId }], timeout: 5000 } });
    const lines = splitReport(key);
    const credential = `credential ${id.slice(0, 8)}..`;
    const flags = "user verified, backup eligible, backed up";
    assert.equal(lines[0], `created a credential for ann at ${ORIGIN}: ${flags}, counter 0, not discoverable, ${credential}`);
    assert.match(lines[1], /, userVerification required, challenge /);
    assert.equal(lines[2], `signed an assertion for ann at ${ORIGIN}: ${flags}, counter 1, no user handle, ${credential}`);
    assert.equal(lines[3], "    options: rpId example.com, userVerification absent (preferred), timeout 5000,"
        + ` challenge AAAA, allowCredentials ${id.slice(0, 8)}..`);
    await key.removeCredential(id);
    assert.match(splitReport(key)[0], /, no longer on the key, /);
    assert.match(splitReport(key)[2], /^signed an assertion for ann /);
});

test("a credential that was replaced, and empty lists", async () => {
    const { key } = await register();
    await key.create({ publicKey: {
        ...CREATE, authenticatorSelection: { requireResidentKey: true }, attestation: "direct", excludeCredentials: [],
    } });
    const bob = { id: Uint8Array.of(1), name: "bob", displayName: "Bob" };
    await key.create({ publicKey: { ...CREATE, user: bob } });
    const lines = splitReport(key);
    assert.match(lines[0], /, no longer on the key \(replaced by a later credential for the same user ID\), /);
    assert.match(lines[2], /, discoverable, /);
    assert.match(lines[3], /, residentKey absent \(required\), requireResidentKey true, .*, attestation direct, /);
    assert.match(lines[3], /, excludeCredentials empty$/);
    assert.match(lines[4], /, discoverable, /);
});

test("a call that the page aborted", async () => {
    const key = new SecurityKey({ origin: ORIGIN });
    await assert.rejects(key.get({ publicKey: GET, signal: AbortSignal.abort() }), { name: "AbortError" });
    assert.match(key.report(), /^failed to sign an assertion at .*: AbortError: /);
});

test("faults that are enabled, and those that took effect", async () => {
    const { key } = await register();
    key.faults.status = "OTHER";
    await assert.rejects(key.get({ publicKey: GET }));
    await assert.rejects(key.get({ publicKey: GET }));
    key.faults.clear();
    key.faults.badSignature = true;
    assert.deepEqual(splitReport(key).slice(-2),
        ["fault: the response has status 0x7f OTHER (2 times)", "fault badSignature is enabled"]);
    key.faults.status = 0x7f;
    assert.equal(splitReport(key).at(-2), "fault status is enabled: 0x7f OTHER");
});

test("what the faults changed in the authenticator data and the signature", async () => {
    const { key } = await register();
    await key.get({ publicKey: GET });
    Object.assign(key.faults, { staleSignCount: true, badSignature: true, wrongRpId: "other.example" });
    await key.get({ publicKey: GET });
    assert.deepEqual(splitReport(key).slice(-6), [
        "fault: signed with a different private key", 'fault: the RP ID hash is that of "other.example"',
        "fault: the signature counter is 1, not 2", "fault badSignature is enabled", "fault staleSignCount is enabled",
        "fault wrongRpId is enabled: other.example",
    ]);
});

test("invalid options", async () => {
    const key = new SecurityKey({ origin: ORIGIN });
    assert.equal(key.report(), "");
    await assert.rejects(key.create({ publicKey: { rp: 3, excludeCredentials: 5 } }), TypeError);
    await assert.rejects(key.get(), TypeError);
    const lines = splitReport(key);
    assert.match(lines[0], /^the browser refused to create a credential at .*: TypeError: /);
    assert.match(lines[1], /^ {4}options: rp.id absent, .*, challenge absent, excludeCredentials 5$/);
    assert.equal(lines.length, 4);
});

test("the last 40 calls", async () => {
    const { key } = await register();
    for (let number = 0; number < 45; number += 1) {
        await key.get({ publicKey: GET });
    }
    const lines = splitReport(key);
    assert.equal(lines.length, 80);
    assert.match(lines[0], /, counter 6, /);
});

/** Runs a function, and returns the lines that it writes with console.error. */
const collectErrors = (run) => {
    const { error } = console;
    const lines = [];
    console.error = (line) => lines.push(line);
    try {
        run();
    } finally {
        console.error = error;
    }
    return lines;
};

test("as Vitest calls it: what the page did since reportOnFailure", async () => {
    const { key } = await register();
    const failing = [];
    key.reportOnFailure({ onTestFailed: (report) => failing.push(report) });
    assert.deepEqual(collectErrors(failing[0]), []);
    await key.get({ publicKey: GET });
    const [printed] = collectErrors(failing[0]);
    assert.match(printed, /^the security key:\nsigned an assertion for ann at .*\n {4}options: .*$/);
    assert.throws(() => key.reportOnFailure({}), /^TypeError: context .*Vitest/);
    assert.throws(() => key.reportOnFailure(), TypeError);
});

const FAILING_TEST_SCRIPT = `
import { beforeEach, test } from "node:test";
import { install } from "${MODULE}";
const key = install({ origin: "${ORIGIN}" });
beforeEach((context) => key.reportOnFailure(context));
const create = { challenge: new Uint8Array(3), rp: { name: "A" }, pubKeyCredParams: [{ type: "public-key", alg: -7 }] };
const user = (name) => ({ id: new Uint8Array(1), name, displayName: name });
test("passes", () => navigator.credentials.create({ publicKey: { ...create, user: user("ann") } }));
test("fails", async () => {
    await navigator.credentials.create({ publicKey: { ...create, user: user("bob") } });
    throw new Error("the service is wrong");
});
`;

test("in node's test runner, only of the test that fails", async () => {
    const folder = mkdtempSync(join(tmpdir(), "report"));
    writeFileSync(join(folder, "failing.test.mjs"), FAILING_TEST_SCRIPT);
    const env = { ...process.env };
    delete env.NODE_TEST_CONTEXT;
    const output = await new Promise((done) => {
        execFile(process.execPath, ["--test", folder], { env }, (_, stdout, stderr) => done(stdout + stderr));
    });
    rmSync(folder, { recursive: true });
    assert.equal(output.split("the security key:").length, 2, output);
    assert.match(output, new RegExp(`created a credential for bob at ${ORIGIN}: `));
    assert.doesNotMatch(output, /credential for ann/);
});
