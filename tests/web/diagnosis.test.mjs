// Tests that the page's diagnosis does not find the key at fault in recordings of a conforming key, even if the
// recordings are truncated, begin late or lack packets of the host, and that it finds a key that responds too early.
import assert from "node:assert/strict";
import { readdirSync, readFileSync } from "node:fs";
import { test } from "node:test";
import vm from "node:vm";
import { core, readSession, resolvePath } from "./session_in_node.mjs";

const MISMATCH = 3;
const runScript = (name) => vm.runInThisContext(readFileSync(resolvePath(`bindings/web/${name}`), "utf8"));
["dist/sources.js", "show_text.js", "narrative.js", "worker.js", "difference.js", "judge.js"].forEach(runScript);
const sources = globalThis.hidlogBackground.readSources();
["dist/judge.js", "dist/wasm_key.js"].forEach((name) => vm.runInThisContext(sources[name]));
["diagnosis_work.js", "incomplete.js", "diagnosis.js"].forEach(runScript);
const { assignFindings, decide } = globalThis.hidlogDiagnosis;
const difference = globalThis.hidlogDifference;

/** The first difference of a log from what the key sends, or null if the log has no difference or is not the key's. */
const findDifference = ({ isOwn, outcome }, recorded, shown, log, snapshot) => {
    if (!isOwn || outcome.status !== 1 || outcome.errorCode !== MISMATCH) {
        return null;
    }
    const replayed = readSession(core.run("replay", log, snapshot).text);
    const found = difference.find(recorded, replayed, outcome);
    found.explained = difference.explain(found, shown);
    const isRejection = found.explained[0].some((text) => text.includes("CTAP2_ERR_NO_CREDENTIALS"));
    return { ...found, sentence: difference.toSentence(found), isRejection };
};

/**
 * Whether a log has packets of the key. For a log of inputs only, the page shows the packets that the key would send.
 */
const hasResponses = (bytes) => globalThis.hidlogLog.hasMatch(bytes, /^< /m);

/**
 * The diagnosis of a log that the key can replay, as bindings/web/diagnosis_card.js computes it: who is at fault, and why.
 */
const diagnose = async (bytes, snapshot = new Uint8Array(0)) => {
    const log = hasResponses(bytes) ? bytes : core.run("replay", bytes, snapshot).text;
    const found = await globalThis.hidlogDiagnosisWork.examine(core, log, snapshot, () => {});
    const examined = assignFindings(found);
    const session = readSession(log);
    const shown = new globalThis.hidlogShown.LineTexts(core);
    return decide(examined, { session, shown, difference: findDifference(examined, session, shown, log, snapshot) });
};

// Folders of sessions with this project's key that pass `hidlog check`, and of captures and clients' sessions.
const FOLDERS = ["examples/", "crates/hidlog_cli/data/capacity_64/", "conformance/recorded/", "tests/captures/data/"];
// Sessions that began with credentials.
const SNAPSHOTS = { "examples/service_after_restart.log": "examples/service.snapshot" };
const SIGN_IN_AGAIN = "examples/sign_in_again.log";

const readBytes = (name) => new Uint8Array(readFileSync(resolvePath(name)));
const names = FOLDERS.flatMap((folder) => readdirSync(resolvePath(folder)).filter((name) => name.endsWith(".log"))
    .map((name) => folder + name)).filter((name) => name !== SIGN_IN_AGAIN);

const readLines = (name) => readFileSync(resolvePath(name), "utf8").trimEnd().split("\n");
const encode = (lines) => new TextEncoder().encode(`${lines.join("\n")}\n`);
const describeVerdict = ({ side, line, title, why }) => `${side}, line ${line}: ${title} ${why.join(" ")}`;

test("no conforming recording is blamed on the key", async () => {
    assert.ok(names.length >= 70, `${names.length} logs`);
    for (const name of names) {
        const snapshot = SNAPSHOTS[name] ? readBytes(SNAPSHOTS[name]) : undefined;
        const verdict = await diagnose(readBytes(name), snapshot);
        assert.notEqual(verdict.side, "key", `${name}: ${describeVerdict(verdict)}`);
    }
});

test("a log without the credentials with which the session began", async () => {
    const verdict = await diagnose(readBytes(SIGN_IN_AGAIN));
    assert.deepEqual([verdict.side, verdict.title], ["capture", "lacks the credentials with which the session began"]);
});

/**
 * Sessions that are cut and then diagnosed: registrations and sign-ins with real keys, errors, denied requests, and two
 * hosts.
 */
const CUT_SESSIONS = ["examples/service_registration.log", "examples/failing/denied_user.log", "examples/two_hosts.log",
    "examples/time_out.log", "examples/service_two_accounts.log"];

test("a log that is cut after any line is not blamed on the key", async () => {
    for (const name of CUT_SESSIONS) {
        const lines = readLines(name);
        for (let count = 1; count < lines.length; count += 1) {
            const verdict = await diagnose(encode(lines.slice(0, count)));
            assert.notEqual(verdict.side, "key", `${name}, ${count} lines: ${describeVerdict(verdict)}`);
        }
    }
});

test("a log that begins at any message is not blamed on the key", async () => {
    for (const name of CUT_SESSIONS) {
        const lines = readLines(name);
        for (let from = 1; from < lines.length; from += 1) {
            if (/^> \d+ [0-9a-f]{8}[89a-f]/.test(lines[from])) {
                const verdict = await diagnose(encode(lines.slice(from)));
                assert.notEqual(verdict.side, "key", `${name} from line ${from + 1}: ${describeVerdict(verdict)}`);
            }
        }
    }
});

test("a log without one packet of a longer request lacks it, and neither host nor key is blamed", async () => {
    for (const name of ["examples/service_registration.log", "tests/captures/data/libfido2_register.log"]) {
        const lines = readLines(name);
        const places = [...lines.keys()].filter((at) => /^> \d+ (?!f{8})[0-9a-f]{8}[0-7]/.test(lines[at]));
        assert.ok(places.length >= 3, `${places.length} continuation packets`);
        for (const place of places) {
            const verdict = await diagnose(encode([...lines.slice(0, place), ...lines.slice(place + 1)]));
            assert.deepEqual([verdict.side, verdict.title], ["capture", "lacks packets of the host"],
                `${name} without line ${place + 1}: ${describeVerdict(verdict)}`);
        }
    }
});

/** A log of another key, which responds to a request after the first of its three packets. */
const EARLY_RESPONSE_LOG = [
    "> 0 ffffffff8600081122334455667788", "< ffffffff860011112233445566778800000005020102030c",
    "> 1 0000000590009001", "< 0000000590000112",
].map((line) => line.replace(/[0-9a-f]+$/, (digits) => digits.padEnd(128, "0")));

test("another key that responds too early is blamed", async () => {
    const verdict = await diagnose(encode(EARLY_RESPONSE_LOG));
    assert.deepEqual([verdict.side, verdict.line], ["key", 4], describeVerdict(verdict));
});

test("the diagnosis names the response before which a log ends", async () => {
    const lines = readLines("tests/captures/data/libfido2_register.log");
    const make = lines.findIndex((text) => /^> \d+ [0-9a-f]{8}90[0-9a-f]{4}01/.test(text));
    const end = lines.findIndex((text, at) => at > make && /^< [0-9a-f]{8}90/.test(text));
    const verdict = await diagnose(encode(lines.slice(0, end)));
    assert.ok(describeVerdict(verdict).includes(`before the response to the Registration of line ${make + 1}.`)
        || describeVerdict(verdict).includes("ends before the key has responded"), describeVerdict(verdict));
});
