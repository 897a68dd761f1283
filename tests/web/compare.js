// Makes the same calls with Chromium's virtual authenticator and with the key in one page, and compares what the page
// sees. Each difference must have a known reason.
import { install } from "../../bindings/web/dist/security_key.mjs";
import { listCalls, summarizeResult, getResult } from "./calls.js";
import { createCredential, getAssertionWith } from "./ceremonies.js";
import { post, results } from "./harness.js";
import { AUTHENTICATOR_KINDS, findReason } from "./reasons.js";

// The names of protocols in DevTools.
const PROTOCOLS = {
    "ctap1/u2f": { protocol: "u2f" }, ctap2: { protocol: "ctap2" },
    ctap2_1: { protocol: "ctap2", ctap2Version: "ctap2_1" },
};
const ROUNDS = 60;
const MAX_SHOWN_CALLS = 20;
const MAX_ATTEMPTS = 3;

/** The leaves of a value, with their paths. */
const listLeaves = (value, path = "") => {
    if (typeof value !== "object" || value === null || Array.isArray(value)) {
        return [[path, JSON.stringify(value)]];
    }
    return Object.entries(value).flatMap(([name, inner]) => listLeaves(inner, path ? `${path}.${name}` : name));
};

/** The leaves to compare: all except error messages and a member that Chromium adds at random. */
const selectLeaves = ({ text, ...outcome }) =>
    new Map(listLeaves(outcome).filter(([path]) => !path.includes("other_keys_can_be_added_here")));

/** The differences between two results, with their reasons. */
const findDifferences = (kind, name, native, own) => {
    const [one, other] = [selectLeaves(native), selectLeaves(own)];
    const isOtherEnd = one.has("error") !== other.has("error");
    const paths = isOtherEnd ? ["error"] : [...new Set([...one.keys(), ...other.keys()])];
    return paths.filter((path) => one.get(path) !== other.get(path)).map((path) => {
        const [there, here] = [one.get(path) ?? "done", other.get(path) ?? "done"];
        return { name, path, native: there, own: here, reason: findReason(kind, name, path, there, here) };
    });
};

const collectResults = async (environment) => {
    const outcomes = new Map();
    for (const [name, call] of Object.entries(listCalls(environment))) {
        await environment.clear();
        outcomes.set(name, await getResult(call));
    }
    return outcomes;
};

/** The median time of a registration and a sign-in in milliseconds, or "no" if a registration fails. */
const measureMedian = async () => {
    if (await createCredential().then(() => false, () => true)) {
        return "no";
    }
    const all = [];
    for (let round = 0; round < ROUNDS; round += 1) {
        const begun = performance.now();
        await getAssertionWith(await createCredential({ user: { id: Uint8Array.of(round), name: "ann", displayName: "Ann" } }));
        all.push(performance.now() - begun);
    }
    return all.sort((one, other) => one - other)[ROUNDS / 2].toFixed(2);
};

/** Reports the differences by reason, and fails if a difference has no reason. */
const reportDifferences = (kind, found, count, sameTexts) => {
    const lines = new Map();
    for (const { name, path, native, own, reason } of found) {
        const line = `${name}: ${path} ${native}, the key ${own}`;
        lines.set(reason, new Set(lines.get(reason)).add(reason === undefined ? line : name));
    }
    const others = found.filter(({ path }) => !/(counter|fmt)$/.test(path));
    const other = new Set(others.map((difference) => difference.name)).size;
    results.figures.push(`${kind}: ${count} calls, ${count - other} with equal results except counter and fmt;`
        + ` ${sameTexts}`);
    for (const [reason, names] of lines) {
        const shown = names.size > MAX_SHOWN_CALLS ? `${names.size} calls` : [...names].join("; ");
        results.figures.push(`    ${reason ?? "NO REASON"}: ${shown}`);
    }
    const error = [...(lines.get(undefined) ?? [])].join("\n");
    results.tests.push({ name: `${count} calls compared with Chromium's virtual authenticator, ${kind}`, error });
};

/** Describes how many of the errors with the same name have the same message. */
const describeSameMessages = (native, own) => {
    const both = [...native].filter(([name, outcome]) => outcome.error && outcome.error === own.get(name).error);
    const same = both.filter(([name, outcome]) => outcome.text === own.get(name).text);
    return `${same.length} of ${both.length} errors have the same message`;
};

const sendChromiumCommand = (command, parameters = {}) => post("/devtools", { command, parameters });

/** The results of Chromium's authenticator with these abilities, and the median time of a registration and sign-in. */
const runInChromium = async (abilities) => {
    const options = { ...abilities, ...PROTOCOLS[abilities.protocol ?? "ctap2"], automaticPresenceSimulation: true };
    const made = await sendChromiumCommand("WebAuthn.addVirtualAuthenticator", { options });
    try {
        const outcomes = await collectResults({
            presence: (enabled) => sendChromiumCommand("WebAuthn.setAutomaticPresenceSimulation", { enabled, ...made }),
            clear: () => sendChromiumCommand("WebAuthn.clearCredentials", made),
        });
        return { outcomes, time: await measureMedian() };
    } finally {
        await sendChromiumCommand("WebAuthn.removeVirtualAuthenticator", made);
    }
};

/** The results of the key with these abilities, and the median time of a registration and sign-in. */
const runWithKey = async (abilities) => {
    const key = install(abilities);
    try {
        const outcomes = await collectResults({
            presence: (enabled) => key.setAutomaticPresenceSimulation(enabled), clear: () => key.clearCredentials(),
        });
        await key.clearCredentials();
        return { outcomes, time: await measureMedian() };
    } finally {
        key.uninstall();
    }
};

/** The results of both authenticators with the same abilities, and the differences. */
const compareResults = async (kind, abilities) => {
    const [one, other] = [await runInChromium(abilities), await runWithKey(abilities)];
    const found = [...one.outcomes].flatMap(([name, outcome]) =>
        findDifferences(kind, name, outcome, other.outcomes.get(name)));
    return { one, other, found };
};

/**
 * Compares both authenticators, and returns the results of Chromium's calls. Tries again if a difference is
 * unexplained, since it may be due to timing.
 */
const compareAuthenticators = async (kind, abilities) => {
    let seen = await compareResults(kind, abilities);
    for (let time = 1; time < MAX_ATTEMPTS && seen.found.some((difference) => difference.reason === undefined); time += 1) {
        const unexplained = seen.found.filter((difference) => difference.reason === undefined);
        const what = unexplained.map(({ name, path }) => `${name}: ${path}`);
        results.figures.push(`${kind}: tried again after ${what.join("; ")}`);
        seen = await compareResults(kind, abilities);
    }
    const { one: { outcomes: native, time }, other: { outcomes: own, time: ownTime }, found } = seen;
    reportDifferences(kind, found, native.size, describeSameMessages(native, own));
    results.figures.push(`    a registration and a sign-in: Chromium ${time} ms, the key ${ownTime} ms`);
    return Object.fromEntries([...native].map(([name, outcome]) => [name, summarizeResult(outcome)]));
};

try {
    const ends = {};
    const only = new URLSearchParams(location.search).get("kind");
    for (const [kind, abilities] of Object.entries(AUTHENTICATOR_KINDS).filter(([name]) => !only || name === only)) {
        ends[kind] = await compareAuthenticators(kind, abilities);
    }
    results.logs["chromium_outcomes.json"] = `${JSON.stringify(ends, null, 1)}\n`;
} catch (error) {
    results.tests.push({ name: "the comparison", error: `${error}\n${error.stack}` });
}
await post("/done", results);
