// Fuzzes the stored state of a key in a page (JSON, bindings/web/key/state.js) in node, guided by V8's block coverage.
// A mutated state must be rejected with an error of the key, or result in a key with a valid state.
//
//     node tests/fuzz/page_state.mjs [SECONDS [SEED]]    default: 10 seconds
//
// Exits with 1 on a finding that is not in the table of known findings, or if a known finding no longer occurs.
import { Session } from "node:inspector/promises";
import { SecurityKey } from "../../bindings/web/dist/security_key.mjs";

/** Known findings, as patterns. A known finding that does not occur within a minute is reported. */
const KNOWN_FINDINGS = new Map([]);
const SECONDS_PER_MINUTE = 60;
const KEY_SCRIPT_PATH = "/bindings/web/dist/security_key";
/** Errors of V8 about unexpected values, which the key should have checked. */
const UNEXPECTED_ERROR = /^Cannot |is not (a function|iterable|a constructor|defined|an object)|^Invalid array|call stack|^Reduce of/u;
const REPLACEMENT_VALUES = [
    null, undefined, true, false, 0, -1, 1.5, 2 ** 32, 2 ** 53, 1e308, NaN, "", "A", "AQ", "\u0000", "__proto__", "\ud800",
    "x".repeat(500), [], {}, [[]], [null], { length: 3 }, new Array(70).fill(null), "hidlog web key 1", "hidlog web key 2",
];

const [seconds = 10, seed = Math.floor(Math.random() * 2 ** 32)] = process.argv.slice(2).map(Number);
let drawn = seed;

/** Returns the next random number below a bound, generated from the seed (mulberry32). */
const random = (bound) => {
    drawn = (drawn + 0x6d2b79f5) | 0;
    let mixed = Math.imul(drawn ^ (drawn >>> 15), 1 | drawn);
    mixed = (mixed + Math.imul(mixed ^ (mixed >>> 7), 61 | mixed)) ^ mixed;
    return ((mixed ^ (mixed >>> 14)) >>> 0) % bound;
};

const choose = (listed) => listed[random(listed.length)];

/** Returns the positions in a value, each as its container and its key. */
const listPositions = (value, found = []) => {
    for (const name of Object.keys(value)) {
        found.push([value, name]);
        if (value[name] !== null && typeof value[name] === "object" && found.length < 2000) {
            listPositions(value[name], found);
        }
    }
    return found;
};

const MUTATIONS = [
    (holder, name) => { holder[name] = structuredClone(choose(REPLACEMENT_VALUES)); },
    (holder, name) => { delete holder[name]; },
    (holder, name) => { holder[choose(["toString", "constructor", "more", "credentialId", "0"])] = holder[name]; },
    (holder, name) => {
        const text = holder[name];
        const at = typeof text === "string" ? random(text.length + 1) : 0;
        holder[name] = typeof text === "string" ? text.slice(0, at) + choose(["", "A", "=", "é", text]) + text.slice(at + 1) : text;
    },
    (holder, name) => { holder[name] = typeof holder[name] === "number" ? holder[name] + choose([1, -1, 0.5, 2 ** 32]) : holder[name]; },
    (holder, name) => { holder[name] = Array.isArray(holder[name]) ? [...holder[name], ...structuredClone(holder[name])] : holder[name]; },
];

const mutate = (text) => {
    const state = JSON.parse(text);
    for (let count = choose([1, 1, 2, 4]); count > 0; count -= 1) {
        const places = listPositions(state);
        if (places.length > 0) {
            choose(MUTATIONS)(...choose(places));
        }
    }
    return JSON.stringify(state);
};

/** Checks the state of a key that was made from a state. Returns a description of the error, or null. */
const findStateError = (key) => {
    const state = JSON.parse(JSON.stringify(key.state()));
    if (!Number.isFinite(state.timeMs) || state.timeMs < 0) {
        return "the time is invalid";
    }
    if (state.credentials.some(({ signCount: count }) => !Number.isInteger(count) || count < 0 || count >= 2 ** 32)) {
        return "a counter is invalid";
    }
    const again = JSON.stringify(new SecurityKey({ origin: "https://example.com", state }).state().credentials);
    return again === JSON.stringify(state.credentials) ? null : "a key made from its state has other credentials";
};

/** Makes a key from a state, and checks the result. Returns a description of the error, or null. */
const tryState = (text) => {
    try {
        return findStateError(new SecurityKey({ origin: "https://example.com", state: JSON.parse(text) }));
    } catch (error) {
        return UNEXPECTED_ERROR.test(error.message) || !(error instanceof Error) ? `${error.name}: ${error.message}` : null;
    }
};

const makeSeeds = async () => {
    const key = new SecurityKey({ origin: "https://example.com" });
    const empty = JSON.stringify(key.state());
    await key.addCredential({ rpId: "example.com", userName: "ann", userHandle: "AQ", isResidentCredential: true });
    await key.addCredential({ rpId: "example.org", signCount: 7 });
    return [empty, JSON.stringify(key.state())];
};

const session = new Session();
session.connect();
await session.post("Profiler.enable");
await session.post("Profiler.startPreciseCoverage", { callCount: true, detailed: true });
const blocks = new Set();

/** Returns whether the last run reached a new block. */
const reachedNewBlock = async () => {
    const { result } = await session.post("Profiler.takePreciseCoverage");
    const ranges = result.filter((script) => script.url.includes(KEY_SCRIPT_PATH))
        .flatMap((script) => script.functions).flatMap((covered) => covered.ranges);
    const before = blocks.size;
    ranges.filter((range) => range.count > 0).forEach((range) => blocks.add(`${range.startOffset}-${range.endOffset}`));
    return blocks.size > before;
};

const corpus = await makeSeeds();
const findings = new Map();
let runs = 0;
for (const end = performance.now() + seconds * 1000; performance.now() < end; runs += 1) {
    const text = mutate(choose(corpus));
    const wrong = tryState(text);
    if (wrong !== null && !findings.has(wrong)) {
        findings.set(wrong, text);
    }
    if (await reachedNewBlock()) {
        corpus.push(text);
    }
}
const isKnown = (wrong) => [...KNOWN_FINDINGS.keys()].find((pattern) => new RegExp(pattern, "u").test(wrong));
const fresh = [...findings].filter(([wrong]) => isKnown(wrong) === undefined);
const hasOccurred = (pattern) => [...findings.keys()].some((wrong) => isKnown(wrong) === pattern);
const gone = [...KNOWN_FINDINGS.keys()].filter((pattern) => seconds >= SECONDS_PER_MINUTE && !hasOccurred(pattern));
console.log(`page: ${runs} runs in ${seconds} s, seed ${seed}, ${blocks.size} blocks, ${corpus.length} inputs kept`);
[...findings].forEach(([wrong, text]) => console.log(`${isKnown(wrong) ? "known " : "FAILED"}   page: ${wrong}: ${text.slice(0, 300)}`));
for (const pattern of gone) {
    console.log(`PASSES   page: ${pattern} is in the table of known findings, but did not occur: remove it`);
}
process.exit(fresh.length + gone.length > 0 ? 1 : 0);
