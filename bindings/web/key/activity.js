// Describes how a page used a key, for the report of a failed test: created credentials, signed assertions, refused
// calls with the reasons, and faults.
import { getPageOrigin } from "./allowed_origins.js";
import { checkType } from "./argument_checks.js";
import { decodeBase64url, isBuffer, toBase64url, toHex } from "./bytes.js";
import { BE, BS, UV } from "./credential_metadata.js";
import { isKeyError, shortenMessage } from "./errors.js";
import { formatStatus } from "./ctap_response.js";

// Maximum number of calls in a report. Older calls are dropped.
const MAX_CALLS = 40;
const BACKUP_FLAGS = { "backup eligible": BE, "backed up": BS };
const RP_ID_HASH_BYTES = 32;
const FLAGS_OFFSET = 32;
const SIGN_COUNT_OFFSET = 33;
// Number of characters that are shown of IDs and challenges.
const SHOWN_CHARACTERS = 8;
const SUCCESS_TEXTS = { create: "created a credential", get: "signed an assertion" };
const REFUSAL_TEXTS = { create: "create a credential", get: "sign an assertion" };
const SELECTION_PREFIX = "authenticatorSelection.";
// The paths of the options that the report shows for a call.
const SHOWN_OPTIONS = {
    create: ["rp.id", "user.id", "authenticatorSelection.residentKey", "authenticatorSelection.requireResidentKey",
        "authenticatorSelection.userVerification", "authenticatorSelection.authenticatorAttachment", "attestation",
        "timeout", "challenge", "excludeCredentials"],
    get: ["rpId", "userVerification", "timeout", "challenge", "allowCredentials"],
};
const LIST_OPTIONS = ["excludeCredentials", "allowCredentials"];
// Options that the report omits if the page did not pass them. Other absent options are reported as absent.
const RARE_OPTIONS = ["requireResidentKey", "authenticatorAttachment", "attestation", "timeout"];
const FAULT_LINE = /^# fault: (.*)$/gm;

/** @typedef {{ name: "create" | "get", origin: string, options: any, credential?: any, error?: any }} Call */
/** @typedef {import("./credentials.js").Credential} Credential */

/** @param {string} text */
const shorten = (text) => (text.length > SHOWN_CHARACTERS ? `${text.slice(0, SHOWN_CHARACTERS)}..` : text);

/** @param {ArrayBuffer | ArrayBufferView} buffer */
const encodeBuffer = (buffer) => {
    const view = ArrayBuffer.isView(buffer) ? buffer : new Uint8Array(buffer);
    return toBase64url(new Uint8Array(view.buffer, view.byteOffset, view.byteLength));
};

/** @param {any} value @returns {string} */
const describeValue = (value) => (isBuffer(value) ? shorten(encodeBuffer(value)) : String(value)) || "empty";

/** @param {any} options @param {string} path names with dots */
const getOption = (options, path) => path.split(".").reduce((value, name) => value?.[name], options);

/** @param {string} path @param {any} publicKey */
const describeOption = (path, publicKey) => {
    const value = getOption(publicKey, path);
    if (value === undefined) {
        // The defaults of WebAuthn Level 3, sections 5.4.4 and 5.5.
        if (path.endsWith("residentKey")) {
            return `absent (${publicKey?.authenticatorSelection?.requireResidentKey ? "required" : "discouraged"})`;
        }
        return path.endsWith("userVerification") ? "absent (preferred)" : "absent";
    }
    if (LIST_OPTIONS.includes(path) && typeof value?.[Symbol.iterator] === "function") {
        return Array.from(value, (/** @type {any} */ item) => describeValue(item?.id)).join(" ") || "empty";
    }
    return describeValue(value);
};

/**
 * The options that the report shows for a call, as the page passed them.
 * @param {Call} call
 */
const describeOptions = ({ name, options }) => SHOWN_OPTIONS[name]
    .map((path) => ({ path, label: path.replace(SELECTION_PREFIX, "") }))
    .filter(({ path, label }) => getOption(options?.publicKey, path) !== undefined || !RARE_OPTIONS.includes(label))
    .map(({ path, label }) => `${label} ${describeOption(path, options?.publicKey)}`).join(", ");

/**
 * The RP ID hash and the user ID of a new credential that is discoverable, otherwise null.
 * @param {Call} call
 */
const getAccount = ({ options, credential }) => {
    const { residentKey, requireResidentKey } = getOption(options, "publicKey.authenticatorSelection") ?? {};
    const userId = getOption(options, "publicKey.user.id");
    const isDiscoverable = ["required", "preferred"].includes(residentKey ?? (requireResidentKey ? "required" : ""));
    if (!isDiscoverable || !isBuffer(userId)) {
        return null;
    }
    const data = decodeBase64url(credential.toJSON().response.authenticatorData);
    return `${toHex(data.subarray(0, RP_ID_HASH_BYTES))} ${encodeBuffer(userId)}`;
};

/**
 * Why the key no longer has the credential that a call created.
 * @param {Call} call @param {Call[]} calls
 */
const explainMissing = (call, calls) => {
    const account = getAccount(call);
    const isReplaced = account !== null && calls.slice(calls.indexOf(call) + 1).some((other) =>
        other.name === "create" && other.credential && getAccount(other) === account);
    return `no longer on the key${isReplaced ? " (replaced by a later credential for the same user ID)" : ""}`;
};

/**
 * What a service sees of a credential: flags, signature counter, user handle, and the beginning of the ID.
 * @param {Call} call @param {Call[]} calls @param {Credential | undefined} held
 */
const describeCredential = (call, calls, held) => {
    const { id, response } = call.credential.toJSON();
    const data = decodeBase64url(response.authenticatorData);
    const flags = data[FLAGS_OFFSET];
    const handle = response.userHandle ? `user handle ${shorten(response.userHandle)}` : "no user handle";
    const getStored = () =>
        (held ? `${held.isResidentCredential ? "" : "not "}discoverable` : explainMissing(call, calls));
    return [
        flags & UV ? "user verified" : "user not verified",
        ...Object.entries(BACKUP_FLAGS).filter(([, bit]) => flags & bit).map(([text]) => text),
        `counter ${new DataView(data.buffer).getUint32(SIGN_COUNT_OFFSET)}`,
        call.name === "create" ? getStored() : handle,
        `credential ${shorten(id)}`,
    ].join(", ");
};

/**
 * Who refused a call, or "failed" if neither the key nor the browser refused it.
 * @param {any} error
 */
const describeRefusal = (error) => {
    if (isKeyError(error)) {
        return "the key refused";
    }
    const isOfBrowser = error instanceof DOMException || error instanceof TypeError || error instanceof RangeError;
    return isOfBrowser && error.name !== "AbortError" ? "the browser refused" : "failed";
};

/**
 * Describes a call in one line.
 * @param {Call} call @param {Call[]} calls @param {Credential[]} credentials of the key
 */
const describeCall = (call, calls, credentials) => {
    const { name, origin, options, credential, error } = call;
    const user = getOption(options, "publicKey.user.name");
    if (!credential) {
        const what = `${describeRefusal(error)} to ${REFUSAL_TEXTS[name]}${user ? ` for ${user}` : ""}`;
        return `${what} at ${origin}: ${error?.name}: ${shortenMessage(String(error?.message))}`;
    }
    const { id } = credential;
    const held = credentials.find(({ credentialId }) => credentialId === id);
    const creation = calls.find((other) => other.name === "create" && other.credential?.id === id);
    const who = user || held?.userName || getOption(creation, "options.publicKey.user.name") || "a user without a name";
    return `${SUCCESS_TEXTS[name]} for ${who} at ${origin}: ${describeCredential(call, calls, held)}`;
};

/**
 * The faults that took effect, each with the number of times it did.
 * @param {string[]} logs
 */
const describeEffects = (logs) => {
    const texts = logs.flatMap((log) => Array.from(log.matchAll(FAULT_LINE), ([, text]) => text));
    const counts = new Map(texts.map((text) => [text, texts.filter((other) => other === text).length]));
    return Array.from(counts, ([text, count]) => `fault: ${text}${count > 1 ? ` (${count} times)` : ""}`);
};

/**
 * Calls a function when a test ends, if the test failed.
 * @param {any} context the context of a test: Vitest's has `onTestFailed`, that of node's test runner `after` and
 * `passed`
 * @param {() => void} report
 */
export const onTestFailed = (context, report) => {
    const isOfVitest = typeof context?.onTestFailed === "function";
    checkType("context", context, isOfVitest || (typeof context?.after === "function" && "passed" in context),
        "the context that Vitest or the test runner of node 20.12 or later passes to a test or to beforeEach's function");
    if (isOfVitest) {
        context.onTestFailed(report);
    } else {
        context.after(() => context.passed || report());
    }
};

export class Activity {
    /** @type {Call[]} */
    #calls = [];
    /** The number of calls so far. */
    count = 0;

    /**
     * Runs a call, and remembers it. The call is described only if a test fails.
     * @template T
     * @param {"create" | "get"} name @param {unknown} origin the key's option @param {any} options
     * @param {() => Promise<T>} run
     */
    async observe(name, origin, options, run) {
        /** @param {object} result */
        const add = (result) => {
            const call = { name, origin: String(origin ?? getPageOrigin()), options, ...result };
            this.#calls = [...this.#calls.slice(1 - MAX_CALLS), call];
            this.count += 1;
        };
        try {
            const credential = await run();
            add({ credential });
            return credential;
        } catch (error) {
            add({ error });
            throw error;
        }
    }

    /**
     * Describes the last calls, each in two lines, the second with its options, and the faults that took effect or are
     * enabled, one per line. Empty if there are none.
     * @param {{ credentials: Credential[], faults: object, logs: string[] }} key
     * @param {number} [from] number of calls to skip
     */
    describe({ credentials, faults, logs }, from = 0) {
        const shown = this.#calls.slice(Math.max(0, this.#calls.length - (this.count - from)));
        return [
            ...shown.flatMap((call) =>
                [describeCall(call, this.#calls, credentials), `    options: ${describeOptions(call)}`]),
            ...describeEffects(logs),
            ...Object.entries(faults).filter(([, value]) => value).map(([name, value]) => `fault ${name} is enabled`
                + (value === true ? "" : `: ${name === "status" ? formatStatus(value) : value}`)),
        ].join("\n");
    }
}
