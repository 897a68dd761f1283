// Faults to inject into responses. The faults are injected outside the verified core, so the core's log still passes
// `hidlog check`. The log has a comment for each fault.
import { toHex, encodeUtf8 } from "./bytes.js";
import { checkType, checkName, warnRenamed } from "./argument_checks.js";
import { STATUSES } from "./standard.js";
import { formatStatus } from "./ctap_response.js";

/** @type {Record<string, any>} */
const FAULTS_OFF = {
    status: null, delay: 0, truncateBy: 0, badSignature: false, staleSignCount: false, wrongRpId: null,
};
// Names before version 0.3.
/** @type {Record<string, string>} */
const RENAMED_FAULTS = {
    counterStays: "staleSignCount", wrongSignature: "badSignature", cutShort: "truncateBy", otherRp: "wrongRpId",
};
const SIGN_COUNT_OFFSET = 33;

/** @type {Record<string, string>} */
const EXPECTED_VALUES = {
    delay: "a number of milliseconds", truncateBy: "a number of bytes", badSignature: "true or false",
    staleSignCount: "true or false", wrongRpId: "an RP ID or null",
};

/**
 * The current name of a fault, with a warning for an old one.
 * @param {string | symbol} name
 */
const toCurrentName = (name) => {
    if (typeof name !== "string" || !Object.hasOwn(RENAMED_FAULTS, name)) {
        return name;
    }
    warnRenamed(`faults.${name}`, `faults.${RENAMED_FAULTS[name]}`);
    return RENAMED_FAULTS[name];
};

/**
 * Parses a status: a number, or a name with or without CTAP2_ERR_.
 * @param {any} value
 */
const parseStatus = (value) => {
    if (value === null || (Number.isInteger(value) && value > 0 && value < 256)) {
        return value;
    }
    const name = String(value).replace(/^CTAP[12]_ERR_/, "");
    const found = Object.entries(STATUSES).find(([number, statusName]) => statusName === name && number !== "0");
    if (!found) {
        const names = Object.values(STATUSES).slice(1).join(", ");
        throw new TypeError(`faults.status must be null, 1 to 255 or one of ${names}, not ${JSON.stringify(value)}`);
    }
    return Number(found[0]);
};

/**
 * Checks the value of a fault, and returns it. The name of a status is returned as its number.
 * @param {string} name @param {any} value
 */
const parseFault = (name, value) => {
    checkName("fault", name, Object.keys(FAULTS_OFF));
    if (name === "status") {
        return parseStatus(value);
    }
    const isText = name === "wrongRpId" && (value === null || typeof value === "string");
    const isNumber = typeof FAULTS_OFF[name] === "number" && Number.isInteger(value) && value >= 0;
    const isBoolean = typeof FAULTS_OFF[name] === "boolean" && typeof value === "boolean";
    checkType(`faults.${name}`, value, isText || isNumber || isBoolean, EXPECTED_VALUES[name]);
    return value;
};

/**
 * The faults of a key, which are off at first.
 *
 * status: respond to every request with this status, a number or a name.
 * delay: milliseconds before each response that needs a key pair or a signature, with KEEPALIVEs.
 * truncateBy: number of bytes to remove from the end of each response, whose status remains.
 * badSignature: sign with a different private key.
 * staleSignCount: repeat the credential's previous signature counter, with a valid signature.
 * wrongRpId: the RP ID whose hash replaces the one in the authenticator data, with a valid signature.
 */
export class Faults {
    /** @type {Map<string, number>} the last sent signature counter, by credential ID in hex */
    #signCounts = new Map();
    /** @param {(bytes: Uint8Array) => Promise<Uint8Array>} hash SHA-256 */
    constructor(hash) {
        this.hash = hash;
        this.values = { ...FAULTS_OFF };
    }

    /** The faults as an object whose members can be set. Unknown names and invalid values are rejected. */
    settings() {
        const clear = () => Object.assign(this.values, FAULTS_OFF);
        return new Proxy(this.values, {
            get: (values, name) => (name === "clear" ? clear : Reflect.get(values, toCurrentName(name))),
            set: (values, name, value) => Reflect.set(values, toCurrentName(name), parseFault(String(toCurrentName(name)), value)),
        });
    }

    get delay() {
        return this.values.delay;
    }

    get badSignature() {
        return this.values.badSignature;
    }

    /**
     * Returns authenticator data with the faults applied, and a text for each change.
     * @param {Uint8Array} id @param {Uint8Array} data
     */
    async alterData(id, data) {
        const altered = data.slice();
        const { wrongRpId } = this.values;
        const texts = [];
        if (wrongRpId !== null) {
            altered.set(await this.hash(encodeUtf8(wrongRpId)));
            texts.push(`the RP ID hash is that of ${JSON.stringify(wrongRpId)}`);
        }
        texts.push(...this.#setSignCount(toHex(id), new DataView(altered.buffer)));
        return { data: altered, texts };
    }

    /** @param {string} id the credential ID in hex @param {DataView} view */
    #setSignCount(id, view) {
        const raised = view.getUint32(SIGN_COUNT_OFFSET);
        const sent = this.values.staleSignCount && raised > 0 ? this.#signCounts.get(id) ?? raised - 1 : raised;
        view.setUint32(SIGN_COUNT_OFFSET, sent);
        this.#signCounts.set(id, sent);
        return sent === raised ? [] : [`the signature counter is ${sent}, not ${raised}`];
    }

    /**
     * Applies the faults to a response, with a comment in the log for each.
     * @param {Uint8Array} response @param {import("./recording.js").Recording} recording
     */
    applyTo(response, recording) {
        let sent = response;
        const { truncateBy, status } = this.values;
        if (truncateBy) {
            sent = sent.subarray(0, Math.max(1, sent.length - truncateBy));
            recording.addComment(`fault: the response is truncated to ${sent.length} bytes`);
        }
        if (status !== null) {
            recording.addComment(`fault: the response has status ${formatStatus(status)}`);
            return Uint8Array.of(status);
        }
        return sent;
    }
}
