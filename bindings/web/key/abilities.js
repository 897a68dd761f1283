// Authenticator options of the key, which are outside the verified core. User verification, transport, discoverable
// credentials and backup flags have the names of WebDriver's virtual authenticators (WebAuthn section 11). Further
// options are attestation, algorithms, extensions, and whether autofill selects an account.
import { ALGORITHMS, ES256 } from "./algorithms.js";
import { checkType, checkMembers, checkName } from "./argument_checks.js";
import { makeNotAllowedError } from "./errors.js";

export const TRANSPORTS = ["usb", "nfc", "ble", "smart-card", "hybrid", "internal"];
// Values of the option `protocol`, the protocol version that a page sees. The core always uses CTAP 2.1.
const U2F = "ctap1/u2f";
const CTAP_2_1 = "ctap2_1";
const PROTOCOLS = [U2F, "ctap2", CTAP_2_1];
// "self": the core's self attestation, for each request. "none": no attestation. "basic": an attestation certificate,
// if a page requests one.
const ATTESTATIONS = ["self", "none", "basic"];
const AUTOFILLS = ["selected", "automatic"];
export const EXTENSIONS = ["prf", "largeBlob", "credProtect", "credBlob", "minPinLength"];
const UUID = /^[0-9a-f]{8}(-[0-9a-f]{4}){3}-[0-9a-f]{12}$/;
// Flags of enum hidlog_client_ability.
const HAS_USER_VERIFICATION = 1;
const IS_PLATFORM = 4;
const HAS_RESIDENT_KEY = 8;
const HAS_CRED_PROTECT = 16;
const HAS_LARGE_BLOB = 32;
/** @type {Record<string, any>} */
const DEFAULTS = {
    protocol: "ctap2", hasUserVerification: false, isUserVerified: false, transport: "usb", hasResidentKey: true,
    defaultBackupEligibility: false, defaultBackupState: false,
    attestation: "self", aaguid: "00000000-0000-0000-0000-000000000000", algorithms: [ES256], autofill: "selected",
    extensions: [],
};
/** @type {Record<string, string[]>} */
const OPTION_VALUES = { transport: TRANSPORTS, protocol: PROTOCOLS, attestation: ATTESTATIONS, autofill: AUTOFILLS };
/** @type {Record<string, readonly unknown[]>} */
const LIST_VALUES = { algorithms: ALGORITHMS, extensions: EXTENSIONS };
export const AUTHENTICATOR_OPTION_NAMES = Object.keys(DEFAULTS);

/** @param {string} name @param {unknown} value */
const checkOption = (name, value) => {
    if (OPTION_VALUES[name]) {
        checkName(name, /** @type {string} */ (value), OPTION_VALUES[name]);
    } else if (LIST_VALUES[name]) {
        const isValid = Array.isArray(value) && value.every((item) => LIST_VALUES[name].includes(item));
        checkType(name, value, isValid, `an array of ${LIST_VALUES[name].join(", ")}`);
    } else if (name === "aaguid") {
        checkType(name, value, UUID.test(String(value)), "a UUID in lowercase");
    } else {
        checkType(name, value, typeof value === "boolean", "true or false");
    }
};

/** @param {Record<string, any>} options */
const checkCombination = ({ protocol, hasResidentKey, hasUserVerification, isUserVerified, algorithms }) => {
    checkType("algorithms", algorithms, algorithms.includes(ES256), `an array that includes ${ES256} (ES256)`);
    checkType("isUserVerified", isUserVerified, hasUserVerification || !isUserVerified,
        "false for a key with no user verification (set hasUserVerification)");
    for (const [name, value] of Object.entries({ hasResidentKey, hasUserVerification })) {
        checkType(name, value, protocol !== U2F || !value, `false for the protocol ${U2F}`);
    }
};

export class AuthenticatorOptions {
    #values = { ...DEFAULTS };

    /** @param {Record<string, unknown>} options */
    constructor(options) {
        this.update(options);
    }

    /**
     * Sets the passed options, or none if one is invalid.
     * @param {Record<string, unknown>} options
     */
    update(options) {
        checkMembers("option", options, AUTHENTICATOR_OPTION_NAMES);
        const present = Object.entries(options).filter(([, value]) => value !== undefined);
        present.forEach(([name, value]) => checkOption(name, value));
        const values = { ...this.#values, ...Object.fromEntries(present) };
        checkCombination(values);
        this.#values = values;
    }

    /** @param {string} name */
    get(name) {
        return this.#values[name];
    }

    /**
     * Whether an extension is supported. As in Chromium, a key that supports credBlob also supports credProtect.
     * @param {string} extension
     */
    supports(extension) {
        const { extensions } = this.#values;
        return extensions.includes(extension) || (extension === "credProtect" && extensions.includes("credBlob"));
    }

    /**
     * The algorithm of a new credential: the first one of a page's list that the key supports.
     * @param {{ type: string, alg: number }[]} parameters
     * @returns {number}
     */
    selectAlgorithm(parameters) {
        const found = parameters.find(({ type, alg }) => type === "public-key" && this.#values.algorithms.includes(alg));
        return found?.alg ?? ES256;
    }

    get attachment() {
        return this.#values.transport === "internal" ? "platform" : "cross-platform";
    }

    /** Whether the key is a platform authenticator with user verification. */
    get isVerifyingPlatform() {
        return this.attachment === "platform" && this.#values.hasUserVerification;
    }

    /** The client capabilities that depend on the key. */
    get capabilities() {
        const { autofill, hasResidentKey } = this.#values;
        const hasPasskeys = this.isVerifyingPlatform && hasResidentKey;
        const [hasProtection, hasBlob, hasPrf] = ["credProtect", "credBlob", "prf"].map(this.supports, this);
        return {
            // As in Chromium, autofill lists only the passkeys of a platform authenticator.
            conditionalGet: autofill === "selected" || hasPasskeys,
            passkeyPlatformAuthenticator: hasPasskeys, userVerifyingPlatformAuthenticator: this.isVerifyingPlatform,
            "extension:credBlob": hasBlob, "extension:credentialProtectionPolicy": hasProtection,
            "extension:hmacCreateSecret": hasPrf, "extension:largeBlob": this.supports("largeBlob"),
            "extension:minPinLength": this.supports("minPinLength"), "extension:prf": hasPrf,
        };
    }

    /**
     * The flags of new credentials.
     * @returns {import("./credential_metadata.js").Backup}
     */
    get backup() {
        const { defaultBackupEligibility: eligibility, defaultBackupState: state } = this.#values;
        return { eligibility, state };
    }

    /**
     * The abilities for the core's client. User verification counts as successful here; whether it succeeds is
     * determined later.
     */
    get clientAbilities() {
        const { hasResidentKey, hasUserVerification } = this.#values;
        return (hasUserVerification ? HAS_USER_VERIFICATION : 0) | (this.attachment === "platform" ? IS_PLATFORM : 0)
            | (hasResidentKey ? HAS_RESIDENT_KEY : 0) | (this.supports("credProtect") ? HAS_CRED_PROTECT : 0)
            | (this.supports("largeBlob") ? HAS_LARGE_BLOB : 0);
    }

    /**
     * Converts the name of a transport for the core's client, which knows only usb and internal: swaps the key's
     * transport with the one of these that has the same attachment.
     * @param {string} name
     */
    toClientTransport(name) {
        const { transport } = this.#values;
        const known = this.attachment === "platform" ? "internal" : "usb";
        return new Map([[transport, known], [known, transport]]).get(name) ?? name;
    }

    /**
     * Changes the credential's JSON from the core's client according to these options.
     * @param {any} json
     */
    adapt({ response, clientExtensionResults: { credProps } }) {
        if (response.transports) {
            response.transports = [this.#values.transport];
        }
        // A FIDO 2.0 key may make any credential discoverable, so the client omits credProps.rk.
        if (credProps && this.#values.protocol === CTAP_2_1) {
            credProps.rk ??= false;
        }
    }

    /** Verifies the user. Throws NotAllowedError if user verification fails. */
    verifyUser() {
        if (!this.#values.isUserVerified) {
            throw makeNotAllowedError("user verification failed (isUserVerified is false)");
        }
    }
}

/**
 * Returns only the authenticator options among all options.
 * @param {Record<string, unknown>} options
 */
export const pickAuthenticatorOptions = (options) =>
    Object.fromEntries(Object.entries(options).filter(([name]) => AUTHENTICATOR_OPTION_NAMES.includes(name)));
