// The authenticators that are compared, and the reasons for which the key's result of a call may differ from that of
// Chromium's virtual authenticator.
const usb = { transport: "usb", hasResidentKey: true };

/** Authenticator options by kind. */
export const AUTHENTICATOR_KINDS = {
    "not verifying": { ...usb, hasUserVerification: false },
    "verifying": { ...usb, hasUserVerification: true, isUserVerified: true },
    "the user fails": { ...usb, hasUserVerification: true, isUserVerified: false },
    "a platform authenticator": { ...usb, transport: "internal", hasUserVerification: true, isUserVerified: true },
    "no resident keys": { ...usb, hasResidentKey: false, hasUserVerification: true, isUserVerified: true },
    "a U2F key": { ...usb, protocol: "ctap1/u2f", hasResidentKey: false },
    "a key of CTAP 2.1": { ...usb, protocol: "ctap2_1", hasUserVerification: true, isUserVerified: true },
    "backed up": { ...usb, defaultBackupEligibility: true, defaultBackupState: true },
};

const DISCOVERABLE_REASON = "Chromium's makes discoverable credentials only with user verification; this key always";
const WAITING_REASON = "the sign-in waits until the test selects an account; Chromium's signs in immediately";
const CAPABILITIES_REASON = "they describe this key";
const NO_AUTHENTICATOR_REASON = "no such authenticator: rejected immediately; Chromium waits";
const ES256_ONLY = "the key supports only ES256";
const WITHOUT_VERIFICATION = ["not verifying", "backed up"];
const ALL_CALLS = null;

/**
 * The differences: the calls, the path, the exact values of Chromium and of the key as JSON (`done` for a missing
 * value), the reason, and the kinds of authenticators, unless all kinds differ.
 * @type {[string[] | null, string, string, string, string, string[]?][]}
 */
const REASONS = [
    [ALL_CALLS, "value.counter", "1", "0", "a new credential's counter is 0 (docs/use/PROFILE.md)"],
    [ALL_CALLS, "value.fmt", '"none"', '"packed"', "a self attestation without AAGUID is passed on, as in WebAuthn"],
    [["create, attestation direct", "create, attestation indirect", "create, attestation enterprise"], "value.fmt",
        "done", '"packed"', "Chromium's U2F key has an attestation certificate", ["a U2F key"]],
    [["create, residentKey required", "create, residentKey preferred", "create, requireResidentKey",
        "create, requireResidentKey a text", "create, credProps, discoverable", "get, discoverable",
        "get, discoverable by its id", "signal an unknown credential", "signal another unknown credential",
        "signal no accepted credentials", "signal all accepted credentials",
        "signal accepted credentials of another user", "signal user details"],
    "error", '"NotAllowedError"', "done", DISCOVERABLE_REASON, WITHOUT_VERIFICATION],
    [["create, RS256 alone"], "error", "done", '"NotAllowedError"', ES256_ONLY],
    [["create, RS256 and ES256"], "value.algorithm", "-257", "-7", ES256_ONLY],
    [["create, RS256 and ES256"], "value.spkiBytes", "294", "91", ES256_ONLY],
    [["create, mediation conditional"], "error", '"TimeoutError"', '"NotAllowedError"',
        "the key does not support conditional registration"],
    [["create, attachment platform", "create, attachment cross-platform", "get, transports of another kind"], "error",
        '"TimeoutError"', '"NotAllowedError"', NO_AUTHENTICATOR_REASON],
    [["conditional, with an allow list"], "error", '"NotAllowedError"', '"TimeoutError"', WAITING_REASON],
    [["conditional, then aborted"], "value", '["NotAllowedError","done"]', '["TimeoutError","done"]', WAITING_REASON],
    [["conditional, then create", "conditional, then get"], "value", '["NotAllowedError","OperationError"]',
        '["AbortError","done"]', WAITING_REASON],
    [["conditional, then create", "conditional, then get"], "value", '["NotAllowedError","done"]',
        '["AbortError","done"]', WAITING_REASON],
    [["conditional, then create"], "value", '["NotAllowedError","OperationError"]', '["AbortError","NotAllowedError"]',
        WAITING_REASON],
    [["conditional, then create"], "value", '["NotAllowedError","NotAllowedError"]', '["AbortError","NotAllowedError"]',
        WAITING_REASON],
    ...["OperationError", "NotAllowedError"].map((second) => [["conditional twice"], "value",
        `["NotAllowedError","${second}"]`, '["TimeoutError","OperationError"]', WAITING_REASON]),
    [["aborted, and another in the same turn"], "value", '["done","done"]', '["AbortError","done"]',
        "an aborted request ends immediately; Chromium's response may come first"],
    [["a clone"], "error", '"DataCloneError"', "done", "a script's objects can be cloned: the clone is empty"],
    [["isConditionalMediationAvailable"], "value", "false", "true", CAPABILITIES_REASON],
    [["getClientCapabilities"], "value.conditionalGet", "false", "true", CAPABILITIES_REASON],
    ...["conditionalCreate", "relatedOrigins", "extension:appid", "extension:appidExclude", "extension:credBlob",
        "extension:credentialProtectionPolicy", "extension:hmacCreateSecret", "extension:largeBlob",
        "extension:minPinLength", "extension:prf"].map((name) =>
        [["getClientCapabilities"], `value.${name}`, "true", "false", CAPABILITIES_REASON]),
    ...["extension:enforceCredentialProtectionPolicy", "extension:getCredBlob", "immediateGet"].map((name) =>
        [["getClientCapabilities"], `value.${name}`, "true", "done", CAPABILITIES_REASON]),
    ...["extension:cmtgKey", "extension:crossDeviceFallbackUrl", "extension:payment"].map((name) =>
        [["getClientCapabilities"], `value.${name}`, "false", "done", CAPABILITIES_REASON]),
];

/** Returns the reason for a difference between these exact values, or undefined. */
export const findReason = (kind, name, path, native, own) =>
    REASONS.find(([calls, part, one, other, , kinds]) => (calls === ALL_CALLS || calls.includes(name)) && part === path
        && one === native && other === own && (!kinds || kinds.includes(kind)))?.[4];

/** The result of a call with this JSON value or error, in the form of summarizeResult in calls.js. */
const summarize = (json) => {
    const value = json === "done" ? "done" : JSON.parse(json);
    const list = Array.isArray(value) ? value : [value];
    return list.every((one) => typeof one === "string") ? list.join(" and ") : "done";
};

/** Whether the result of a call may differ from Chromium's. */
export const mayDiffer = (kind, name, expected, end) => REASONS.some(([calls, path, native, own, , kinds]) =>
    calls?.includes(name) && ["error", "value"].includes(path) && (!kinds || kinds.includes(kind))
    && summarize(native) === expected && summarize(own) === end);
