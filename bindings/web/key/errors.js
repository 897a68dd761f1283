// Errors of navigator.credentials, with Chromium's messages.

/** @param {string} name @param {string} text @returns {DOMException} */
export const makeDomError = (name, text) => new DOMException(text, name);

/**
 * Returns a NotAllowedError with Chromium's message, which discloses no reason, and with the reason in parentheses.
 * @param {string} why the reason, for readers of a test's output
 */
export const makeNotAllowedError = (why) => makeDomError(
    "NotAllowedError",
    `The operation either timed out or was not allowed (${why}). `
        + "See: https://www.w3.org/TR/webauthn-2/#sctn-privacy-considerations-client.",
);

/** @type {WeakSet<object>} errors that a status of the key caused */
const keyErrors = new WeakSet();

/**
 * Marks an error as caused by a status of the key, and returns the error.
 * @template {object} T @param {T} error
 */
export const markAsKeyError = (error) => {
    keyErrors.add(error);
    return error;
};

/**
 * Returns whether the key, and not the browser, refused the request.
 * @param {any} error
 */
export const isKeyError = (error) => keyErrors.has(error);

/**
 * Returns the reason in the message of a NotAllowedError, or another message unchanged.
 * @param {string} message
 */
export const shortenMessage = (message) => /^The operation either .*? \((.*)\)\. See: [^ ]*$/s.exec(message)?.[1] ?? message;

/** @param {string} text */
export const makeNotSupportedError = (text) => makeDomError("NotSupportedError", text);

export const makeBusyError = () => makeDomError("OperationError", "A request is already pending.");

const INVALID_DOMAIN = "This is an invalid domain.";
const MISSING_PARAMETERS = "Required parameters missing in `options.publicKey`.";

/**
 * Messages for the reasons of the core's client: Chromium's message, or advice on the key. A reason that is not listed
 * is used as the message.
 * @type {Record<string, string>}
 */
const MESSAGES = {
    "authenticatorAttachment doesn't match this key":
        "authenticatorAttachment doesn't match this key, which is cross-platform unless its transport is internal",
    "allowCredentials has no credential with the key's transport":
        "allowCredentials names other transports than the key's: set transport",
    "a resident key is required, but the key does not support it":
        "a resident key is required, but hasResidentKey is false",
    "userVerification is required, and the key has no user verification":
        "userVerification is required, but the key has none: set hasUserVerification and isUserVerified",
    "User handle exceeds 64 bytes": "User handle exceeds 64 bytes.",
    "there are no parameters of the type public-key": MISSING_PARAMETERS,
    "must be one of the three credential protection policies": MISSING_PARAMETERS,
    "it is inconsistent with userVerification":
        "Requested protection policy is inconsistent or incongruent with other requested parameters.",
    "it is only valid when requesting an assertion": "The 'appid' extension is only valid when requesting an assertion"
        + " for a pre-existing credential that was registered using the legacy FIDO U2F API.",
    "it is only valid when creating a credential": "The 'credProps' extension is only valid when creating a credential",
    "support is only valid when creating a credential":
        "The 'largeBlob' extension's 'support' parameter is only valid when creating a credential",
    "only one of read and write is allowed at a time":
        "Only one of the 'largeBlob' extension's 'read' and 'write' parameters is allowed at a time",
    "evalByCredential cannot be set when creating a credential":
        "The 'evalByCredential' field cannot be set when creating a credential.",
    "evalByCredential needs a non-empty allowCredentials":
        "'prf' extension has 'evalByCredential' with an empty allow list",
    "evalByCredential has a name that isn't base64url":
        "'prf' extension contains invalid base64url data in 'evalByCredential'",
    "evalByCredential has the ID of a credential that isn't in allowCredentials":
        "'prf' extension contains 'evalByCredential' key that doesn't match any in allowedCredentials",
    "read is only valid when requesting an assertion":
        "The 'largeBlob' extension's 'read' parameter is only valid when requesting an assertion",
    "write is only valid when requesting an assertion":
        "The 'largeBlob' extension's 'write' parameter is only valid when requesting an assertion",
    "write needs exactly one credential in allowCredentials":
        "The 'largeBlob' extension's 'write' parameter can only be used with a single allow credential",
    "userVerificationOptional cannot be enforced":
        "Requested protection policy is inconsistent or incongruent with other requested parameters.",
    "The relying party ID is not a registrable domain suffix of, nor equal to the current domain":
        "The relying party ID is not a registrable domain suffix of, nor equal to the current domain.",
    "This is an invalid domain: the host is an IP address; serve the page at http://localhost": INVALID_DOMAIN,
    "the extension's URL isn't over https": INVALID_DOMAIN,
    "the page isn't served over https": INVALID_DOMAIN,
    "the extension's URL belongs to another site": INVALID_DOMAIN,
    "the key holds a credential of excludeCredentials": "The user attempted to register an authenticator that contains"
        + " one of the credentials already registered with the relying party.",
};
const LIST_TOO_LONG_REASON = "browsers take at most 64 credentials";

/**
 * Functions that make the errors for the client's error numbers (enum hidlog_client_error).
 * @type {Record<number, (text: string) => Error>}
 */
const CLIENT_ERRORS = {
    "-1": (text) => new TypeError(text),
    "-2": (text) => makeDomError("EncodingError", text),
    "-3": (text) => new RangeError(text),
    "-4": makeNotSupportedError,
    "-5": (text) => makeDomError("SecurityError", text),
    "-6": makeNotAllowedError,
    "-7": (text) => makeDomError("InvalidStateError", text),
    "-8": (text) => makeDomError("SyntaxError", text),
};

/**
 * Returns the error for an error number of the core's client.
 * @param {number} number @param {string} member the invalid member of the options, or empty @param {string} reason
 */
export const makeClientError = (number, member, reason) => {
    // The client rejects only origins at which browsers do not support WebAuthn.
    if (member === "origin") {
        return makeDomError("SecurityError", INVALID_DOMAIN);
    }
    const make = CLIENT_ERRORS[number] ?? ((text) => new Error(`hidlog_client: unknown error ${number}: ${text}`));
    return make(reason === LIST_TOO_LONG_REASON
        ? `The \`${member}\` attribute exceeds the maximum allowed size (64).` : MESSAGES[reason] ?? reason);
};
