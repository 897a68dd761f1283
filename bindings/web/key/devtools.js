// Implements the WebAuthn commands of Chromium's DevTools, with the same members, for the installed key.
import { AUTHENTICATOR_OPTION_NAMES } from "./abilities.js";
import { decodeBase64url } from "./bytes.js";
import { checkType, checkMembers, checkName, warnRenamed } from "./argument_checks.js";
import { install, installedKey } from "./install.js";

const ID = "hidlogKey";
const BYTES_MEMBERS = ["credentialId", "privateKey", "userHandle", "largeBlob"];
const OVERRIDE_MEMBERS = ["authenticatorId", "isBogusSignature", "isBadUV", "isBadUP"];
// Further options of virtual authenticators, with the only value that this key supports.
/** @type {Record<string, boolean>} */
const FIXED_OPTIONS = { hasHmacSecret: false, hasHmacSecretMc: false };
// The extensions that the options of addVirtualAuthenticator enable.
/** @type {Record<string, string>} */
const EXTENSION_OPTIONS = {
    hasPrf: "prf", hasLargeBlob: "largeBlob", hasCredBlob: "credBlob", hasMinPinLength: "minPinLength",
};
// WebAuthn's names of transports and protocols, by their names in DevTools.
/** @type {Record<string, string>} */
const TRANSPORTS = { cable: "hybrid" };
/** @type {Record<string, string>} */
const PROTOCOLS = { u2f: "ctap1/u2f", ctap2_0: "ctap2" };
const KNOWN_OPTIONS = ["ctap2Version", ...Object.keys(FIXED_OPTIONS), ...Object.keys(EXTENSION_OPTIONS),
    ...AUTHENTICATOR_OPTION_NAMES];

/** Encodes a credential with bytes in base64, as in DevTools. */
const encodeCredential = (/** @type {any} */ credential) => {
    const texts = BYTES_MEMBERS.filter((name) => credential[name] !== undefined).map((name) => [name, btoa(String.fromCharCode(...decodeBase64url(credential[name])))]);
    return { ...credential, ...Object.fromEntries(texts) };
};

const requireInstalledKey = () => {
    const key = installedKey();
    if (!key) {
        throw new Error("hidlogKey: no key is installed: call install() or send WebAuthn.addVirtualAuthenticator");
    }
    return key;
};

const removeKey = () => {
    installedKey()?.uninstall();
    return {};
};

/**
 * Checks the options of addVirtualAuthenticator, and returns the authenticator options, with defaults.
 * @param {Record<string, any>} options @returns {any}
 */
const parseAuthenticatorOptions = (options) => {
    checkMembers("virtual authenticator option", options, KNOWN_OPTIONS);
    for (const [name, value] of Object.entries(options).filter(([option]) => option in FIXED_OPTIONS)) {
        checkType(name, value, value === FIXED_OPTIONS[name], `${FIXED_OPTIONS[name]}, the only value that this key supports`);
    }
    const { protocol = "ctap2", ctap2Version = protocol, transport = "usb", hasUserVerification = false } = options;
    const named = protocol === "ctap2" ? ctap2Version : protocol;
    const abilities = Object.fromEntries(Object.entries(options).filter(([name]) => AUTHENTICATOR_OPTION_NAMES.includes(name)));
    const extensions = Object.entries(EXTENSION_OPTIONS).filter(([option]) => options[option]).map(([, name]) => name);
    return {
        hasResidentKey: false, defaultBackupEligibility: false, defaultBackupState: false, extensions, ...abilities,
        protocol: PROTOCOLS[named] ?? named, transport: TRANSPORTS[transport] ?? transport, hasUserVerification,
        // As in Chromium, user verification fails by default on a key without user verification.
        isUserVerified: hasUserVerification && (options.isUserVerified ?? false),
    };
};

const addKey = async (/** @type {any} */ { options }) => {
    const { automaticPresenceSimulation = true, ...rest } = options;
    const abilities = parseAuthenticatorOptions(rest);
    const key = installedKey() ?? install(abilities);
    key.setAuthenticatorOptions(abilities);
    await key.setAutomaticPresenceSimulation(automaticPresenceSimulation);
    return { authenticatorId: ID };
};

const overrideBits = (/** @type {any} */ parameters) => {
    checkMembers("override", parameters, OVERRIDE_MEMBERS);
    requireInstalledKey().faults.badSignature = parameters.isBogusSignature ?? false;
    for (const name of OVERRIDE_MEMBERS.slice(2)) {
        checkType(name, parameters[name], !parameters[name], "false, the only value that this key supports");
    }
};

/** @type {Record<string, (parameters: any) => any>} */
const COMMANDS = {
    enable: () => ({}),
    disable: removeKey,
    addVirtualAuthenticator: addKey,
    removeVirtualAuthenticator: removeKey,
    addCredential: ({ credential }) => requireInstalledKey().addCredential(credential).then(() => ({})),
    getCredential: async ({ credentialId }) =>
        ({ credential: encodeCredential(await requireInstalledKey().getCredential(credentialId)) }),
    getCredentials: async () => ({ credentials: (await requireInstalledKey().getCredentials()).map(encodeCredential) }),
    removeCredential: ({ credentialId }) => requireInstalledKey().removeCredential(credentialId),
    clearCredentials: () => requireInstalledKey().clearCredentials(),
    setAutomaticPresenceSimulation: ({ enabled }) => requireInstalledKey().setAutomaticPresenceSimulation(enabled),
    setUserVerified: ({ isUserVerified }) => {
        const key = requireInstalledKey();
        return key.setUserVerified(isUserVerified && /** @type {any} */ (key).hasUserVerification);
    },
    setCredentialProperties: ({ authenticatorId, credentialId, ...properties }) =>
        requireInstalledKey().setCredentialProperties(credentialId, properties),
    setResponseOverrideBits: overrideBits,
};

/**
 * Runs a DevTools command, such as "WebAuthn.getCredentials", on the installed key.
 * @param {string} command
 * @param {any} [parameters]
 */
export const sendDevToolsCommand = async (command, parameters = {}) => {
    const name = String(command).replace(/^WebAuthn\./, "");
    checkName("command", name, Object.keys(COMMANDS));
    return (await COMMANDS[name](parameters)) ?? {};
};

/** @deprecated Use sendDevToolsCommand. @param {string} command @param {any} [parameters] */
export const send = (command, parameters) => {
    warnRenamed("send()", "sendDevToolsCommand()");
    return sendDevToolsCommand(command, parameters);
};
