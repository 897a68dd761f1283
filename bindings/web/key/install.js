// Installs and uninstalls a key: replaces functions of navigator.credentials and PublicKeyCredential, and restores
// them.
import { warnRenamed } from "./argument_checks.js";
import { makeNotSupportedError } from "./errors.js";
import { checkPage, warnOfTestKey } from "./allowed_origins.js";
import { defineAllMembers, getType, isOwnObject } from "./idl_objects.js";
import { SecurityKey } from "./security_key.js";
import { makeStaticMethods } from "./static_methods.js";

const ONE_TYPE_ERROR = "Only exactly one of 'password', 'federated', and 'publicKey' credential types are currently"
    + " supported.";
const WEBAUTHN_TYPES = ["CredentialsContainer", "Credential", "PublicKeyCredential", "AuthenticatorResponse",
    "AuthenticatorAttestationResponse", "AuthenticatorAssertionResponse"];

/**
 * The installed key, and a function that restores the replaced functions.
 * @type {{ key: InstalledKey, undo: () => void } | null}
 */
let installed = null;

/**
 * Sets a property, and returns a function that restores it.
 * @param {object} object @param {string} name @param {unknown} value
 */
const replaceProperty = (object, name, value) => {
    const before = Object.getOwnPropertyDescriptor(object, name);
    const enumerable = before?.enumerable ?? false;
    Object.defineProperty(object, name, { value, writable: true, configurable: true, enumerable });
    return () => (before ? Object.defineProperty(object, name, before) : Reflect.deleteProperty(object, name));
};

/** Defines the WebAuthn types that a platform such as node lacks. Returns functions that remove them. */
const defineMissingTypes = () => {
    const missing = WEBAUTHN_TYPES.filter((name) => !(/** @type {any} */ (globalThis)[name]));
    const parts = missing.map((name) => replaceProperty(globalThis, name, getType(name)));
    if (!globalThis.navigator) {
        parts.push(replaceProperty(globalThis, "navigator", {}));
    }
    if (!navigator.credentials) {
        parts.push(replaceProperty(navigator, "credentials", Object.create(globalThis.CredentialsContainer.prototype)));
    }
    return parts;
};

/**
 * Returns a method of CredentialsContainer that handles calls with `publicKey`, and passes other calls to the native
 * method.
 * @param {"create" | "get"} name @param {SecurityKey} key @param {Function | undefined} native
 * @param {(options: any) => void} checkOthers
 */
const wrapMethod = (name, key, native, checkOthers) => ({
    /** @this {unknown} @param {any[]} args */
    async [name](...args) {
        if (!(this instanceof globalThis.CredentialsContainer)) {
            throw new TypeError("Illegal invocation");
        }
        const [options] = args;
        if (options?.publicKey !== undefined) {
            checkOthers(options);
            return key[name](options);
        }
        if (!native) {
            throw makeNotSupportedError(ONE_TYPE_ERROR);
        }
        return native.apply(this, args);
    },
}[name]);

const rejectOtherTypes = (/** @type {any} */ options) => {
    if (options.password !== undefined || options.federated !== undefined) {
        throw makeNotSupportedError(ONE_TYPE_ERROR);
    }
};

/**
 * Returns a method that rejects the key's credentials, which browsers do not store, and passes other credentials to the
 * native method.
 * @param {Function} native
 */
const wrapStore = (native) => ({
    /** @this {unknown} @param {any[]} args */
    async store(...args) {
        if (isOwnObject(args[0])) {
            throw makeNotSupportedError("Store operation not permitted for PublicKey credentials.");
        }
        return native.apply(this, args);
    },
}.store);

/**
 * Replaces the functions of the page by those of a key.
 * @param {InstalledKey} key
 */
const replaceFunctions = (key) => {
    const undo = defineMissingTypes();
    defineAllMembers();
    const { prototype } = globalThis.CredentialsContainer;
    undo.push(replaceProperty(prototype, "create", wrapMethod("create", key, prototype.create, rejectOtherTypes)));
    undo.push(replaceProperty(prototype, "get", wrapMethod("get", key, prototype.get, () => {})));
    if (prototype.store) {
        undo.push(replaceProperty(prototype, "store", wrapStore(prototype.store)));
    }
    for (const [name, value] of Object.entries(makeStaticMethods(key))) {
        undo.push(replaceProperty(globalThis.PublicKeyCredential, name, value));
    }
    installed = { key, undo: () => undo.reverse().forEach((step) => step()) };
};

/** A key that replaces navigator.credentials. */
export class InstalledKey extends SecurityKey {
    /** Restores the functions that `install` replaced, and aborts a pending request. */
    uninstall() {
        this.close();
        if (installed?.key === this) {
            installed.undo();
            installed = null;
        }
    }
}

/**
 * Replaces navigator.credentials by a new key.
 * @param {import("../dist/security_key.js").Options} [options]
 */
export const install = (options) => {
    if (installed) {
        throw new Error("hidlogKey: a key is already installed; uninstall it first:"
            + " hidlogKey.installedKey().uninstall()");
    }
    checkPage(options?.allowedOrigins ?? options?.allowOrigins, options?.origin);
    const key = new InstalledKey(options);
    replaceFunctions(key);
    warnOfTestKey();
    return key;
};

/** The installed key, or null. */
export const installedKey = () => installed?.key ?? null;

/** @deprecated Use installedKey. */
export const current = () => {
    warnRenamed("current()", "installedKey()");
    return installedKey();
};
