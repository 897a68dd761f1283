// Creates objects of the interfaces that pages receive, and credentials from their JSON. As in browsers, the members
// are getters and functions on prototypes. In a browser, the browser's own prototypes are used, whose members still
// work on the browser's own objects. Elsewhere the types are created here.
import { decodeBase64url, toArrayBuffer } from "./bytes.js";

/**
 * The interfaces by name: the parent, attributes and operations without arguments (Credential Management Level 1,
 * section 2.2; WebAuthn Level 3, sections 5.1 and 5.2).
 * @type {Record<string, { parent?: string, attributes: string[], operations: string[] }>}
 */
const INTERFACES = {
    Credential: { attributes: ["id", "type"], operations: [] },
    PublicKeyCredential: {
        parent: "Credential", attributes: ["rawId", "response", "authenticatorAttachment"],
        operations: ["getClientExtensionResults", "toJSON"],
    },
    AuthenticatorResponse: { attributes: ["clientDataJSON"], operations: [] },
    AuthenticatorAttestationResponse: {
        parent: "AuthenticatorResponse", attributes: ["attestationObject"],
        operations: ["getAuthenticatorData", "getPublicKey", "getPublicKeyAlgorithm", "getTransports"],
    },
    AuthenticatorAssertionResponse: {
        parent: "AuthenticatorResponse", attributes: ["authenticatorData", "signature", "userHandle"], operations: [],
    },
};
const INTERFACE_NAMES = Object.keys(INTERFACES);

/**
 * The objects that were created here, with their types and members.
 * @type {WeakMap<object, { types: string[], members: any }>}
 */
const ownObjects = new WeakMap();
/**
 * The prototypes on which the members of their interface are defined.
 * @type {WeakSet<object>}
 */
const completed = new WeakSet();
/**
 * The types that were created here, by name.
 * @type {Map<string, any>}
 */
const ownTypes = new Map();

/**
 * An interface and its parents.
 * @param {string} name @returns {string[]}
 */
const listTypes = (name) => {
    const { parent } = INTERFACES[name];
    return parent ? [name, ...listTypes(parent)] : [name];
};

/**
 * The members of an object of a type, or undefined.
 * @param {any} object @param {string} type
 */
const getMembers = (object, type) => {
    const found = ownObjects.get(object);
    return found?.types.includes(type) ? found.members : undefined;
};

/**
 * Calls a function of the browser on an object that was not created here. Throws a TypeError if there is no function.
 * @param {Function | undefined} native @param {any} object
 */
const callNative = (native, object) => {
    if (!native) {
        throw new TypeError("Illegal invocation");
    }
    return native.call(object);
};

/**
 * Defines a getter.
 * @param {object} prototype @param {string} type @param {string} name
 */
const defineAttribute = (prototype, type, name) => {
    const native = Object.getOwnPropertyDescriptor(prototype, name);
    const holder = {
        /** @returns {any} */
        get [name]() {
            const members = getMembers(this, type);
            return members ? members[name] : callNative(native?.get, this);
        },
    };
    const { get } = /** @type {PropertyDescriptor} */ (Object.getOwnPropertyDescriptor(holder, name));
    Object.defineProperty(prototype, name, { get, set: native?.set, enumerable: true, configurable: true });
};

/**
 * Defines a function.
 * @param {object} prototype @param {string} type @param {string} name
 */
const defineOperation = (prototype, type, name) => {
    const native = Object.getOwnPropertyDescriptor(prototype, name)?.value;
    const holder = {
        [name]() {
            const members = getMembers(this, type);
            return members ? members[name]() : callNative(native, this);
        },
    };
    const value = holder[name];
    Object.defineProperty(prototype, name, { value, writable: true, enumerable: true, configurable: true });
};

/**
 * Makes a type that pages cannot construct.
 * @param {string} name @returns {any}
 */
export const makeType = (name) => {
    const parent = INTERFACES[name]?.parent;
    const type = { [name]: class {
        constructor() {
            throw new TypeError("Illegal constructor");
        }
    } }[name];
    if (parent) {
        Object.setPrototypeOf(type, getType(parent));
        Object.setPrototypeOf(type.prototype, getType(parent).prototype);
    }
    Object.defineProperty(type.prototype, Symbol.toStringTag, { value: name, configurable: true });
    return type;
};

/**
 * The platform's type for an interface, or a type that is created once.
 * @param {string} name @returns {any}
 */
export const getType = (name) => {
    const existing = /** @type {any} */ (globalThis)[name];
    if (typeof existing === "function" && existing.prototype) {
        return existing;
    }
    if (!ownTypes.has(name)) {
        ownTypes.set(name, makeType(name));
    }
    return ownTypes.get(name);
};

/**
 * Defines the members of an interface and its parents, once.
 * @param {string} name
 */
const defineMembers = (name) => {
    for (const type of listTypes(name)) {
        const { prototype } = getType(type);
        if (!completed.has(prototype)) {
            completed.add(prototype);
            INTERFACES[type].attributes.forEach((attribute) => defineAttribute(prototype, type, attribute));
            INTERFACES[type].operations.forEach((operation) => defineOperation(prototype, type, operation));
        }
    }
};

/** Defines the members of all interfaces. */
export const defineAllMembers = () => INTERFACE_NAMES.forEach(defineMembers);

/**
 * Makes an object of an interface.
 * @param {string} type @param {Record<string, any>} members the values of its attributes, and its operations
 */
export const makeObject = (type, members) => {
    defineMembers(type);
    const object = Object.create(getType(type).prototype);
    ownObjects.set(object, { types: listTypes(type), members });
    return object;
};

/**
 * Whether an object was created here.
 * @param {any} object
 */
export const isOwnObject = (object) => ownObjects.has(object);

/** @param {string} text base64url */
const decode = (text) => toArrayBuffer(decodeBase64url(text));

/** @template T @param {T} json @returns {T} */
const copyJson = (json) => JSON.parse(JSON.stringify(json));

/** @param {Record<string, string>} values */
const decodeAll = (values) => Object.fromEntries(Object.entries(values).map(([name, text]) => [name, decode(text)]));

/**
 * Extension outputs, with base64url texts decoded to buffers.
 * @param {any} results
 */
const decodeResults = ({ getCredBlob, prf, largeBlob, ...results }) => ({
    ...copyJson(results), ...(getCredBlob !== undefined && { getCredBlob: decode(getCredBlob) }),
    ...(prf && { prf: { ...prf, ...(prf.results && { results: decodeAll(prf.results) }) } }),
    ...(largeBlob && { largeBlob: { ...largeBlob, ...(largeBlob.blob && { blob: decode(largeBlob.blob) }) } }),
});

/** @param {any} response the JSON of a registration's response */
const makeAttestationResponse = (response) => {
    const authenticatorData = decode(response.authenticatorData);
    const publicKey = response.publicKey === undefined ? null : decode(response.publicKey);
    return makeObject("AuthenticatorAttestationResponse", {
        clientDataJSON: decode(response.clientDataJSON), attestationObject: decode(response.attestationObject),
        getAuthenticatorData: () => authenticatorData, getPublicKey: () => publicKey,
        getPublicKeyAlgorithm: () => response.publicKeyAlgorithm, getTransports: () => [...response.transports],
    });
};

/** @param {any} response the JSON of a sign-in's response */
const makeAssertionResponse = ({ clientDataJSON, authenticatorData, signature, userHandle }) =>
    makeObject("AuthenticatorAssertionResponse", {
        clientDataJSON: decode(clientDataJSON), authenticatorData: decode(authenticatorData),
        signature: decode(signature), userHandle: userHandle === undefined ? null : decode(userHandle),
    });

/**
 * The credential of a registration or a sign-in.
 * @param {any} json
 */
export const makeCredential = (json) => {
    const { id, type, authenticatorAttachment, response, clientExtensionResults } = json;
    const makeResponse = "attestationObject" in response ? makeAttestationResponse : makeAssertionResponse;
    return makeObject("PublicKeyCredential", {
        id, type, authenticatorAttachment, rawId: decode(id), response: makeResponse(response),
        getClientExtensionResults: () => decodeResults(clientExtensionResults), toJSON: () => copyJson(json),
    });
};
