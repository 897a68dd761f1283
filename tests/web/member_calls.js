// Further calls for Chromium's virtual authenticator and the key: members of credentials, JSON options with their
// defaults, extensions, and the Signal API (WebAuthn Level 3, sections 5.1 and 5.1.10).

const toBytes = (...list) => Uint8Array.of(...list);
const makeChallenge = () => new Uint8Array(32).fill(7);
const PARAMETERS = [{ type: "public-key", alg: -7 }];

const register = (more = {}) => navigator.credentials.create({ publicKey: {
    challenge: makeChallenge(), rp: { name: "A service" },
    user: { id: toBytes(1, 2, 3), name: "ann", displayName: "Ann" }, pubKeyCredParams: PARAMETERS, ...more,
} });
const registerDiscoverable = () => register({ authenticatorSelection: { residentKey: "required" } });
const signIn = async (list, more = {}) => navigator.credentials.get({ publicKey: {
    challenge: makeChallenge(), allowCredentials: list.map(({ rawId }) => ({ type: "public-key", id: rawId })), ...more,
} });

/** The prototypes of an object, without Object.prototype. */
const listPrototypes = (object) => {
    const found = [];
    let next = Object.getPrototypeOf(object);
    while (next && next !== Object.prototype) {
        found.push(next);
        next = Object.getPrototypeOf(next);
    }
    return found;
};

/** A member of a prototype in words. */
const describeMember = ({ get, set, value, enumerable, configurable, writable }) => [
    ...(get ? [`get ${get.name} ${get.length}`] : []), ...(set ? ["set"] : []),
    ...(typeof value === "function" ? [`function ${value.name} ${value.length}`] : []),
    enumerable && "enumerable", configurable && "configurable", writable && "writable",
].filter(Boolean).join(", ");

/** Describes an object as a page sees it: own members, the names that for-in lists, and members of each prototype. */
const describeObject = (object, names) => {
    const listed = [];
    for (const name in object) {
        listed.push(name);
    }
    const types = listPrototypes(object).map((prototype) => {
        const members = Object.getOwnPropertyDescriptors(prototype);
        const own = names.filter((name) => members[name]).map((name) => [name, describeMember(members[name])]);
        return [prototype.constructor.name, Object.fromEntries(own)];
    });
    return {
        own: Reflect.ownKeys(object).map(String), spread: Object.keys({ ...object }), text: String(object),
        listed: names.filter((name) => listed.includes(name)), types: Object.fromEntries(types),
        has: names.filter((name) => name in object), hasOwn: names.filter((name) => Object.hasOwn(object, name)),
    };
};

const CREDENTIAL_MEMBERS = ["id", "type", "rawId", "response", "authenticatorAttachment", "getClientExtensionResults",
    "toJSON"];
const ATTESTATION_MEMBERS = ["clientDataJSON", "attestationObject", "getAuthenticatorData", "getPublicKey",
    "getPublicKeyAlgorithm", "getTransports"];
const ASSERTION_MEMBERS = ["clientDataJSON", "authenticatorData", "signature", "userHandle"];

/** Returns a call that registers and signs in, and returns what a function reads from both credentials, as a string. */
const makeMemberCall = (read) => async () => {
    const made = await register();
    const used = await signIn([made]);
    return String(read(made, used));
};
const getGetter = (object, name) => listPrototypes(object)
    .map((prototype) => Object.getOwnPropertyDescriptor(prototype, name)?.get).find(Boolean);

const members = {
    "members of a registration": async () => describeObject(await register(), CREDENTIAL_MEMBERS),
    "members of its response": async () => describeObject((await register()).response, ATTESTATION_MEMBERS),
    "members of a sign-in": async () => describeObject(await signIn([await register()]), CREDENTIAL_MEMBERS),
    "members of the sign-in's response": async () => {
        const used = await signIn([await register()]);
        return describeObject(used.response, ASSERTION_MEMBERS);
    },
    "toJSON unbound": makeMemberCall(({ toJSON }) => toJSON()),
    "getClientExtensionResults unbound": makeMemberCall(({ getClientExtensionResults }) => getClientExtensionResults()),
    "getTransports unbound": makeMemberCall(({ response: { getTransports } }) => getTransports()),
    "getPublicKey of a sign-in": makeMemberCall((made, used) => made.response.getPublicKey.call(used.response)),
    "toJSON of an object": makeMemberCall(({ toJSON }) => toJSON.call({})),
    "the getter of rawId on an object": makeMemberCall((made) => getGetter(made, "rawId").call({})),
    "the getter of id on the prototype": makeMemberCall((made) => Object.getPrototypeOf(made).id),
    "the getter of signature on a credential": makeMemberCall((made, used) =>
        getGetter(used.response, "signature").call(made)),
    "an attribute of a prototype": makeMemberCall(() => PublicKeyCredential.prototype.rawId),
    "assigning id": makeMemberCall((made) => {
        made.id = "x";
        return made.id === "x";
    }),
    "deleting rawId": makeMemberCall((made) => delete made.rawId && made.rawId instanceof ArrayBuffer),
    "a new member": makeMemberCall((made) => {
        made.note = 1;
        return Object.keys(made);
    }),
    "the same buffers each time": makeMemberCall((made, used) => [
        made.rawId === made.rawId, made.response === made.response, used.response.signature === used.response.signature,
        made.response.getAuthenticatorData() === made.response.getAuthenticatorData(),
        made.response.getTransports() === made.response.getTransports(),
        made.getClientExtensionResults() === made.getClientExtensionResults(), made.toJSON() === made.toJSON(),
    ].join()),
    "a clone": makeMemberCall((made) => structuredClone(made)),
    "JSON.stringify": async () => Object.keys(JSON.parse(JSON.stringify(await register()))).sort(),
    "store": async () => navigator.credentials.store(await register()),
    "store, nothing": async () => navigator.credentials.store(),
    "store, an object": async () => navigator.credentials.store({}),
};

// ---- options as JSON

/** Returns a value that can be compared as JSON: buffers and arrays are replaced by strings. */
const describeValue = (value) => {
    if (value instanceof ArrayBuffer) {
        return `ArrayBuffer ${[...new Uint8Array(value)]}`;
    }
    if (Array.isArray(value)) {
        return [value.map((item) => JSON.stringify(describeValue(item)))].join();
    }
    if (typeof value !== "object" || value === null) {
        return value;
    }
    return Object.fromEntries(Object.keys(value).sort().map((name) => [name, describeValue(value[name])]));
};

const makeParseCall = (name, json) => async () => describeValue(PublicKeyCredential[`parse${name}OptionsFromJSON`](json));
const CREATION = {
    challenge: "AQ", rp: { name: "A" }, user: { id: "AQ", name: "a", displayName: "A" }, pubKeyCredParams: [],
};

const json = {
    "creation JSON, the least": makeParseCall("Creation", CREATION),
    "creation JSON, a selection": makeParseCall("Creation", { ...CREATION, authenticatorSelection: {} }),
    "creation JSON, a selection that requires": makeParseCall("Creation", {
        ...CREATION, authenticatorSelection: { residentKey: "required", userVerification: "required" },
    }),
    "creation JSON, an excluded credential": makeParseCall("Creation", {
        ...CREATION, excludeCredentials: [{ id: "AQI", type: "public-key" }],
    }),
    "creation JSON, lists": makeParseCall("Creation", {
        ...CREATION, excludeCredentials: [{ id: "AQI", type: "public-key", transports: ["usb"] }], hints: ["hybrid"],
        attestationFormats: ["packed"], timeout: 1000,
    }),
    "creation JSON, extensions": makeParseCall("Creation", {
        ...CREATION, extensions: { credProps: true, largeBlob: { support: "required" }, prf: {} },
    }),
    "creation JSON, a text": makeParseCall("Creation", "x"),
    "creation JSON, null": makeParseCall("Creation", null),
    "request JSON, the least": makeParseCall("Request", { challenge: "AQ" }),
    "request JSON, a list": makeParseCall("Request", {
        challenge: "AQ", allowCredentials: [{ id: "AQI", type: "public-key" }],
    }),
    "request JSON, all members": makeParseCall("Request", {
        challenge: "AQ", allowCredentials: [], hints: ["security-key"], rpId: "localhost", timeout: 5,
        userVerification: "required",
    }),
    "request JSON, extensions": makeParseCall("Request", {
        challenge: "AQ", extensions: { appid: "https://a.example", largeBlob: { write: "AQI" }, prf: {
            evalByCredential: { AQI: { first: "AQ", second: "Ag" } },
        } },
    }),
    "request JSON, an id that is no base64url": makeParseCall("Request", {
        challenge: "AQ", allowCredentials: [{ id: "a+b", type: "public-key" }],
    }),
    "request JSON, null": makeParseCall("Request", null),
};

// ---- extensions whose arguments both Chromium and the key check

const checkedExtensions = {
    "get, prf of a foreign credential": async () => {
        const evalByCredential = { AQID: { first: toBytes(1) } };
        await signIn([await register()], { extensions: { prf: { evalByCredential } } });
    },
    "get, prf of this credential": async () => {
        const made = await register();
        await signIn([made], { extensions: { prf: { evalByCredential: { [made.id]: { first: toBytes(1) } } } } });
    },
    "get, prf of an empty ID": async () => {
        await signIn([await register()], { extensions: { prf: { evalByCredential: { "": { first: toBytes(1) } } } } });
    },
    "get, prf without a list": async () => {
        await signIn([], { extensions: { prf: { evalByCredential: { AQID: { first: toBytes(1) } } } } });
    },
    "get, largeBlob write without a list": async () => {
        await signIn([], { extensions: { largeBlob: { write: toBytes(1) } } });
    },
    "get, largeBlob write with two credentials": async () => {
        const made = await register();
        const list = [made, { rawId: toBytes(9) }];
        await signIn(list, { extensions: { largeBlob: { write: toBytes(1) } } });
    },
    "get, largeBlob read with two credentials": async () => {
        await signIn([await register(), { rawId: toBytes(9) }], { extensions: { largeBlob: { read: true } } });
    },
};

// ---- the Signal API

const signal = async (name, options) => {
    const value = await PublicKeyCredential[`signal${name}`](options);
    return String(value);
};
const rpId = "localhost";

/** Returns a call that registers a discoverable credential, signals, and signs in without an allow list. */
const makeSignInAfterSignal = (name, makeOptions) => async () => {
    const made = await registerDiscoverable();
    const signalled = await signal(name, makeOptions(made));
    return [signalled, await signIn([]).then(() => "signed in", (error) => error.name)].join();
};

const signals = {
    "signal an unknown credential": makeSignInAfterSignal("UnknownCredential", ({ id }) => ({ rpId, credentialId: id })),
    "signal another unknown credential": makeSignInAfterSignal("UnknownCredential", () => ({ rpId, credentialId: "AQID" })),
    "signal no accepted credentials": makeSignInAfterSignal("AllAcceptedCredentials", () =>
        ({ rpId, userId: "AQID", allAcceptedCredentialIds: [] })),
    "signal all accepted credentials": makeSignInAfterSignal("AllAcceptedCredentials", ({ id }) =>
        ({ rpId, userId: "AQID", allAcceptedCredentialIds: [id] })),
    "signal accepted credentials of another user": makeSignInAfterSignal("AllAcceptedCredentials", () =>
        ({ rpId, userId: "AQIE", allAcceptedCredentialIds: [] })),
    "signal user details": makeSignInAfterSignal("CurrentUserDetails", () =>
        ({ rpId, userId: "AQID", name: "anna", displayName: "Anna" })),
    "signal, no options": () => signal("UnknownCredential"),
    "signal, no credential ID": () => signal("UnknownCredential", { rpId }),
    "signal, no base64url": () => signal("UnknownCredential", { rpId, credentialId: "a+b" }),
    "signal, another site": () => signal("UnknownCredential", { rpId: "example.com", credentialId: "AQID" }),
    "signal, no user ID": () => signal("AllAcceptedCredentials", { rpId, allAcceptedCredentialIds: [] }),
    "signal, a user ID that is no base64url": () =>
        signal("AllAcceptedCredentials", { rpId, userId: "!", allAcceptedCredentialIds: [] }),
    "signal, an accepted ID that is no base64url": () =>
        signal("AllAcceptedCredentials", { rpId, userId: "AQID", allAcceptedCredentialIds: ["!"] }),
    "signal, no list": () => signal("AllAcceptedCredentials", { rpId, userId: "AQID" }),
    "signal, no name": () => signal("CurrentUserDetails", { rpId, userId: "AQID", displayName: "A" }),
};

export const moreCalls = { ...members, ...json, ...checkedExtensions, ...signals };
