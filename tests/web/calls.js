// Calls for both Chromium's virtual authenticator and the key, which return what a page sees. Most calls register or
// sign in with an option or an invalid argument; the others call static methods, or read members of credentials.
import { moreCalls } from "./member_calls.js";

const TIMEOUT_MS = 400;
const toBytes = (...list) => Uint8Array.of(...list);
const makeChallenge = () => new Uint8Array(32).fill(7);
const toText = (buffer) => new TextDecoder().decode(buffer);

const makeCreationOptions = (more = {}) => ({
    challenge: makeChallenge(), rp: { name: "A service" },
    user: { id: toBytes(1, 2, 3), name: "ann", displayName: "Ann" },
    pubKeyCredParams: [{ type: "public-key", alg: -7 }], ...more,
});

/** Creation options without the member at a path. */
const makeOptionsWithout = (...path) => {
    const options = makeCreationOptions();
    const last = path.pop();
    delete path.reduce((inner, name) => inner[name], options)[last];
    return options;
};

const makeOptionsWithUser = (more) => makeCreationOptions({ user: { ...makeCreationOptions().user, ...more } });
const makeOptionsWithSelection = (authenticatorSelection) => makeCreationOptions({ authenticatorSelection });
const makeRequestOptions = (made, more = {}) => ({
    challenge: makeChallenge(), allowCredentials: [{ type: "public-key", id: made.rawId, ...more }],
});

/** The members of a registration's credential that a page sees. */
const describeRegistration = (made) => {
    const { response } = made;
    const json = made.toJSON();
    const authData = new Uint8Array(response.getAuthenticatorData());
    return {
        is: made instanceof PublicKeyCredential && response instanceof AuthenticatorAttestationResponse,
        type: made.type, attachment: made.authenticatorAttachment, idBytes: made.rawId.byteLength,
        clientData: JSON.parse(toText(response.clientDataJSON)), flags: authData[32] & 0x5d,
        counter: new DataView(authData.buffer).getUint32(33),
        fmt: /fmt.(packed|none)/.exec(toText(response.attestationObject))?.[1],
        transports: response.getTransports(), algorithm: response.getPublicKeyAlgorithm(),
        spkiBytes: response.getPublicKey()?.byteLength, extensions: made.getClientExtensionResults(),
        json: Object.keys(json).sort(), responseJson: Object.keys(json.response).sort(),
        isSameId: json.id === made.id && json.rawId === made.id, own: JSON.stringify(made) === JSON.stringify(json),
    };
};

/** The members of a sign-in's credential that a page sees. */
const describeSignIn = (used) => {
    const { response } = used;
    const json = used.toJSON();
    const authData = new Uint8Array(response.authenticatorData);
    return {
        is: used instanceof PublicKeyCredential && response instanceof AuthenticatorAssertionResponse,
        type: used.type, attachment: used.authenticatorAttachment,
        clientData: JSON.parse(toText(response.clientDataJSON)),
        flags: authData[32] & 0x5d, length: authData.length,
        user: response.userHandle && [...new Uint8Array(response.userHandle)],
        extensions: used.getClientExtensionResults(), json: Object.keys(json).sort(),
        responseJson: Object.keys(json.response).sort(),
    };
};

/** Registers with these options, and returns what the page sees. */
const create = async (publicKey, more = {}) =>
    describeRegistration(await navigator.credentials.create({ publicKey, ...more }));
const register = (more) => navigator.credentials.create({ publicKey: makeCreationOptions(more) });

/** Signs in with these options, and returns what the page sees. */
const get = async (publicKey, more = {}) => describeSignIn(await navigator.credentials.get({ publicKey, ...more }));

/** Returns a call that registers a credential, and signs in with it and these options. */
const makeSignIn = (options = {}, more = {}) => async () => get({ ...makeRequestOptions(await register()), ...options }, more);

/** Starts two requests, and returns the name of each one's error, or "done". */
const runConcurrently = async (first, second) => {
    const outcomes = await Promise.allSettled([first(), second()]);
    return outcomes.map((outcome) => outcome.reason?.name ?? "done");
};

/** Returns a call that is made while the authenticator waits for the user. */
const makeWaitingCall = (environment, later) => async () => {
    await environment.presence(false);
    try {
        return await later();
    } finally {
        await environment.presence(true);
    }
};

const registrations = {
    "create": () => create(makeCreationOptions()),
    "create, no publicKey": () => navigator.credentials.create({}),
    "create, nothing": () => navigator.credentials.create(),
    "create, null": () => navigator.credentials.create(null),
    "create, a text": () => navigator.credentials.create("text"),
    "create, publicKey null": () => navigator.credentials.create({ publicKey: null }),
    "create, publicKey a number": () => navigator.credentials.create({ publicKey: 1 }),
    "create, publicKey empty": () => navigator.credentials.create({ publicKey: {} }),
    "create, no challenge": () => create(makeOptionsWithout("challenge")),
    "create, challenge a text": () => create(makeCreationOptions({ challenge: "abcd" })),
    "create, challenge an array": () => create(makeCreationOptions({ challenge: [1, 2] })),
    "create, challenge null": () => create(makeCreationOptions({ challenge: null })),
    "create, challenge empty": () => create(makeCreationOptions({ challenge: new Uint8Array(0) })),
    "create, challenge an ArrayBuffer": () => create(makeCreationOptions({ challenge: new ArrayBuffer(16) })),
    "create, challenge a DataView": () => create(makeCreationOptions({ challenge: new DataView(new ArrayBuffer(16), 4, 8) })),
    "create, no rp": () => create(makeOptionsWithout("rp")),
    "create, rp a text": () => create(makeCreationOptions({ rp: "localhost" })),
    "create, no rp.name": () => create(makeOptionsWithout("rp", "name")),
    "create, rp.name empty": () => create(makeCreationOptions({ rp: { name: "" } })),
    "create, rp.name null": () => create(makeCreationOptions({ rp: { name: null } })),
    "create, rp.id of this host": () => create(makeCreationOptions({ rp: { name: "A", id: "localhost" } })),
    "create, rp.id empty": () => create(makeCreationOptions({ rp: { name: "A", id: "" } })),
    "create, rp.id of another site": () => create(makeCreationOptions({ rp: { name: "A", id: "example.com" } })),
    "create, rp.id with a port": () => create(makeCreationOptions({ rp: { name: "A", id: `localhost:${location.port}` } })),
    "create, rp.id an origin": () => create(makeCreationOptions({ rp: { name: "A", id: location.origin } })),
    "create, rp.id in capitals": () => create(makeCreationOptions({ rp: { name: "A", id: "LOCALHOST" } })),
    "create, rp.id null": () => create(makeCreationOptions({ rp: { name: "A", id: null } })),
    "create, rp.id below this host": () => create(makeCreationOptions({ rp: { name: "A", id: "login.localhost" } })),
    "create, rp.id an IP address": () => create(makeCreationOptions({ rp: { name: "A", id: "127.0.0.1" } })),
    "create, no user": () => create(makeOptionsWithout("user")),
    "create, no user.id": () => create(makeOptionsWithout("user", "id")),
    "create, user.id a text": () => create(makeOptionsWithUser({ id: "ann" })),
    "create, user.id empty": () => create(makeOptionsWithUser({ id: new Uint8Array(0) })),
    "create, user.id of 64 bytes": () => create(makeOptionsWithUser({ id: new Uint8Array(64) })),
    "create, user.id of 65 bytes": () => create(makeOptionsWithUser({ id: new Uint8Array(65) })),
    "create, no user.name": () => create(makeOptionsWithout("user", "name")),
    "create, user.name empty": () => create(makeOptionsWithUser({ name: "" })),
    "create, no user.displayName": () => create(makeOptionsWithout("user", "displayName")),
    "create, user.name of 200 letters": () => create(makeOptionsWithUser({ name: "a".repeat(200) })),
    "create, user.name in emoji": () => create(makeOptionsWithUser({ name: "\u{1F511}".repeat(20) })),
    "create, no pubKeyCredParams": () => create(makeOptionsWithout("pubKeyCredParams")),
    "create, pubKeyCredParams empty": () => create(makeCreationOptions({ pubKeyCredParams: [] })),
    "create, pubKeyCredParams an object": () => create(makeCreationOptions({ pubKeyCredParams: { alg: -7 } })),
    "create, RS256 alone": () => create(makeCreationOptions({ pubKeyCredParams: [{ type: "public-key", alg: -257 }] })),
    "create, an unknown algorithm": () => create(makeCreationOptions({ pubKeyCredParams: [{ type: "public-key", alg: -99 }] })),
    "create, RS256 and ES256": () =>
        create(makeCreationOptions({ pubKeyCredParams: [-257, -7].map((alg) => ({ type: "public-key", alg })) })),
    "create, an unknown type": () => create(makeCreationOptions({ pubKeyCredParams: [{ type: "password", alg: -7 }] })),
    "create, an unknown type and ES256": () =>
        create(makeCreationOptions({ pubKeyCredParams: ["password", "public-key"].map((type) => ({ type, alg: -7 })) })),
    "create, no alg": () => create(makeCreationOptions({ pubKeyCredParams: [{ type: "public-key" }] })),
    "create, alg a text": () => create(makeCreationOptions({ pubKeyCredParams: [{ type: "public-key", alg: "ES256" }] })),
    "create, alg out of range": () => create(makeCreationOptions({ pubKeyCredParams: [{ type: "public-key", alg: 2 ** 31 }] })),
    "create, alg a fraction": () => create(makeCreationOptions({ pubKeyCredParams: [{ type: "public-key", alg: -7.9 }] })),
    "create, no type": () => create(makeCreationOptions({ pubKeyCredParams: [{ alg: -7 }] })),
};

const registrationOptions = {
    "create, timeout 0": () => create(makeCreationOptions({ timeout: 0 })),
    "create, timeout -1": () => create(makeCreationOptions({ timeout: -1 })),
    "create, timeout 2^32": () => create(makeCreationOptions({ timeout: 2 ** 32 })),
    "create, timeout NaN": () => create(makeCreationOptions({ timeout: NaN })),
    "create, timeout a text": () => create(makeCreationOptions({ timeout: "5000" })),
    "create, timeout undefined": () => create(makeCreationOptions({ timeout: undefined })),
    "create, excludeCredentials empty": () => create(makeCreationOptions({ excludeCredentials: [] })),
    "create, excludeCredentials null": () => create(makeCreationOptions({ excludeCredentials: null })),
    "create, excluded": async () =>
        create(makeCreationOptions({ excludeCredentials: makeRequestOptions(await register()).allowCredentials })),
    "create, excluded under an unknown type": async () =>
        create(makeCreationOptions({ excludeCredentials: [{ type: "other", id: (await register()).rawId }] })),
    "create, excluded without a type": async () =>
        create(makeCreationOptions({ excludeCredentials: [{ id: (await register()).rawId }] })),
    "create, excluded id a text": () => create(makeCreationOptions({ excludeCredentials: [{ type: "public-key", id: "abc" }] })),
    "create, excluded with unknown transports": () =>
        create(makeCreationOptions({ excludeCredentials: [{ type: "public-key", id: toBytes(1), transports: ["pigeon"] }] })),
    "create, residentKey required": () => create(makeOptionsWithSelection({ residentKey: "required" })),
    "create, residentKey preferred": () => create(makeOptionsWithSelection({ residentKey: "preferred" })),
    "create, residentKey unknown": () => create(makeOptionsWithSelection({ residentKey: "yes" })),
    "create, requireResidentKey": () => create(makeOptionsWithSelection({ requireResidentKey: true })),
    "create, requireResidentKey a text": () => create(makeOptionsWithSelection({ requireResidentKey: "no" })),
    "create, userVerification required": () => create(makeOptionsWithSelection({ userVerification: "required" })),
    "create, userVerification preferred": () => create(makeOptionsWithSelection({ userVerification: "preferred" })),
    "create, userVerification unknown": () => create(makeOptionsWithSelection({ userVerification: "maybe" })),
    "create, attachment platform": () =>
        create(makeOptionsWithSelection({ authenticatorAttachment: "platform" }), { signal: AbortSignal.timeout(TIMEOUT_MS) }),
    "create, attachment cross-platform": () =>
        create(makeOptionsWithSelection({ authenticatorAttachment: "cross-platform" }), { signal: AbortSignal.timeout(TIMEOUT_MS) }),
    "create, attachment unknown": () => create(makeOptionsWithSelection({ authenticatorAttachment: "internal" })),
    "create, authenticatorSelection null": () => create(makeOptionsWithSelection(null)),
    "create, authenticatorSelection a text": () => create(makeOptionsWithSelection("x")),
    "create, attestation none": () => create(makeCreationOptions({ attestation: "none" })),
    "create, attestation direct": () => create(makeCreationOptions({ attestation: "direct" })),
    "create, attestation indirect": () => create(makeCreationOptions({ attestation: "indirect" })),
    "create, attestation enterprise": () => create(makeCreationOptions({ attestation: "enterprise" })),
    "create, attestation unknown": () => create(makeCreationOptions({ attestation: "some" })),
    "create, hints unknown": () => create(makeCreationOptions({ hints: ["pigeon"] })),
    "create, mediation unknown": () => create(makeCreationOptions(), { mediation: "now" }),
    "create, mediation conditional": () =>
        create(makeCreationOptions(), { mediation: "conditional", signal: AbortSignal.timeout(TIMEOUT_MS) }),
    "create, mediation silent": () => create(makeCreationOptions(), { mediation: "silent" }),
    "create, mediation required": () => create(makeCreationOptions(), { mediation: "required" }),
    "create, signal not a signal": () => create(makeCreationOptions(), { signal: {} }),
    "create, signal null": () => create(makeCreationOptions(), { signal: null }),
    "create, aborted before": () => create(makeCreationOptions(), { signal: AbortSignal.abort() }),
    "create, aborted before with a reason": () =>
        create(makeCreationOptions(), { signal: AbortSignal.abort(new RangeError("x")) }),
    "create, aborted before, and wrong": () => create(makeOptionsWithout("challenge"), { signal: AbortSignal.abort() }),
    "create, aborted before, and of another site": () =>
        create(makeCreationOptions({ rp: { name: "A", id: "example.com" } }), { signal: AbortSignal.abort() }),
    "create, password too": () => navigator.credentials.create({
        publicKey: makeCreationOptions(), password: { id: "ann", password: "x", origin: location.origin },
    }),
    "create detached": () => (0, navigator.credentials.create)({ publicKey: makeCreationOptions() }),
};

const extensionCalls = {
    "create, extensions empty": () => create(makeCreationOptions({ extensions: {} })),
    "create, extensions null": () => create(makeCreationOptions({ extensions: null })),
    "create, extensions a text": () => create(makeCreationOptions({ extensions: "credProps" })),
    "create, unknown extension": () => create(makeCreationOptions({ extensions: { unknown: true } })),
    "create, credProps": () => create(makeCreationOptions({ extensions: { credProps: true } })),
    "create, credProps false": () => create(makeCreationOptions({ extensions: { credProps: false } })),
    "create, credProps, discoverable": () =>
        create(makeCreationOptions({ extensions: { credProps: true }, authenticatorSelection: { residentKey: "required" } })),
    "create, largeBlob required": () => create(makeCreationOptions({ extensions: { largeBlob: { support: "required" } } })),
    "create, largeBlob preferred": () => create(makeCreationOptions({ extensions: { largeBlob: { support: "preferred" } } })),
    "create, largeBlob unknown": () => create(makeCreationOptions({ extensions: { largeBlob: { support: "some" } } })),
    "create, largeBlob read": () => create(makeCreationOptions({ extensions: { largeBlob: { read: true } } })),
    "create, appid": () => create(makeCreationOptions({ extensions: { appid: location.origin } })),
    "create, appidExclude": () => create(makeCreationOptions({ extensions: { appidExclude: location.origin } })),
    "create, appidExclude of another site": () =>
        create(makeCreationOptions({ extensions: { appidExclude: "https://example.com" } })),
    "create, appidExclude no URL": () => create(makeCreationOptions({ extensions: { appidExclude: "x" } })),
    "create, prf": () => create(makeCreationOptions({ extensions: { prf: {} } })),
    "create, minPinLength": () => create(makeCreationOptions({ extensions: { minPinLength: true } })),
    "create, hmacCreateSecret": () => create(makeCreationOptions({ extensions: { hmacCreateSecret: true } })),
    "create, credentialProtectionPolicy": () =>
        create(makeCreationOptions({ extensions: { credentialProtectionPolicy: "userVerificationRequired" } })),
    "create, credentialProtectionPolicy enforced": () =>
        create(makeCreationOptions({ extensions: {
            credentialProtectionPolicy: "userVerificationRequired", enforceCredentialProtectionPolicy: true,
        } })),
    "create, credentialProtectionPolicy unknown": () =>
        create(makeCreationOptions({ extensions: { credentialProtectionPolicy: "x" } })),
    "create, credBlob": () => create(makeCreationOptions({ extensions: { credBlob: toBytes(1) } })),
    "create, payment": () => create(makeCreationOptions({ extensions: { payment: { isPayment: true } } })),
    "create, uvm": () => create(makeCreationOptions({ extensions: { uvm: true } })),
    "get, appid": makeSignIn({ extensions: { appid: location.origin } }),
    "get, appid of another site": makeSignIn({ extensions: { appid: "https://example.com" } }),
    "get, appid no URL": makeSignIn({ extensions: { appid: "x" } }),
    "get, appidExclude": makeSignIn({ extensions: { appidExclude: location.origin } }),
    "get, unknown extension": makeSignIn({ extensions: { unknown: 1 } }),
    "get, credProps": makeSignIn({ extensions: { credProps: true } }),
    "get, largeBlob read": makeSignIn({ extensions: { largeBlob: { read: true } } }),
    "get, largeBlob write": makeSignIn({ extensions: { largeBlob: { write: toBytes(1) } } }),
    "get, largeBlob read and write": makeSignIn({ extensions: { largeBlob: { read: true, write: toBytes(1) } } }),
    "get, largeBlob support": makeSignIn({ extensions: { largeBlob: { support: "required" } } }),
    "get, prf": makeSignIn({ extensions: { prf: { eval: { first: toBytes(1) } } } }),
    "get, prf a wrong credential": makeSignIn({ extensions: { prf: { evalByCredential: { "!": { first: toBytes(1) } } } } }),
    "get, prf without first": makeSignIn({ extensions: { prf: { eval: {} } } }),
    "get, getCredBlob": makeSignIn({ extensions: { getCredBlob: true } }),
    "get, uvm": makeSignIn({ extensions: { uvm: true } }),
};

const signIns = {
    "get": makeSignIn(),
    "get, no publicKey": () => navigator.credentials.get({}),
    "get, nothing": () => navigator.credentials.get(),
    "get, publicKey null": () => navigator.credentials.get({ publicKey: null }),
    "get, publicKey empty": () => navigator.credentials.get({ publicKey: {} }),
    "get, challenge a text": makeSignIn({ challenge: "abcd" }),
    "get, challenge null": makeSignIn({ challenge: null }),
    "get, rpId of this host": makeSignIn({ rpId: "localhost" }),
    "get, rpId empty": makeSignIn({ rpId: "" }),
    "get, rpId of another site": makeSignIn({ rpId: "example.com" }),
    "get, rpId in capitals": makeSignIn({ rpId: "LOCALHOST" }),
    "get, allowCredentials a text": makeSignIn({ allowCredentials: "x" }),
    "get, allowCredentials null": makeSignIn({ allowCredentials: null }),
    "get, an unknown id": () => get(makeRequestOptions({ rawId: toBytes(9) })),
    "get, an id of 0 bytes": () => get(makeRequestOptions({ rawId: toBytes() })),
    "get, an unknown id and a known one": async () => get({
        challenge: makeChallenge(),
        allowCredentials: [{ type: "public-key", id: toBytes(9) }, ...makeRequestOptions(await register()).allowCredentials],
    }),
    "get, 65 unknown ids": () => get({
        challenge: makeChallenge(),
        allowCredentials: Array.from({ length: 65 }, (_, at) => ({ type: "public-key", id: toBytes(at) })),
    }),
    "get, an unknown type": async () => get(makeRequestOptions(await register(), { type: "other" })),
    "get, no type": async () => get(makeRequestOptions(await register(), { type: undefined })),
    "get, transports of another kind": async () =>
        get(makeRequestOptions(await register(), { transports: ["internal"] }), { signal: AbortSignal.timeout(TIMEOUT_MS) }),
    "get, unknown transports": async () => get(makeRequestOptions(await register(), { transports: ["pigeon"] })),
    "get, transports a text": async () => get(makeRequestOptions(await register(), { transports: "usb" })),
    "get, userVerification required": makeSignIn({ userVerification: "required" }),
    "get, userVerification discouraged": makeSignIn({ userVerification: "discouraged" }),
    "get, userVerification unknown": makeSignIn({ userVerification: "maybe" }),
    "get, timeout 0": makeSignIn({ timeout: 0 }),
    "get, timeout -1": makeSignIn({ timeout: -1 }),
    "get, mediation unknown": makeSignIn({}, { mediation: "now" }),
    "get, mediation silent": makeSignIn({}, { mediation: "silent" }),
    "get, mediation required": makeSignIn({}, { mediation: "required" }),
    "get, aborted before": makeSignIn({}, { signal: AbortSignal.abort() }),
    "get, aborted before with a reason": makeSignIn({}, { signal: AbortSignal.abort("enough") }),
    "get, password too": makeSignIn({}, { password: true }),
    "get, discoverable": async () => {
        await register({ authenticatorSelection: { residentKey: "required" } });
        return get({ challenge: makeChallenge() });
    },
    "get, discoverable by its id": async () =>
        get(makeRequestOptions(await register({ authenticatorSelection: { residentKey: "required" } }))),
};

const listPendingCalls = (environment) => ({
    "two at the same time": makeWaitingCall(environment, () => runConcurrently(
        () => navigator.credentials.create({ publicKey: makeCreationOptions({ timeout: 300 }) }),
        () => navigator.credentials.get({ publicKey: { challenge: makeChallenge() } }),
    )),
    "aborted, and at once another": makeWaitingCall(environment, () => {
        const controller = new AbortController();
        return runConcurrently(
            () => navigator.credentials.create({ publicKey: makeCreationOptions(), signal: controller.signal }),
            async () => {
                controller.abort();
                await environment.presence(true);
                return register();
            },
        );
    }),
    "aborted, and another in the same turn": () => {
        const controller = new AbortController();
        const first = navigator.credentials.create({ publicKey: makeCreationOptions(), signal: controller.signal });
        controller.abort();
        return runConcurrently(() => first, () => register());
    },
    "a time-out": makeWaitingCall(environment, () => create(makeCreationOptions({ timeout: 200 }))),
});

const conditional = {
    "conditional, then aborted": async () => {
        const more = { mediation: "conditional", signal: AbortSignal.timeout(200) };
        return runConcurrently(() => navigator.credentials.get({ publicKey: { challenge: makeChallenge() }, ...more }), () => null);
    },
    "conditional, then create": () => runConcurrently(
        () => navigator.credentials.get({ publicKey: { challenge: makeChallenge() }, mediation: "conditional" }),
        () => register(),
    ),
    "conditional, then get": async () => {
        const made = await register();
        return runConcurrently(
            () => navigator.credentials.get({ publicKey: { challenge: makeChallenge() }, mediation: "conditional" }),
            () => navigator.credentials.get({ publicKey: makeRequestOptions(made) }),
        );
    },
    "conditional twice": async () => {
        const signal = AbortSignal.timeout(300);
        const publicKey = { challenge: makeChallenge() };
        return runConcurrently(
            () => navigator.credentials.get({ publicKey, mediation: "conditional", signal }),
            () => navigator.credentials.get({ publicKey, mediation: "conditional", signal }),
        );
    },
    "conditional, with an allow list": async () => {
        const signal = AbortSignal.timeout(300);
        const made = await register();
        return get(makeRequestOptions(made), { mediation: "conditional", signal });
    },
};

const callStaticMethod = (name, ...words) => async () => {
    const found = await PublicKeyCredential[name](...words);
    return found;
};

const makeCreationJson = (more) => ({
    challenge: "AQ", rp: { name: "A" }, user: { id: "AQ", name: "a", displayName: "A" }, pubKeyCredParams: [], ...more,
});

const statics = {
    "isUserVerifyingPlatformAuthenticatorAvailable": callStaticMethod("isUserVerifyingPlatformAuthenticatorAvailable"),
    "isConditionalMediationAvailable": callStaticMethod("isConditionalMediationAvailable"),
    "getClientCapabilities": callStaticMethod("getClientCapabilities"),
    "parseCreationOptionsFromJSON": async () => {
        const parsed = PublicKeyCredential.parseCreationOptionsFromJSON({
            challenge: "AQID", rp: { name: "A" }, user: { id: "AQ", name: "a", displayName: "A" },
            pubKeyCredParams: [{ type: "public-key", alg: -7 }],
            excludeCredentials: [{ type: "public-key", id: "AQI" }],
            attestation: "direct", extensions: { credProps: true, prf: { eval: { first: "AQ" } } }, unknown: 1,
        });
        return {
            names: Object.keys(parsed).sort(), challenge: parsed.challenge.constructor.name,
            bytes: parsed.challenge.byteLength, excluded: parsed.excludeCredentials[0].id.byteLength,
            prf: parsed.extensions.prf.eval.first.byteLength, extensions: Object.keys(parsed.extensions).sort(),
        };
    },
    "parseCreationOptionsFromJSON, no base64url":
        callStaticMethod("parseCreationOptionsFromJSON", makeCreationJson({ challenge: "a+b/" })),
    "parseCreationOptionsFromJSON, padded": async () => {
        const parsed = PublicKeyCredential.parseCreationOptionsFromJSON(makeCreationJson({ challenge: "AQ==" }));
        return parsed.challenge.byteLength;
    },
    "parseCreationOptionsFromJSON, no user":
        callStaticMethod("parseCreationOptionsFromJSON", { challenge: "AQ", rp: { name: "A" } }),
    "parseCreationOptionsFromJSON, nothing": callStaticMethod("parseCreationOptionsFromJSON"),
    "parseRequestOptionsFromJSON": async () => {
        const parsed = PublicKeyCredential.parseRequestOptionsFromJSON({
            challenge: "AQID", rpId: "localhost",
            allowCredentials: [{ type: "public-key", id: "AQI", transports: ["usb"] }],
        });
        return { names: Object.keys(parsed).sort(), id: parsed.allowCredentials[0].id.byteLength };
    },
    "parseRequestOptionsFromJSON, no challenge": callStaticMethod("parseRequestOptionsFromJSON", {}),
    "what navigator.credentials is": async () => [
        navigator.credentials instanceof CredentialsContainer, String(navigator.credentials),
        navigator.credentials.create.name, navigator.credentials.create.length, navigator.credentials.get.length,
        typeof navigator.credentials.store, typeof navigator.credentials.preventSilentAccess,
        Object.keys(navigator).includes("credentials"), Object.keys(navigator.credentials).length,
    ],
    "new PublicKeyCredential": async () => new PublicKeyCredential(),
    "preventSilentAccess": async () => (await navigator.credentials.preventSilentAccess()) ?? "undefined",
};

/** All calls by name. @param environment functions of the authenticator */
export const listCalls = (environment) => ({
    ...registrations, ...registrationOptions, ...extensionCalls, ...signIns, ...statics, ...moreCalls,
    ...listPendingCalls(environment), ...conditional,
});

// After this time, a call is considered pending forever. No other call waits for more than half a second.
const PENDING_MS = 30_000;

const rejectAfterTimeout = () => new Promise((done, fail) => {
    setTimeout(() => fail(new Error(`the call did not end within ${PENDING_MS / 1000} s`)), PENDING_MS);
});

/** The result of a call: a value, or an error's name and message. */
export const getResult = async (call) => {
    try {
        return { value: (await Promise.race([call(), rejectAfterTimeout()])) ?? null };
    } catch (error) {
        return { error: error?.name ?? String(error), text: error?.message ?? "" };
    }
};

/** Returns "done" or the name of the error. The results of several calls are joined by "and". */
export const summarizeResult = ({ value, error }) => {
    const isOfSeveral = Array.isArray(value) && value.every((one) => one === "done" || /Error$/.test(one));
    return error ?? (isOfSeveral ? value.join(" and ") : "done");
};
