// The script that the proxy adds to the documents of a session, after the script of the key. A document gets only the
// credentials that its origin may use. If the browser has a channel to the proxy, private keys stay in the proxy, and
// this script requests signatures. Otherwise the private keys are in this script's closure.
const hidlogPage = (() => {
    const { parse, stringify } = JSON;
    // A window that a page opens is empty at first, has the page's origin, and may navigate to another document.
    const { origin } = globalThis;
    const isPage = /^https?:/.test(origin);
    const STATE_FORMAT = "hidlog web key 1";
    const [SEALED, PROOF] = ["hidlogSealed", "hidlogProof"];
    // The private key in the JWK of a placeholder: 32 zero bytes.
    const NO_KEY = "A".repeat(43);
    const POINT_BYTES = 64;

    const toBase64 = (bytes) => btoa(Array.from(bytes, (byte) => String.fromCharCode(byte)).join(""));
    const toBase64url = (bytes) => toBase64(bytes).replace(/\+/g, "-").replace(/\//g, "_").replace(/=+$/, "");
    const fromBase64 = (text) => Uint8Array.from(atob(text), (letter) => letter.charCodeAt(0));
    const toHex = (bytes) => Array.from(bytes, (byte) => byte.toString(16).padStart(2, "0")).join("");

    /** The key in this document, and the state last exchanged with the proxy. */
    let key = null;
    let link = null;
    let serial = -1;
    let faultsSet = "{}";
    let selections = null;
    let known = [];
    // Identifies this document among all documents of its origin.
    const id = isPage ? toBase64(crypto.getRandomValues(new Uint8Array(12))) : "";
    const sent = new Map();
    const listIds = (credentials) => credentials.map((credential) => credential.credentialId);

    // The channel to the proxy: calls and their results.

    const openChannel = (send) => {
        const waiting = new Map();
        let last = 0;
        const call = (name, parameters = {}) => new Promise((done, fail) => {
            last += 1;
            waiting.set(last, { done, fail });
            send(stringify({ ...parameters, id: last, name }));
        });
        const reply = (id, value, error) => {
            const { done, fail } = waiting.get(id) ?? {};
            waiting.delete(id);
            if (error) {
                fail?.(new Error(`hidlog webdriver: ${error}`));
            } else {
                done?.(value);
            }
        };
        return { call, reply };
    };

    /** Algorithms by their names in WebCrypto: the COSE number, and the parameters for importing a public key. */
    const ALGORITHMS = {
        ECDSA: { number: -7 }, Ed25519: { number: -8, parameters: { name: "Ed25519" } },
        "RSASSA-PKCS1-v1_5": { number: -257, parameters: { name: "RSASSA-PKCS1-v1_5", hash: "SHA-256" } },
    };

    /**
     * Returns an implementation of WebCrypto whose extractable private keys stay in the proxy. For each private key,
     * the page has a placeholder in PKCS #8 with the public key: x and y at its end on P-256, or the
     * SubjectPublicKeyInfo for other algorithms. The public key identifies the private key to the proxy.
     */
    const makeProxyCrypto = ({ call }) => {
        const { subtle } = crypto;
        const ours = new WeakSet();
        const makeKey = (point, name) => {
            const made = { point, name };
            ours.add(made);
            return made;
        };
        const exportPublic = async ({ point, name }) => {
            const { parameters } = ALGORITHMS[name];
            const key = await subtle.importKey("spki", point, parameters, true, ["verify"]);
            return { ...await subtle.exportKey("jwk", key), d: NO_KEY };
        };
        const exportPoint = ({ point }) =>
            ({ d: NO_KEY, x: toBase64url(point.subarray(0, 32)), y: toBase64url(point.subarray(32)) });
        return {
            getRandomValues: (bytes) => crypto.getRandomValues(bytes),
            subtle: {
                digest: (...args) => subtle.digest(...args),
                async generateKey(algorithm, isExtractable, uses) {
                    if (!isExtractable) {
                        return subtle.generateKey(algorithm, isExtractable, uses);
                    }
                    const { point } = await call("make", { algorithm: ALGORITHMS[algorithm.name].number });
                    return { privateKey: makeKey(fromBase64(point), algorithm.name) };
                },
                async importKey(form, bytes, algorithm, isExtractable, uses) {
                    if (form !== "pkcs8" || !isExtractable) {
                        return subtle.importKey(form, bytes, algorithm, isExtractable, uses);
                    }
                    return makeKey(algorithm.name === "ECDSA" ? bytes.slice(-POINT_BYTES) : bytes.slice(), algorithm.name);
                },
                async exportKey(form, key) {
                    if (!ours.has(key)) {
                        return subtle.exportKey(form, key);
                    }
                    if (form === "pkcs8") {
                        return key.point.slice().buffer;
                    }
                    return key.name === "ECDSA" ? exportPoint(key) : exportPublic(key);
                },
                async sign(algorithm, held, data) {
                    if (!ours.has(held)) {
                        return subtle.sign(algorithm, held, data);
                    }
                    const { signature } = await call("sign", { point: toBase64(held.point), data: toBase64(data) });
                    return fromBase64(signature).buffer;
                },
            },
        };
    };

    /** Applies the proxy's settings to the key. */
    const applySettings = ({ authenticatorOptions, presence, serial: at, faults, account }) => {
        key.setAuthenticatorOptions(authenticatorOptions);
        if (key.account !== account.selector) {
            key.account = account.selector;
        }
        // If an account was selected since the last settings, a pending sign-in waits for the selection.
        if (selections !== null && selections !== account.selections && key.autofill === "selected") {
            key.selectAccount(account.selector).catch(() => {});
        }
        selections = account.selections;
        if (serial !== at) {
            serial = at;
            key.presence = Array.isArray(presence) ? link.presence(presence) : presence;
        }
        if (stringify(faults) !== faultsSet) {
            faultsSet = stringify(faults);
            key.faults.clear();
            Object.assign(key.faults, faults);
        }
    };

    /** Returns credentials as text that does not depend on the order of their members. */
    const toComparable = (credentials) => stringify(credentials.map((credential) => Object.entries(credential).sort()));

    /** Sets the key's credentials, unless the key already has these credentials. */
    const restore = async (credentials) => {
        const state = key.state();
        if (toComparable(credentials) !== toComparable(state.credentials)) {
            await key.restore({ format: STATE_FORMAT, timeMs: state.timeMs, credentials });
        }
        known = listIds(credentials);
    };

    const update = async (settings) => {
        applySettings(settings);
        await restore(settings.credentials);
    };

    /** Returns the text that was appended to each recording since the last call, with the text's offset in the log. */
    const listRecordingChanges = () => key.recordings().flatMap(({ index, log, snapshot }) => {
        const before = sent.get(index) ?? "";
        // The last line has the totals, which change, so this line is sent again.
        const same = before.slice(0, before.lastIndexOf("\n", before.length - 2) + 1);
        const from = log.startsWith(same) ? same.length : 0;
        if (log === before || !/^> /m.test(log)) {
            return [];
        }
        sent.set(index, log);
        return [{ index, from, text: log.slice(from), snapshot: toHex(snapshot) }];
    });

    /**
     * Returns the key's credentials, the IDs of removed credentials, and the text that was appended to the recordings.
     */
    const report = () => {
        const { credentials } = key.state();
        const ids = listIds(credentials);
        const gone = known.filter((id) => !ids.includes(id));
        known = ids;
        return { credentials, gone, recordings: listRecordingChanges(), document: id };
    };

    /** Wraps a method of navigator.credentials: synchronizes the key with the proxy before and after each call. */
    const wrapMethod = (name) => {
        const { prototype } = CredentialsContainer;
        const served = prototype[name];
        const around = { async [name](...args) {
            if (args[0]?.publicKey === undefined) {
                return served.apply(this, args);
            }
            await link.begin();
            try {
                return await served.apply(this, args);
            } finally {
                await link.end();
            }
        } }[name];
        Object.defineProperty(prototype, name, { ...Object.getOwnPropertyDescriptor(prototype, name), value: around });
    };

    /** Wraps a method of the Signal API in the same way. */
    const wrapSignal = (name) => {
        const served = PublicKeyCredential[name];
        const around = { async [name](...args) {
            await link.begin();
            try {
                return await served.apply(this, args);
            } finally {
                await link.end();
            }
        } }[name];
        const own = Object.getOwnPropertyDescriptor(PublicKeyCredential, name);
        Object.defineProperty(PublicKeyCredential, name, { ...own, value: around });
    };

    const installKey = (options) => {
        key = hidlogKey.install({ allowedOrigins: [origin], origin, ...options });
        ["create", "get"].forEach(wrapMethod);
        ["signalUnknownCredential", "signalAllAcceptedCredentials", "signalCurrentUserDetails"].forEach(wrapSignal);
        return key;
    };

    // With a channel.

    /**
     * Installs the key in this document, if it is an http or https page without the key.
     * @param {(text: string) => void} send
     */
    const connect = (send, authenticatorOptions) => {
        if (!isPage || key) {
            return;
        }
        const channel = openChannel(send);
        link = {
            begin: async () => update(await channel.call("begin")),
            end: () => channel.call("end", report()),
            presence: () => async () => (await channel.call("presence")).word,
        };
        installKey({ crypto: makeProxyCrypto(channel) });
        key.setAuthenticatorOptions(authenticatorOptions);
        Object.defineProperty(globalThis, "hidlogReply", { value: channel.reply, configurable: true });
        Object.defineProperty(globalThis, "hidlogUpdate", { value: update, configurable: true });
    };

    // Without a channel, the proxy calls `sync` from time to time. Before the page navigates away, changes since the
    // last call are stored in sessionStorage, encrypted with a secret that the proxy passes only to documents of this
    // origin.

    let seal = null;
    let used = 0;

    const importSecret = async (secret) =>
        crypto.subtle.importKey("raw", fromBase64(secret), "AES-GCM", false, ["encrypt", "decrypt"]);

    const save = async () => {
        const iv = crypto.getRandomValues(new Uint8Array(12));
        const text = new TextEncoder().encode(stringify({ credentials: key.state().credentials, known, used, serial }));
        const sealed = await crypto.subtle.encrypt({ name: "AES-GCM", iv }, seal, text);
        sessionStorage.setItem(SEALED, `${toBase64(iv)} ${toBase64(new Uint8Array(sealed))}`);
    };

    /** Returns the state saved by an earlier document of this origin, or null. */
    const readSaved = async () => {
        try {
            const [iv, sealed] = sessionStorage.getItem(SEALED).split(" ").map(fromBase64);
            return parse(new TextDecoder().decode(await crypto.subtle.decrypt({ name: "AES-GCM", iv }, seal, sealed)));
        } catch {
            return null;
        }
    };

    /**
     * Returns the proxy's credentials, updated with the credentials that this page added, removed or used since the
     * last call.
     */
    const mergeCredentials = (proxy) => {
        const { credentials } = key.state();
        const own = new Map(credentials.map((credential) => [credential.credentialId, credential]));
        const ids = listIds(proxy);
        const kept = proxy.filter(({ credentialId: id }) => own.has(id) || !known.includes(id));
        const countOf = ({ credentialId, signCount }) => Math.max(signCount, own.get(credentialId)?.signCount ?? 0);
        const counted = kept.map((credential) => ({ ...credential, signCount: countOf(credential) }));
        return [...counted, ...credentials.filter(({ credentialId: id }) => !ids.includes(id) && !known.includes(id))];
    };

    /** Installs the key, and restores the state that an earlier document saved. Returns this state, or null. */
    const start = async ({ secret }) => {
        seal = await importSecret(secret);
        link = {
            begin: async () => {},
            end: () => save().catch(() => {}),
            presence: (words) => () => {
                used += 1;
                return words[Math.min(used, words.length) - 1];
            },
        };
        installKey({});
        const before = await readSaved();
        if (before) {
            await restore(before.credentials);
            known = before.known;
            return before;
        }
        return null;
    };

    /** Synchronizes this page with the proxy, and returns the changes that the page made. */
    const sync = async (settings) => {
        const before = key ? { used, serial } : await start(settings);
        used = Math.max(settings.used, before?.serial === settings.serial ? before.used : 0);
        applySettings(settings);
        const gone = known.filter((id) => !listIds(key.state().credentials).includes(id));
        await restore(mergeCredentials(settings.credentials));
        sessionStorage.removeItem(SEALED);
        sessionStorage.setItem(PROOF, settings.proof);
        return { credentials: key.state().credentials, gone, recordings: listRecordingChanges(), document: id, used, serial };
    };

    /** Removes the key from this document. Returns an object with the library, which can install the key again. */
    const remove = () => {
        const { library } = globalThis.hidlogPage;
        key?.uninstall();
        if (seal) {
            [SEALED, PROOF].forEach((name) => sessionStorage.removeItem(name));
        }
        ["hidlogReply", "hidlogUpdate", "hidlogPage", "hidlogKey"].forEach((name) => delete globalThis[name]);
        // The result is an object, because the browser would convert a function to its source text.
        return { library };
    };

    return { connect, sync, remove, isPage };
})();
