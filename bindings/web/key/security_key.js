// A security key in a page, with the registrations and sign-ins of navigator.credentials and the methods of a virtual
// authenticator. The key is the verified core. Each session is recorded as a log that replays exactly.
import { Activity, onTestFailed } from "./activity.js";
import { AuthenticatorOptions, AUTHENTICATOR_OPTION_NAMES, pickAuthenticatorOptions } from "./abilities.js";
import { readOrigin } from "./allowed_origins.js";
import { makeCredential } from "./idl_objects.js";
import { Authenticator, CtapError } from "./authenticator.js";
import { Ceremony } from "./ceremony.js";
import { checkType, checkMembers, checkName, renameOptions, warnRenamed } from "./argument_checks.js";
import { checkAccountSelector, Selections } from "./account_selection.js";
import { CoreAdditions } from "./core_additions.js";
import { Credentials } from "./credentials.js";
import { makeDomError } from "./errors.js";
import { Faults } from "./faults.js";
import { checkPolicy } from "./frames.js";
import { KeyState } from "./key_state.js";
import { readCreationOptions, readRequestOptions } from "./options.js";
import { CredentialMetadata } from "./credential_metadata.js";
import { throwIfAborted, raceWithSignal, getWebCrypto } from "./platform.js";
import { PrivateKeys } from "./private_keys.js";
import { RequestRunner } from "./pending_request.js";
import { SignIn } from "./sign_in.js";
import { checkState, readRows } from "./state.js";
import { User } from "./user_presence.js";

const OPTION_NAMES = ["presence", "delay", "account", "clock", "state", "storage", "origin", "crypto", "allowedOrigins",
    "record", ...AUTHENTICATOR_OPTION_NAMES];
const EVENT_TYPES = ["credentialAdded", "credentialAsserted", "credentialDeleted", "credentialUpdated"];
// Names before version 0.3.
const RENAMED_OPTIONS = { store: "storage", allowOrigins: "allowedOrigins" };

/**
 * @typedef {import("./authenticator.js").PageRequest & { leave: () => Promise<void> }} Turn a request of the page
 */

export class SecurityKey extends EventTarget {
    #authenticatorOptions;
    /** @type {any} */
    #account;
    #selections = new Selections();
    #activity = new Activity();
    #credentials;
    #origin;
    #metadata = new CredentialMetadata();
    #privateKeys;
    #requests = new RequestRunner();
    #state;
    #user;

    static {
        for (const name of AUTHENTICATOR_OPTION_NAMES) {
            Object.defineProperty(this.prototype, name, {
                get() {
                    return this.#authenticatorOptions.get(name);
                },
                set(value) {
                    this.#authenticatorOptions.update({ [name]: value });
                },
            });
        }
    }

    /** @param {import("../dist/security_key.js").Options} [options] */
    constructor(options = {}) {
        super();
        checkType("the options", options, typeof options === "object" && options !== null, "an object");
        const named = renameOptions(options, RENAMED_OPTIONS);
        checkMembers("option", named, OPTION_NAMES);
        const { presence = "granted", delay = 0, account = 0, record = true, clock, state, storage, crypto } = named;
        checkType("record", record, typeof record === "boolean", "true or false");
        checkType("clock", clock, ["undefined", "function"].includes(typeof clock), "a function that returns milliseconds");
        this.#user = new User({ presence, delay });
        this.account = account;
        this.#authenticatorOptions = new AuthenticatorOptions(pickAuthenticatorOptions(named));
        this.#origin = named.origin;
        this.#privateKeys = new PrivateKeys(crypto ? () => crypto : getWebCrypto);
        const faults = new Faults((bytes) => this.#privateKeys.hash(bytes));
        this.#credentials = new Credentials(this.#privateKeys, this.#metadata);
        this.#state = new KeyState(this.#credentials, { clock, state, storage, records: record },
            (start, keyClock) => new Authenticator(this.#privateKeys, faults, keyClock, start));
        this.faults = faults.settings();
        // The object is frozen, so setting an unknown property, such as a typo, throws.
        Object.freeze(this);
    }

    get presence() {
        return this.#user.presence;
    }

    set presence(presence) {
        this.#user.presence = presence;
    }

    get delay() {
        return this.#user.delay;
    }

    set delay(delay) {
        this.#user.delay = delay;
    }

    get account() {
        return this.#account;
    }

    set account(account) {
        checkAccountSelector("account", account);
        this.#account = account;
    }

    // Recordings and state.

    /**
     * The current recording, as a log for `hidlog check`. A new one starts when a method changes the credentials. Empty
     * if recording is off.
     */
    log() {
        return this.recordings().at(-1)?.log ?? "";
    }

    /** All recordings, each with its initial snapshot, for `hidlog check --load`. */
    recordings() {
        return this.#state.authenticator.recordings.list();
    }

    /** The state of the key as JSON: the credentials with private keys and signature counters, and the time. */
    state() {
        return this.#state.export();
    }

    // The report of a failed test.

    /**
     * Describes the last registrations and sign-ins of the page, each with its options and the credential or the reason
     * of the error, and the faults that are enabled or took effect. Empty if there are none.
     */
    report() {
        return this.#report(0);
    }

    /** @param {number} from the number of calls to skip */
    #report(from) {
        const credentials = this.#state.rows.map((row) => this.#credentials.fromRow(row));
        const logs = this.recordings().map(({ log }) => log);
        return this.#activity.describe({ credentials, faults: this.faults, logs }, from);
    }

    /**
     * Prints what the page did during a test, if the test fails.
     * @param {any} context what Vitest or node's test runner passes to the test, or to beforeEach's function
     */
    reportOnFailure(context) {
        const from = this.#activity.count;
        onTestFailed(context, () => {
            const report = this.#report(from);
            if (report) {
                console.error(`the security key:\n${report}`);
            }
        });
    }

    // Registrations and sign-ins.

    /**
     * Registers a credential, as navigator.credentials.create does.
     * @param {any} options
     */
    async create(options) {
        return this.#activity.observe("create", this.#origin, options, () => this.#create(options));
    }

    /** @param {any} options */
    async #create(options) {
        const { publicKey, signal, mediation } = readCreationOptions(options);
        throwIfAborted(signal);
        const ceremony = this.#begin("create", publicKey, mediation);
        return this.#requests.run({ signal, timeout: publicKey.timeout, isConditional: false }, (ending) =>
            this.#during(ceremony, ending, async (turn) => {
                const json = ceremony.read(await this.#send(ceremony, turn));
                await turn.additions.adapt(json);
                const credential = makeCredential(json);
                this.#dispatchFor("credentialAdded", credential.id);
                return credential;
            }));
    }

    /**
     * Signs in, as navigator.credentials.get does.
     * @param {any} options
     */
    async get(options) {
        return this.#activity.observe("get", this.#origin, options, () => this.#get(options));
    }

    /** @param {any} options */
    async #get(options) {
        const { publicKey, signal, mediation } = readRequestOptions(options);
        throwIfAborted(signal);
        const ceremony = this.#begin("get", publicKey, mediation);
        const isConditional = mediation === "conditional";
        return this.#requests.run({ signal, timeout: publicKey.timeout, isConditional }, (ending) =>
            this.#during(ceremony, ending, async (turn) => {
                const json = await this.#makeSignIn(turn).run(ceremony, isConditional);
                await turn.additions.adapt(json);
                const credential = makeCredential(json);
                this.#dispatchFor("credentialAsserted", credential.id);
                return credential;
            }));
    }

    /**
     * Begins a registration or a sign-in. Throws the error that a page gets if the options are invalid.
     * @param {"create" | "get"} name @param {any} publicKey @param {string} mediation
     */
    #begin(name, publicKey, mediation) {
        const origin = this.pageOrigin;
        checkPolicy(name, origin);
        return new Ceremony(name, publicKey, mediation, origin, this.#authenticatorOptions);
    }

    /**
     * Verifies the user if the ceremony requires it, sends the request, and returns the response.
     * @param {Ceremony} ceremony @param {Turn} turn
     */
    async #send(ceremony, turn) {
        const hash = (/** @type {Uint8Array} */ bytes) => this.#privateKeys.hash(bytes);
        const ids = await raceWithSignal(this.#metadata.sentIds(ceremony.ids, hash), turn.signal);
        const request = await raceWithSignal(ceremony.encode(ids, hash), turn.signal);
        if (ceremony.isVerified) {
            this.#authenticatorOptions.verifyUser();
        }
        turn.isVerified = ceremony.isVerified;
        return this.#exchange(ceremony, request, turn);
    }

    /** The origin of requests: the option `origin`, or the page's origin. */
    get pageOrigin() {
        return readOrigin(this.#origin);
    }

    /**
     * Runs a request of the page. Changes of the credentials are stored, and other tabs are locked out while the
     * credentials change.
     * @template T @param {Ceremony} ceremony @param {AbortSignal} signal @param {(turn: Turn) => Promise<T>} run
     */
    async #during(ceremony, signal, run) {
        /** @type {(() => Promise<void>) | null} */
        let release = null;
        /** @type {Turn} */
        const turn = {
            signal,
            isVerified: false,
            ask: () => this.#user.answer(ceremony.question, signal),
            additions: new CoreAdditions(ceremony, this.#authenticatorOptions, this.#metadata, this.#privateKeys),
            onCreated: (id) => {
                this.#credentials.setLabel(id, ceremony.label);
                turn.additions.storeCreated(id);
            },
            enter: async () => {
                release = await this.#state.lock();
                if (signal.aborted) {
                    await turn.leave();
                }
            },
            leave: async () => {
                const pending = release;
                release = null;
                await pending?.();
            },
        };
        try {
            this.#state.refresh();
            return await run(turn);
        } finally {
            await turn.leave();
            await this.#state.storeRecordings();
        }
    }

    /**
     * Sends a request, and returns the response. If the request fails, throws the error that a page gets.
     * @param {Ceremony} ceremony @param {Uint8Array} bytes @param {Turn} turn
     */
    async #exchange(ceremony, bytes, turn) {
        try {
            return await this.#state.authenticator.request(bytes, turn);
        } catch (error) {
            throw error instanceof CtapError ? ceremony.makeError(error) : error;
        }
    }

    /** @param {Turn} turn */
    #makeSignIn(turn) {
        return new SignIn({
            signal: turn.signal, metadata: this.#metadata, selections: this.#selections, account: this.#account,
            isAutomatic: this.#authenticatorOptions.get("autofill") === "automatic",
            send: (ceremony) => this.#send(ceremony, turn),
            exchange: (ceremony, bytes) => this.#exchange(ceremony, bytes, turn),
            listCredentials: () => this.getCredentials(), find: (id) => this.#find(id),
        });
    }

    /** Selects the account of the pending sign-in with mediation "conditional", or of the next one. */
    selectAccount(selector = 0) {
        return this.#selections.select(selector);
    }

    /** @deprecated Use selectAccount. */
    choose(selector = 0) {
        warnRenamed("choose()", "selectAccount()");
        return this.selectAccount(selector);
    }

    /** Aborts a pending request, and releases the storage. */
    close() {
        this.#requests.end(makeDomError("AbortError", "The key was uninstalled."));
        this.#state.close();
    }

    // The commands of a virtual authenticator.

    /** @param {string} credentialId */
    #find(credentialId) {
        const rows = this.#state.rows;
        return this.#credentials.fromRow(rows[this.#credentials.indexOf(rows, credentialId)]);
    }

    /**
     * Adds a credential, and returns it as stored.
     * @param {any} credential
     */
    async addCredential(credential) {
        const { isResidentCredential: isResident } = credential ?? {};
        checkType("isResidentCredential", isResident, !isResident || this.#authenticatorOptions.get("hasResidentKey"),
            "false for a key without discoverable credentials (set hasResidentKey)");
        const row = await this.#credentials.create(credential, this.#authenticatorOptions);
        await this.#state.change((rows) => this.#credentials.with(rows, row));
        return this.#credentials.fromRow(row);
    }

    /** The credentials, newest last. */
    async getCredentials() {
        this.#state.refresh();
        return this.#state.rows.map((row) => this.#credentials.fromRow(row));
    }

    /**
     * Restores the credentials of a state.
     * @param {any} state from `key.state()`
     */
    async restore(state) {
        checkState(state);
        await this.#state.change(() => readRows(state, this.#credentials));
    }

    /** @param {string} credentialId */
    async getCredential(credentialId) {
        this.#state.refresh();
        return this.#find(credentialId);
    }

    /** @param {string} credentialId */
    async removeCredential(credentialId) {
        await this.#state.change((rows) => this.#credentials.without(rows, credentialId));
        this.#dispatch("credentialDeleted", { credentialId });
    }

    async removeAllCredentials() {
        await this.#state.change(() => []);
    }

    async clearCredentials() {
        await this.removeAllCredentials();
    }

    /** @param {string} credentialId @param {any} properties */
    async setCredentialProperties(credentialId, properties) {
        await this.#state.change((rows) => this.#credentials.update(rows, credentialId, properties));
        this.#dispatchFor("credentialUpdated", credentialId);
    }

    /**
     * Sets whether presence is granted automatically.
     * @param {boolean} enabled
     */
    async setAutomaticPresenceSimulation(enabled) {
        checkType("enabled", enabled, typeof enabled === "boolean", "true or false");
        this.presence = enabled ? "granted" : "none";
    }

    /**
     * Sets whether user verification succeeds.
     * @param {boolean} isUserVerified
     */
    async setUserVerified(isUserVerified) {
        this.#authenticatorOptions.update({ isUserVerified });
    }

    /**
     * Sets these authenticator options. If one is invalid, sets none.
     * @param {any} options
     */
    setAuthenticatorOptions(options) {
        this.#authenticatorOptions.update(options);
    }

    /**
     * @deprecated Use setAuthenticatorOptions.
     * @param {any} options
     */
    setAbilities(options) {
        warnRenamed("setAbilities()", "setAuthenticatorOptions()");
        this.setAuthenticatorOptions(options);
    }

    /** The client capabilities that depend on the key. */
    get capabilities() {
        return this.#authenticatorOptions.capabilities;
    }

    // Events.

    /** @param {string} type @param {string} credentialId */
    #dispatchFor(type, credentialId) {
        this.#dispatch(type, { credential: this.#find(credentialId) });
    }

    /** @param {string} type @param {object} detail */
    #dispatch(type, detail) {
        this.dispatchEvent(new CustomEvent(type, { detail }));
    }

    /**
     * Resolves to the detail of the next event of a type.
     * @param {string} type
     */
    once(type) {
        checkName("event", type, EVENT_TYPES);
        return new Promise((done) => {
            this.addEventListener(type, (event) => done(/** @type {CustomEvent} */ (event).detail), { once: true });
        });
    }
}
