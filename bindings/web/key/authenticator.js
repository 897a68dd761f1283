// Sends CTAP2 requests over CTAPHID to the verified core, provides what the core needs, and returns the responses.
import { concatBytes, toHex } from "./bytes.js";
import { changeResponse, formatStatus } from "./ctap_response.js";
import { MessageReassembler } from "./packets.js";
import { throwIfAborted, clearInterval, sleepUnlessAborted, setInterval, raceWithSignal } from "./platform.js";
import { Recordings } from "./recordings.js";
import { BROADCAST, CANCEL, CBOR, INIT, KEEPALIVE_MS } from "./standard.js";

// The first channel that the key allocates. There is no other host.
const CHANNEL = 1;
const NO_BYTES = new Uint8Array(0);
// Length of the client data hash, which follows the authenticator data in the signed bytes.
const HASH_BYTES = 32;
// The nonce of INIT, which need not be random without other hosts.
const NONCE = Uint8Array.of(0, 1, 2, 3, 4, 5, 6, 7);

/**
 * @typedef {object} PageRequest a request of the page in progress
 * @property {AbortSignal} signal aborts it
 * @property {() => Promise<string>} ask asks the user
 * @property {(id: Uint8Array) => void} onCreated is called with the ID of a new key pair
 * @property {boolean} isVerified whether the user is verified
 * @property {import("./core_additions.js").CoreAdditions} additions its features outside the core
 * @property {() => Promise<void>} enter is called before the credentials change, and may start another session
 */

/** The error for a response with a status other than 0. */
export class CtapError extends Error {
    /** @param {number} status @param {string} cause the cause, if known */
    constructor(status, cause) {
        super(`the authenticator returned ${formatStatus(status)}${cause && `: ${cause}`}`);
        this.name = "CtapError";
        this.status = status;
    }
}

export class Authenticator {
    #collector = new MessageReassembler(CHANNEL);
    #recordings;
    /** @type {import("./ctap_response.js").Change | null} the change to apply to the next response */
    #change = null;

    /**
     * @param {import("./private_keys.js").PrivateKeys} privateKeys
     * @param {import("./faults.js").Faults} faults
     * @param {(passed?: number) => number} clock
     * @param {{ snapshot: Uint8Array, kept: import("./recordings.js").StoredRecordings | null, records: boolean }} start the
     * initial credentials, their recordings in storage, and whether to record
     */
    constructor(privateKeys, faults, clock, { snapshot, kept, records }) {
        this.privateKeys = privateKeys;
        this.faults = faults;
        this.clock = clock;
        this.#recordings = new Recordings(snapshot, clock, kept, records);
    }

    /** @returns {import("./session.js").Session} */
    get session() {
        return this.#recordings.session;
    }

    get recordings() {
        return this.#recordings;
    }

    /**
     * Starts a session with other credentials.
     * @param {Uint8Array} snapshot
     */
    begin(snapshot) {
        this.#cancel();
        this.#recordings.begin(snapshot);
        this.#collector = new MessageReassembler(CHANNEL);
    }

    /**
     * Continues a recording from storage.
     * @param {import("./recordings.js").StoredRecordings} kept @param {Uint8Array} snapshot
     */
    continueStored(kept, snapshot) {
        this.#cancel();
        this.#recordings.continueStored(kept, snapshot);
        this.#collector = new MessageReassembler(CHANNEL);
    }

    /**
     * Sends a request. If the session has no channel yet, sends INIT first.
     * @param {Uint8Array} bytes
     */
    #send(bytes) {
        if (!this.session.isOpen) {
            this.session.send(BROADCAST, INIT, NONCE);
        }
        return this.#collector.add(this.session.send(CHANNEL, CBOR, bytes));
    }

    /** Cancels the pending request, so that the key accepts the next one. */
    #cancel() {
        if (this.session.need.kind !== "nothing") {
            this.#collector.add(this.session.send(CHANNEL, CANCEL, NO_BYTES));
        }
    }

    /**
     * Sends a request, and returns the response. If the request fails or is aborted, cancels it.
     * @param {Uint8Array} bytes @param {PageRequest} turn
     */
    async request(bytes, turn) {
        let isOver = false;
        const end = () => {
            if (!isOver) {
                this.#cancel();
            }
            isOver = true;
        };
        throwIfAborted(turn.signal);
        turn.signal.addEventListener("abort", end);
        try {
            const original = await this.#exchange(bytes, turn);
            const cause = original[0] === 0 ? "" : this.session.cause();
            const response = this.faults.applyTo(this.#applyChange(original), this.session.recording);
            if (response[0] !== 0) {
                throw new CtapError(response[0], response[0] === original[0] ? cause : "");
            }
            return response;
        } catch (error) {
            end();
            throw error;
        } finally {
            turn.signal.removeEventListener("abort", end);
        }
    }

    /** @param {Uint8Array} bytes @param {PageRequest} turn */
    async #exchange(bytes, turn) {
        let message = this.#send(bytes);
        if (!message && this.session.need.kind === "presence") {
            message = await this.#askUser(bytes, turn);
        }
        if (!message && this.faults.delay) {
            this.session.recording.addComment(`fault: the response is delayed by ${this.faults.delay} ms`);
            await this.#withTicks(sleepUnlessAborted(this.faults.delay, turn.signal), turn.signal);
            throwIfAborted(turn.signal);
        }
        while (!message) {
            throwIfAborted(turn.signal);
            message = this.#collector.add(await this.#provide(turn));
        }
        if (message.command !== CBOR) {
            const command = toHex(Uint8Array.of(message.command));
            throw new Error(`unexpected CTAPHID message 0x${command} from the authenticator: ${toHex(message.bytes)}`);
        }
        return message.bytes;
    }

    /**
     * Asks the user, and provides user presence.
     * @param {Uint8Array} bytes @param {PageRequest} turn
     */
    async #askUser(bytes, turn) {
        const { session } = this;
        const word = await this.#withTicks(turn.ask(), turn.signal);
        if (word === "granted") {
            await this.#withTicks(turn.enter(), turn.signal);
        }
        throwIfAborted(turn.signal);
        // If the credentials have changed while the user was asked, the request is sent again to the new session.
        const message = session === this.session ? null : this.#send(bytes);
        return message ?? this.#collector.add(this.session.providePresence(word));
    }

    /**
     * Provides a key pair or a signature. After each await, the request may have been aborted and replaced by another
     * request.
     * @param {PageRequest} turn
     */
    async #provide(turn) {
        const { signal, onCreated, additions } = turn;
        const { need } = this.session;
        if (need.kind === "key") {
            const pair = await raceWithSignal(this.privateKeys.make(additions.algorithm), signal);
            throwIfAborted(signal);
            onCreated(pair.id);
            return this.session.provideKeyPair(pair);
        }
        if (need.kind === "signature") {
            const signature = await raceWithSignal(this.#sign(need, turn), signal);
            throwIfAborted(signal);
            return this.session.provideSignature(signature);
        }
        throw new Error(`the authenticator did not respond; it needs ${need.kind}`);
    }

    /**
     * Signs for the core, and prepares the change that the response needs.
     * @param {import("./wasm_key.js").Need} need @param {PageRequest} turn
     */
    async #sign({ id, toSign }, { additions, isVerified }) {
        const privateKey = this.privateKeys.get(id);
        if (!privateKey) {
            return null;
        }
        const original = toSign.slice(0, -HASH_BYTES);
        const { data: changed, comments } = await additions.alter(id, original, isVerified);
        comments.forEach((text) => this.session.recording.addComment(`outside of the core: ${text}`));
        const { data, texts } = await this.faults.alterData(id, changed);
        const signed = concatBytes(data, toSign.subarray(-HASH_BYTES));
        const { badSignature } = this.faults;
        if (badSignature) {
            this.session.recording.addComment("fault: signed with a different private key");
        }
        const own = await additions.complete(id, signed, badSignature);
        this.#change = { original, data, faults: texts, ...own };
        return badSignature ? this.privateKeys.signWithNewKey(signed) : this.privateKeys.sign(privateKey, signed);
    }

    /**
     * Applies the prepared change to a response with the authenticator data. Other responses are not changed.
     * @param {Uint8Array} response
     */
    #applyChange(response) {
        const changed = this.#change ? changeResponse(response, this.#change) : response;
        if (changed === response) {
            return response;
        }
        this.#change?.faults.forEach((text) => this.session.recording.addComment(`fault: ${text}`));
        this.#change = null;
        return changed;
    }

    /**
     * Waits for a promise. Meanwhile advances the key's time, so that the key sends KEEPALIVEs.
     * @template T @param {Promise<T>} awaited @param {AbortSignal} signal
     */
    async #withTicks(awaited, signal) {
        const ticking = setInterval(() => this.session.pass(KEEPALIVE_MS), KEEPALIVE_MS);
        try {
            return await raceWithSignal(awaited, signal);
        } finally {
            clearInterval(ticking);
        }
    }
}
