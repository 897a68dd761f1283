// The clock, the credentials and the recordings of a key. The latter two are read from storage before a request of the
// page, and written after it.
import { checkType } from "./argument_checks.js";
import { equalBytes } from "./bytes.js";
import { instantiateCore } from "./core_module.js";
import { now } from "./platform.js";
import { checkState, exportState, readRows, readTimeMs } from "./state.js";
import { checkStorage, Store } from "./store.js";
import { WasmKey } from "./wasm_key.js";

/** @typedef {import("./authenticator.js").Authenticator} Authenticator */
/** @typedef {import("./recordings.js").StoredRecordings} StoredRecordings */
/** @typedef {import("./wasm_key.js").Row} Row */
/**
 * @typedef {{ snapshot: Uint8Array, kept: StoredRecordings | null, records: boolean }} Start the initial credentials, their
 * recordings in storage, and whether to record
 */

/**
 * Returns a clock whose timestamps never decrease. They are those of `clock`, or `startMs` plus the milliseconds since
 * this call. The latest timestamp is stored in `state`.
 * @param {((passed?: number) => number) | undefined} clock @param {number} startMs @param {{ timeMs: number }} state
 */
const createClock = (clock, startMs, state) => {
    const start = now();
    const read = clock ?? (() => Math.floor(now() - start) + startMs);
    return (/** @type {number | undefined} */ passed) => {
        const timeMs = read(passed);
        checkType("the result of clock", timeMs, Number.isInteger(timeMs) && timeMs >= 0, "whole milliseconds");
        state.timeMs = Math.max(state.timeMs, timeMs);
        return state.timeMs;
    };
};

/** @type {WasmKey | undefined} a key that is only used to write snapshots */
let writer;

/**
 * Encodes a snapshot of these credentials, newest last (docs/use/PROFILE.md). A session starts with it.
 * @param {Row[]} rows
 */
const encodeSnapshot = (rows) => {
    if (!rows.length) {
        return new Uint8Array(0);
    }
    writer ??= new WasmKey(instantiateCore(), new Uint8Array(0));
    writer.setRows(rows);
    return writer.snapshot();
};

export class KeyState {
    /** @type {Authenticator | null} */
    #authenticator = null;
    #credentials;
    /** @type {Row[]} */
    #initialRows = [];
    /** @type {StoredRecordings | null} */
    #kept = null;
    #clock;
    #makeAuthenticator;
    #records;
    #store;
    #time = { timeMs: 0 };

    /**
     * Starts with the state in storage, or otherwise with `state`.
     * @param {import("./credentials.js").Credentials} credentials
     * @param {{ clock: any, state: any, storage: any, records: boolean }} options
     * @param {(start: Start, clock: (passed?: number) => number) => Authenticator} makeAuthenticator creates the
     * verified key
     */
    constructor(credentials, { clock, state, storage, records }, makeAuthenticator) {
        this.#credentials = credentials;
        this.#makeAuthenticator = makeAuthenticator;
        this.#records = records;
        if (storage !== undefined) {
            checkStorage(storage);
        }
        this.#store = new Store(storage);
        if (state !== undefined) {
            checkState(state);
        }
        const stored = this.#store.readChanges();
        const start = stored ?? state;
        if (start) {
            this.#initialRows = readRows(start, credentials);
            this.#time.timeMs = readTimeMs(start);
            this.#kept = stored?.recordings ?? null;
        }
        this.#clock = createClock(clock, this.#time.timeMs, this.#time);
    }

    /**
     * The verified key, created on first use.
     * @returns {Authenticator}
     */
    get authenticator() {
        if (!this.#authenticator) {
            const start = { snapshot: this.#snapshot, kept: this.#kept, records: this.#records };
            this.#authenticator = this.#makeAuthenticator(start, this.#clock);
            this.#kept = null;
        }
        return this.#authenticator;
    }

    /** The credentials as the core stores them. */
    get rows() {
        return this.#authenticator ? this.authenticator.session.core.rows() : this.#initialRows;
    }

    get #snapshot() {
        return this.#authenticator ? this.authenticator.session.snapshot() : encodeSnapshot(this.#initialRows);
    }

    /** The state as JSON: the credentials with private keys and signature counters, and the time. */
    export() {
        return exportState(this.#time.timeMs, this.rows, this.#credentials);
    }

    /** Reads the state that another tab has stored. */
    refresh() {
        const stored = this.#store.readChanges();
        if (stored) {
            this.#time.timeMs = Math.max(this.#time.timeMs, readTimeMs(stored));
            this.#continueWith(readRows(stored, this.#credentials), stored.recordings);
        }
    }

    /**
     * Continues with other credentials, and with the recording that resulted in these credentials, if any.
     * @param {Row[]} rows @param {StoredRecordings} [recordings]
     */
    #continueWith(rows, recordings) {
        const snapshot = encodeSnapshot(rows);
        if (recordings && this.#records) {
            this.authenticator.continueStored(recordings, snapshot);
        } else if (!equalBytes(snapshot, this.#snapshot)) {
            this.authenticator.begin(snapshot);
        }
    }

    /** Stores the state and the recordings. */
    async #write() {
        const { recordings } = this.authenticator;
        if (await this.#store.write(() => ({ state: this.export(), recordings: recordings.kept(this.#snapshot) }))) {
            recordings.markAsStored();
        }
    }

    /** Locks the storage and reads it. Returns a function that writes to it and unlocks it. */
    async lock() {
        const unlock = await this.#store.lock();
        const release = async () => {
            try {
                await this.#write();
            } finally {
                unlock();
            }
        };
        try {
            this.refresh();
            return release;
        } catch (error) {
            unlock();
            throw error;
        }
    }

    /**
     * Changes the credentials while no request is in progress.
     * @param {(rows: Row[]) => Row[] | Promise<Row[]>} change
     */
    async change(change) {
        const release = await this.lock();
        try {
            this.#continueWith(await change(this.rows));
        } finally {
            await release();
        }
    }

    /** Stores recordings that are not stored yet. */
    async storeRecordings() {
        this.#authenticator?.recordings.bound(() => this.#snapshot);
        if (this.#store.isPresent && this.#authenticator?.recordings.isAhead) {
            await (await this.lock())();
        }
    }

    /** Releases the storage. */
    close() {
        this.#store.close();
    }
}
