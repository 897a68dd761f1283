// Stores the state of a key. Several tabs may share a storage, and change the state one at a time.
import { checkType } from "./argument_checks.js";
import { setTimeout } from "./platform.js";
import { RecordingParts } from "./recording_parts.js";
import { checkState } from "./state.js";

const STORAGE_KEY = "hidlogKey";
// The interval and the maximum number of polls for a value that another tab has written.
const POLL_MS = 5;
const MAX_POLLS = 100;

/** @typedef {Pick<Storage, "getItem" | "setItem"> & Partial<Storage>} StateStorage */
/** @typedef {import("./recordings.js").StoredRecordings} StoredRecordings */
/** @typedef {import("./state.js").State & { version: number, recordings?: StoredRecordings }} Stored */

/** @param {any} storage */
export const checkStorage = (storage) => {
    const isStorage = typeof storage?.getItem === "function" && typeof storage?.setItem === "function";
    checkType("storage", storage, isStorage, "a Storage, such as sessionStorage");
};

/**
 * Whether a storage is localStorage, which tabs share.
 * @param {StateStorage | undefined} storage
 */
const isLocalStorage = (storage) => {
    try {
        return storage !== undefined && storage === globalThis.localStorage;
    } catch {
        return false;
    }
};

/** @param {number} milliseconds */
const sleep = (milliseconds) => new Promise((done) => {
    setTimeout(done, milliseconds);
});

/**
 * Acquires a lock shared by all tabs.
 * @param {string} name
 * @param {LockMode} mode
 * @returns {Promise<() => void>} a function that releases it
 */
const acquireLock = (name, mode) => new Promise((done) => {
    navigator.locks.request(name, { mode }, () => new Promise((release) => {
        done(() => release(undefined));
    }));
});

/**
 * Returns a parsed state without its recordings.
 * @param {any} parsed
 */
const omitRecordings = (parsed) => {
    if (typeof parsed !== "object" || parsed === null || Array.isArray(parsed)) {
        return parsed;
    }
    const { recordings, ...state } = parsed;
    return state;
};

export class Store {
    #last = Promise.resolve();
    /** @type {string | null} */
    #seen = null;
    /** @type {unknown} */
    #failure = null;
    #releaseVersion = () => {};
    #version = 0;

    /** @type {RecordingParts | null} */
    #parts;

    /** @param {StateStorage | undefined} storage */
    constructor(storage) {
        this.storage = storage;
        this.#parts = storage ? new RecordingParts(storage) : null;
        this.isShared = isLocalStorage(storage) && Boolean(globalThis.navigator?.locks);
    }

    get isPresent() {
        return Boolean(this.storage);
    }

    /**
     * The state that another tab has written since the last read, or null. Throws once if the value is not a state of a
     * key. The key then keeps its own state, and overwrites the value.
     * @returns {Stored | null}
     */
    readChanges() {
        const text = this.storage?.getItem(STORAGE_KEY) ?? null;
        if (text === null) {
            this.#parts?.forget();
        }
        if (text === null || text === this.#seen) {
            return null;
        }
        this.#seen = text;
        try {
            const parsed = JSON.parse(text);
            const recordings = this.#parts?.read(parsed?.recordings);
            const stored = recordings === undefined ? omitRecordings(parsed) : { ...parsed, recordings };
            checkState(stored);
            this.#version = Math.max(this.#version, stored.version ?? 0);
            return stored;
        } catch (error) {
            const { message } = /** @type {Error} */ (error);
            throw new TypeError(`storage has an invalid state of a key under "${STORAGE_KEY}" (${message}); to remove it, call`
                + ` removeItem("${STORAGE_KEY}")`, { cause: error });
        }
    }

    /**
     * Writes a state, if there is a storage, and the recordings if they fit. The name of a lock shows the version to
     * other tabs. Returns whether the recordings were written. Throws if the state does not fit.
     * @param {() => { state: import("./state.js").State, recordings?: StoredRecordings }} kept
     */
    async write(kept) {
        if (!this.storage) {
            return false;
        }
        const { state, recordings } = kept();
        const version = this.#version + 1;
        const isComplete = this.#putAll({ ...state, version }, recordings);
        if (!isComplete && !this.#put({ ...state, version })) {
            throw this.#failure;
        }
        this.#version = version;
        if (this.isShared) {
            const release = this.#releaseVersion;
            this.#releaseVersion = await acquireLock(`${STORAGE_KEY} ${this.#version}`, "shared");
            release();
        }
        return isComplete;
    }

    /**
     * Writes the recordings, and then the state. Returns whether the recordings fit; otherwise none is kept.
     * @param {object} state @param {StoredRecordings | undefined} recordings
     */
    #putAll(state, recordings) {
        try {
            const references = recordings && this.#parts?.write(recordings);
            if (this.#put({ ...state, recordings: references })) {
                return true;
            }
        } catch (error) {
            this.#failure = error;
        }
        try {
            this.#parts?.removeAll();
        } catch (error) {
            this.#failure = error;
        }
        return false;
    }

    /**
     * Writes a value. Returns whether it fit.
     * @param {object} stored
     */
    #put(stored) {
        const text = JSON.stringify(stored);
        try {
            this.storage?.setItem(STORAGE_KEY, text);
        } catch (error) {
            this.#failure = error;
            return false;
        }
        this.#seen = text;
        return true;
    }

    /**
     * Waits for exclusive access.
     * @returns {Promise<() => void>} a function that releases it
     */
    async lock() {
        const before = this.#last;
        let free = () => {};
        this.#last = new Promise((done) => {
            free = done;
        });
        await before;
        if (!this.isShared) {
            return free;
        }
        const release = await acquireLock(STORAGE_KEY, "exclusive");
        await this.#catchUp();
        return () => {
            release();
            free();
        };
    }

    /**
     * Waits until this tab reads the value that the last tab wrote, since browser processes synchronize with a delay.
     */
    async #catchUp() {
        const { held } = await navigator.locks.query();
        const versions = (held ?? []).map(({ name = "" }) => Number(name.split(`${STORAGE_KEY} `)[1] ?? 0));
        const newest = Math.max(0, ...versions);
        for (let polls = 0; this.#storedVersion() < newest && polls < MAX_POLLS; polls += 1) {
            await sleep(POLL_MS);
        }
        // After a page has cleared the storage, the stored version never reaches `newest`.
        this.#version = Math.max(this.#version, newest);
    }

    /** Releases the lock whose name shows the version to other tabs. */
    close() {
        this.#releaseVersion();
        this.#releaseVersion = () => {};
    }

    /** The stored version, or 0 if the value is not a state. */
    #storedVersion() {
        try {
            return JSON.parse(this.storage?.getItem(STORAGE_KEY) ?? "{}").version ?? 0;
        } catch {
            return 0;
        }
    }
}
