// Stores recordings in parts. A write adds a part with only the new lines, and does not rewrite stored lines. The state
// under "hidlogKey" has the number of parts of each recording. The parts are stored under
// "hidlogKey/INDEX/NUMBER", and the initial snapshot under "hidlogKey/INDEX/snapshot".

const KEY_PREFIX = "hidlogKey/";

/** @typedef {import("./recordings.js").StoredSession} StoredSession */
/** @typedef {import("./recordings.js").StoredRecordings} StoredRecordings */
/** @typedef {{ index: number, parts: number }} PartReference */
/** @typedef {{ ended: PartReference[], last: PartReference }} References */

const makePartKey = (/** @type {number} */ index, /** @type {number} */ number) => `${KEY_PREFIX}${index}/${number}`;
const makeSnapshotKey = (/** @type {number} */ index) => `${KEY_PREFIX}${index}/snapshot`;

export class RecordingParts {
    /**
     * The stored recordings, by index.
     * @type {Map<number, { snapshot: string, log: string, parts: number }>}
     */
    #stored = new Map();
    #isClean = false;

    /** @param {import("./store.js").StateStorage} storage */
    constructor(storage) {
        this.storage = storage;
    }

    /** Forgets the stored recordings, after a page has cleared the storage. */
    forget() {
        this.#stored.clear();
    }

    /** @param {string} key */
    #removeItem(key) {
        const { storage } = this;
        if (typeof storage.removeItem === "function") {
            storage.removeItem(key);
        } else {
            storage.setItem(key, "");
        }
    }

    /**
     * Removes the parts of a recording.
     * @param {number} index
     */
    #remove(index) {
        const { parts = 0 } = this.#stored.get(index) ?? {};
        Array.from({ length: parts }, (_, number) => makePartKey(index, number)).forEach((key) => this.#removeItem(key));
        this.#removeItem(makeSnapshotKey(index));
        this.#stored.delete(index);
    }

    /** Removes parts that belong to no state. Only the first call does so. */
    #clean() {
        const { storage } = this;
        if (!this.#isClean && !this.#stored.size && typeof storage.key === "function") {
            const keys = Array.from({ length: storage.length ?? 0 }, (_, at) => storage.key?.(at) ?? "");
            keys.filter((key) => key.startsWith(KEY_PREFIX)).forEach((key) => this.#removeItem(key));
        }
        this.#isClean = true;
    }

    /**
     * Appends the new lines of a recording as a part.
     * @param {StoredSession} recording @returns {PartReference}
     */
    #append({ index, snapshot, log }) {
        const before = this.#stored.get(index);
        if (before && !(before.snapshot === snapshot && log.startsWith(before.log))) {
            this.#remove(index);
        }
        const { log: known = "", parts = 0 } = this.#stored.get(index) ?? {};
        if (!parts) {
            this.storage.setItem(makeSnapshotKey(index), snapshot);
        }
        const isAhead = log.length > known.length || !parts;
        if (isAhead) {
            this.storage.setItem(makePartKey(index, parts), log.slice(known.length));
        }
        this.#stored.set(index, { snapshot, log, parts: parts + (isAhead ? 1 : 0) });
        return { index, parts: parts + (isAhead ? 1 : 0) };
    }

    /**
     * Stores recordings, and returns the references for the state.
     * @param {StoredRecordings} recordings @returns {References}
     */
    write({ ended, last }) {
        this.#clean();
        const indexes = new Set([...ended, last].map(({ index }) => index));
        [...this.#stored.keys()].filter((index) => !indexes.has(index)).forEach((index) => this.#remove(index));
        return { ended: ended.map((recording) => this.#append(recording)), last: this.#append(last) };
    }

    /** Removes all parts. */
    removeAll() {
        [...this.#stored.keys()].forEach((index) => this.#remove(index));
    }

    /**
     * Reads a recording. Older versions stored the log in the state.
     * @param {any} reference
     */
    #read(reference) {
        if (typeof reference?.log === "string") {
            return reference;
        }
        const { index, parts } = reference;
        const texts = Array.from({ length: parts }, (_, number) => this.storage.getItem(makePartKey(index, number)));
        const snapshot = this.storage.getItem(makeSnapshotKey(index));
        if (snapshot === null || texts.includes(null)) {
            return null;
        }
        const recording = { index, snapshot, log: texts.join("") };
        this.#stored.set(index, { snapshot, log: recording.log, parts });
        return recording;
    }

    /**
     * Reads the recordings to which a state refers, or returns undefined if a part is missing. An invalid reference is
     * returned unchanged, and is rejected when the state is checked.
     * @param {any} references
     */
    read(references) {
        this.forget();
        const list = references && Array.isArray(references.ended) ? [...references.ended, references.last] : null;
        const isReference = (/** @type {any} */ entry) => typeof entry?.log === "string"
            || (Number.isSafeInteger(entry?.index) && Number.isSafeInteger(entry?.parts) && entry.parts < 1e6);
        if (!list?.every(isReference)) {
            return references;
        }
        const recordings = list.map((entry) => this.#read(entry));
        return recordings.includes(null) ? undefined : { ended: recordings.slice(0, -1), last: recordings.at(-1) };
    }
}
