// The recordings of a key: ended sessions and the current one. They are stored with the state, so that one log
// continues from page to page.
import { addOldNames } from "./argument_checks.js";
import { decodeBase64url, equalBytes, toBase64url } from "./bytes.js";
import { Session } from "./session.js";

// Maximum numbers of characters in storage, for the current session and for all sessions. The oldest recordings are
// dropped first.
const MAX_STORED_SESSION_LENGTH = 512 * 1024;
const MAX_STORED_LENGTH = 1024 * 1024;
// Maximum numbers of characters in memory, for all sessions and for the current session.
const MAX_LENGTH_IN_MEMORY = 32 * 1024 * 1024;
const MAX_SESSION_LENGTH_IN_MEMORY = 8 * 1024 * 1024;

/** @typedef {{ index: number, snapshot: Uint8Array, log: string }} RecordedSession */
/** @typedef {{ index: number, snapshot: string, log: string }} StoredSession its snapshot is base64url */
/**
 * @typedef {{ ended: StoredSession[], last: StoredSession }} StoredRecordings
 *     ended sessions and the current one, whose log lacks the totals line
 */

/**
 * @param {RecordedSession} session @returns {StoredSession}
 */
const toStored = ({ index, snapshot, log }) => ({ index, snapshot: toBase64url(snapshot), log });
/**
 * The index of a session. Version 0.2 stored the index as `part`.
 * @param {any} stored @returns {number}
 */
const readIndex = (stored) => stored.index ?? stored.part;
/**
 * @param {StoredSession} stored @returns {RecordedSession}
 */
const fromStored = (stored) =>
    ({ index: readIndex(stored), snapshot: decodeBase64url(stored.snapshot), log: stored.log });

/**
 * The number of sessions, newest first, that fit into a length.
 * @param {RecordedSession[]} sessions @param {number} most
 */
const countNewest = (sessions, most) => {
    let left = most;
    return sessions.filter((_, at) => {
        left -= sessions[sessions.length - 1 - at].log.length;
        return left >= 0;
    }).length;
};

export class Recordings {
    /** @type {(RecordedSession & { isKept: boolean })[]} */
    #ended = [];
    #index = 1;
    #kept = 0;
    /** @type {Uint8Array} */
    #snapshot;
    /** @type {Session} */
    session;

    /**
     * @param {Uint8Array} snapshot the initial credentials
     * @param {(passed?: number) => number} clock
     * @param {StoredRecordings | null} kept the stored recordings of these credentials
     * @param {boolean} records whether to record
     */
    constructor(snapshot, clock, kept, records) {
        this.clock = clock;
        this.records = records;
        this.#snapshot = snapshot;
        this.session = new Session(snapshot, clock, records);
        if (kept && records) {
            this.continueStored(kept, snapshot);
        }
    }

    /** @param {Uint8Array} snapshot */
    #start(snapshot) {
        this.#snapshot = snapshot;
        this.session = new Session(snapshot, this.clock, this.records);
        this.#kept = 0;
    }

    /** Ends the current session, if anything is recorded. */
    #end() {
        if (this.session.recording.size) {
            this.#ended.push({ ...this.#last(), isKept: false });
            this.#index += 1;
        }
    }

    #last() {
        return { index: this.#index, snapshot: this.#snapshot, log: this.session.log() };
    }

    /** Whether a recorded line is not stored yet. */
    get isAhead() {
        return this.session.recording.size > this.#kept || this.#ended.some(({ isKept }) => !isKept);
    }

    /**
     * Starts a session with other credentials.
     * @param {Uint8Array} snapshot
     */
    begin(snapshot) {
        this.#end();
        this.#start(snapshot);
    }

    /**
     * Continues stored recordings. `snapshot` has the credentials at their end.
     * @param {StoredRecordings} kept @param {Uint8Array} snapshot
     */
    continueStored(kept, snapshot) {
        const { last } = kept;
        const { recording } = this.session;
        const isAhead = recording.size > this.#kept;
        if (!isAhead && readIndex(last) === this.#index && last.log.startsWith(recording.lines())
            && equalBytes(decodeBase64url(last.snapshot), this.#snapshot)) {
            this.#mergeEnded(kept.ended);
            this.#resume(last, snapshot);
            return;
        }
        // Lines that are not in the stored recording become a separate recording.
        if (isAhead) {
            this.#end();
        }
        this.#mergeEnded(kept.ended);
        this.#index = Math.max(readIndex(last), ...this.#ended.map(({ index }) => index + 1));
        this.#start(decodeBase64url(last.snapshot));
        this.#resume(last, snapshot);
    }

    /**
     * Replays the stored lines that the session lacks. If the resulting credentials are not those of `snapshot`, starts
     * a new session.
     */
    #resume(/** @type {StoredSession} */ last, /** @type {Uint8Array} */ snapshot) {
        const played = this.session.recording.lines().length;
        const lines = last.log.slice(played).split("\n").filter(Boolean);
        if (!this.session.resume(lines) || !equalBytes(this.session.snapshot(), snapshot)) {
            const ended = fromStored(last);
            this.#ended.push({ ...ended, log: `${ended.log}\n`, isKept: true });
            this.#index = ended.index + 1;
            this.#start(snapshot);
        }
        this.#kept = this.session.recording.size;
    }

    /** @param {StoredSession[]} ended */
    #mergeEnded(ended) {
        const own = this.#ended.filter((recording) => !recording.isKept);
        this.#ended = [...ended.map((recording) => ({ ...fromStored(recording), isKept: true })), ...own];
        this.#ended.forEach((recording, at) => {
            recording.index = Math.max(recording.index, (this.#ended[at - 1]?.index ?? 0) + 1);
        });
    }

    /**
     * All sessions, including the current one.
     * @returns {RecordedSession[]}
     */
    list() {
        const sessions = this.records ? [...this.#ended.map(({ isKept, ...session }) => session), this.#last()] : [];
        return sessions.map((session) => addOldNames(session, { part: "index" }));
    }

    /**
     * Starts a new session if the current one is too long for memory, and then drops the oldest ended sessions, so that
     * all of them fit.
     * @param {() => Uint8Array} snapshot
     */
    bound(snapshot) {
        if (this.session.recording.length > MAX_SESSION_LENGTH_IN_MEMORY) {
            this.begin(snapshot());
            this.#ended = this.#ended.slice(-countNewest(this.#ended, MAX_LENGTH_IN_MEMORY) || this.#ended.length);
        }
    }

    /**
     * The recordings to store.
     * @param {Uint8Array} snapshot the current credentials @returns {StoredRecordings | undefined}
     */
    kept(snapshot) {
        if (!this.records) {
            return undefined;
        }
        if (this.session.recording.lines().length > MAX_STORED_SESSION_LENGTH) {
            this.begin(snapshot);
        }
        const log = this.session.recording.lines();
        this.#ended = this.#ended.slice(-countNewest(this.#ended, MAX_STORED_LENGTH - log.length) || this.#ended.length);
        return { ended: this.#ended.map(toStored), last: toStored({ ...this.#last(), log }) };
    }

    /** Marks all recorded lines as stored. */
    markAsStored() {
        this.#kept = this.session.recording.size;
        this.#ended.forEach((recording) => {
            recording.isKept = true;
        });
    }
}
