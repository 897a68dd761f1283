// Opens logs, snapshots and captures from files and from memory, one after another, and replays the log. Sets
// `globalThis.hidlogOpening`.
"use strict";

(() => {
    const {
        MAX_BYTES_AT_ONCE, MAX_BYTES, decoder, getElement, takeFirstLines, hasResponses, formatMegabytes, readSession,
        readInSlices, refresh, finishReading, setView, state, showNotice, runWithProgressBar,
    } = globalThis.hidlogViewer;
    const { LineReader } = globalThis.hidlogSession;
    const { adviseOn, checkFirstLine, countComments, explainLine } = globalThis.hidlogFileKinds;
    const { escapeInvisible } = globalThis.hidlogShown;
    const card = globalThis.hidlogCard;
    const twoLogs = globalThis.hidlogTwoLogs;
    // The start of a snapshot: a CBOR map with the version under the key 1. No log line starts with these bytes.
    const SNAPSHOT_MARK = [0xa2, 0x01];

    /** @param {Uint8Array} bytes */
    const isSnapshot = (bytes) => SNAPSHOT_MARK.every((byte, at) => bytes[at] === byte);

    /** @type {("view" | "compare" | "download" | "save" | "search" | "channel" | "fold")[]} */
    const TOOL_IDS = ["view", "compare", "download", "save", "search", "channel", "fold"];
    // Number of bytes of a file that are read at once, since reading a whole long file would block the page.
    const READ_BYTES = 8 * 1024 * 1024;
    // Number of lines that are shown while the rest is read.
    const FIRST_LINES = 512;
    // Maximum numbers: characters of a line, bytes of the comments at the start of a file and of the next line, and
    // characters of a shown name.
    const [MAX_LINE, FRONT_BYTES, FIRST_LINE_BYTES, MAX_NAME] = [255, 4096, 512, 80];

    // ---- opening

    /**
     * Shows instructions instead of the rows while no log is open.
     * @param {boolean} isEmpty
     */
    const showEmpty = (isEmpty) => {
        getElement("rows-pane").classList.toggle("blank", isEmpty);
        getElement("empty").hidden = !isEmpty;
    };

    /** @param {boolean} isOpen */
    const enableTools = (isOpen) => {
        TOOL_IDS.forEach((id) => {
            getElement(id).disabled = !isOpen;
        });
        showEmpty(!isOpen);
    };

    /** @param {number} number */
    const findLineRange = (number) => {
        const from = takeFirstLines(state.bytes, number - 1).length;
        const end = state.bytes.indexOf(10, from);
        return { from, to: end < 0 ? state.bytes.length : end, isCut: end < 0 };
    };

    /**
     * Throws if the first line of a file after the comments is not a log line.
     * @param {Uint8Array} bytes
     */
    const rejectIfNotLog = (bytes) => {
        const front = bytes.subarray(0, FRONT_BYTES);
        const number = countComments(front) + 1;
        const before = takeFirstLines(front, number - 1).length;
        const outcome = state.core.run("replay", takeFirstLines(front.subarray(before, before + FIRST_LINE_BYTES), 1));
        checkFirstLine(bytes, { ...outcome, line: outcome.line ? number : 0 });
    };

    /**
     * Returns a likely cause of an invalid line, or "".
     * @param {number} number
     */
    const findReason = (number) => {
        const { from, to, isCut } = findLineRange(number);
        if (isCut) {
            return `The file is truncated: its last line ends after ${to - from} characters.`;
        }
        const reason = to - from > MAX_LINE ? "" : explainLine(decoder.decode(state.bytes.subarray(from, to)));
        return reason ? `${reason[0].toUpperCase()}${reason.slice(1)}.` : "";
    };

    /**
     * @param {Viewer.Fault} outcome
     * @returns {Viewer.Line}
     */
    const makeInvalidLine = (outcome) => {
        const { from, to } = findLineRange(outcome.line);
        return /** @type {Viewer.Line} */ (/** @type {unknown} */ ({
            number: outcome.line, place: outcome.line - 1,
            text: decoder.decode(state.bytes.subarray(from, Math.min(to, from + 200))),
            kind: "comment", isFault: true, at: null, channel: null, message: null, transaction: null,
            says: globalThis.hidlog.formatError(outcome),
        }));
    };

    // What was converted in the file of the shown log, and the other logs in the file.
    let notes = "";
    const showResult = (/** @type {string} */ text, isFault = false) => showNotice(`${text}${notes}`, isFault);

    /**
     * Reports the result of replaying the log.
     * @param {Viewer.Fault} outcome
     */
    const reportOutcome = (outcome) => {
        if (outcome.status === 2) {
            showResult(`The snapshot was rejected (${outcome.errorCode}).`, true);
        } else if (outcome.status === 1) {
            const text = globalThis.hidlog.formatError(outcome);
            const words = outcome.line
                ? "The log is shown up to its first invalid line" : "The log cannot be played completely";
            showResult(`${words}: ${text}.`, true);
        } else {
            const from = state.snapshotName ? `, with the credentials of ${state.snapshotName}` : "";
            const count = state.sessions.recorded.length;
            showResult(`${state.name}: ${count} line${count === 1 ? "" : "s"}${from}.`);
        }
    };

    /**
     * Shows a session after reading it.
     * @param {Viewer.Session} recorded
     * @param {Viewer.Fault} outcome
     */
    const showSession = (recorded, outcome) => {
        state.sessions = { recorded };
        const isInvalid = outcome.line > 0 && outcome.status === 1;
        if (isInvalid) {
            state.sessions.recorded.invalidLine = makeInvalidLine(outcome);
        }
        enableTools(true);
        setView("recorded");
        reportOutcome(outcome);
        if (outcome.status || hasResponses() || !recorded.transactions) {
            card.start(outcome, isInvalid ? findReason(outcome.line) : "");
            return;
        }
        const { bytes } = state;
        setView("replayed", () => {
            if (bytes === state.bytes && !Object.keys(getElement("diagnosis").dataset).length) {
                showResult(`${state.name} has only inputs. They are shown with the packets that the key sends.`);
                card.start(outcome, "");
            }
        });
    };

    /** Drops a snapshot that belongs to another session, if the log matches the key without the snapshot. */
    const dropOtherSnapshot = () => {
        const { bytes, core, snapshot, snapshotName } = state;
        if (snapshot.length && core.run("check", bytes, snapshot).status && !core.run("check", bytes).status) {
            notes += ` The credentials of ${snapshotName} are not used: the log matches the key without them.`;
            Object.assign(state, { snapshot: new Uint8Array(0), snapshotName: "" });
        }
    };

    const replayAtOnce = () => {
        dropOtherSnapshot();
        const outcome = state.core.run("replay", state.bytes, state.snapshot);
        const isFaulty = outcome.status === 1 && outcome.line > 0;
        const valid = isFaulty ? takeFirstLines(state.bytes, outcome.line - 1) : state.bytes;
        state.texts = { recorded: valid, replayed: outcome.text };
        showSession(readSession(valid, state.core), outcome);
    };

    /**
     * The error of a long log: the core's, or if the core reports none at a line, that of the first line that was found
     * invalid while reading.
     * @param {{ invalidLineNumber: number, outcome: Viewer.Fault }} reader
     * @returns {Viewer.Fault}
     */
    const findError = ({ invalidLineNumber, outcome }) => {
        if (outcome.status === 1 && outcome.line) {
            return outcome;
        }
        const error = { status: 1, errorCode: 1, line: invalidLineNumber, packet: 0 };
        return invalidLineNumber ? error : /** @type {Viewer.Fault} */ ({ status: 0, line: 0 });
    };

    /** Reads a long log, and shows its first lines while reading. */
    const readLongLog = () => {
        const { bytes } = state;
        showNotice(`${state.name}: reading ${formatMegabytes(bytes.length)}.`);
        /** @param {Viewer.Reader} reader */
        const first = (reader) => {
            state.sessions = { recorded: reader.soFar() };
            showEmpty(false);
            // All lines are explained in the meantime.
            state.shown.ready([reader.log]);
            const { job } = state;
            state.job = { end: () => { job.end(); state.shown.endAll(); } };
            refresh();
        };
        runWithProgressBar(readInSlices(bytes), `Reading ${state.name} …`, (reader) => {
            const error = findError(/** @type {Viewer.Reader & { outcome: Viewer.Fault }} */ (reader));
            state.texts = { recorded: error.line ? takeFirstLines(bytes, error.line - 1) : bytes };
            showSession(reader.session(error.line ? error.line - 1 : undefined), error);
            const { error: unread } = /** @type {Viewer.FoundTransactions} */ (reader.outcome);
            if (unread) {
                showNotice(`${state.name}: cannot find its transactions: ${unread}`, true);
            }
        }, first);
    };

    /** Ends all work on the shown log, and drops the results. */
    const forgetLog = () => {
        state.job.end();
        state.shown.endAll();
        card.clear();
        twoLogs.close();
        Object.assign(state, { difference: null, view: "recorded", sessions: {}, texts: {} });
    };

    const replay = () => {
        forgetLog();
        if (state.bytes.length > MAX_BYTES_AT_ONCE) {
            readLongLog();
        } else {
            replayAtOnce();
        }
    };

    /**
     * @param {string} name
     * @param {Uint8Array} bytes
     */
    const openSnapshot = (name, bytes) => {
        Object.assign(state, { snapshot: bytes, snapshotName: name });
        showNotice(`Logs are now played with the credentials of ${name}.`);
        if (state.bytes) {
            replay();
        }
    };

    /**
     * Shows the first log of a file, and reports what was converted and which other logs the file has.
     * @param {string} name
     * @param {{ logs: Viewer.NamedLog[], changes: string[] }} file
     */
    const openLogs = (name, { logs: [log, ...others], changes }) => {
        rejectIfNotLog(log.bytes);
        Object.assign(state, { name, bytes: log.bytes });
        const also = others.map((other) => other.name).join(", ");
        notes = [
            changes.length ? ` Converted from ${changes.join(", ")}.` : "",
            also ? ` Showing ${log.name}; the capture also has ${also}.` : "",
        ].join("");
        replay();
    };

    /**
     * @param {string} name
     * @param {unknown} error
     */
    const showUnreadable = (name, error) => {
        const { message } = /** @type {Error} */ (error);
        showNotice(`Cannot open ${name}: ${message}.`, true);
        if (!state.bytes) {
            card.showUnreadableFile(`${name}: ${message}.`, adviseOn(name, /** @type {Error} */ (error)));
        }
    };

    /**
     * Returns a name for display: visible characters only, and shortened.
     * @param {string} name
     */
    const cleanName = (name) => {
        const text = escapeInvisible(name);
        return text.length > MAX_NAME ? `${text.slice(0, MAX_NAME / 2)}…${text.slice(-MAX_NAME / 4)}` : text;
    };

    /**
     * Opens a log, a capture or a snapshot. Returns whether that succeeded.
     * @param {string} anyName
     * @param {Uint8Array} bytes
     */
    const openBytes = async (anyName, bytes) => {
        const name = cleanName(anyName);
        try {
            if (!bytes.length) {
                throw new Error("the file is empty; a log must have at least one line");
            }
            if (isSnapshot(bytes)) {
                openSnapshot(name, bytes);
            } else {
                openLogs(name, await globalThis.hidlogFileInput.readFile(bytes, MAX_BYTES));
            }
            return true;
        } catch (error) {
            showUnreadable(name, error);
            return false;
        }
    };

    /**
     * Shows the first lines of a long log while the rest of the file is read. Does nothing for other files.
     * @param {string} name
     * @param {Uint8Array} part
     */
    const showFirstLines = (name, part) => {
        const bytes = takeFirstLines(part, FIRST_LINES);
        const reader = new LineReader(bytes);
        reader.readUntil(Infinity);
        if (!reader.invalidLineNumber && state.core.run("replay", takeFirstLines(bytes, 1)).status !== 1) {
            forgetLog();
            Object.assign(state, { name, bytes, sessions: { recorded: reader.soFar() } });
            showEmpty(false);
            showNotice(`${name}: reading the file.`);
            refresh();
        }
    };

    /**
     * Reads a file. If the file is read in several parts, `first` is called with the first part.
     * @param {File} file
     * @param {(part: Uint8Array) => void} first
     */
    const readBytes = async (file, first = () => {}) => {
        if (file.size > MAX_BYTES) {
            throw new Error(`the file has ${formatMegabytes(file.size)}; the maximum is ${formatMegabytes(MAX_BYTES)}`);
        }
        const bytes = new Uint8Array(file.size);
        for (let from = 0; from < file.size; from += READ_BYTES) {
            const part = new Uint8Array(await file.slice(from, from + READ_BYTES).arrayBuffer());
            bytes.set(part, from);
            if (!from && part.length < file.size) {
                first(part);
            }
        }
        return bytes;
    };

    // Files are opened one after another, after the core is loaded.
    /** @type {Promise<unknown>} */
    let opening = Promise.resolve();

    /**
     * Opens further files only after a promise has settled.
     * @param {Promise<unknown>} promise
     */
    const waitFor = (promise) => {
        opening = promise;
    };

    /** @param {() => unknown} open */
    const enqueue = (open) => {
        opening = opening.then(() => state.core && open());
        return opening;
    };

    /**
     * Opens a file. Returns whether that succeeded.
     * @param {File} file
     */
    const openSingleFile = async (file) => {
        const name = cleanName(file.name);
        try {
            return await openBytes(name, await readBytes(file, (part) => showFirstLines(name, part)));
        } catch (error) {
            showUnreadable(name, error);
            return false;
        }
    };

    /**
     * Opens a file beside the shown log.
     * @param {File} file
     */
    const compareWith = async (file) => {
        const name = cleanName(file.name);
        if (state.bytes.length > MAX_BYTES_AT_ONCE && !state.texts.recorded) {
            showNotice(`${state.name} is being read. Then compare it with ${name} by the menu.`);
            return;
        }
        try {
            const { logs: [log] } = await globalThis.hidlogFileInput.readFile(await readBytes(file), MAX_BYTES);
            rejectIfNotLog(log.bytes);
            twoLogs.compare(name, log.bytes);
        } catch (error) {
            showNotice(`Cannot compare with ${name}: ${/** @type {Error} */ (error).message}.`, true);
        }
    };

    /**
     * Whether a file begins like a snapshot. False for a folder, which cannot be read.
     * @param {File} file
     */
    const isSnapshotFile = async (file) => {
        const front = await file.slice(0, SNAPSHOT_MARK.length).arrayBuffer().catch(() => new ArrayBuffer(0));
        return isSnapshot(new Uint8Array(front));
    };

    /**
     * Opens several files: first the snapshots, since logs are replayed with their credentials, then a log, and then
     * another log beside it.
     * @param {File[]} files
     */
    const openFiles = (files) => enqueue(async () => {
        const marks = files.length > 1 ? await Promise.all(files.map(isSnapshotFile)) : [false];
        for (const file of files.filter((_, at) => marks[at])) {
            await openSingleFile(file);
        }
        const logs = files.filter((_, at) => !marks[at]);
        const left = [];
        let file = logs.shift();
        while (file && !await openSingleFile(file)) {
            left.push(file);
            file = logs.shift();
        }
        const [other, ...more] = logs;
        if (other) {
            await compareWith(other);
        }
        left.push(...more);
        if (file && left.length) {
            const names = left.map(({ name }) => cleanName(name)).join(", ");
            showNotice(`${getElement("notice").textContent} Not opened: ${names}.`);
        }
    });

    /** @param {File} file */
    const openFile = (file) => openFiles([file]);

    /** @param {File} file */
    const openOtherLog = (file) => enqueue(() => compareWith(file));

    globalThis.hidlogOpening = { cleanName, enqueue, openBytes, openFile, openFiles, openOtherLog, waitFor };
})();
