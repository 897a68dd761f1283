// The page's state: a log, the result of replaying it, and the visible rows. Sets `globalThis.hidlogViewer`.
"use strict";

(() => {
    const ROW_HEIGHT = 26;
    // Maximum number of bytes of a log that is replayed at once. Longer logs are read in slices, and replayed by a
    // worker.
    const MAX_BYTES_AT_ONCE = 512 * 1024;
    const MAX_BYTES = 1024 * 1024 * 1024;
    // Explaining a log needs five times its length in memory.
    const MAX_EXPLAINED_BYTES = 700 * 1024 * 1024;
    // Maximum number of milliseconds for which a letter that is typed into the search field may block the page.
    const SEARCH_MS = 30;
    const CALLER_KINDS = ["presence", "new key", "signature"];
    const SHOWN_KINDS = ["host", "key", "comment", "need"];
    /** @type {Record<string, string>} */
    const ARROWS = { host: "→", key: "←", caller: "⇠", need: "?", time: "·", comment: "#", fault: "!" };
    const { KIND, takeFirstLines } = globalThis.hidlogLog;
    const { LineReader, readSession } = globalThis.hidlogSession;
    const { TableFiller } = globalThis.hidlogTransactions;
    const { makeRows } = globalThis.hidlogRows;
    const { runGenerator, runInWorker } = globalThis.hidlogBackground;
    const { describeKind, describeEnd, isSuccessful, summarize } = globalThis.hidlogStory;
    const { draw, HEAD_HEIGHT } = globalThis.hidlogDrawing;
    const difference = globalThis.hidlogDifference;
    const { EvenLayout, TimedLayout, findPauses } = globalThis.hidlogLayout;
    const detail = globalThis.hidlogDetail;
    const { escapeInvisible } = globalThis.hidlogShown;
    const getElement = /** @type {Viewer.GetElement} */ ((id) => /** @type {any} */ (document.getElementById(id)));
    const decoder = new TextDecoder();

    const state = /** @type {Viewer.State} */ (/** @type {unknown} */ ({
        core: null, shown: null, name: "", bytes: null, snapshot: new Uint8Array(0), snapshotName: "", difference: null,
        texts: {}, sessions: {}, view: "recorded", rows: [], chosen: -1, unfolded: new Set(), isDrawn: false, isComparing: false,
        marks: new Map(), layout: new EvenLayout(0, ROW_HEIGHT), placing: { end: () => {} },
        job: { end: () => {} }, making: { end: () => {} }, summing: { end: () => {} }, diagnosing: { end: () => {} },
    }));

    const showNotice = (/** @type {string} */ text, isFault = false) => {
        getElement("notice").textContent = escapeInvisible(text);
        getElement("notice").className = isFault ? "fault" : "";
    };

    const formatMegabytes = (/** @type {number} */ bytes) => `${(bytes / 1024 / 1024).toFixed(1)} MB`;
    const getCurrentSession = () => state.sessions[state.view];

    // ---- rows and details

    const getRowKind = (/** @type {Viewer.Line} */ line) => {
        if (CALLER_KINDS.includes(line.kind)) {
            return "caller";
        }
        return /** @type {Record<string, string>} */ (
            { tick: "time", count: "comment", empty: "comment" })[line.kind] ?? line.kind;
    };

    /** A row of the table: a line, or a folded transaction. The text is computed when the row becomes visible. */
    class Row {
        constructor(/** @type {Viewer.Line} */ line, /** @type {Viewer.Transaction | null} */ transaction = null) {
            Object.assign(this, { line, transaction, noise: !transaction && line.replaced !== undefined });
            this.kind = line.isFault ? "fault" : getRowKind(line);
            const isMarked = state.view === "recorded" && line.number === state.difference?.marked;
            this.differs = isMarked && !transaction;
        }

        /**
         * The finding in the row's line, or in a line of its transaction, in words; or "".
         * @this {Viewer.Row}
         */
        get mark() {
            const { line, transaction } = this;
            if (!transaction) {
                return state.marks.get(line.number) ?? "";
            }
            const isOwn = (/** @type {number} */ number) =>
                getCurrentSession().transactionAt(number - 1) === transaction.place;
            const [number, words] = [...state.marks].find(([marked]) => isOwn(marked)) ?? [];
            return number ? `${words}, line ${number}` : "";
        }

        /** @this {Viewer.Row} */ get says() {
            const { line, transaction } = this;
            if (transaction) {
                return `${this.outcome}  ·  ${state.shown.title(transaction)}  (${transaction.count} lines)`;
            }
            if (SHOWN_KINDS.includes(line.kind) && !line.isFault) {
                const isStray = line.isPacket && getCurrentSession().transactions > 0 && !this.line.transaction;
                return `${state.shown.says(line).replace(/^# ?/, "")}${isStray ? "  (outside any transaction)" : ""}`;
            }
            return CALLER_KINDS.includes(line.kind) ? `${line.kind}: ${line.says}` : escapeInvisible(line.says);
        }

        /**
         * The kind and result of a transaction, in words.
         * @this {Viewer.Row & { transaction: Viewer.Transaction }}
         */
        get outcome() {
            const rp = state.shown.requestRpId(this.transaction);
            return `${describeKind(this.transaction)}: ${describeEnd(this.transaction)}${rp ? ` at ${escapeInvisible(rp)}` : ""}`;
        }

        /**
         * Whether the row is a transaction that did not succeed.
         * @this {Viewer.Row}
         */
        get isRefused() {
            return Boolean(this.transaction) && !isSuccessful(/** @type {Viewer.Transaction} */ (this.transaction));
        }

        /**
         * The messages of a transaction, or the message of a packet; empty if there is none.
         * @this {Viewer.Row}
         */
        get messages() {
            const { line, transaction } = this;
            if (transaction) {
                const refusal = transaction.code !== null ? transaction.by?.message : null;
                return /** @type {Viewer.Message[]} */ ([transaction, transaction.answer ?? refusal].filter(Boolean));
            }
            const { message } = line.source ?? line;
            return message && !line.isFault ? [message] : [];
        }

        /**
         * The lines of the explanation.
         * @this {Viewer.Row}
         */
        detail() {
            if (this.transaction) {
                return this.messages.flatMap((message) => [...state.shown.message(message), ""]);
            }
            return this.line.isFault ? [this.says] : state.shown.detail(this.line, this.says);
        }

        /** @this {Viewer.Row} */ has(/** @type {string} */ words, /** @type {string} */ channel) {
            if (channel && this.line.channel !== channel && this.line.transaction?.channel !== channel) {
                return false;
            }
            const text = () => [this.line.text, this.says, ...this.detail()].join("\n").toLowerCase();
            return !words || text().includes(words);
        }
    }

    /** Returns the row of a line index, or of transaction `-1 - number` if the number is negative. */
    const makeRowFromNumber = (/** @type {number} */ number) => {
        const transaction = number < 0 ? getCurrentSession().transaction(-1 - number) : null;
        return /** @type {Viewer.Row} */ (
            new Row(transaction ? transaction.line : getCurrentSession().line(number), transaction));
    };

    const rowAt = (/** @type {number} */ place) =>
        (state.rows[place] === undefined ? null : makeRowFromNumber(state.rows[place]));

    /**
     * Returns the logs whose explanations a view shows. The quiet view also shows explanations of the ignored inputs.
     */
    const listLogs = (/** @type {Viewer.Session} */ { log }) =>
        /** @type {Viewer.Log[]} */ ([log, log.before].filter(Boolean));

    const makeCell = (/** @type {string | Viewer.Milliseconds} */ text, className = "") => {
        const span = document.createElement("span");
        span.textContent = /** @type {string} */ (text);
        span.className = className;
        return span;
    };

    /** Whether a line is shown below the row of its transaction. */
    const isUnfolded = (/** @type {Viewer.Line} */ line) => Boolean(line.transaction)
        && state.unfolded.has(/** @type {Viewer.Transaction} */ (line.transaction).place) && getElement("fold").checked;

    const makeRow = (/** @type {Viewer.Row} */ row, /** @type {number} */ place) => {
        const made = document.createElement("div");
        const { line, transaction, noise, differs, isRefused, mark } = row;
        /** @type {Record<string, unknown>} */
        const classes = { transaction, noise, differs, marked: mark, refused: isRefused, fault: row.kind === "fault" };
        made.className = ["row", ...Object.keys(classes).filter((name) => classes[name])].join(" ");
        made.style.transform = `translateY(${state.layout.top(place)}px)`;
        made.id = `row-${place}`;
        made.setAttribute("role", "treeitem");
        made.setAttribute("aria-level", String(transaction || !isUnfolded(line) ? 1 : 2));
        made.setAttribute("aria-selected", String(place === state.chosen));
        made.setAttribute("aria-posinset", String(place + 1));
        made.setAttribute("aria-setsize", String(state.rows.length));
        made.dataset.place = /** @type {string} */ (/** @type {unknown} */ (place));
        const isOpen = state.unfolded.has(/** @type {number} */ (row.transaction?.place));
        const sign = row.transaction ? (isOpen ? "▾" : "▸") : ARROWS[row.kind] ?? "";
        if (row.transaction) {
            made.setAttribute("aria-expanded", String(isOpen));
        }
        const kind = `kind-${row.kind}`;
        const says = makeCell(row.says, `says ${kind}`);
        if (mark) {
            says.prepend(makeCell(mark, "finding"), " ");
        }
        const [time, channel] = [line.timeMs ?? "", line.channel ?? ""];
        made.append(makeCell(line.number), makeCell(time), makeCell(sign, kind), makeCell(channel), says);
        return made;
    };

    const render = () => {
        const [scroller, { layout }] = [getElement("scroller"), state];
        const first = layout.placeAt(scroller.scrollTop);
        const last = Math.min(state.rows.length, layout.placeAt(scroller.scrollTop + scroller.clientHeight) + 1);
        const made = [];
        for (let place = first; place < last; place += 1) {
            made.push(makeRow(/** @type {Viewer.Row} */ (rowAt(place)), place));
        }
        getElement("space").replaceChildren(...made);
        const isInSight = state.chosen >= first && state.chosen < last;
        scroller[isInSight ? "setAttribute" : "removeAttribute"]("aria-activedescendant", `row-${state.chosen}`);
        getElement("drawing").hidden = !state.isDrawn || !state.bytes;
        if (state.isDrawn && state.bytes) {
            draw(getElement("drawing"), {
                count: state.rows.length, rowAt, first, layout, scrollTop: scroller.scrollTop, rowHeight: ROW_HEIGHT,
                channels: getCurrentSession().channels, chosen: state.chosen,
            });
        }
    };

    const setLayout = (/** @type {Viewer.Layout} */ layout) => {
        state.layout = layout;
        // Remove the rows, since the browser would otherwise keep the scroll position.
        getElement("space").replaceChildren();
        getElement("space").style.height = `${layout.height}px`;
        getElement("space").style.marginTop = state.isDrawn ? `${HEAD_HEIGHT}px` : "0";
        if (state.chosen >= 0) {
            scrollToRow();
        }
        render();
    };

    /** Places the rows: evenly in the table, or by time in the drawing after all times have been read. */
    const placeRows = () => {
        state.placing.end();
        const { rows } = state;
        setLayout(new EvenLayout(rows.length, ROW_HEIGHT));
        if (state.isDrawn) {
            const timeOf = (/** @type {number} */ place) => Number(makeRowFromNumber(rows[place]).line.timeMs ?? 0);
            const steps = findPauses(rows.length, timeOf);
            const done = (/** @type {Float64Array} */ pauses) => setLayout(new TimedLayout(pauses, ROW_HEIGHT));
            state.placing = runGenerator(steps, () => {}, done);
        }
    };

    const showDetail = () => {
        if (state.isComparing) {
            return;
        }
        const row = rowAt(state.chosen);
        getElement("detail").hidden = !row;
        if (!row) {
            return;
        }
        const { line } = row;
        getElement("detail-title").textContent = row.transaction ? row.says : `Line ${line.number}`;
        if (row.differs) {
            const makeTree = (/** @type {(line: string) => boolean} */ isMarked) =>
                detail.makeTree(row, state.shown, isMarked);
            getElement("detail-text").replaceChildren(...difference.makeNodes(
                /** @type {Difference} */ (state.difference), makeTree));
            return;
        }
        const replaced = line.replaced
            ? `Ignored input: it only advances the time.\nLine ${
                /** @type {Viewer.Line} */ (line.source).number} of the log: ${line.replaced}\n\n`
            : "";
        detail.show(row, state.shown, replaced);
    };

    /** Marks the tab of the current view. */
    const markTab = () => {
        const shown = state.isComparing ? "two" : state.isDrawn ? "drawing" : "table";
        ["table", "drawing", "two"].forEach((name) =>
            getElement(`${name}-tab`).setAttribute("aria-selected", String(name === shown)));
    };

    /** Scrolls to the selected row, or centers it. */
    const scrollToRow = (isMiddle = false) => {
        const scroller = getElement("scroller");
        const top = state.layout.top(state.chosen);
        if (isMiddle) {
            scroller.scrollTop = top - (scroller.clientHeight - ROW_HEIGHT) / 2;
        } else if (top < scroller.scrollTop) {
            scroller.scrollTop = top;
        } else if (top + ROW_HEIGHT > scroller.scrollTop + scroller.clientHeight) {
            scroller.scrollTop = top + ROW_HEIGHT - scroller.clientHeight;
        }
    };

    /** Selects a row, and scrolls to it, or centers it. */
    const selectRow = (/** @type {number} */ place, isMiddle = false) => {
        state.chosen = Math.max(0, Math.min(place, state.rows.length - 1));
        showDetail();
        scrollToRow(isMiddle);
        render();
    };

    const setRows = (/** @type {number[]} */ rows, isPart = false) => {
        const chosen = state.rows[state.chosen];
        state.rows = rows;
        state.chosen = isPart ? -1 : rows.indexOf(chosen);
        getElement("count").textContent = `${rows.length} of ${getCurrentSession().length} lines`;
        showDetail();
        placeRows();
    };

    /** Updates the rows, and then calls `after`. */
    const refresh = (after = () => {}) => {
        if (!state.bytes || !getCurrentSession()) {
            return;
        }
        state.making.end();
        const words = getElement("search").value.trim().toLowerCase();
        const channel = getElement("channel").value;
        const isFolded = getElement("fold").checked && getCurrentSession().transactions > 0;
        const isFound = words || channel
            ? (/** @type {number} */ number) => makeRowFromNumber(number).has(words, channel) : null;
        const ready = words ? state.shown.ready(listLogs(getCurrentSession())) : null;
        const steps = makeRows(getCurrentSession(), { isFolded, unfolded: state.unfolded, isFound, ready });
        const part = (/** @type {{ rows: number[], place: number }} */ { rows, place }) => {
            getElement("count").textContent = `${rows.length} found, at line ${place} of ${getCurrentSession().length}`;
        };
        state.making = runGenerator(steps, part, (rows) => {
            setRows(rows);
            after();
        }, isFound ? (isLong() ? 0 : SEARCH_MS) : isLong() ? undefined : Infinity);
    };

    // ---- playing the log

    /** Finds the transactions of a log. For a long log, a worker is used. */
    const findTransactions = (/** @type {Uint8Array} */ bytes) => {
        if (!isLong(bytes)) {
            return { outcome: state.core.run("transactions", bytes), end: () => {} };
        }
        const { outcome, end } = runInWorker(state.core, "transactions", bytes);
        return { outcome: outcome.catch(({ message }) => ({ error: message, text: new Uint8Array(0) })), end };
    };

    /** Reads a log in slices, and then fills in the transactions, which the core finds in the meantime. */
    const readInSlices = /** @type {Viewer.ReadInSlices} */ (function* reading(bytes) {
        const reader = new LineReader(bytes);
        const { outcome, end } = findTransactions(bytes);
        try {
            while (!reader.isDone) {
                reader.readUntil(0);
                yield reader;
            }
            reader.outcome = outcome instanceof Promise ? yield outcome : outcome;
            const filling = new TableFiller(reader.log, /** @type {Viewer.FoundTransactions} */ (reader.outcome).text);
            while (!filling.isDone) {
                filling.fillUntil(0);
                yield reader;
            }
        } finally {
            end();
        }
        return reader;
    });

    /** Reads the output of `hidlog quiet`. A line that replaces an ignored input refers to the input. */
    const readQuietInSlices = /** @type {Viewer.ReadQuiet} */ (function* readingQuiet(bytes, recorded) {
        const reader = yield* readInSlices(bytes);
        const { log } = reader;
        log.before = recorded.log;
        let place = 0;
        for (let from = 0; from < recorded.size && place < log.length; from += 1) {
            const kind = recorded.kindAt(from);
            if (kind !== KIND.KEY && kind !== KIND.COUNT) {
                if (recorded.line(from).text !== log.line(place).text) {
                    log.sources.set(place, from);
                }
                place += 1;
            }
            if (from % 256 === 255) {
                yield reader;
            }
        }
        return reader;
    });

    /**
     * Runs the steps that read a log, and shows a progress bar if they take long. Then calls `done` with the reader.
     */
    const runWithProgressBar = /** @type {Viewer.RunReading} */ ((steps, text, done, first = () => {}) => {
        const bar = getElement("bar");
        let isOver = false;
        let isShown = false;
        const part = (/** @type {Viewer.Reader} */ reader) => {
            bar.max = reader.bytes.length;
            bar.value = reader.from;
            if (!isShown) {
                isShown = true;
                first(reader);
            }
        };
        const job = runGenerator(steps, part, (reader) => {
            isOver = true;
            finishReading();
            done(reader);
        }, isLong() ? undefined : Infinity);
        if (!isOver) {
            showProgress(text, job);
        }
    });

    const isLong = (bytes = state.bytes) => bytes.length > MAX_BYTES_AT_ONCE;

    const showProgress = (/** @type {string} */ text, /** @type {Viewer.Job} */ job) => {
        getElement("progress").hidden = false;
        getElement("progress-text").textContent = text;
        state.job = job;
    };

    const finishReading = () => {
        getElement("progress").hidden = true;
        state.job = { end: () => {} };
    };

    /** Runs a command on the log. For a long log, a worker is used. */
    const runCommand = (/** @type {string} */ command, /** @type {(made: Viewer.Outcome) => void} */ done) => {
        if (!isLong()) {
            done(state.core.run(command, state.bytes, state.snapshot));
            return;
        }
        const { outcome, end } = runInWorker(state.core, command, state.bytes, state.snapshot);
        showProgress(`${command} of ${formatMegabytes(state.bytes.length)} …`, { end });
        getElement("bar").removeAttribute("value");
        outcome.then((result) => {
            finishReading();
            done(result);
        }, (error) => {
            finishReading();
            showNotice(`${command} failed: ${error.message}`, true);
        });
    };

    /** Makes the session of a view, unless it exists, and then calls `done`. */
    const prepareView = (/** @type {string} */ view, /** @type {() => void} */ done) => {
        if (state.sessions[view]) {
            done();
            return;
        }
        const made = () => {
            const bytes = state.texts[view];
            const steps = view === "quiet" ? readQuietInSlices(bytes, state.sessions.recorded) : readInSlices(bytes);
            runWithProgressBar(steps, `Reading the ${view} log …`, (reader) => {
                state.sessions[view] = reader.session();
                done();
            });
        };
        if (state.texts[view]) {
            made();
            return;
        }
        runCommand(view === "quiet" ? "quiet" : "replay", (outcome) => {
            state.texts[view] = outcome.text;
            made();
        });
    };

    const setView = (/** @type {string} */ view, after = () => {}) => prepareView(view, () => {
        state.view = view;
        state.shown.keep(listLogs(getCurrentSession()), Object.values(state.sessions).map(({ log }) => log));
        getElement("view").value = view;
        state.unfolded.clear();
        const { channels, channelCount } = getCurrentSession();
        const all = channelCount > channels.length
            ? `All channels (the first ${channels.length} are listed)` : "All channels";
        getElement("channel").replaceChildren(new Option(all, ""), ...channels.map((channel) => new Option(channel, channel)));
        getElement("scroller").scrollTop = 0;
        state.chosen = -1;
        showSummary();
        refresh(after);
    });

    const showSummary = () => {
        state.summing.end();
        state.summing = runGenerator(summarize(getCurrentSession()), () => {}, (summary) => {
            getElement("story").hidden = false;
            getElement("story").textContent = summary;
        }, isLong() ? undefined : Infinity);
    };

    const hasResponses = () => {
        const { recorded } = state.sessions;
        return recorded.find((place) => recorded.kindAt(place) === KIND.KEY) >= 0;
    };

    /** Calls `done` once all lines of sessions are explained, if the log is still the same. */
    const runAfterExplaining = (/** @type {Viewer.Session[]} */ sessions, /** @type {() => void} */ done) => {
        const { bytes } = state;
        const ready = state.shown.ready(sessions.flatMap(listLogs));
        if (!ready) {
            done();
            return;
        }
        ready.then(() => bytes === state.bytes && done());
    };

    /**
     * Options for explaining lines. The lines of a long log are explained in a worker, and then the visible rows are
     * updated.
     */
    const EXPLAIN_OPTIONS = {
        atOnce: MAX_BYTES_AT_ONCE,
        most: MAX_EXPLAINED_BYTES,
        work: (/** @type {Uint8Array} */ bytes) => runInWorker(state.core, "show", bytes),
        changed: (/** @type {Error | null} */ error) => {
            if (error) {
                showNotice(`${state.name}: not all lines are explained: ${error.message}`, true);
            }
            showDetail();
            render();
        },
    };

    globalThis.hidlogViewer = /** @type {typeof hidlogViewer} */ ({
        MAX_BYTES_AT_ONCE, EXPLAIN_OPTIONS, MAX_BYTES, ROW_HEIGHT, getElement, selectRow, decoder, takeFirstLines,
        hasResponses, formatMegabytes, readSession, readInSlices, finishReading, refresh, render, rowAt, getCurrentSession,
        setView, showDetail, showProgress, state, showNotice, runWithProgressBar, prepareView, runAfterExplaining, markTab,
        placeRows, scrollToRow, Row,
    });
})();
