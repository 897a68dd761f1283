// Formats the explanations of `hidlog show --explain` for rows and details. Sets `globalThis.hidlogShown`.
"use strict";

(() => {
    const { CBOR, ERROR, KEEPALIVE } = globalThis.hidlogBytes;
    const COMMANDS_WITH_NAMES = [KEEPALIVE, ERROR];
    const PACKET_PREFIX = /^(?:> \d+|<) [0-9a-f]{8} /;
    const LAST_WORD = / {2}(\w+)$/;
    // The RP ID in an explained request, a string in diagnostic notation: a backslash escapes quotes and backslashes.
    const RP_ID = /^ {2}(?:1 rpId: |2 rp: \{"id": )"((?:[^"\\]|\\.)*)"/;
    const ESCAPED_CHARACTER = /\\(["\\])/g;
    const { Explained, explain, explainFirst } = globalThis.hidlogExplained;

    /**
     * Escapes invisible characters, and those that reorder text, in a text of the log.
     * @param {string} text
     */
    const escapeInvisible = (text) =>
        text.replace(/[\p{Cc}\p{Cf}\p{Zl}\p{Zp}]/gu, (character) =>
            `\\u{${/** @type {number} */ (character.codePointAt(0)).toString(16)}}`);

    /**
     * Whether a line is the first one of a request or response.
     * @param {string} line
     */
    const isFirstLine = (line) => /^(request|answer) /.test(line);

    /**
     * The first line of a request or response without its CBOR item: only the code and the name remain.
     * @param {string} line
     */
    const shortenItem = (line) => line.split(" ").slice(0, 2).join(" ") + (LAST_WORD.exec(line)?.[0] ?? "");

    /**
     * The job for a log that is too long to explain. It fails with an error.
     * @returns {Viewer.TextJob}
     */
    const makeTooLongJob = () =>
        ({ outcome: Promise.reject(new Error("the log is too long to explain")), end: () => {} });

    /**
     * The core's explanations of lines. A log of up to `atOnce` bytes is explained at once. For a longer log, first
     * only the first lines are explained. When other lines are needed, `work` explains the whole log, if it has at most
     * `most` bytes. `work` returns a promise of the index, and a function that ends the work. Then `changed` is called,
     * with an error if the work failed.
     */
    class LineTexts {
        /**
         * @param {Viewer.Core} core
         * @param {Viewer.TextOptions} options
         */
        constructor(core, { atOnce = Infinity, most = Infinity, work = null, changed = () => {} } = {}) {
            Object.assign(this, { core, atOnce, most, work, changed, jobs: new Map() });
        }

        /**
         * The explanations of a log that are known so far.
         * @param {Viewer.Log} log
         * @this {Viewer.LineTexts}
         */
        explained(log) {
            log.explained ??= (log.bytes.length > this.atOnce ? explainFirst : explain)(this.core, log.bytes);
            return log.explained;
        }

        /**
         * Explains logs completely. Returns a promise, or null if they are explained already.
         * @param {Viewer.Log[]} logs
         * @this {Viewer.LineTexts}
         */
        ready(logs) {
            const unknown = logs.filter((log) => !this.explained(log).isLast);
            return unknown.length ? this.readyEach(unknown) : null;
        }

        /**
         * Explains logs one after another, to limit memory.
         * @param {Viewer.Log[]} logs
         * @this {Viewer.LineTexts}
         */
        async readyEach(logs) {
            for (const log of logs) {
                await this.explaining(log);
            }
        }

        /**
         * Starts to explain a long log, unless this has started already. Returns a promise.
         * @param {Viewer.Log} log
         * @returns {Promise<void>}
         * @this {Viewer.LineTexts}
         */
        explaining(log) {
            if (!this.jobs.has(log)) {
                // Only logs longer than `atOnce` are explained here. With `atOnce`, the caller also sets `work`.
                const job = log.bytes.length > this.most ? makeTooLongJob()
                    : /** @type {NonNullable<Viewer.TextOptions["work"]>} */ (this.work)(log.bytes);
                job.done = job.outcome.then((found) => this.finishJob(log, job, new Explained(found, true)), (error) =>
                    this.finishJob(log, job, new Explained(/** @type {Viewer.Explained} */ (log.explained), true), error));
                this.jobs.set(log, job);
            }
            return /** @type {Promise<void>} */ (/** @type {Viewer.TextJob} */ (this.jobs.get(log)).done);
        }

        /**
         * @param {Viewer.Log} log
         * @param {Viewer.TextJob} job
         * @param {Viewer.Explained} explained
         * @param {Error | null} error
         * @this {Viewer.LineTexts}
         */
        finishJob(log, job, explained, error = null) {
            if (this.jobs.get(log) === job) {
                this.jobs.delete(log);
                log.explained = explained;
                this.changed(error);
            }
        }

        /**
         * Drops the explanations of long logs, except those in `kept` and those in progress.
         * @param {Viewer.Log[]} kept
         * @param {Viewer.Log[]} logs
         * @this {Viewer.LineTexts}
         */
        keep(kept, logs) {
            /** @param {Viewer.Log} log */
            const isForgotten = (log) => log.bytes.length > this.atOnce && !kept.includes(log) && !this.jobs.has(log);
            logs.filter(isForgotten).forEach((log) => {
                log.explained = null;
            });
        }

        /**
         * Cancels all jobs.
         * @this {Viewer.LineTexts}
         */
        endAll() {
            this.jobs.forEach((job) => job.end());
            this.jobs.clear();
        }

        /**
         * A line's explanation: a head, and the lines below it.
         * @param {Viewer.Line} line
         * @this {Viewer.LineTexts}
         */
        words(line) {
            const { log, place } = line.source ?? line;
            const explained = this.explained(log);
            if (!explained.has(place)) {
                this.explaining(log);
            }
            return explained.words(place);
        }

        /**
         * The head of a line's explanation. For a packet, the direction, time and channel are omitted.
         * @param {Viewer.Line} line
         * @this {Viewer.LineTexts}
         */
        rest(line) {
            return this.words(line).head.replace(PACKET_PREFIX, "");
        }

        /**
         * A short name of a message.
         * @param {Viewer.Message} message
         * @this {Viewer.LineTexts}
         */
        name(message) {
            const first = this.rest(message.lines[0]);
            if (message.command === CBOR && message.isWhole) {
                const last = /** @type {Viewer.Line} */ (message.lines.at(-1));
                const item = this.words(last).below.find(isFirstLine) ?? "CBOR";
                return LAST_WORD.exec(item)?.[1] ?? item.split(" ").slice(0, 2).join(" ");
            }
            return (COMMANDS_WITH_NAMES.includes(message.command) && LAST_WORD.exec(first)?.[1]) || first.split(" ")[0];
        }

        /**
         * The text of a line in the table.
         * @param {Viewer.Line} line
         * @this {Viewer.LineTexts}
         */
        says(line) {
            const { message } = line.source ?? line;
            const rest = this.rest(line);
            if (!message) {
                return rest;
            }
            if (!message.isWhole) {
                return `${rest}  (incomplete)`;
            }
            return message.command === CBOR ? `${rest}  ${this.name(message)}` : rest;
        }

        /**
         * The request of a transaction, and how the transaction ended.
         * @param {Viewer.Transaction} transaction
         * @this {Viewer.LineTexts}
         */
        title(transaction) {
            const { answer, by, end, code } = transaction;
            /** @type {Record<string, string>} */
            const ends = {
                replaced: `replaced by line ${by?.number}`, dropped: `dropped by line ${by?.number}`,
                forgotten: `not tracked after line ${by?.number}`, unknown: "unknown", "not whole": "incomplete",
            };
            const last = answer ?? (code !== null && by ? by.message : null);
            return `${this.name(transaction)} → ${last ? this.name(last) : ends[end] ?? "no response"}`;
        }

        /**
         * The RP ID in a request, or undefined.
         * @param {Viewer.Transaction} transaction
         * @this {Viewer.LineTexts}
         */
        requestRpId(transaction) {
            const { below } = this.words(/** @type {Viewer.Line} */ (transaction.lines.at(-1)));
            return below.map((line) => RP_ID.exec(line)?.[1].replace(ESCAPED_CHARACTER, "$1")).find(Boolean);
        }

        /**
         * The lines of a message's explanation. If the members have lines of their own, the CBOR item is left out.
         * @param {Viewer.Message} message
         * @this {Viewer.LineTexts}
         */
        message(message) {
            const { lines, received, isWhole, length } = message;
            const packets = lines.length > 1 ? `, ${lines.length} packets` : "";
            const missing = isWhole ? "" : `, incomplete: ${received} of ${length} bytes`;
            const below = lines.flatMap((line) => this.words(line).below);
            const hasMembers = below.some((line) => line.startsWith("  "));
            const shortened = below.map((line) => (hasMembers && isFirstLine(line) ? shortenItem(line) : line));
            return [`${this.rest(lines[0])}${packets}${missing}`, ...shortened];
        }

        /**
         * The lines of a line's explanation. The first line can be replaced.
         * @param {Viewer.Line} line
         * @this {Viewer.LineTexts}
         */
        detail(line, first = this.rest(line)) {
            const { message } = line.source ?? line;
            return message ? this.message(message) : [first, ...this.words(line).below];
        }
    }

    // The cast is needed since the constructor of LineTexts assigns its properties with Object.assign.
    globalThis.hidlogShown = /** @type {typeof hidlogShown} */ (
        { LineTexts, escapeInvisible });
})();
