// Checks a log against CTAP 2.1 with the rules of `hidlog judge`, which are translated from Python to dist/judge.js.
// Runs in a worker (worker.js), since a long log takes seconds. Sets `globalThis.hidlogJudge`.
"use strict";

(() => {
    const { hasMatch, NEWLINE } = globalThis.hidlogLog;
    const decoder = new TextDecoder();

    /**
     * @param {any} finding - an object of the rules
     * @returns {Viewer.Finding}
     */
    const toFinding = ({ line, side, level, section, also, rule, expected, actual }) =>
        ({ line, side, level, section, relatedSections: also, rule, expected, actual });

    // Maximum length of a part in bytes, which ends after the last line at which no transaction is open. If there is no
    // such line, the length is doubled.
    const PART_BYTES = 1024 * 1024;
    // Recorders' notes about lost packets or gaps. A log with such notes is checked as a whole.
    const GAP_NOTES = /^# (?:power cycle|cut to )/m;

    /**
     * Runs the core's `transactions` on lines, to find to which transaction each line belongs. `before` is the number
     * of preceding lines.
     * @param {Viewer.Core} core
     * @param {Uint8Array} lines
     * @param {number} before
     */
    const findTransactions = (core, lines, before) => {
        const { status, text, ...fault } = core.run("transactions", lines);
        if (status) {
            throw new Error(globalThis.hidlog.formatError({ status, ...fault, line: fault.line + before }));
        }
        return text;
    };

    /**
     * The number of the last line after which no transaction is open, from the core's `transactions`.
     * @param {Uint8Array} owners
     */
    const findLastIdleLine = (owners) => {
        /** @type {Set<string>} */
        const open = new Set();
        let last = 0;
        for (const row of decoder.decode(owners).split("\n").slice(0, -1)) {
            const [number, transaction, , ...words] = row.split(" ");
            if (transaction === number) {
                open.add(number);
            }
            // The last packet of a response ends the transaction. A late packet (l) ends no transaction.
            words.filter((word) => !word.startsWith("l")).forEach((word) => open.delete(word.slice(1).split(":")[0]));
            last = open.size ? last : Number(number);
        }
        return last;
    };

    /**
     * The offset after the line that has the byte at an offset.
     * @param {Uint8Array} log
     * @param {number} from
     */
    const findLineEnd = (log, from) => {
        const end = from < log.length ? log.indexOf(NEWLINE, from) : -1;
        return end < 0 ? log.length : end + 1;
    };

    /**
     * Splits a log where no transaction is open, so that the rules can be checked on one part at a time. `report` is
     * called with the fraction that is done.
     * @param {Viewer.Core} core
     * @param {Uint8Array} log
     * @param {Viewer.Report} report
     */
    const iterateParts = function* iterating(core, log, report) {
        let [from, before, length] = [0, 0, hasMatch(log, GAP_NOTES) ? Infinity : PART_BYTES];
        while (from + length < log.length) {
            const part = log.subarray(from, findLineEnd(log, from + length - 1));
            const count = findLastIdleLine(findTransactions(core, part, before));
            const quiet = globalThis.hidlogLog.takeFirstLines(part, count);
            length = quiet.length ? PART_BYTES : 2 * length;
            if (quiet.length) {
                report(from / log.length);
                yield new globalThis.hidlogPython.Bytes(quiet);
                [from, before] = [from + quiet.length, before + count];
            }
        }
        findTransactions(core, log.subarray(from), before);
        yield new globalThis.hidlogPython.Bytes(log.subarray(from));
    };

    /**
     * Runs the rules. Their exceptions become errors with Python's message.
     * @param {Viewer.Core} core
     * @param {Uint8Array} log
     * @param {Viewer.Report} report
     */
    const runRules = async (core, log, report) => {
        const python = globalThis.hidlogPython;
        /** @param {{ data: Uint8Array }} part */
        const walk = (part) => new python.Bytes(findTransactions(core, part.data, 0));
        const rules = () => python.module("judged_log").judge_parts(iterateParts(core, log, report), walk);
        try {
            return await globalThis.hidlogVerified(rules);
        } catch (error) {
            throw /** @type {any} */ (error).args ? new Error(python.format(error, ""), { cause: error }) : error;
        }
    };

    /**
     * Checks a log. Returns the findings, notes on what was not checked, the totals as a line, and the line from which
     * the recorder may have lost packets (0 for the whole log), or null. `report` is called with the fraction that is
     * done.
     * @param {Viewer.Core} core
     * @param {Uint8Array} log
     * @param {Viewer.Report} [report]
     * @returns {Promise<Viewer.Judged>}
     */
    const judge = async (core, log, report = () => {}) => {
        const format = globalThis.hidlogPython.module("judged_report");
        const { found, unsure } = await runRules(core, log, report);
        const notes = format.list_notes(found);
        if (unsure) {
            notes.push(`${unsure} signatures were not verified: this browser does not support their algorithm`);
        }
        const gap = found.is_imported ? found.gap : null;
        return {
            findings: found.findings.map(toFinding), notes, total: format.format_total(found),
            lostFrom: found.has_lost ? 0 : gap,
        };
    };

    globalThis.hidlogJudge = { judge };
})();
