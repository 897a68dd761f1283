// Examines a log for its diagnosis (diagnosis.js): whether this key wrote the log, the first difference from what the
// key sends, the causes of rejections, and the rules of CTAP 2.1 that packets violate. Runs in a worker. Sets
// `globalThis.hidlogDiagnosisWork`.
"use strict";

(() => {
    const { WasmKey, playLine } = globalThis.hidlogWasmKey;
    // Lines that only recorders of this project write: replies, needs and totals.
    const OWN_LINES = /^(?:[pks] |# need |= held )/m;
    // A new key whose public coordinates repeat one byte each, as in examples that are written by hand.
    const PLACEHOLDER_LINE = /^k \d+ [0-9a-f]{64} (..)\1{31} (..)\2{31}$/im;
    const INIT_RESPONSE = /^< [0-9a-f]{8}860011[0-9a-f]*$/gim;
    const { hasMatch, iterateTexts } = globalThis.hidlogLog;
    const decoder = new TextDecoder();
    const INPUT_LINE = /^[>tpks] /;
    // Maximum number of causes that are kept for a log. The oldest are dropped.
    const MAX_CAUSES = 1000;
    const [TIMEOUT_BEFORE, OF_INPUT] = [0, 1];

    /**
     * The causes of the rejections at the last input, with the input's line number.
     * @param {Viewer.WasmKey} key
     * @param {number} line
     * @returns {Viewer.Rejection[]}
     */
    const listRejections = (key, line) =>
        [TIMEOUT_BEFORE, OF_INPUT].flatMap((which) => key.rejection(which) ?? []).map((found) => ({ line, ...found }));

    /**
     * Passes the lines of a text to the key, and calls `add` with the causes after each line.
     * @param {Viewer.WasmKey} key
     * @param {Viewer.TextPart} part
     * @param {(found: Viewer.Rejection[]) => void} add
     */
    const playLines = (key, { text, before }, add) => {
        text.split("\n").forEach((line, place) => {
            if (INPUT_LINE.test(line)) {
                playLine(key, line.toLowerCase());
                add(listRejections(key, before + place + 1));
            }
        });
    };

    /**
     * Finds the causes of a log's rejections: the line of the input, the cause's code (enum hidlog_cause_code), the
     * status, and a sentence. The search ends at a line that the key's functions reject. `report` is called with the
     * fraction that is done.
     * @param {Viewer.Core} core
     * @param {Uint8Array} log
     * @param {Uint8Array} snapshot
     * @param {Viewer.Report} [report]
     */
    const findCauses = (core, log, snapshot, report = () => {}) => {
        /** @type {Viewer.Rejection[]} */
        let causes = [];
        const add = (/** @type {Viewer.Rejection[]} */ found) => {
            causes.push(...found);
            causes = causes.length > 2 * MAX_CAUSES ? causes.slice(-MAX_CAUSES) : causes;
        };
        try {
            const key = new WasmKey(core.exports, snapshot);
            for (const part of iterateTexts(log)) {
                report(part.share);
                playLines(key, part, add);
            }
        } catch (error) {
            console.info(`the causes of later rejections are unknown: ${error instanceof Error ? error.message : error}`);
        } finally {
            core.updateViews();
        }
        return causes.slice(-MAX_CAUSES);
    };

    /** @param {Uint8Array} bytes */
    const listInitResponses = (bytes) =>
        [...iterateTexts(bytes)].flatMap(({ text }) => text.match(INIT_RESPONSE) ?? []).map((line) => line.toLowerCase());

    /**
     * Whether a log was recorded with this key. Either the log matches what the key sends, or it has lines of this
     * project's recorders, and one of its INIT responses, if any, is the key's.
     * @param {Viewer.Core} core
     * @param {Uint8Array} log
     * @param {Uint8Array} snapshot
     * @param {Viewer.Fault} outcome
     */
    const isOwnLog = (core, log, snapshot, outcome) => {
        if (outcome.status === 0 || !hasMatch(log, OWN_LINES)) {
            return outcome.status === 0;
        }
        const recorded = listInitResponses(log);
        const sent = new Set(listInitResponses(core.run("replay", log, snapshot).text));
        return !recorded.length || recorded.some((line) => sent.has(line));
    };

    /**
     * Examines a log. `report` is called with the next stage, the fraction of the stage that is done, and the first
     * results before the rules are checked.
     * @param {Viewer.Core} core
     * @param {Uint8Array} log
     * @param {Uint8Array} snapshot
     * @param {(progress: Viewer.Progress) => void} report
     * @returns {Promise<Viewer.Examined>}
     */
    const examine = async (core, log, snapshot, report) => {
        report({ stage: "Comparing with the key" });
        const { text, ...outcome } = core.run("check", log, snapshot);
        const isOwn = isOwnLog(core, log, snapshot, outcome);
        /** @type {(stage: string) => Viewer.Report} */
        const tell = (stage) => (share) => report({ stage, share });
        const causes = isOwn ? findCauses(core, log, snapshot, tell("Finding causes")) : [];
        const hasPlaceholders = hasMatch(log, PLACEHOLDER_LINE);
        const compared = { outcome, says: decoder.decode(text).trim(), isOwn, hasPlaceholders, causes };
        const stage = "Checking the rules of CTAP 2.1";
        report({ stage, compared });
        const judged = await globalThis.hidlogJudge.judge(core, log, tell(stage));
        return { ...compared, ...judged };
    };

    globalThis.hidlogDiagnosisWork = { examine };
})();
