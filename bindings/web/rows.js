// The rows to show for a session. To save memory, a row is a number: the index of a line, or a negative number for a
// folded transaction. Sets `globalThis.hidlogRows`.
"use strict";

(() => {
    const { KIND } = globalThis.hidlogLog;
    // Kinds of lines that are not shown when transactions are folded: ticks, needs, totals and empty lines.
    /** @param {number} kind */
    const isQuietKind = (kind) => kind === KIND.TICK || kind >= KIND.NEED;
    const BATCH_SIZE = 2048;

    /** @param {number} transaction */
    const makeFoldedRow = (transaction) => -1 - transaction;

    /**
     * The lines of an unfolded transaction, in the order of the log.
     * @param {Viewer.Session} session
     * @param {number} transaction
     */
    const listUnfoldedLines = (session, transaction) => session.transaction(transaction).all.map((line) => line.place)
        .filter((place) => !isQuietKind(session.kindAt(place)));

    /**
     * Whether a line that belongs to no transaction is shown among folded transactions.
     * @param {Viewer.Session} session
     * @param {number} place
     */
    const isShownAmongFolded = (session, place) => place >= session.size || !isQuietKind(session.kindAt(place));

    /**
     * Makes the rows in steps of this generator. If `ready` is a promise, the promise is awaited before rows are
     * searched.
     * @yields the rows so far, and the index of the last line
     * @param {Viewer.Session} session
     * @param {Viewer.RowOptions} options
     * @returns {Generator<{ rows: number[], place: number } | Promise<unknown>, number[], any>}
     */
    const makeRows = function* making(session, { isFolded, unfolded, isFound, ready = null }) {
        /** @type {number[]} */
        const rows = [];
        for (let place = 0; place < session.length; place += 1) {
            const transaction = session.transactionAt(place);
            if (place % BATCH_SIZE === BATCH_SIZE - 1) {
                yield { rows, place };
            }
            if (!isFolded || (transaction < 0 && isShownAmongFolded(session, place))) {
                rows.push(place);
            } else if (transaction >= 0 && session.startOf(transaction) === place) {
                rows.push(makeFoldedRow(transaction));
                if (unfolded.has(transaction)) {
                    rows.push(...listUnfoldedLines(session, transaction));
                }
            }
        }
        const kept = isFound ? [] : rows;
        if (ready) {
            yield { rows: kept, place: 0 };
            yield ready;
        }
        for (let at = 0; isFound && at < rows.length; at += 1) {
            if (isFound(rows[at])) {
                kept.push(rows[at]);
            }
            if (at % 64 === 63) {
                yield { rows: kept, place: at };
            }
        }
        return kept;
    };

    globalThis.hidlogRows = { makeRows };
})();
