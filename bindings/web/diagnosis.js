// Diagnoses who is at fault in a log (the host, the key, the user, the caller, the capture or nobody), in which line,
// why, and what to do. The diagnosis is based on the results of diagnosis_work.js. Sets `globalThis.hidlogDiagnosis`.
"use strict";

(() => {
    const { CBOR } = globalThis.hidlogBytes;
    const { describeEnd, describeKind, isSuccessful, isUserCommand } = globalThis.hidlogStory;
    const { explainFinding, findMissing } = globalThis.hidlogIncomplete;
    // Causes of enum hidlog_cause_code (release/hidlog.h).
    const CAUSE = {
        WRONG_NUMBER: 4, TIMED_OUT: 6, BUSY_ELSEWHERE: 7, BUSY_HERE: 8, NO_CHANNEL_LEFT: 10, NOT_CANONICAL: 23,
        NO_ALGORITHM: 30, DENIED: 51, NO_CONSENT: 52, NO_RESPONSE: 53, EXCLUDED: 54, FULL: 55, NO_KEY: 56, KEY_ID: 57,
        NO_SIGNATURE: 58, NO_CREDENTIAL: 59, COUNTER: 60,
    };
    /** @type {Record<string, number[]>} */
    const CAUSE_SIDES = {
        user: [CAUSE.DENIED, CAUSE.NO_CONSENT, CAUSE.NO_RESPONSE],
        caller: [CAUSE.NO_KEY, CAUSE.KEY_ID, CAUSE.NO_SIGNATURE],
        key: [CAUSE.NO_CHANNEL_LEFT, CAUSE.FULL, CAUSE.COUNTER],
    };
    // Statuses (standard/statuses.tsv). Those in USER_STATUSES are caused by the user.
    const [KEEPALIVE_CANCEL, KEY_STORE_FULL] = [0x2d, 0x28];
    const USER_STATUSES = [0x27, 0x2f, 0x3a];
    /** @type {Record<Viewer.Side, string>} */
    const SIDE_NAMES = {
        host: "The host", key: "The key", user: "The user", caller: "The caller", capture: "The capture",
        none: "Nobody",
    };
    const RETRY_ADVICE = "Wait for the response to the pending request, then send this one again.";
    /** @type {Record<number, string>} */
    const CAUSE_ADVICE = {
        [CAUSE.WRONG_NUMBER]: "Send each message's packets in order, without gaps: one may have been lost.",
        [CAUSE.TIMED_OUT]: "Send the rest of a message at once.",
        [CAUSE.BUSY_ELSEWHERE]: RETRY_ADVICE, [CAUSE.BUSY_HERE]: RETRY_ADVICE,
        [CAUSE.NOT_CANONICAL]: "Encode the request as CTAP2 canonical CBOR: sorted map keys, shortest heads.",
        [CAUSE.NO_ALGORITHM]: "Offer ES256 (-7) in pubKeyCredParams.",
        [CAUSE.DENIED]: "Try again, and touch the key.",
        [CAUSE.NO_CONSENT]: "Try again, and touch the key in time.",
        [CAUSE.NO_RESPONSE]: "Try again, and touch the key in time.",
        [CAUSE.EXCLUDED]: "Sign in, or register another key: excludeList has a credential of this one.",
        [CAUSE.FULL]: "Remove a credential, or reset the key.",
        [CAUSE.NO_CREDENTIAL]: "Use the RP ID and the credential IDs of a registration, or register this key first.",
    };
    const ADVICE = {
        host: "Change the client, so that it sends what is expected.",
        key: "Report this to the key's maker, with the log.",
        user: "Try again, and touch the key.",
        caller: "Sign exactly the bytes that the key asks for. If the caller did, the request was changed on its way"
            + " between client and key, or in the log: compare it with what the client sent.",
        capture: "Record the session again, or copy the whole file.",
        none: "",
        snapshot: "Drop the snapshot of the key's credentials on the page; the session is then compared again.",
        rejected: "Change the request as the reason says.",
        differs: "The recorded key is not this one, or the log was changed afterwards.",
    };

    /**
     * @param {number} code
     * @returns {Viewer.Side}
     */
    const findSide = (code) => /** @type {Viewer.Side} */ (
        Object.keys(CAUSE_SIDES).find((side) => CAUSE_SIDES[side].includes(code)) ?? "host");

    /**
     * @param {Viewer.Session} session
     * @param {number} line
     */
    const getTransaction = (session, line) => {
        const found = line ? session.line(line - 1) : null;
        return found?.transaction ?? null;
    };

    /**
     * The line of the signature that the caller provided in a transaction, or the line `otherwise`.
     * @param {Viewer.Transaction | null} transaction
     * @param {number} otherwise
     */
    const findSignatureLine = (transaction, otherwise) =>
        transaction?.all.filter((line) => line.kind === "signature").at(-1)?.number ?? otherwise;

    /**
     * A finding of the rules, as a line of text.
     * @param {Viewer.Finding} finding
     */
    const formatFinding = ({ line, side, level, rule, expected, actual }) =>
        `Line ${line}: ${SIDE_NAMES[side].toLowerCase()} violates ${level.toUpperCase()}: ${rule}.`
            + ` Expected: ${expected}. Actual: ${actual}.`;

    /** @param {Viewer.Finding} finding */
    const formatReasons = ({ rule, expected, actual }) =>
        [`Rule: ${rule}.`, `Expected: ${expected}.`, `Actual: ${actual}.`];

    /**
     * The causes of a transaction's rejections.
     * @param {Viewer.Checked} examined
     * @param {Viewer.Transaction | null} transaction
     * @param {Viewer.Session} session
     */
    const findCauses = ({ causes }, transaction, session) =>
        causes.filter(({ line }) => transaction && getTransaction(session, line)?.id === transaction.id);

    /** @param {Viewer.Rejection | undefined} cause */
    const formatCause = (cause) => (cause ? [`The key's reason: ${cause.sentence}.`] : []);

    // ---- verdicts

    /**
     * The verdict for a file that is not a log.
     * @param {string} why
     * @param {string} advice
     * @returns {Viewer.Verdict}
     */
    const judgeFile = (why, advice = "") => ({
        level: "fault", side: "capture", line: 0, title: "cannot be read", why: [why], advice,
    });

    /**
     * The verdict for a log that has an invalid line or a rejected snapshot.
     * @param {Viewer.Fault} outcome
     * @param {string} reason
     * @param {string} text
     * @returns {Viewer.Verdict}
     */
    const judgeUnreadable = (outcome, reason, text) => ({
        level: "fault", side: "capture", line: outcome.line || 1, title: "is not a whole session log",
        why: [`${text}.`, ...(reason ? [reason] : [])], advice: ADVICE.capture,
    });

    /**
     * The verdict for a log of this key that differs from what the key sends.
     * @param {Viewer.Checked} examined
     * @param {{ difference: Viewer.KeyDifference, session: Viewer.Session }} shown
     * @returns {Viewer.Verdict}
     */
    const judgeDifference = (examined, { difference, session }) => {
        const { line } = examined.outcome;
        /** @param {Viewer.Rejection} cause */
        const isCredential = ({ line: at, code }) => code === CAUSE.NO_CREDENTIAL && at === line;
        const cause = examined.causes.find(isCredential);
        if (cause && !difference.isRejection) {
            return {
                level: "fault", side: "capture", line: difference.marked,
                title: "lacks the credentials with which the session began",
                why: [`Without them, the key rejects the request of line ${line}: ${cause.sentence}.`],
                advice: ADVICE.snapshot,
            };
        }
        const missing = findMissing(session, examined, difference);
        if (missing) {
            const { title, why, advice } = missing;
            return { level: "fault", side: "capture", line: difference.marked, title, why: [why], advice };
        }
        const transaction = getTransaction(session, difference.marked);
        /** @param {number} number */
        const isSame = (number) => transaction && getTransaction(session, number)?.id === transaction.id;
        /** @param {Viewer.Finding} finding */
        const isViolation = ({ side, level, line: at }) => side === "key" && level === "must" && isSame(at);
        const finding = examined.findings.find(isViolation);
        const reasons = finding ? [`Line ${finding.line} violates a rule.`, ...formatReasons(finding)] : [];
        return {
            level: "fault", side: "key", line: difference.marked, title: "sent something other than the verified key",
            why: [difference.sentence, ...reasons], advice: finding ? ADVICE.key : ADVICE.differs,
        };
    };

    /**
     * The verdict for a violated rule.
     * @param {Viewer.Checked} examined
     * @param {Viewer.Finding} finding
     * @param {Viewer.Session} session
     * @returns {Viewer.Verdict}
     */
    const judgeFinding = (examined, finding, session) => {
        const transaction = getTransaction(session, finding.line);
        const reasons = formatReasons(finding);
        if (finding.side === "caller") {
            return {
                level: "fault", side: "caller", line: findSignatureLine(transaction, finding.line),
                title: "gave a signature that does not verify",
                why: ["The key sent what it has to send for its inputs, so these are wrong.", ...reasons],
                advice: ADVICE.caller,
            };
        }
        if (examined.lostFrom !== null && finding.line >= examined.lostFrom) {
            return {
                level: "fault", side: "capture", line: examined.lostFrom || finding.line, title: "lacks packets",
                why: [`${examined.notes[0]}.`, `It may be the reason for line ${finding.line}.`, ...reasons],
                advice: ADVICE.capture,
            };
        }
        const missing = explainFinding(session, finding);
        if (missing) {
            const { title, why, advice } = missing;
            return { level: "fault", side: "capture", line: finding.line, title, why: [why, ...reasons], advice };
        }
        const isMust = finding.level === "must";
        const cause = findCauses(examined, transaction, session)[0];
        return {
            level: isMust ? "fault" : "should", side: finding.side, line: finding.line,
            title: isMust ? "violates CTAP 2.1" : "does not follow a recommendation of CTAP 2.1",
            why: [...formatCause(cause), ...reasons], advice: CAUSE_ADVICE[cause?.code] ?? ADVICE[finding.side],
        };
    };

    /**
     * Whether a later request that involves the user succeeded on the same channel.
     * @param {Viewer.Session} session
     * @param {Viewer.Transaction} transaction
     */
    const isResolved = (session, { place, channel }) => {
        for (let at = place + 1; at < session.transactions; at += 1) {
            const later = session.transaction(at);
            if (isUserCommand(later) && later.channel === channel && isSuccessful(later)) {
                return true;
            }
        }
        return false;
    };

    /** @param {Viewer.Transaction} transaction */
    const getStatus = ({ answer, code }) => {
        if (code !== null) {
            return null;
        }
        return answer?.command === CBOR && answer.length ? answer.byteAt(0) : 0;
    };

    /**
     * Whether a request that involves the user was rejected for a reason other than a CANCEL of the host. Clients probe
     * keys with other commands, so the rejection of such a command is not a fault.
     * @param {Viewer.Transaction} transaction
     */
    const isRejected = (transaction) => {
        const status = getStatus(transaction);
        return isUserCommand(transaction) && status !== 0 && status !== KEEPALIVE_CANCEL;
    };

    /**
     * The last rejected request that was not repeated successfully, or null.
     * @param {Viewer.Session} session
     */
    const findRejectedTransaction = (session) => {
        for (let place = session.transactions - 1; place >= 0; place -= 1) {
            const transaction = session.transaction(place);
            if (isRejected(transaction) && !isResolved(session, transaction)) {
                return transaction;
            }
        }
        return null;
    };

    /**
     * @param {number | null} status
     * @returns {Viewer.Side}
     */
    const findStatusSide = (status) => {
        if (USER_STATUSES.includes(/** @type {number} */ (status))) {
            return "user";
        }
        return status === KEY_STORE_FULL ? "key" : "host";
    };

    /**
     * The lines of an explained response that refer to other lines, such as the registration of a credential.
     * @param {Viewer.Transaction} transaction
     * @param {Viewer.LineTexts} shown
     */
    const listReferences = (transaction, shown) => {
        const lines = [...transaction.lines, ...transaction.answer?.lines ?? []];
        return lines.flatMap((line) => shown.words(line).below).filter((text) => / of line \d+/.test(text))
            .map((text) => `${text.trim()}.`);
    };

    /**
     * The verdict if no rule is violated, but a request was rejected.
     * @param {Viewer.Checked} examined
     * @param {Viewer.Transaction} transaction
     * @param {Viewer.Session} session
     * @param {Viewer.LineTexts} shown
     * @returns {Viewer.Verdict}
     */
    const judgeRejected = (examined, transaction, session, shown) => {
        const cause = findCauses(examined, transaction, session).at(-1);
        const side = cause ? findSide(cause.code) : findStatusSide(getStatus(transaction));
        const answer = transaction.answer ?? (transaction.code !== null ? transaction.by?.message : null);
        const line = cause && side !== "host" ? cause.line : transaction.line.number;
        const kind = describeKind(transaction);
        const rp = shown.requestRpId(transaction);
        const request = `${kind} of line ${transaction.line.number}${rp ? ` for the RP ID ${rp}` : ""}`;
        const response = answer ? ` (${shown.name(answer)}, line ${answer.line.number})` : "";
        return {
            level: "rejected", side, line, title: "is the reason that a request was rejected",
            why: [...formatCause(cause), `${request}: ${describeEnd(transaction)}${response}.`,
                ...listReferences(transaction, shown), "No rule of CTAP 2.1 is violated."],
            advice: CAUSE_ADVICE[/** @type {number} */ (cause?.code)] ?? (side === "host" ? ADVICE.rejected : ADVICE[side]),
        };
    };

    // Number of transactions at the end of a log that are searched for an open one. A host waits for a response before
    // it sends the next request.
    const MAX_SEARCHED_TRANSACTIONS = 16;

    /**
     * Describes the request that has no response yet, if any.
     * @param {Viewer.Session} session
     */
    const describeOpenRequest = (session) => {
        const last = Array.from({ length: Math.min(MAX_SEARCHED_TRANSACTIONS, session.transactions) }, (_, at) =>
            session.transaction(session.transactions - 1 - at));
        const open = last.find(({ end }) => end === "unanswered" || end === "not whole");
        return open ? [`The log ends before the response to the ${describeKind(open)} of line ${open.line.number}.`] : [];
    };

    /**
     * The verdict if nobody is at fault.
     * @param {Viewer.Session} session
     * @returns {Viewer.Verdict}
     */
    const judgeFaultless = (session) => ({
        level: "none", side: "none", line: 0, title: "is at fault",
        why: session.transactions
            ? ["No rule of CTAP 2.1 is violated, and no request was rejected without a later success.",
                ...describeOpenRequest(session)]
            : ["The log has no request."],
        advice: "",
    });

    /**
     * A sentence on whether the log matches what this key sends.
     * @param {Viewer.Compared} compared
     */
    const describeMatch = ({ isOwn, hasPlaceholders, outcome, says }) => {
        const unchecked = hasPlaceholders ? " Its key pairs are placeholders, so signatures were not checked." : "";
        if (!isOwn) {
            return "The log is of another key, or lacks the user's replies and the signatures: it was not compared.";
        }
        return outcome.status === 0 ? `The log matches the key: ${says}.${unchecked}` : "";
    };

    /**
     * A list with a sentence on the first MUST violation by a side other than the verdict's. Empty if there is none, or
     * if the capture is at fault.
     * @param {Viewer.Checked} examined
     * @param {Viewer.Verdict} verdict
     */
    const describeOtherViolations = ({ findings }, { side }) => {
        const other = findings.find((finding) => finding.level === "must" && finding.side !== side);
        return other && side !== "capture"
            ? [`${SIDE_NAMES[other.side]} also violates a rule, in line ${other.line}.`] : [];
    };

    /**
     * The totals of `judge`, with the number of violations among these findings.
     * @param {string} total
     * @param {Viewer.Finding[]} findings
     */
    const updateTotals = (total, findings) => {
        const counts = ["must", "should"].map((word) => {
            const count = findings.filter(({ level }) => level === word).length;
            return `${count} ${word.toUpperCase()} violation${count === 1 ? "" : "s"}`;
        });
        return total.replace(/\d+ MUST violations?, \d+ SHOULD violations?/, counts.join(", "));
    };

    /**
     * Assigns findings to sides. If the log matches what the key sends for its inputs, the caller provided wrong
     * inputs, so findings on the key's side are assigned to the caller. If the caller's inputs are placeholders, such
     * findings are left out.
     * @param {Viewer.Examined} examined
     * @returns {Viewer.Examined}
     */
    const assignFindings = (examined) => {
        if (examined.outcome.status !== 0) {
            return examined;
        }
        /** @type {(found: Viewer.Finding) => Viewer.Finding} */
        const assign = (found) => (found.side === "key" ? { ...found, side: "caller" } : found);
        const findings = examined.findings.map(assign);
        /** @param {Viewer.Finding} finding */
        const isKept = ({ side }) => side !== "caller" || !examined.hasPlaceholders;
        const kept = findings.filter(isKept);
        return { ...examined, findings: kept, total: updateTotals(examined.total, kept) };
    };

    /**
     * Decides on the verdict: the level, the side, the line, a title, the reasons as sentences, and what to do.
     * @param {Viewer.Checked} examined
     * @param {Viewer.ShownLog} shown
     * @returns {Viewer.Verdict}
     */
    const decide = (examined, { session, shown, difference }) => {
        if (examined.isOwn && difference) {
            return judgeDifference(examined, { difference, session });
        }
        const finding = examined.findings.find(({ level }) => level === "must") ?? examined.findings[0];
        if (finding) {
            const verdict = judgeFinding(examined, finding, session);
            return { ...verdict, why: [...verdict.why, ...describeOtherViolations(examined, verdict)] };
        }
        const rejected = findRejectedTransaction(session);
        return rejected ? judgeRejected(examined, rejected, session, shown) : judgeFaultless(session);
    };

    globalThis.hidlogDiagnosis = {
        SIDE_NAMES, assignFindings, decide, describeMatch, formatFinding, judgeFile, judgeUnreadable,
    };
})();
