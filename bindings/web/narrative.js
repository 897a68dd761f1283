// Summarizes a session in words: registrations, sign-ins and errors with their results. Sets
// `globalThis.hidlogStory`.
"use strict";

(() => {
    const { CBOR, INIT, PING, STATUSES } = globalThis.hidlogBytes;
    const BATCH_SIZE = 1024;
    /** @type {Record<number, [string, string]>} */
    const COMMAND_NAMES = {
        0x01: ["Registration", "registration"], 0x02: ["Sign-in", "sign-in"], 0x04: ["Capabilities", ""],
        0x06: ["PIN", ""], 0x07: ["Reset", "reset"], 0x08: ["Next account", ""], 0x0b: ["Selection", "selection"],
    };
    /** @type {Record<number, string>} */
    const STATUS_TEXTS = {
        0x00: "done", 0x19: "already registered", 0x28: "the key is full",
        0x2d: "cancelled", 0x2e: "no matching credential", 0x2f: "the user did not respond in time",
        0x26: "unsupported algorithm", 0x2b: "unsupported option", 0x2c: "invalid option",
        0x14: "missing parameter", 0x11: "wrong parameter type", 0x12: "invalid CBOR", 0x36: "PIN required",
    };
    const OPERATION_DENIED = 0x27;
    // The meaning of OPERATION_DENIED for each user reply, since the code is the same.
    /** @type {Record<string, string>} */
    const DENIAL_TEXTS = {
        denied: "the user denied", timeout: "the user did not respond", granted: "denied, although the user agreed",
        none: "the user denied or did not respond",
    };
    /** @type {Record<number, string>} */
    const CTAPHID_ERROR_TEXTS = {
        0x01: "unsupported command", 0x03: "invalid length", 0x04: "wrong sequence number", 0x05: "message timeout",
        0x06: "the key was busy", 0x0b: "invalid channel",
    };
    /**
     * The number of transactions by command and by result.
     * @typedef {Map<string, Map<string, number>>} EndCounts
     */

    /** @param {number} byte */
    const toHexByte = (byte) => `0x${byte.toString(16).padStart(2, "0")}`;

    /**
     * The kind of a transaction in one or two words.
     * @param {Viewer.Transaction} transaction
     */
    const describeKind = (transaction) => {
        const { command } = transaction;
        if (command === CBOR) {
            const code = transaction.length ? transaction.byteAt(0) : -1;
            return COMMAND_NAMES[code]?.[0] ?? `Command ${code < 0 ? "none" : toHexByte(code)}`;
        }
        return { [INIT]: "New channel", [PING]: "Ping" }[command] ?? `Message ${toHexByte(command)}`;
    };

    /**
     * A status in words, or by the standard's name if no words are defined.
     * @param {number} status
     */
    const describeStatus = (status) => {
        const name = STATUSES[status]?.toLowerCase().replaceAll("_", " ");
        const text = name?.replace(/^(?:pin|puat|uv|up)\b/, (word) => word.toUpperCase());
        return STATUS_TEXTS[status] ?? text ?? `status ${toHexByte(status)}`;
    };

    /**
     * The word of the last presence reply in a transaction, or "none".
     * @param {Viewer.Transaction} transaction
     */
    const findPresenceWord = ({ all }) => all.filter((line) => line.kind === "presence").at(-1)?.says ?? "none";

    /**
     * How a transaction ended, in words.
     * @param {Viewer.Transaction} transaction
     */
    const describeEnd = (transaction) => {
        const { answer, end, code, by } = transaction;
        if (code !== null) {
            return CTAPHID_ERROR_TEXTS[code] ?? `error ${toHexByte(code)}`;
        }
        if (answer) {
            const status = answer.command === CBOR && answer.length ? answer.byteAt(0) : 0;
            const ending =
                status === OPERATION_DENIED ? DENIAL_TEXTS[findPresenceWord(transaction)] : describeStatus(status);
            return answer.isWhole ? ending : "incomplete response";
        }
        /** @type {Record<string, string>} */
        const ends = {
            replaced: `replaced by line ${by?.number}`, dropped: `dropped by line ${by?.number}`,
            forgotten: "no longer tracked: too many open transactions", "not whole": "incomplete request",
            unknown: "unknown result",
        };
        return ends[end] ?? "no response";
    };

    /**
     * Whether a transaction succeeded.
     * @param {Viewer.Transaction} transaction
     */
    const isSuccessful = (transaction) => describeEnd(transaction) === STATUS_TEXTS[0];

    /**
     * Whether a transaction is a registration, a sign-in, a reset or a selection.
     * @param {Viewer.Transaction} transaction
     */
    const isUserCommand = (transaction) =>
        transaction.command === CBOR && transaction.length > 0 && Boolean(COMMAND_NAMES[transaction.byteAt(0)]?.[1]);

    /**
     * @param {number} count
     * @param {string} word
     */
    const formatCount = (count, word) => `${count.toLocaleString("en")} ${word}${count === 1 ? "" : "s"}`;

    /**
     * Counts the end of a transaction by its command, if it is a registration, sign-in or another user command.
     * @param {EndCounts} counts
     * @param {Viewer.Transaction} transaction
     */
    const countTransaction = (counts, transaction) => {
        const word = transaction.command === CBOR && transaction.length ? COMMAND_NAMES[transaction.byteAt(0)]?.[1] : "";
        if (word) {
            const ends = counts.get(word) ?? new Map();
            const end = describeEnd(transaction);
            ends.set(end, (ends.get(end) ?? 0) + 1);
            counts.set(word, ends);
        }
    };

    /**
     * @param {EndCounts} counts
     * @param {Viewer.Session} session
     * @param {number} refused
     */
    const toSentences = (counts, { log, size, transactions, channelCount }, refused) => {
        const sentences = [];
        for (const [word, ends] of counts) {
            const all = [...ends.values()].reduce((sum, count) => sum + count, 0);
            const listed = [...ends].map(([end, many]) => (ends.size > 1 ? `${many.toLocaleString("en")} ${end}` : end));
            sentences.push(`${formatCount(all, word)}: ${listed.join(", ")}.`);
        }
        const more = refused ? `, ${refused.toLocaleString("en")} rejected` : "";
        const channels = formatCount(channelCount, "channel");
        sentences.push(`${formatCount(transactions, "transaction")} on ${channels}${more}.`);
        const timeMs = size ? log.line(size - 1).timeMs : 0;
        return [...sentences, `${timeMs.toLocaleString("en")} ms.`].join(" ");
    };

    /**
     * Summarizes a session in a few sentences, which the last step returns.
     * @yields the counts so far
     * @param {Viewer.Session} session
     * @returns {Generator<EndCounts, string, any>}
     */
    const summarize = function* summarize(session) {
        /** @type {EndCounts} */
        const counts = new Map();
        let refused = 0;
        for (let place = 0; place < session.transactions; place += 1) {
            const transaction = session.transaction(place);
            countTransaction(counts, transaction);
            refused += transaction.code === null ? 0 : 1;
            if (place % BATCH_SIZE === BATCH_SIZE - 1) {
                yield counts;
            }
        }
        return toSentences(counts, session, refused);
    };

    globalThis.hidlogStory = { describeKind, describeEnd, isSuccessful, isUserCommand, summarize };
})();
