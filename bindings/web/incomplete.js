// Finds out whether an incomplete recording (without its end, its beginning or packets of the host) is the reason for a
// difference from what the key sends, or for a violated rule. Sets `globalThis.hidlogIncomplete`.
"use strict";

(() => {
    const {
        BROADCAST, CONTINUATION_DATA, ERROR, INIT, INITIALIZATION_DATA, LAST_SEQUENCE, LONGEST_MESSAGE,
    } = globalThis.hidlogBytes;
    const { KIND } = globalThis.hidlogLog;
    // The ERROR code for an invalid channel (CTAP 2.1, section 11.2.9.1.6).
    const ERR_INVALID_CHANNEL = 0x0b;
    // The member `expected` of a finding about a request on a channel that was not allocated (judged_host.py).
    const INVALID_CHANNEL = "error 0b";
    // Number of packets of the longest message.
    const MAX_PACKETS = LAST_SEQUENCE + 2;
    // Maximum number of lines that are searched for a message's first packet, or for its response.
    const MAX_LINES = 20_000;

    /**
     * Whether the packet at a line index is an initialization packet. Here and below, `place` is the line index of a
     * packet.
     */
    const isInitialization = (/** @type {Viewer.Log} */ log, /** @type {number} */ place) => log.byte(place, 4) >= 0x80;

    const isPacket = (/** @type {Viewer.Session} */ session, /** @type {number} */ place) =>
        session.kindAt(place) <= KIND.KEY && place < session.size;

    /**
     * The indexes of the packets on a packet's channel, starting with the first packet of the host's message.
     * @param {Viewer.Session} session
     * @param {number} place
     */
    const listPackets = (session, place) => {
        const { log } = session;
        const channel = log.channelAt(place);
        /** @param {number} at */
        const isHere = (at) => isPacket(session, at) && log.channelAt(at) === channel;
        /** @param {number} at */
        const isBegin = (at) => isHere(at) && session.kindAt(at) === KIND.HOST && isInitialization(log, at);
        let from = place;
        while (from >= Math.max(0, place - MAX_LINES) && !isBegin(from)) {
            from -= 1;
        }
        const found = [];
        for (let at = from; at >= 0 && at < Math.min(session.size, from + MAX_LINES); at += 1) {
            if (isHere(at) && (at === from || !isBegin(at))) {
                found.push(at);
            } else if (isHere(at) || found.length > 2 * MAX_PACKETS) {
                break;
            }
        }
        return found;
    };

    /**
     * Whether the recording lacks packets of the host's message to which a line belongs or responds. If so, the key
     * responded although the recorded packets are too few for the message. A key other than the verified one may
     * respond too early, so in its logs a sequence number must be missing as well.
     * @param {Viewer.Session} session
     * @param {number} line
     * @param {boolean} isVerified
     */
    const lacksPackets = (session, line, isVerified) => {
        const { log } = session;
        const place = line - 1;
        if (!line || !isPacket(session, place)) {
            return false;
        }
        const [first, ...others] = listPackets(session, place);
        if (first === undefined || log.channelAt(first) === BROADCAST) {
            return false;
        }
        const length = log.byte(first, 5) * 256 + log.byte(first, 6);
        let [received, next, hasGap] = [INITIALIZATION_DATA, 0, isVerified];
        for (const at of others) {
            if (session.kindAt(at) === KIND.KEY) {
                const isResponse = isInitialization(log, at) && (log.byte(at, 4) & 0x7f) !== ERROR;
                return isResponse && hasGap && received < length && length <= LONGEST_MESSAGE;
            }
            hasGap ||= log.byte(at, 4) > next;
            received += CONTINUATION_DATA;
            next = log.byte(at, 4) + 1;
        }
        return false;
    };

    /**
     * Whether a log ends with the input of a line, or with the first packets in response: no further input and no
     * totals follow.
     * @param {Viewer.Session} session
     * @param {number} line
     */
    const endsAfter = (session, line) => session.find((place) =>
        session.isInput(place) || session.kindAt(place) === KIND.COUNT, line) < 0;

    /**
     * Whether the channel of a line's packet was allocated before the recording began: no INIT response in the
     * recording has the channel, and the key did not reject the channel.
     * @param {Viewer.Session} session
     * @param {number} line
     */
    const startsLate = (session, line) => {
        const { log } = session;
        if (!line || !isPacket(session, line - 1)) {
            return false;
        }
        const channel = log.channelAt(line - 1);
        /** @param {number} place */
        const isAllocation = (place) => {
            const bytes = [15, 16, 17, 18].map((at) => log.byte(place, at));
            return isInitialization(log, place) && (log.byte(place, 4) & 0x7f) === INIT
                && bytes.reduce((sum, byte) => sum * 256 + byte, 0) === channel;
        };
        /** @param {number} place */
        const isOfKey = (place) => session.kindAt(place) === KIND.KEY && place < session.size;
        if (session.find((place) => place >= line - 1 || (isOfKey(place) && isAllocation(place))) < line - 1) {
            return false;
        }
        const next = session.find((place) => isOfKey(place) && log.channelAt(place) === channel, line - 1);
        if (next < 0 || channel === BROADCAST) {
            return false;
        }
        return log.byte(next, 4) !== (0x80 | ERROR) || log.byte(next, 7) !== ERR_INVALID_CHANNEL;
    };

    const LATE_START = {
        title: "begins within a session", why: "The channel was allocated before the log begins.",
        advice: "Record from the first INIT on, or copy the whole file.",
    };
    const MISSING_PACKETS = {
        title: "lacks packets of the host",
        why: "The key responded, but the recorded packets are too few for the request.",
        advice: "Record the session again, or copy the whole file.",
    };

    /**
     * Describes what is missing at the first difference from what the key sends (a title, a reason, and what to do), or
     * returns null.
     * @param {Viewer.Session} session
     * @param {Viewer.Checked} examined
     * @param {Viewer.KeyDifference} difference
     */
    const findMissing = (session, { outcome: { line } }, { has, explained: [, sent] }) => {
        if (!has && line && endsAfter(session, line)) {
            const next = sent[0] ? `: ${sent[0]}` : "";
            return {
                title: "ends before the key has responded",
                why: `Up to its end the log matches the key, whose next packet is missing${next}.`,
                advice: "Copy the whole file, or record until the session ends. If it ended there, the key stopped"
                    + " responding.",
            };
        }
        const lines = [line, has?.number ?? 0];
        if (lines.some((at) => startsLate(session, at))) {
            return LATE_START;
        }
        return lines.some((at) => lacksPackets(session, at, true)) ? MISSING_PACKETS : null;
    };

    /**
     * Describes what is missing from a log if this explains a violated rule, or returns null.
     * @param {Viewer.Session} session
     * @param {Viewer.Finding} finding
     */
    const explainFinding = (session, { line, expected }) => {
        if (lacksPackets(session, line, false)) {
            return MISSING_PACKETS;
        }
        return expected === INVALID_CHANNEL && startsLate(session, line) ? LATE_START : null;
    };

    globalThis.hidlogIncomplete = { explainFinding, findMissing };
})();
