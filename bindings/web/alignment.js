// Aligns two logs line by line: which lines correspond, and how they differ. Only packets and replies are compared,
// without their timestamps. Sets `globalThis.hidlogAlignment`.
"use strict";

(() => {
    const { CBOR, ERROR, KEEPALIVE } = globalThis.hidlogBytes;
    const { KIND } = globalThis.hidlogLog;
    // Maximum number of lines of each log that are aligned at once. The time grows with the product of both numbers.
    const MAX_ALIGNED_LINES = 400;
    const COMMANDS_WITH_CODE = [CBOR, ERROR, KEEPALIVE];
    const TIMESTAMP_PREFIX = /^([>pks]) \d+ /;
    const INITIALIZATION = 0x80;

    /**
     * The compared parts of a line: `place` is the index, and `text` is the text without the timestamp. `group` is the
     * kind of line, with a packet's command; `shape` also has a packet's code, or the words of another line.
     * @typedef {{ place: number, text: string, shape: string, group: string }} Compared
     */

    /**
     * The shape and the group of a line. The shape of a packet has its sender, command and code.
     * @param {Viewer.Line} line
     */
    const findShape = (line) => {
        if (!line.isPacket) {
            return { group: line.kind, shape: `${line.kind} ${line.says}` };
        }
        const command = line.byte(4);
        const group = `${line.kind} ${command < INITIALIZATION ? "continuation" : command}`;
        return { group, shape: COMMANDS_WITH_CODE.includes(command & 0x7f) ? `${group} ${line.byte(7)}` : group };
    };

    const COMPARED_KINDS = [KIND.HOST, KIND.KEY, KIND.PRESENCE, KIND.NEW_KEY, KIND.SIGNATURE];

    /**
     * The lines of a session to compare.
     * @param {Viewer.Session} session
     * @returns {Compared[]}
     */
    const listComparedLines = (session) => {
        const found = [];
        for (let place = 0; place < session.size; place += 1) {
            if (COMPARED_KINDS.includes(session.kindAt(place))) {
                const line = session.line(place);
                found.push({ place, text: line.text.toLowerCase().replace(TIMESTAMP_PREFIX, "$1 "), ...findShape(line) });
            }
        }
        return found;
    };

    /**
     * The difference of a pair of lines in words, or "" if the lines are the same.
     * @param {Compared} one
     * @param {Compared} other
     */
    const describeDifference = (one, other) => {
        if (one.text === other.text) {
            return "";
        }
        return one.shape === other.shape ? "other bytes" : "differs";
    };

    /**
     * The score of pairing two lines. Equal lines have the highest score.
     * @param {Compared} one
     * @param {Compared} other
     */
    const scorePair = (one, other) => {
        if (one.group !== other.group) {
            return 0;
        }
        return one.text === other.text ? 4 : one.shape === other.shape ? 3 : 1;
    };

    /**
     * For each pair of indexes, the best total score for pairing the lines from these indexes to the ends of both
     * lists.
     * @param {Compared[]} ones
     * @param {Compared[]} others
     */
    const scoreRemainders = (ones, others) => {
        const width = others.length + 1;
        const best = new Uint32Array((ones.length + 1) * width);
        for (let at = ones.length - 1; at >= 0; at -= 1) {
            for (let by = others.length - 1; by >= 0; by -= 1) {
                const rated = scorePair(ones[at], others[by]);
                const paired = rated ? rated + best[(at + 1) * width + by + 1] : 0;
                best[at * width + by] = Math.max(paired, best[(at + 1) * width + by], best[at * width + by + 1]);
            }
        }
        return (/** @type {number} */ at, /** @type {number} */ by) => best[at * width + by];
    };

    /**
     * Pairs the lines of two short lists.
     * @param {Compared[]} ones
     * @param {Compared[]} others
     * @returns {Viewer.Pair[]}
     */
    const alignPart = (ones, others) => {
        const best = scoreRemainders(ones, others);
        const pairs = [];
        let [at, by] = [0, 0];
        while (at < ones.length || by < others.length) {
            const [one, other] = [ones[at], others[by]];
            const rated = one && other ? scorePair(one, other) : 0;
            if (rated && best(at, by) === rated + best(at + 1, by + 1)) {
                pairs.push({ one: one.place, other: other.place, word: describeDifference(one, other) });
                [at, by] = [at + 1, by + 1];
            } else if (one && (!other || best(at, by) === best(at + 1, by))) {
                pairs.push({ one: one.place, other: null, word: "first only" });
                at += 1;
            } else {
                pairs.push({ one: null, other: other.place, word: "second only" });
                by += 1;
            }
        }
        return pairs;
    };

    /**
     * Pairs the lines of two sessions. Each step of the generator pairs a part of them.
     * @param {Viewer.Session} one @param {Viewer.Session} other
     */
    const align = function* aligning(one, other) {
        const [ones, others] = [listComparedLines(one), listComparedLines(other)];
        /** @type {Viewer.Pair[]} */
        const pairs = [];
        let same = 0;
        while (same < Math.min(ones.length, others.length) && ones[same].text === others[same].text) {
            pairs.push({ one: ones[same].place, other: others[same].place, word: "" });
            same += 1;
        }
        for (let from = same; from < Math.max(ones.length, others.length); from += MAX_ALIGNED_LINES) {
            yield from;
            const [part, otherPart] = [ones, others].map((lines) => lines.slice(from, from + MAX_ALIGNED_LINES));
            pairs.push(...alignPart(part, otherPart));
        }
        return pairs;
    };

    globalThis.hidlogAlignment = { align };
})();
