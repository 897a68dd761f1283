// The first difference between a log and what the key sends: the line, and both packets explained side by side. Sets
// `globalThis.hidlogDifference`.
"use strict";

(() => {
    const { KIND } = globalThis.hidlogLog;

    /**
     * Returns the packet with this number (the first is 1) among those that the key sent after the input with the line
     * index `from`. If `from` is -1, these are the packets before the first input.
     * @param {Viewer.Session} session
     * @param {number} from
     * @param {number} packet
     */
    const findPacket = (session, from, packet) => {
        let left = packet;
        /** @param {number} place */
        const isEnd = (place) => {
            left -= session.kindAt(place) === KIND.KEY ? 1 : 0;
            return left === 0 || session.isInput(place);
        };
        const found = session.find(isEnd, from + 1);
        return found >= 0 && left === 0 ? session.line(found) : undefined;
    };

    /**
     * Returns the number of inputs up to a line index.
     * @param {Viewer.Session} session
     * @param {number} last
     */
    const countInputs = (session, last) => {
        let count = 0;
        for (let place = 0; place <= last; place += 1) {
            count += session.isInput(place) ? 1 : 0;
        }
        return count;
    };

    /**
     * Returns the line index of the input with this number, counted from 1, or -1.
     * @param {Viewer.Session} session
     * @param {number} count
     */
    const findInputIndex = (session, count) => {
        let left = count;
        return session.find((place) => {
            left -= session.isInput(place) ? 1 : 0;
            return left === 0;
        });
    };

    /**
     * Describes a difference in a sentence without a full stop.
     * @param {Pick<Viewer.FoundDifference, "has" | "sends" | "line" | "packet">} found
     */
    const describeDifference = ({ has, sends, line, packet }) => {
        const where = line ? `for line ${line}` : "before any input";
        if (!has) {
            return `line ${line} differs: packet ${packet} of the key's response is missing`;
        }
        return sends
            ? `line ${has.number} differs: packet ${packet} ${where}`
            : `line ${has.number} is unexpected: the key sends ${packet - 1} packets ${where}`;
    };

    // The text that is shown until the packets are explained.
    const UNKNOWN_TEXT = "…";

    /**
     * Finds the packet that `check` reported, and the packet that the key sends instead.
     * @param {Viewer.Session} recorded
     * @param {Viewer.Session} replayed
     * @param {{ line: number, packet: number }} outcome
     * @returns {Viewer.FoundDifference}
     */
    const find = (recorded, replayed, { line, packet }) => {
        const before = countInputs(recorded, line - 1);
        const has = findPacket(recorded, line - 1, packet);
        const sends = findPacket(replayed, before ? findInputIndex(replayed, before) : -1, packet);
        const found = { has, sends, line, packet, marked: has?.number ?? line };
        return { ...found, says: describeDifference(found), explained: [[UNKNOWN_TEXT], [UNKNOWN_TEXT]] };
    };

    /** @param {string} text */
    const makeMark = (text) => {
        const made = document.createElement("mark");
        made.textContent = text;
        return made;
    };

    /** @param {(Node | string)[]} parts */
    const makePacketLine = (parts) => {
        const made = document.createElement("span");
        made.className = "packet";
        made.append(...parts);
        return made;
    };

    /**
     * A packet line, with marks on the digits that differ from the other packet.
     * @param {string} text
     * @param {string} other
     */
    const markDigits = (text, other) => {
        /** @param {number} at */
        const isOther = (at) => text[at].toLowerCase() !== other[at]?.toLowerCase();
        /** @type {(Node | string)[]} */
        const parts = [];
        for (let at = 0; at < text.length;) {
            const begun = at;
            const differs = isOther(at);
            while (at < text.length && isOther(at) === differs) {
                at += 1;
            }
            parts.push(differs ? makeMark(text.slice(begun, at)) : text.slice(begun, at));
        }
        return parts;
    };

    /**
     * The lines, with marks on those that are missing on the other side.
     * @param {string[]} lines
     * @param {string[]} others
     */
    const markLines = (lines, others) =>
        lines.flatMap((line) => [others.includes(line) ? line : makeMark(line), "\n"]);

    // Longer lines, such as those with byte strings, are not part of the overview.
    const MAX_WIDTH = 70;

    // The names of the two sides of a difference.
    const LOG_AND_KEY = { own: "The log", other: "The key" };

    /**
     * The overview: for each side, the short lines that the other side lacks.
     * @param {string[]} own
     * @param {string[]} other
     * @param {{ own: string, other: string }} names
     */
    const makeOverview = (own, other, names) => {
        /** @type {(lines: string[], others: string[]) => string[]} */
        const only = (lines, others) => lines.filter((line) => !others.includes(line) && line.length < MAX_WIDTH);
        const width = Math.max(names.own.length, names.other.length) + 2;
        /** @type {[string, string[]][]} */
        const parts = [[`${names.own}:`, only(own, other)], [`${names.other}:`, only(other, own)]];
        return parts.flatMap(([whose, lines]) =>
            lines.flatMap((line) => [whose.padEnd(width), makeMark(line.trim()), "\n"]));
    };

    const NO_CREDENTIALS = "CTAP2_ERR_NO_CREDENTIALS";
    const SNAPSHOT_HINT = "The key has no matching credential. If the log started with credentials, drop its snapshot first.\n";

    /**
     * Whether only the second message reports that no credential matches.
     * @param {string[]} own
     * @param {string[]} other
     */
    const lacksCredentials = (own, other) =>
        other.join().includes(NO_CREDENTIALS) && !own.join().includes(NO_CREDENTIALS);

    /**
     * The explanations of both packets, empty for a missing packet.
     * @param {DifferingLines} found
     * @param {Viewer.LineTexts} shown
     */
    const explain = ({ has, sends }, shown) => [has, sends].map((line) => (line ? shown.detail(line) : []));

    /**
     * The difference as DOM nodes: both packets, and the explanations of their messages. `makeTree` makes the tree of
     * the first message's fields, and marks the lines that its argument selects.
     * @param {Difference} found
     * @param {(isMarked: (line: string) => boolean) => HTMLElement} makeTree
     */
    const makeNodes = ({ has, sends, says, explained: [ownSays, otherSays] }, makeTree, names = LOG_AND_KEY) => {
        const [own, other] = [has, sends].map((line) => (line ? line.text : "nothing"));
        const packets = has && sends ? [markDigits(own, other), markDigits(other, own)] : [[own], [other]];
        const tree = makeTree((line) => /** @type {boolean} */ (has && !otherSays.includes(line)));
        const isNone = names === LOG_AND_KEY && lacksCredentials(ownSays, otherSays);
        const [ownVerb, otherVerb] = names === LOG_AND_KEY ? ["has", "sends"] : ["has", "has"];
        return [
            `${says}\n`, isNone ? SNAPSHOT_HINT : "", ...makeOverview(ownSays, otherSays, names),
            `\n${names.own} ${ownVerb}:\n`, makePacketLine(packets[0]),
            `\n${names.other} ${otherVerb}:\n`, makePacketLine(packets[1]),
            `\n\n${has ? names.own : names.other}'s message:\n`, tree,
            ...(has ? [`\n${names.other}'s message:\n`, ...markLines(otherSays, ownSays)] : []),
        ];
    };

    /**
     * The difference in a sentence: what the log has, and what the key sends.
     * @param {Difference} found
     */
    const toSentence = ({ has, sends, explained: [own, other] }) => {
        const [has1, sends1] = [[own, other], [other, own]].map(([lines, others]) =>
            lines.find((line) => !others.includes(line) && line.length < MAX_WIDTH)?.trim());
        if (lacksCredentials(own, other)) {
            return SNAPSHOT_HINT.trim();
        }
        if (!has || !sends) {
            return has ? "The log has a packet that the key does not send." : "The log lacks a packet the key sends.";
        }
        return has1 && sends1 ? `The log has ${has1}; the key sends ${sends1}.`
            : "The packet in the log differs from the one the key sends.";
    };

    globalThis.hidlogDifference = { explain, find, makeNodes, toSentence };
})();
