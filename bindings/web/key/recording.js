// The log of a session, as `hidlog live` writes it (docs/use/LOG_FORMAT.md).
import { toHex } from "./bytes.js";

const MAX_LINE = 255;
const MAX_SIGNED_BYTES = 96;

/**
 * Comments that state what the key needs after an input.
 * @param {import("./wasm_key.js").Need} need
 */
const formatNeed = ({ kind, id, toSign }) => {
    if (kind !== "signature") {
        return [`# need ${kind}`];
    }
    const lines = [];
    for (let at = 0; at < toSign.length; at += MAX_SIGNED_BYTES) {
        lines.push(`# signed ${toHex(toSign.subarray(at, at + MAX_SIGNED_BYTES))}`);
    }
    return [...lines, `# need signature ${toHex(id)}`];
};

/**
 * Formats a text as comment lines, and wraps long lines.
 * @param {string} text
 */
const formatComment = (text) =>
    text.split("\n").flatMap((line) => {
        // Only the key's own comments begin with these words, so another space is inserted before them.
        const shown = (/^(need|signed) /.test(line) ? ` ${line}` : line).replace(/[^\x20-\x7e]/g, "?");
        return shown.match(new RegExp(`.{1,${MAX_LINE - 2}}`, "g"))?.map((part) => `# ${part}`) ?? ["#"];
    });

export class Recording {
    /** @type {string[]} the lines of an input, or a comment */
    #entries = [];
    #joined = "";
    #joinedCount = 0;
    #records;
    // Total length of the entries in characters.
    length = 0;

    /** @param {boolean} records whether to record anything */
    constructor(records = true) {
        this.#records = records;
    }

    /** Number of inputs and comment lines. */
    get size() {
        return this.#entries.length;
    }

    /**
     * Adds an input. Returns the lines that were added, none if nothing is recorded.
     * @param {string} input its line
     * @param {Uint8Array[]} packets what the key sent for it
     * @param {import("./wasm_key.js").Need} need
     */
    add(input, packets, need) {
        if (!this.#records) {
            return [];
        }
        const sent = packets.map((packet) => `< ${toHex(packet)}`);
        const lines = [input, ...sent, ...formatNeed(need)];
        this.#push(lines.join("\n"));
        return lines;
    }

    /**
     * Adds a text as comments.
     * @param {string} text
     */
    addComment(text) {
        formatComment(text).forEach((line) => this.#push(line));
    }

    /**
     * Adds a comment line.
     * @param {string} line
     */
    addLine(line) {
        this.#push(line);
    }

    /** @param {string} entry */
    #push(entry) {
        if (this.#records) {
            this.#entries.push(entry);
            this.length += entry.length;
        }
    }

    /** The lines so far, without a final newline. Only new lines are joined to the previous result. */
    lines() {
        const more = this.#entries.slice(this.#joinedCount).join("\n");
        this.#joined += this.#joinedCount && more ? `\n${more}` : more;
        this.#joinedCount = this.#entries.length;
        return this.#joined;
    }

    /**
     * The log so far, with the totals line.
     * @param {string} stats
     */
    text(stats) {
        return [...this.#entries, stats, ""].join("\n");
    }
}
