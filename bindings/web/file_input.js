// Reads files of any kind: unpacks gzip, and converts UTF-16, a byte order mark and CR LF to the plain lines of a log.
// Undoes changes that mail programs, chats and editors make to a log that is copied as text: quotation marks, a code
// fence, blanks around lines, tabs and no-break spaces. Rejects files of other known kinds (file_kinds.js).
// Sets `globalThis.hidlogFileInput`.
"use strict";

(() => {
    const { toHex } = globalThis.hidlogBytes;
    const { isCapture, readLogs } = globalThis.hidlogCaptures;
    const { findKindError } = globalThis.hidlogFileKinds;
    const [LINE_FEED, CARRIAGE_RETURN] = [10, 13];
    const UTF8_MARK = "efbbbf";
    /** @type {Record<string, string>} */
    const UTF16_MARKS = { fffe: "utf-16le", feff: "utf-16be" };
    const GZIP_START = "1f8b";
    // Maximum length of a text that is restored. Longer texts are not copied by hand.
    const MAX_PASTED_BYTES = 4 * 1024 * 1024;
    // A valid form of a log line: a comment, totals, an empty line, or an input or packet with single spaces between
    // words.
    const LOG_LINE = /^(?:[#=].*|[<>tpks](?: [^\s\u00a0]+)+)?$/;
    const QUOTED_LINE = /^>(?: ?$| [<>tpks#=])/;
    const CODE_FENCE = /^\s*(?:```|~~~)/;

    /**
     * The lines inside the first code fence, or all lines if there is no fence.
     * @param {string[]} lines
     */
    const takeFencedLines = (lines) => {
        const from = lines.findIndex((line) => CODE_FENCE.test(line));
        if (from < 0) {
            return lines;
        }
        const rest = lines.slice(from + 1);
        const end = rest.findIndex((line) => CODE_FENCE.test(line));
        return end < 0 ? rest : [...rest.slice(0, end), ""];
    };

    /** @param {string} line */
    const normalizeBlanks = (line) => (LOG_LINE.test(line) ? line : line.replace(/[\s\u00a0]+/g, " ").trim());

    /**
     * Restores the log in a text. Returns the bytes and a description of the changes. Valid log lines are not changed.
     * @param {Uint8Array} bytes
     * @returns {{ bytes: Uint8Array, changes: string[] }}
     */
    const restoreLog = (bytes) => {
        const unchanged = { bytes, changes: [] };
        const text = bytes.length > MAX_PASTED_BYTES ? "" : new TextDecoder().decode(bytes);
        const lines = text.split("\n");
        const inside = takeFencedLines(lines);
        const hasQuotes = inside.some(Boolean) && inside.every((line) => !line.trim() || QUOTED_LINE.test(line));
        if (!hasQuotes && lines.every((line) => LOG_LINE.test(line))) {
            return unchanged;
        }
        const unquoted = hasQuotes ? inside.map((line) => line.replace(/^> ?/, "")) : inside;
        const made = unquoted.map(normalizeBlanks);
        const isLog = LOG_LINE.test(made[0]);
        const changes = [
            inside !== lines ? "a code fence" : "", hasQuotes ? "a quotation" : "",
            made.some((line, at) => line !== unquoted[at]) ? "other blanks" : "",
        ].filter(Boolean);
        return isLog && changes.length ? { bytes: new TextEncoder().encode(made.join("\n")), changes } : unchanged;
    };

    /**
     * @param {Uint8Array} bytes
     * @param {string} hex
     */
    const startsWith = (bytes, hex) => toHex(bytes.subarray(0, hex.length / 2)) === hex;

    /**
     * Unpacks gzip, up to a number of bytes.
     * @param {Uint8Array} bytes
     * @param {number} most
     */
    const unpack = async (bytes, most) => {
        const reader = new Blob([bytes]).stream().pipeThrough(new DecompressionStream("gzip")).getReader();
        const parts = [];
        let size = 0;
        for (let part = await reader.read(); !part.done; part = await reader.read()) {
            parts.push(part.value);
            size += part.value.length;
            if (size > most) {
                await reader.cancel();
                throw new Error(`the unpacked file has more than ${most} bytes`);
            }
        }
        return new Uint8Array(await new Blob(parts).arrayBuffer());
    };

    /**
     * Replaces each CR LF by LF.
     * @param {Uint8Array} bytes
     */
    const removeCarriageReturns = (bytes) => {
        const made = new Uint8Array(bytes.length);
        let [from, length] = [0, 0];
        for (let at = bytes.indexOf(CARRIAGE_RETURN); at >= 0; at = bytes.indexOf(CARRIAGE_RETURN, at + 1)) {
            if (bytes[at + 1] === LINE_FEED) {
                made.set(bytes.subarray(from, at), length);
                length += at - from;
                from = at + 1;
            }
        }
        made.set(bytes.subarray(from), length);
        return made.subarray(0, length + bytes.length - from);
    };

    /**
     * Converts the bytes of a text to those of a log. Returns the bytes and a description of the changes.
     * @param {Uint8Array} bytes
     */
    const toPlainText = (bytes) => {
        const encoding = UTF16_MARKS[toHex(bytes.subarray(0, 2))];
        const isMarked = startsWith(bytes, UTF8_MARK);
        const text = encoding ? new TextEncoder().encode(new TextDecoder(encoding).decode(bytes))
            : bytes.subarray(isMarked ? 3 : 0);
        const end = text.indexOf(LINE_FEED);
        const hasReturns = end > 0 && text[end - 1] === CARRIAGE_RETURN;
        const changes = [encoding && "UTF-16", isMarked && "a byte order mark", hasReturns && "CR LF"].filter(Boolean);
        return { bytes: hasReturns ? removeCarriageReturns(text) : text, changes: /** @type {string[]} */ (changes) };
    };

    /**
     * Reads a file. Returns the file's logs (a capture with several keys has several) and a description of the
     * conversions. Throws if the file is of another known kind, or if gzip unpacks it to more than `most` bytes.
     * @param {Uint8Array} bytes
     * @param {number} most
     */
    const readFile = async (bytes, most) => {
        const isPacked = startsWith(bytes, GZIP_START);
        const unpacked = isPacked ? await unpack(bytes, most) : bytes;
        const packing = isPacked ? ["gzip"] : [];
        if (isCapture(unpacked)) {
            return { logs: readLogs(unpacked), changes: packing };
        }
        const plain = toPlainText(unpacked);
        const error = findKindError(plain.bytes);
        if (error) {
            throw error;
        }
        const tidied = restoreLog(plain.bytes);
        return { logs: readLogs(tidied.bytes), changes: [...packing, ...plain.changes, ...tidied.changes] };
    };

    globalThis.hidlogFileInput = { readFile };
})();
