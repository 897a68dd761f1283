// Recognizes files that are neither a log nor a capture by their first bytes, and advises what to do with them. Sets
// `globalThis.hidlogFileKinds`.
"use strict";

(() => {
    const { PACKET_SIZE, toHex } = globalThis.hidlogBytes;
    // Number of bytes at the start of a file that are decoded to recognize it.
    const MAX_EXAMINED_BYTES = 4096;
    const OPEN_LOG = "Open a session log or a USB capture.";
    const OPEN_SOURCE = "Open the log from which it was made.";
    /** @type {[front: string, name: string][]} */
    const BINARY_FORMATS = [
        ["504b0304", "a ZIP archive: unpack it first"], ["89504e47", "a picture"], ["ffd8ff", "a picture"],
        ["47494638", "a picture"], ["25504446", "a PDF document"], ["7f454c46", "a program"], ["4d5a", "a program"],
        ["0061736d", "a WebAssembly module"], ["1f9d", "packed by compress: unpack it first"],
        ["425a68", "packed by bzip2: unpack it first"], ["fd377a585a00", "packed by xz: unpack it first"],
        ["28b52ffd", "packed by zstd: unpack it first"],
    ];
    // Texts that `hidlog import` converts (docs/use/CAPTURES.md).
    /** @type {[pattern: RegExp, name: string][]} */
    const IMPORTABLE_FORMATS = [
        [/^fido_[rt]x: /m, "the output of libfido2's FIDO_DEBUG"],
        [/\bfido2\.\w+.*\b(?:SEND|RECV): [0-9a-f]/m, "python-fido2's logging"],
        [/^[0-9a-f]{4,16} \d+ [SCE] [CBIZ][io]:/m, "usbmon's text"],
        [/\b(?:openat|read|write|ioctl|newfstatat)\(.*\) += -?\d/m, "the output of strace"],
        [/\bFIDO\b.*(?:<-|->) /m, "Chromium's device log"],
    ];
    /** @type {[pattern: RegExp, name: string, advice: string][]} */
    const TEXT_FORMATS = [
        [/^\s*\{"kind":"format"/, "the output of hidlog show --json", OPEN_SOURCE],
        [/^\s*[{[]\s*["{[\]}\d]/, "JSON; a page's key returns its log by key.log() and key.recordings()",
            "Save what key.log() returns as a text file."],
        [/^\s*<(?:!doctype|html|\?xml|svg)/i, "an HTML page",
            "Open it in a browser, if it was saved here with a log."],
        [/^\d+ [<>] (?:\d+ )?[0-9a-f]{8} [A-Z+]/, "the output of hidlog show", OPEN_SOURCE],
        [/^hidlog: line \d+: /, "the output of hidlog check", OPEN_SOURCE],
    ];

    // The comments at the start of a log, and the first other line.
    const LOG_START = /^(?:(?:#.*)?\n)*[<>tpks=] /;

    /**
     * The error for a file that cannot be opened, with advice. `isImportable` is whether `hidlog import` may convert
     * the file.
     */
    class UnreadableFileError extends Error {
        /**
         * @param {string} message
         * @param {string} advice
         */
        constructor(message, advice = OPEN_LOG, isImportable = false) {
            super(message);
            this.advice = advice;
            this.isImportable = isImportable;
        }
    }

    /**
     * The start of a file as text, or null if the bytes are not UTF-8, or contain control characters.
     * @param {Uint8Array} bytes
     */
    const readText = (bytes) => {
        try {
            // With `stream`, an incomplete character at the end of the part is not an error.
            const decoder = new TextDecoder("utf-8", { fatal: true });
            const text = decoder.decode(bytes.subarray(0, MAX_EXAMINED_BYTES), { stream: true });
            return /[^\P{Cc}\t\n\r]/u.test(text) ? null : text;
        } catch {
            return null;
        }
    };

    /**
     * The error for a file of another known kind, or null.
     * @param {Uint8Array} bytes
     */
    const findKindError = (bytes) => {
        const binary = BINARY_FORMATS.find(([front]) => toHex(bytes.subarray(0, front.length / 2)) === front);
        if (binary) {
            return new UnreadableFileError(`the file is ${binary[1]}`);
        }
        const text = readText(bytes);
        if (text === null || LOG_START.test(text)) {
            return null;
        }
        const other = TEXT_FORMATS.find(([pattern]) => pattern.test(text));
        if (other) {
            return new UnreadableFileError(`the file is ${other[1]}`, other[2]);
        }
        const importable = IMPORTABLE_FORMATS.find(([pattern]) => pattern.test(text));
        return importable ? new UnreadableFileError(`the file is ${importable[1]}`, "", true) : null;
    };

    // A log line with a packet of either side, or with another input: time, user presence, a key pair, a signature.
    const PACKET_OR_INPUT = /^(?:(?:> \d+|<) [0-9a-f]{128}|[tpks] \d+(?: .*)?)$/i;
    // Number of hexadecimal digits of a packet, and maximum number of characters of a line in a message.
    const [PACKET_DIGITS, MAX_SHOWN] = [2 * PACKET_SIZE, 60];

    /**
     * Why a line is not a log line, if this is due to a common mistake, or "".
     * @param {string} line
     */
    const explainLine = (line) => {
        if (/^[0-9a-f]+$/i.test(line)) {
            return "it is a part of a packet: the lines are wrapped, or the beginning of the log is missing";
        }
        const digits = /^(?:> \d+|<) ([0-9a-f]*)$/i.exec(line)?.[1];
        return digits === undefined || digits.length === PACKET_DIGITS ? ""
            : `its packet has ${digits.length} hexadecimal digits, not ${PACKET_DIGITS}: it is cut, wrapped or changed`;
    };

    /**
     * The number of empty lines and comments before the first other line of a file, or 0 if there is no other line.
     * @param {Uint8Array} bytes
     */
    const countComments = (bytes) => {
        const lines = (readText(bytes) ?? "").split("\n");
        const count = lines.findIndex((line) => line && !line.startsWith("#"));
        return count < 0 ? 0 : count;
    };

    /**
     * Throws if the first line of a file after the comments is not a log line.
     * @param {Uint8Array} bytes
     * @param {Viewer.Fault} outcome - the result of replaying the line
     */
    const checkFirstLine = (bytes, outcome) => {
        if (outcome.status !== 1) {
            return;
        }
        const text = readText(bytes);
        if (text === null) {
            const first = toHex(bytes.subarray(0, 4)).match(/../g) ?? [];
            throw new UnreadableFileError(`not a text file: the first bytes are ${first.join(" ")}`);
        }
        const [line, next = ""] = text.split("\n").slice(countComments(bytes));
        const shown = line.length > MAX_SHOWN ? `${line.slice(0, MAX_SHOWN)}…` : line;
        const mistake = explainLine(line) || (PACKET_OR_INPUT.test(next) ? "its beginning is missing" : "");
        const fault = `${globalThis.hidlog.formatError(outcome)}: ${mistake || `“${shown}”`}`;
        throw new UnreadableFileError(`not a session log: ${fault}`, "Copy the whole log.", !mistake);
    };

    /**
     * Advice on what to do with a file that was not opened.
     * @param {string} name
     * @param {Error & { advice?: string, isImportable?: boolean }} error
     */
    const adviseOn = (name, { advice, isImportable }) => {
        if (!isImportable) {
            return advice ?? "";
        }
        // Only a name that a shell does not expand is put into the command. For other names the command has FILE.
        const isPlain = /^\w[\w.,+@ -]*$/.test(name);
        const quoted = /^[\w.,+@-]+$/.test(name) ? name : `'${name}'`;
        return `Convert it to a log: hidlog import ${isPlain ? quoted : "FILE"} -o session.log`;
    };

    globalThis.hidlogFileKinds = { UnreadableFileError, adviseOn, checkFirstLine, countComments, explainLine, findKindError };
})();
