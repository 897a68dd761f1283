// The commands check, replay, live, quiet and show of `npx hidlog` without the program: they run on the verified core
// as WebAssembly.
import { createReadStream, readFileSync } from "node:fs";

const COMMANDS = ["check", "replay", "live", "quiet", "show"];
/** Maximum length of a log line. */
const MAX_LINE = 255;
const NEWLINE = 10;
const getFilePath = (name) => new URL(name, import.meta.url);

/** Prints an error and exits. @param {string} text @param {number} status */
const fail = (text, status) => {
    process.stderr.write(`hidlog: ${text}\n`);
    process.exit(status);
};

/** Parses the arguments. @param {string[]} words */
const parseOptions = (words) => {
    const options = { files: [], snapshot: new Uint8Array(0), explain: false };
    const rest = [...words];
    while (rest.length) {
        const word = rest.shift();
        if (word === "--load") {
            options.snapshot = readBytes(rest.shift() ?? fail("--load: expected the path of a snapshot", 2), "snapshot");
        } else if (word.startsWith("--load=")) {
            options.snapshot = readBytes(word.slice("--load=".length), "snapshot");
        } else if (word === "--explain" || word === "--plain") {
            options.explain = word === "--explain";
        } else if (/^--?\w/.test(word)) {
            fail(`unknown option ${word}; run npx hidlog --help for the options`, 2);
        } else {
            options.files.push(word);
        }
    }
    return { ...options, files: options.files.length ? options.files : ["-"] };
};

const readBytes = (file, what) => {
    try {
        return new Uint8Array(readFileSync(file === "-" ? 0 : file));
    } catch (error) {
        return fail(`cannot read ${what}: ${error.message}`, what === "snapshot" ? 2 : 1);
    }
};

/** Loads the verified core. */
const loadCore = async () => {
    globalThis.HIDLOG_WASM = readFileSync(getFilePath("hidlog.wasm")).toString("base64");
    await import(getFilePath("bytes.js"));
    await import(getFilePath("core.js"));
    return globalThis.hidlog.load();
};

/** Sets whether `show` explains the log or prints the machine-readable text. */
const setExplain = (core, explain) => {
    const { hidlog_show: show } = core.exports;
    const flag = Number(explain);
    core.exports = { ...core.exports, hidlog_show: (at, length, _, ...rest) => show(at, length, flag, ...rest) };
};

const printError = (outcome, before = "hidlog: ") => {
    process.stderr.write(`${before}${globalThis.hidlog.formatError(outcome)}\n`);
    process.exitCode = Math.max(process.exitCode ?? 0, outcome.status);
};

/** Prints the output for each line of a log as it arrives, by replaying the log so far. */
const runLive = async (core, file, snapshot) => {
    let log = Buffer.alloc(0);
    let printed = 0;
    /**
     * Replays the log so far, and prints the new output. Returns whether to continue. The last line, the totals, is
     * printed at the end only.
     */
    const printNewOutput = (length, isEnd) => {
        const outcome = core.run("live", log.subarray(0, length), snapshot);
        const totals = outcome.text.lastIndexOf(NEWLINE, outcome.text.length - 2) + 1;
        const end = isEnd || outcome.status ? outcome.text.length : totals;
        process.stdout.write(outcome.text.subarray(printed, end));
        printed = Math.max(printed, end);
        if (outcome.status) {
            printError(outcome);
        }
        return !outcome.status;
    };
    if (!printNewOutput(0, false)) {
        return;
    }
    try {
        for await (const chunk of file === "-" ? process.stdin : createReadStream(file)) {
            log = Buffer.concat([log, chunk]);
            const lines = log.lastIndexOf(NEWLINE) + 1;
            if (!printNewOutput(log.length - lines > MAX_LINE ? log.length : lines, false)) {
                return;
            }
        }
    } catch (error) {
        fail(`cannot read log: ${error.message}`, 1);
    }
    printNewOutput(log.length, true);
};

const run = async (command, words) => {
    const { files, snapshot, explain } = parseOptions(words);
    if (command !== "check" && files.length > 1) {
        fail(`${command}: expected one log, got ${files.length}`, 2);
    }
    if (command === "show" ? snapshot.length : explain) {
        fail(command === "show" ? "show does not support --load" : `${command} does not support --explain`, 2);
    }
    const core = await loadCore();
    setExplain(core, explain);
    if (command === "live") {
        await runLive(core, files[0], snapshot);
        return;
    }
    for (const file of files) {
        const outcome = core.run(command, readBytes(file, "log"), snapshot);
        const before = files.length > 1 ? `${file}: ` : "";
        const text = outcome.text.length && before ? Buffer.concat([Buffer.from(before), outcome.text]) : outcome.text;
        process.stdout.write(text);
        if (outcome.status) {
            printError(outcome, before || undefined);
        }
    }
};

/** Runs a command line. @param {string[]} args */
export const main = async ([command, ...words]) => {
    if (command === undefined || command === "--help" || command === "-h" || command === "help") {
        process[command ? "stdout" : "stderr"].write(readFileSync(getFilePath("help.txt")));
        process.exitCode = command ? 0 : 2;
    } else if (command === "--version" || command === "-V") {
        process.stdout.write(`hidlog ${JSON.parse(readFileSync(getFilePath("package.json"), "utf8")).version}\n`);
    } else if (COMMANDS.includes(command)) {
        await run(command, words);
    } else {
        fail(`unknown command ${command}; expected one of ${[...COMMANDS, "browser"].join(", ")}`, 2);
    }
};
