#!/usr/bin/env node
// The command `npx hidlog`. `browser` is implemented in node. Commands of the Python package are not included. All
// other commands run the program, which the package contains for x86-64 Linux. On other systems, or with
// HIDLOG_CLI=wasm, some of them run on the verified core as WebAssembly.
import { spawn } from "node:child_process";
import { accessSync, constants } from "node:fs";
import { fileURLToPath } from "node:url";

const PROGRAM = fileURLToPath(new URL("linux-x64/hidlog", import.meta.url));
/** The commands of the Python package. tests/one_command.py compares this list with the package. */
const PYTHON_COMMANDS = ["webdriver", "import", "export", "judge", "shrink", "check-many", "mermaid"];

const hasProgram = () => {
    if (process.platform !== "linux" || process.arch !== "x64" || process.env.HIDLOG_CLI === "wasm") {
        return false;
    }
    try {
        accessSync(PROGRAM, constants.X_OK);
        return true;
    } catch {
        return false;
    }
};

/** Runs the program, and exits with its status. @param {string[]} words */
const runProgram = (words) => {
    const child = spawn(PROGRAM, words, { stdio: "inherit", argv0: "hidlog" });
    for (const signal of ["SIGINT", "SIGTERM", "SIGHUP"]) {
        process.on(signal, () => child.kill(signal));
    }
    child.on("error", (error) => {
        process.stderr.write(`hidlog: cannot start ${PROGRAM}: ${error.message}; `
            + "to run without it, set HIDLOG_CLI=wasm\n");
        process.exit(2);
    });
    child.on("exit", (status, signal) => {
        if (signal) {
            process.removeAllListeners(signal);
            process.kill(process.pid, signal);
        } else {
            process.exitCode = status;
        }
    });
};

const words = process.argv.slice(2);
const [command, ...rest] = words[0] === "help" && (words[1] === "browser" || PYTHON_COMMANDS.includes(words[1]))
    ? [words[1], "--help"] : words;
if (PYTHON_COMMANDS.includes(command) || (command === "check" && rest.includes("--signatures"))) {
    const name = command === "check" ? "check --signatures" : command;
    process.stderr.write(`hidlog: ${name} is a command of the Python package: install hidlog with pip, ` +
        "or python3-hidlog on Debian\n");
    process.exitCode = 2;
} else if (command === "browser") {
    process.stdout.on("error", (error) => process.exit(error.code === "EPIPE" ? 1 : 2));
    const { serve } = await import("./browser.mjs");
    await serve(rest);
} else if (hasProgram()) {
    runProgram(words);
} else {
    process.stdout.on("error", (error) => process.exit(error.code === "EPIPE" ? 1 : 2));
    const { main } = await import("./wasm.mjs");
    await main(words);
}
