// Tests the npm package that is installed in FOLDER/node_modules: npm_package.mjs FOLDER. Compares the output of the
// package's command with that of the program, byte for byte, runs the cases recorded from Chromium, passes invalid
// arguments, and runs the code of the README.
import assert from "node:assert/strict";
import { spawn, spawnSync } from "node:child_process";
import { readdirSync, readFileSync, writeFileSync } from "node:fs";
import { join } from "node:path";
import { createInterface } from "node:readline";
import { fileURLToPath } from "node:url";
import { ORIGIN, runCases } from "./cases.mjs";

const TOP = fileURLToPath(new URL("../..", import.meta.url));
const folder = process.argv[2];
const command = join(folder, "node_modules/hidlog/cli.mjs");
const program = process.env.HIDLOG_PROGRAM ?? join(TOP, "release/hidlog");

/** Runs a command in FOLDER, and returns its exit status and output. */
const runCommand = (file, words, input = "", variables = { HIDLOG_CLI: "wasm" }) => {
    const env = { ...process.env, ...variables };
    const { status, stdout, stderr } = spawnSync(file, words, { input, env, cwd: folder, maxBuffer: 2 ** 28 });
    return { status, stdout: stdout.toString("latin1"), stderr: stderr.toString() };
};

const listLogs = (path) =>
    readdirSync(join(TOP, path)).filter((name) => name.endsWith(".log")).map((name) => join(TOP, path, name));
const logs = [join(TOP, "examples/registration.log"), ...listLogs("examples/failing"),
    ...listLogs("crates/hidlog_cli/data/capacity_64").filter((_, place) => place % 3 === 0)];
const calls = logs.flatMap((log) => [["check", log], ["replay", log], ["live", log], ["quiet", log],
    ["show", log], ["show", "--explain", log]]);
const getFailingLogPath = (name) => join(TOP, "examples/failing", name);
calls.push(["check", "--load", getFailingLogPath("alice.snapshot"), getFailingLogPath("wrong_snapshot.log")],
    ["check", "--load", getFailingLogPath("bob.snapshot"), getFailingLogPath("wrong_snapshot.log")], ["check", ...logs.slice(0, 4)]);
/** The result without the explanation of an error, which only the program prints. */
const dropExplanation = ({ stderr, ...rest }) => ({ ...rest, stderr: stderr.split("\n")[0] });
for (const words of calls) {
    const ends = [runCommand("node", [command, ...words]), runCommand(program, words)];
    const [own, theirs] = words.includes("--explain") ? ends.map(dropExplanation) : ends;
    assert.deepEqual(own, theirs, words.join(" "));
}
const log = readFileSync(logs[0]);
for (const words of [["check"], ["check", "-"], ["replay"], ["live"], ["live", "-"]]) {
    assert.deepEqual(runCommand("node", [command, ...words], log), runCommand(program, words, log), words.join(" "));
}
console.log(`ok  npx hidlog writes the program's bytes in ${calls.length + 5} calls`);

// Each line gets a reply before the next line is sent. An invalid or too long line ends the session, as in the program.
const session = spawn("node", [command, "live"], { env: { ...process.env, HIDLOG_CLI: "wasm" }, cwd: folder });
const replies = createInterface({ input: session.stdout })[Symbol.asyncIterator]();
for (const line of ["> 0 ffffffff860008000102030405060700".padEnd(132, "0"), "t 10"]) {
    session.stdin.write(`${line}\n`);
    let reply = "";
    while (!reply.startsWith("# need ")) {
        reply = (await replies.next()).value;
    }
    assert.equal(reply, "# need nothing");
}
session.stdin.end();
assert.match((await replies.next()).value, /^= held /);
for (const text of ["t 1\nwrong\nt 2\n", `t 1\n# ${"x".repeat(300)}`, "t 5\nt 6"]) {
    assert.deepEqual(runCommand("node", [command, "live"], text), runCommand(program, ["live"], text), text);
}
console.log("ok  npx hidlog live replies line by line");

// Tests the package's simulated browser with the registrations and sign-ins that were recorded from Chromium.
const browser = spawn("node", [command, "browser", "--origin", ORIGIN], { cwd: folder });
const responses = createInterface({ input: browser.stdout })[Symbol.asyncIterator]();
const send = async (name, argument, more = {}) => {
    browser.stdin.write(`${JSON.stringify({ [name]: argument, ...more })}\n`);
    const { value, error, message } = JSON.parse((await responses.next()).value);
    if (error !== undefined) {
        throw Object.assign(new Error(message), { name: error });
    }
    return value;
};
const count = await runCases({
    start: async (options) => {
        await send("clearCredentials", null);
        await send("setAuthenticatorOptions", options);
        await send("setPresence", "granted");
    },
    setPresence: (word) => send("setPresence", word),
    setUserVerified: (isVerified) => send("setUserVerified", isVerified),
    call: send,
});
browser.stdin.end();
console.log(`ok  npx hidlog browser: ${count} cases recorded from Chromium`);

// Invalid arguments must result in the exit status 1 or 2, and in an error message of one line.
for (const [words, status, expected] of [
    [["chek", "a.log"], 2, "expected one of check"], [["check", "nothing.log"], 1, "nothing.log"],
    [["check", "--lod", "x"], 2, "--help"], [["check", "--load"], 2, "snapshot"], [["browser"], 2, "--origin"],
    [["browser", "--origin", "example.com"], 2, "https://example.com"], [["replay", "a", "b"], 2, "one log"],
    [["judge", "a.log"], 2, "Python package"], [["check", "--signatures"], 2, "check --signatures is a command of"],
]) {
    const end = runCommand("node", [command, ...words]);
    assert.equal(end.status, status, words.join(" "));
    assert.ok(end.stderr.includes(expected) && end.stderr.trim().split("\n").length === 1, end.stderr);
}
for (const words of [["--help"], ["-h"], ["help"]]) {
    assert.deepEqual(runCommand("node", [command, ...words]), runCommand(program, words));
}
assert.match(runCommand("node", [command, "help", "browser"]).stdout, /^usage: hidlog browser .*--origin/);
assert.equal(runCommand("node", [command]).status, 2);
console.log("ok  invalid arguments of npx hidlog");

const readme = readFileSync(join(folder, "node_modules/hidlog/README.md"), "utf8");
const blocks = [...readme.matchAll(/^```js\n([\s\S]*?)^```$/gm)].map(([, text]) => text);
assert.equal(blocks.length, 2);
const lines = blocks.join("\n").split("\n");
const imports = lines.filter((line) => line.startsWith("import "));
const rest = lines.filter((line) => !line.startsWith("import "));
writeFileSync(join(folder, "readme.mjs"), [...imports, ...rest].join("\n"));
const first = runCommand("node", ["readme.mjs"]);
assert.equal(first.stdout, "true YW5u\n", first.stderr);
const named = [...readme.matchAll(/hidlog\/([\w./]+)/g)].map(([, name]) => name);
const have = readdirSync(join(folder, "node_modules/hidlog"));
named.forEach((name) => assert.ok(have.includes(name), `README names ${name}`));
const commands = [...readme.matchAll(/^ {4}npx hidlog ((?:check|show) .*)$/gm)].map(([, words]) => words.split(" "));
assert.equal(commands.length, 2);
const [checked, shown] = commands.map((words) => runCommand("node", [command, ...words]));
assert.match(checked.stdout, /^same \d+ inputs \d+ packets\n$/, checked.stderr);
assert.ok(shown.stdout.includes("GetAssertion"));
console.log("ok  the lines of the npm README");
