// A simulated browser with a key in one process, for tests in any language. Input and output are JSON lines
// (docs/use/WEBDRIVER.md).
import { createInterface } from "node:readline";
import { install } from "./node.mjs";

/** Returns the public key options: the object itself, or its member publicKey. */
const getPublicKeyOptions = (options) => {
    if (typeof options !== "object" || options === null || Array.isArray(options)) {
        throw new TypeError("the options must be an object");
    }
    if (!Object.keys(options).length) {
        throw new DOMException("the options are empty; pass the options sent by your service", "NotSupportedError");
    }
    return options.publicKey ?? options;
};

const makeCommands = (key) => ({
    create: async (options, more) => (await navigator.credentials.create({
        publicKey: PublicKeyCredential.parseCreationOptionsFromJSON(getPublicKeyOptions(options)), ...more })).toJSON(),
    get: async (options, more) => (await navigator.credentials.get({
        publicKey: PublicKeyCredential.parseRequestOptionsFromJSON(getPublicKeyOptions(options)), ...more })).toJSON(),
    setPresence: (word) => {
        if (!["granted", "denied", "timeout"].includes(word)) {
            throw new TypeError(`presence must be granted, denied or timeout, not ${JSON.stringify(word)}`);
        }
        key.presence = word;
    },
    setAuthenticatorOptions: (options) => key.setAuthenticatorOptions(options),
    setUserVerified: (isVerified) => key.setUserVerified(isVerified),
    selectAccount: (selector) => {
        key.account = selector;
    },
    setFaults: (faults) => {
        Object.assign(key.faults, faults);
    },
    clearFaults: () => key.faults.clear(),
    getCredentials: () => key.getCredentials(),
    addCredential: (credential) => key.addCredential(credential),
    removeCredential: (id) => key.removeCredential(id),
    clearCredentials: () => key.clearCredentials(),
    getLog: () => key.log(),
    getRecordings: () => key.recordings().map(({ snapshot, log }) => ({
        snapshot: Buffer.from(snapshot).toString("base64url"), log })),
});

/** Parses a line. Returns the command, the argument and the mediation. */
const parseLine = (line, commands) => {
    const request = JSON.parse(line);
    const names = Object.keys(typeof request === "object" && request !== null ? request : {});
    const found = names.filter((name) => !["id", "mediation"].includes(name));
    if (found.length !== 1 || !Object.hasOwn(commands, found[0])) {
        const all = Object.keys(commands).join(", ");
        throw new TypeError(`a line must be an object with one command, such as {"get": {..}}; commands: ${all}`);
    }
    const { mediation } = request;
    if (mediation === "conditional") {
        throw new TypeError("conditional mediation is not supported: there is no user interface to select an account");
    }
    return { name: found[0], argument: request[found[0]], more: mediation === undefined ? {} : { mediation } };
};

const parseId = (line) => {
    try {
        return JSON.parse(line)?.id;
    } catch {
        return undefined;
    }
};

/**
 * Runs the command of a line, and returns the response. @param {string} line @param {Record<string, Function>} commands
 */
const respond = async (line, commands) => {
    const id = parseId(line);
    const made = id === undefined ? {} : { id };
    try {
        const { name, argument, more } = parseLine(line, commands);
        return { ...made, value: (await commands[name](argument, more)) ?? null };
    } catch (error) {
        // A RangeError of a command other than create and get is reported as a TypeError.
        const isOfPage = error instanceof DOMException || error.name !== "RangeError" || /"(create|get)"/.test(line);
        return { ...made, error: isOfPage ? error.name : "TypeError", message: error.message };
    }
};

const HELP = `usage: hidlog browser [-h] --origin ORIGIN

A browser with a security key, driven by JSON lines.

options:
  -h, --help       show this help message and exit
  --origin ORIGIN  origin of the page, such as https://example.com
`;

const fail = (text) => {
    process.stderr.write(`hidlog: ${text}\n`);
    process.exit(2);
};

/** Serves lines until standard input ends. @param {string[]} words */
export const serve = async (words) => {
    if (words.includes("--help") || words.includes("-h")) {
        process.stdout.write(HELP);
        return;
    }
    if (words.length !== 2 || words[0] !== "--origin") {
        fail("browser needs an origin: hidlog browser --origin https://example.com");
    }
    const [, origin] = words;
    if (!URL.canParse(origin) || new URL(origin).origin !== origin || !/^https?:/.test(origin)) {
        fail(`invalid origin ${origin}; expected an origin such as https://example.com or http://localhost:8080`);
    }
    const key = install({ origin });
    const commands = makeCommands(key);
    for await (const line of createInterface({ input: process.stdin })) {
        if (line.trim()) {
            process.stdout.write(`${JSON.stringify(await respond(line, commands))}\n`);
        }
    }
    key.uninstall();
};
