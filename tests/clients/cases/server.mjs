// A program for tests/clients/browser_cases.py: makes the calls that standard input names, as the command `hidlog browser`
// does, on the key of the npm package. The argument is the package's module; it exports `install`.
import { createInterface } from "node:readline";
import { pathToFileURL } from "node:url";

const { install } = await import(pathToFileURL(process.argv[2]));
const key = install({ origin: "http://localhost:5000" });

const call = (method, parse) => async (options, mediation) => {
    const publicKey = PublicKeyCredential[parse](options.publicKey ?? options);
    return (await navigator.credentials[method]({ publicKey, mediation })).toJSON();
};

const commands = {
    create: call("create", "parseCreationOptionsFromJSON"),
    get: call("get", "parseRequestOptionsFromJSON"),
    setPresence: (word) => {
        key.presence = word;
    },
    setAuthenticatorOptions: (options) => key.setAuthenticatorOptions(options),
    setUserVerified: (isVerified) => key.setUserVerified(isVerified),
    clearCredentials: () => key.clearCredentials(),
    getRecordings: () => key.recordings().map(({ snapshot, log }) => ({
        snapshot: Buffer.from(snapshot).toString("base64url"), log })),
};

for await (const line of createInterface({ input: process.stdin })) {
    const { mediation, ...request } = JSON.parse(line);
    const [[name, argument]] = Object.entries(request);
    try {
        console.log(JSON.stringify({ value: (await commands[name](argument, mediation)) ?? null }));
    } catch (error) {
        console.log(JSON.stringify({ error: error.name, message: error.message }));
    }
}
key.uninstall();
