// Loads the page's log reader (bindings/web/session.js) in node, with the core of bindings/web/dist/security_key.js.
// Also reads test files with several logs.
import { readFileSync } from "node:fs";
import vm from "node:vm";

export const resolvePath = (name) => new URL(`../../${name}`, import.meta.url);

for (const name of ["dist/security_key.js", "wasm.js", "dist/bytes.js", "core.js", "log.js", "transactions.js",
    "session.js", "explain.js"]) {
    vm.runInThisContext(readFileSync(resolvePath(`bindings/web/${name}`), "utf8"));
}
export const core = await globalThis.hidlog.load();

export const readSession = (bytes) => globalThis.hidlogSession.readSession(bytes, core);

/** The sections of a file of this folder by name. Each is the text after a line `[name]`, up to the next such line. */
export const readSections = (file) => {
    const parts = readFileSync(resolvePath(`tests/web/${file}`), "utf8").split(/^\[(.+)\]\n/m).slice(1);
    return new Map(Array.from({ length: parts.length / 2 }, (_, at) => [parts[2 * at], parts[2 * at + 1]]));
};
