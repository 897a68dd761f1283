// Tests the key in node: alone, in jsdom as in Jest's environment, through a bundler, and with missing platform
// functions.
import assert from "node:assert/strict";
import { execFileSync } from "node:child_process";
import { existsSync, mkdtempSync, readFileSync, rmSync, writeFileSync } from "node:fs";
import { createRequire } from "node:module";
import { tmpdir } from "node:os";
import { join } from "node:path";
import { test } from "node:test";
import { fileURLToPath } from "node:url";
import vm from "node:vm";
import { webcrypto } from "node:crypto";
import { install, SecurityKey } from "../../bindings/web/dist/security_key.mjs";

const SCRIPT = fileURLToPath(new URL("../../bindings/web/dist/security_key.js", import.meta.url));
const JSDOM = "/usr/share/nodejs/jsdom";
const REGISTER_SCRIPT = `navigator.credentials.create({ publicKey: {
    challenge: new Uint8Array(32), rp: { name: "A" }, user: { id: Uint8Array.of(1), name: "ann", displayName: "Ann" },
    pubKeyCredParams: [{ type: "public-key", alg: -7 }] } })`;

test("what node lacks is there with the key, and gone without it", async () => {
    const before = Object.getOwnPropertyNames(globalThis);
    const key = install({ origin: "https://example.com" });
    assert.equal(String(navigator.credentials), "[object CredentialsContainer]");
    assert.throws(() => new PublicKeyCredential(), TypeError);
    await assert.rejects(navigator.credentials.create({}), { name: "NotSupportedError" });
    key.uninstall();
    assert.deepEqual(Object.getOwnPropertyNames(globalThis), before);
});

test("a page without an origin is told to name one", async () => {
    const key = install();
    await assert.rejects(navigator.credentials.get({ publicKey: { challenge: new Uint8Array(1) } }), /option origin/);
    key.uninstall();
});

test("the first call reports what is missing, in one line", async () => {
    for (const [missing, expected] of [["WebAssembly", /WebAssembly/], ["crypto", /crypto\.subtle/]]) {
        const world = vm.createContext({
            URL, DOMException, EventTarget, Event, CustomEvent, AbortController, AbortSignal, TextEncoder, TextDecoder,
            atob, btoa, performance, setTimeout, clearTimeout, setInterval, clearInterval, crypto: webcrypto,
        });
        vm.runInContext(`delete globalThis.${missing}; ${readFileSync(SCRIPT, "utf8")}`, world);
        vm.runInContext('hidlogKey.install({ origin: "https://example.com" })', world);
        const error = await vm.runInContext(`${REGISTER_SCRIPT}.catch((caught) => caught.message)`, world);
        assert.match(error, expected);
        assert.match(error, /^[^\n]*node 20[^\n]*$/);
    }
});

const noJsdom = { skip: !existsSync(JSDOM) && "node-jsdom is missing" };

/** A page of jsdom at an address, with the key's script, and the warnings in its console. */
const openPage = (url) => {
    process.env.NODE_PATH = "/usr/share/nodejs";
    createRequire(import.meta.url)("node:module").Module._initPaths();
    const { JSDOM: Page, VirtualConsole } = createRequire(import.meta.url)(JSDOM);
    const virtualConsole = new VirtualConsole();
    const warnings = [];
    virtualConsole.on("warn", (text) => warnings.push(text));
    const { window } = new Page("", { url, runScripts: "outside-only", virtualConsole });
    window.eval(readFileSync(SCRIPT, "utf8"));
    window.webcrypto = webcrypto;
    return { window, warnings };
};

test("in jsdom, as Jest has it", noJsdom, async () => {
    const { window } = openPage("https://example.com/");
    window.eval('hidlogKey.install({ crypto: webcrypto, allowedOrigins: ["https://example.com"] })');
    const made = await window.eval(REGISTER_SCRIPT);
    assert.equal(JSON.parse(new TextDecoder().decode(made.response.clientDataJSON)).origin, "https://example.com");
    assert.equal(made.toJSON().response.publicKeyAlgorithm, -7);
});

test("a page that isn't for tests gets no key, unless it is named", noJsdom, () => {
    for (const url of ["https://bank.com/a", "https://localhost.bank.com", "https://test", "http://127.0.0.2",
        "https://mytest", "https://example", "https://example.com", "https://bank.com:8443/"]) {
        const { window, warnings } = openPage(url);
        const { origin } = new URL(url);
        assert.throws(() => window.eval("hidlogKey.install()"), (error) =>
            error.message.includes(`${origin} is not an allowed test origin`)
                && error.message.includes(`allowedOrigins: ["${origin}"]`), url);
        assert.equal(window.hidlogKey.installedKey(), null);
        assert.throws(() => window.eval('hidlogKey.install({ allowedOrigins: ["https://other.com"] })'), /is not an allowed test origin/);
        assert.deepEqual(warnings, []);
        window.eval(`hidlogKey.install({ allowedOrigins: [${JSON.stringify(origin)}] })`);
        assert.equal(warnings.length, 1);
    }
});

test("a page for tests gets a key, and one warning in the console", noJsdom, () => {
    for (const url of ["http://localhost:8080/", "https://localhost", "http://127.0.0.1:1", "https://a.localhost",
        "https://bank.test", "https://login.bank.example", "file:///tmp/page.html", "about:blank"]) {
        const { window, warnings } = openPage(url);
        window.eval("hidlogKey.install().uninstall(); hidlogKey.install()");
        assert.ok(window.hidlogKey.installedKey(), url);
        assert.equal(warnings.length, 1, url);
        assert.match(warnings[0], /test key replaces navigator\.credentials/);
    }
});

test("invalid origins are rejected", noJsdom, () => {
    const { window } = openPage("https://bank.com/");
    for (const wrong of ['"https://bank.com"', '["bank.com"]', '["https://bank.com/"]', "[7]", '["*"]']) {
        assert.throws(() => window.eval(`hidlogKey.install({ allowedOrigins: ${wrong} })`), /allowedOrigins/, wrong);
    }
});

const hasEsbuild = existsSync("/usr/bin/esbuild");

test("through a bundler", { skip: !hasEsbuild && "esbuild is missing" }, () => {
    const room = mkdtempSync(join(tmpdir(), "hidlog-"));
    try {
        const module = SCRIPT.replace(/js$/, "mjs");
        writeFileSync(join(room, "entry.mjs"), `import { install } from ${JSON.stringify(module)};
            const key = install({ origin: "https://example.com" });
            ${REGISTER_SCRIPT}.then(({ id }) => console.log(id.length, key.state().credentials.length));`);
        const words = ["--bundle", "--format=esm", `--outfile=${join(room, "out.mjs")}`, "--log-level=warning"];
        execFileSync("esbuild", [join(room, "entry.mjs"), ...words, "--minify"]);
        assert.equal(execFileSync("node", [join(room, "out.mjs")], { encoding: "utf8" }), "43 1\n");
    } finally {
        rmSync(room, { recursive: true });
    }
});

/** Registers once, and signs in several times. */
const registerAndSignIn = async (key, times) => {
    const publicKey = { challenge: new Uint8Array(32), rpId: "example.com" };
    await key.create({ publicKey: {
        ...publicKey, rp: { name: "A" }, user: { id: Uint8Array.of(1), name: "ann", displayName: "Ann" },
        pubKeyCredParams: [{ type: "public-key", alg: -7 }], authenticatorSelection: { residentKey: "required" },
    } });
    for (let count = 0; count < times; count += 1) {
        await key.get({ publicKey });
    }
};

const origin = "https://example.com";

test("with record: false nothing is recorded, and the key is the same", async () => {
    const storage = { text: null, getItem: () => storage.text, setItem: (_, text) => { storage.text = text; } };
    const key = new SecurityKey({ origin, record: false, storage });
    key.faults.delay = 1;
    await registerAndSignIn(key, 3);
    assert.equal(key.log(), "");
    assert.deepEqual(key.recordings(), []);
    assert.equal("recordings" in JSON.parse(storage.text), false);
    const next = new SecurityKey({ origin, storage });
    await next.get({ publicKey: { challenge: new Uint8Array(32), rpId: "example.com" } });
    const [{ signCount }] = await next.getCredentials();
    assert.equal(signCount, 4);
    assert.equal(next.recordings().length, 1);
    assert.ok(next.recordings()[0].snapshot.length > 0, "its recording starts with the credential");
    assert.throws(() => new SecurityKey({ origin, record: "no" }), /record.*true or false/s);
});

test("a long recording is split, and each part passes check", async () => {
    const key = new SecurityKey({ origin });
    await registerAndSignIn(key, 7000);
    const parts = key.recordings();
    assert.equal(parts.length, 2);
    const folder = mkdtempSync(join(tmpdir(), "hidlog"));
    for (const { snapshot, log } of parts) {
        writeFileSync(join(folder, "snapshot"), snapshot);
        const words = snapshot.length ? ["--load", join(folder, "snapshot")] : [];
        const program = process.env.HIDLOG_PROGRAM ?? fileURLToPath(new URL("../../hidlog", import.meta.url));
        const output = execFileSync(program, ["check", ...words], { input: log, encoding: "utf8" });
        assert.match(output, /^same \d+ inputs/);
    }
    rmSync(folder, { recursive: true });
});
