// Tests in which pages a key can be installed, and that it is installed once: frames without a URL of their own, the
// option `origin`, and a script that is loaded twice. Also tests the script's version and licence.
import { version } from "../../bindings/web/dist/security_key.mjs";
import { expect, getRejection } from "./harness.js";

const fetchText = async (path) => (await fetch(`/${path}`)).text();
const SCRIPT = "/bindings/web/dist/security_key.js";

const loadScript = (page) => new Promise((done, fail) => {
    const script = page.document.createElement("script");
    script.src = new URL(SCRIPT, location.href);
    script.addEventListener("load", done);
    script.addEventListener("error", fail);
    page.document.head.append(script);
});

const REGISTER_SCRIPT = `navigator.credentials.create({ publicKey: {
    challenge: new Uint8Array(32), rp: { name: "A" }, user: { id: Uint8Array.of(1), name: "a", displayName: "A" },
    pubKeyCredParams: [{ type: "public-key", alg: -7 }],
} })`;

/** Calls a function with a new frame's window, and removes the frame. */
const withFrame = async (attributes, run) => {
    const frame = Object.assign(document.createElement("iframe"), attributes);
    const isLoaded = attributes.srcdoc !== undefined;
    const loaded = new Promise((done) => frame.addEventListener("load", done, { once: true }));
    document.body.append(frame);
    await (isLoaded ? loaded : null);
    try {
        return await run(frame.contentWindow);
    } finally {
        frame.remove();
    }
};

/** Frames that inherit an origin register with the inherited origin. */
const testInheritedOrigins = async () => {
    for (const attributes of [{}, { src: "about:blank" }, { srcdoc: "<!doctype html><title>A frame</title>" }]) {
        await withFrame(attributes, async (page) => {
            await loadScript(page);
            const key = page.hidlogKey.install();
            const made = await page.eval(REGISTER_SCRIPT);
            const data = JSON.parse(new TextDecoder().decode(made.response.clientDataJSON));
            expect(data.origin === location.origin && data.crossOrigin === false, JSON.stringify(data));
            key.uninstall();
        });
    }
};

/** If the script is loaded twice, the installed key is kept. */
const testScriptLoadedTwice = async () => withFrame({ src: "about:blank" }, async (page) => {
    await loadScript(page);
    const [first, key] = [page.hidlogKey, page.hidlogKey.install()];
    await page.eval(REGISTER_SCRIPT);
    await loadScript(page);
    expect(page.hidlogKey === first && page.hidlogKey.installedKey() === key, "the same instance");
    expect((await key.getCredentials()).length === 1, "its credential");
    const error = await getRejection((async () => page.hidlogKey.install())());
    expect(error.message.includes("already installed"), error.message);
    key.uninstall();
});

/** The option `origin` is checked in the same way as the page's origin. */
const testOriginOption = async () => withFrame({ src: "about:blank" }, async (page) => {
    await loadScript(page);
    const origins = ["https://accounts.bank.com", "https://bank.com", "chrome-extension://abcdef", "https://localhost.com"];
    for (const origin of origins) {
        const error = await getRejection((async () => page.hidlogKey.install({ origin }))());
        expect(error.message.includes(`${origin} is not an allowed test origin`), `${origin}: ${error.message}`);
        expect(page.hidlogKey.installedKey() === null, "no key is installed");
    }
    for (const options of [
        { origin: "https://login.example" }, { origin: "http://localhost:8080" },
        { origin: "https://accounts.bank.com", allowedOrigins: ["https://accounts.bank.com"] },
    ]) {
        page.hidlogKey.install(options).uninstall();
    }
});

/** A sandboxed frame has an opaque origin, and gets no credential. */
const testOpaqueOrigin = async () => {
    const text = `<!doctype html><script src="${new URL(SCRIPT, location.href)}"></script><script>
        hidlogKey.install();
        ${REGISTER_SCRIPT}.then(() => "registered", (error) => error.name).then((told) => parent.postMessage(told, "*"));
        </script>`;
    const told = new Promise((done) => addEventListener("message", ({ data }) => done(data), { once: true }));
    const frame = document.createElement("iframe");
    frame.setAttribute("sandbox", "allow-scripts");
    frame.srcdoc = text;
    document.body.append(frame);
    const message = await told;
    frame.remove();
    expect(message === "NotAllowedError", message);
};

/** The script begins with its version and licence, and exports its version. */
const testVersion = async () => {
    const source = await fetchText("crates/hidlog/src/cli.rt");
    const [, expected] = /^const VERSION: &str = "([^"]+)";$/m.exec(source);
    expect(version === expected && globalThis.hidlogKey.version === expected, version);
    const [line] = (await fetchText("bindings/web/dist/security_key.js")).split("\n");
    expect(line.startsWith(`// hidlog ${expected}, Apache-2.0 OR MIT.`), line);
};

export const guardTests = {
    "frames inherit an origin": testInheritedOrigins,
    "a script that is loaded twice": testScriptLoadedTwice,
    "the option origin is guarded": testOriginOption,
    "an opaque origin gets no credential": testOpaqueOrigin,
    "the version and the licence": testVersion,
};
