// Runs the JavaScript and HTML snippets of bindings/web/README.md unchanged, and compares the Python snippet with the
// example.
import "../../bindings/web/dist/security_key.mjs";
import { createCredential, getAssertion, makeOptionsForUser } from "./ceremonies.js";
import { expect, results } from "./harness.js";

const CODE_BLOCK = /^```(\w+)(?: (\w+))?\n([\s\S]*?)^```$/gm;
const AsyncFunction = (async () => {}).constructor;

const fetchText = async (path) => (await fetch(`../../${path}`)).text();

const readBlocks = async () =>
    Array.from((await fetchText("bindings/web/README.md")).matchAll(CODE_BLOCK),
        ([, kind, tool, text]) => ({ kind, tool, text }));

/** The functions of the page under test that the snippets call. */
const page = {
    register: (name, { userVerification } = {}) => {
        const options = makeOptionsForUser(name);
        return createCredential({ ...options, authenticatorSelection: { ...options.authenticatorSelection, userVerification } });
    },
    signIn: (more = {}) => getAssertion({}, more),
};

const testSnippets = async () => {
    const texts = (await readBlocks()).filter(({ kind, tool }) => kind === "js" && !tool).map(({ text }) => text);
    expect(texts.length === 6, `${texts.length} snippets`);
    await new AsyncFunction(...Object.keys(page), texts.join("\n"))(...Object.values(page));
    expect(hidlogKey.installedKey() === null, "the last one uninstalls");
    results.figures.push(`${texts.length} snippets of bindings/web/README.md run in turn`);
};

/** Loads a document in a frame, and returns whether the document installs a key. */
const doesInstallKey = async (html) => {
    const frame = document.createElement("iframe");
    const loaded = new Promise((done) => frame.addEventListener("load", done, { once: true }));
    frame.srcdoc = `<!doctype html><base href="${new URL("../../bindings/web/", location.href)}">${html}`;
    document.body.append(frame);
    await loaded;
    const isThere = frame.contentWindow.hidlogKey.installedKey() !== null;
    frame.remove();
    return isThere;
};

const testScriptTags = async () => {
    const [{ text }] = (await readBlocks()).filter(({ kind }) => kind === "html");
    expect(await doesInstallKey(text), "the key is in place");
};

/**
 * A stub for a page of Playwright or Puppeteer. It runs added scripts at once, and the tools before the page's scripts.
 */
const makePageStub = () => ({
    addInitScript: async (script) => {
        const source = typeof script === "function" ? `(${script})()` : await fetchText(script.path);
        (0, eval)(source);
    },
    evaluateOnNewDocument: async (source) => (0, eval)(source),
    goto: async () => {},
    evaluate: async (script, argument) => script(argument),
});

const testInjections = async () => {
    const script = await fetchText("bindings/web/dist/security_key.js");
    const fs = { readFileSync: () => script };
    for (const { tool, text } of (await readBlocks()).filter((block) => block.tool)) {
        await new AsyncFunction("page", "fs", text)(makePageStub(), fs);
        expect(hidlogKey.installedKey() !== null, `${tool}: the key is in place`);
        hidlogKey.installedKey().uninstall();
    }
};

const testExampleLink = async () => {
    const [{ text }] = (await readBlocks()).filter(({ kind }) => kind === "python");
    expect((await fetchText("examples/web/selenium_sign_in.py")).includes(text), "the example has the lines");
};

export const readmeTests = {
    "the snippets of bindings/web/README.md": testSnippets,
    "its script tags": testScriptTags,
    "its injections, by a stand-in of the tools": testInjections,
    "its lines of the example": testExampleLink,
};
