// Saves the page with its log as one HTML file that works offline. Sets `globalThis.hidlogSave`.
"use strict";

(() => {
    const { toBase64 } = globalThis.hidlogBytes;
    const { readSources } = globalThis.hidlogBackground;
    const SCRIPT_TAG = /<script src="([^"]+)"><\/script>/g;

    /**
     * The hash of a script for a Content-Security-Policy.
     * @param {string} text
     */
    const hashScript = async (text) => {
        const digest = await crypto.subtle.digest("SHA-256", new TextEncoder().encode(text));
        return `'sha256-${toBase64(new Uint8Array(digest))}'`;
    };

    /**
     * Quotes a string as a literal in a script. Characters that could end the script or begin a comment are escaped.
     * @param {string} text
     */
    const quote = (text) => JSON.stringify(text).replaceAll("<", "\\u003c");

    /**
     * @param {string} name
     * @param {Uint8Array | null} bytes
     */
    const embedBytes = (name, bytes) => (bytes ? `globalThis.${name} = ${JSON.stringify(toBase64(bytes))};` : "");

    /**
     * The scripts in the order of the page, after a script with the log.
     * @param {Viewer.SavedState} state
     */
    const listScripts = ({ name, bytes, snapshot }) => {
        const { HIDLOG_SOURCES: packed, HIDLOG_WASM: wasm, HIDLOG_EXAMPLE: example } = globalThis;
        const sources = readSources();
        const wasmText = `globalThis.HIDLOG_WASM = ${JSON.stringify(wasm)};\n`
            + `globalThis.HIDLOG_EXAMPLE = ${JSON.stringify(example)};`;
        const log = [
            `globalThis.HIDLOG_LOG_NAME = ${quote(name)};`, embedBytes("HIDLOG_LOG", bytes),
            embedBytes("HIDLOG_SNAPSHOT", snapshot.length ? snapshot : null),
        ].join("\n");
        const own = `globalThis.HIDLOG_SOURCES = ${JSON.stringify(packed)};`;
        const named = Array.from(sources["index.html"].matchAll(SCRIPT_TAG), ([, file]) => file);
        // The saved page has the WebAssembly module in wasm.js, so the script of the key is left out.
        /** @type {Record<string, string>} */
        const made = { "dist/security_key.js": "", "wasm.js": wasmText, "dist/sources.js": own };
        const texts = named.map((file) => made[file] ?? sources[file]);
        return [log, ...texts].map((text) => `\n${text.replace(/<(?=\/script|!--|script)/gi, "\\x3c")}\n`);
    };

    /**
     * Makes the page as one file, whose Content-Security-Policy allows only the scripts in the file, and its workers.
     * @param {Viewer.SavedState} state
     */
    const makePage = async (state) => {
        const sources = readSources();
        const scripts = listScripts(state);
        const hashes = await Promise.all(scripts.map(hashScript));
        const policy = `default-src 'none'; script-src 'wasm-unsafe-eval' ${hashes.join(" ")} blob:; worker-src blob:; `
            + "style-src 'unsafe-inline'; img-src data:; base-uri 'none'; form-action 'none'";
        const [before] = sources["index.html"].split("<script");
        return `${before.replace(/content="default-src[^"]*"/, () => `content="${policy}"`)
            .replace(/<link rel="stylesheet"[^>]*>/, () => `<style>${sources["viewer.css"]}</style>`)
        }${scripts.map((text) => `<script>${text}</script>`).join("\n")}\n</body>\n</html>\n`;
    };

    globalThis.hidlogSave = { makePage };
})();
