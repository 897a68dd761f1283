// The platform functions that the key uses. They are saved when this script is loaded, so that fake timers of tests do
// not affect the key. A missing function is reported in one line.

export const { setTimeout, clearTimeout, setInterval, clearInterval } = globalThis;

const PLATFORM_ERROR = "Chromium 115, Firefox 102, Safari 16, node 20 or later is needed";

/** Monotonic milliseconds. */
export const now = performance.now.bind(performance);

/** @returns {Crypto} the platform's WebCrypto */
export const getWebCrypto = () => {
    if (!globalThis.crypto?.subtle) {
        const why = globalThis.isSecureContext === false
            ? "this page is not served over https or http://localhost"
            : "pass the option crypto to install; in Node.js, webcrypto from node:crypto";
        throw new Error(`hidlogKey: crypto.subtle is missing (${why}); ${PLATFORM_ERROR}`);
    }
    return globalThis.crypto;
};

/**
 * Compiles a WebAssembly module synchronously.
 * @param {Uint8Array} bytes
 */
export const compileModule = (bytes) => {
    if (typeof WebAssembly !== "object" || typeof BigInt64Array !== "function") {
        throw new Error(`hidlogKey: WebAssembly with BigInt is missing; ${PLATFORM_ERROR}`);
    }
    try {
        return new WebAssembly.Module(bytes);
    } catch (error) {
        const why = /Content.?Security|unsafe-eval|CSP|blocked/i.test(String(error))
            ? "the page's Content-Security-Policy forbids WebAssembly: add 'wasm-unsafe-eval' to its script-src"
            : `WebAssembly rejected the module (${error}); ${PLATFORM_ERROR}`;
        throw new Error(`hidlogKey: ${why}`, { cause: error });
    }
};

/**
 * Throws the reason if a signal is aborted.
 * @param {AbortSignal | undefined} signal
 */
export const throwIfAborted = (signal) => {
    if (signal?.aborted) {
        throw signal.reason;
    }
};

/**
 * Waits for a promise, or rejects with the reason if the signal is aborted.
 * @template T @param {Promise<T> | T} awaited @param {AbortSignal} signal @returns {Promise<T>}
 */
export const raceWithSignal = (awaited, signal) =>
    new Promise((done, fail) => {
        const end = () => fail(signal.reason);
        if (signal.aborted) {
            end();
        }
        signal.addEventListener("abort", end, { once: true });
        Promise.resolve(awaited).then(done, fail).finally(() => signal.removeEventListener("abort", end));
    });

/**
 * Waits for milliseconds, or rejects with the reason if the signal is aborted.
 * @param {number} milliseconds
 * @param {AbortSignal} signal
 */
export const sleepUnlessAborted = (milliseconds, signal) => {
    /** @type {ReturnType<typeof setTimeout>} */
    let timer;
    const waited = new Promise((done) => {
        timer = setTimeout(done, milliseconds);
    });
    return raceWithSignal(waited, signal).finally(() => clearTimeout(timer));
};
