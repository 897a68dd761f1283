// Runs the requests of a page one at a time. A request ends with the response, an abort signal, the timeout, or a
// request that replaces it.
import { makeBusyError, makeDomError, makeNotAllowedError } from "./errors.js";
import { clearTimeout, setTimeout } from "./platform.js";

// The timeout of a request that has none: Chromium's maximum.
const DEFAULT_TIMEOUT_MS = 600_000;
const MAX_TIMER_MS = 2 ** 31 - 1;

/**
 * @typedef {object} Limits what ends a request early
 * @property {AbortSignal} [signal] the page's
 * @property {number} [timeout] in milliseconds
 * @property {boolean} isConditional whether the request waits for the selection of an account, and is replaced by
 * another request
 */

/** @typedef {{ end: (reason: unknown) => void, isConditional: boolean }} Current */

export class RequestRunner {
    /** @type {Current | null} */
    #current = null;

    /**
     * Runs a request. The next request can start when this one has ended; an aborted request ends at once.
     * @template T @param {Limits} limits @param {(signal: AbortSignal) => Promise<T>} serve @returns {Promise<T>}
     */
    async run({ signal, timeout = DEFAULT_TIMEOUT_MS, isConditional }, serve) {
        if (this.#current && (isConditional || !this.#current.isConditional)) {
            throw makeBusyError();
        }
        this.#current?.end(makeDomError("AbortError", "Another request took over."));
        if (timeout === 0 && !isConditional) {
            throw makeNotAllowedError("the request's timeout is 0");
        }
        const ending = new AbortController();
        /** @type {Current} */
        const current = { isConditional, end: (reason) => this.#end(current, ending, reason) };
        this.#current = current;
        const abort = () => current.end(signal?.reason);
        const late = () => current.end(makeNotAllowedError(`no user action within ${timeout} ms`));
        const timer = isConditional ? undefined : setTimeout(late, Math.min(timeout, MAX_TIMER_MS));
        signal?.addEventListener("abort", abort);
        try {
            return await serve(ending.signal);
        } finally {
            clearTimeout(timer);
            signal?.removeEventListener("abort", abort);
            this.#forget(current);
        }
    }

    /**
     * Aborts the pending request, if any.
     * @param {unknown} reason
     */
    end(reason) {
        this.#current?.end(reason);
    }

    /** @param {Current} current @param {AbortController} ending @param {unknown} reason */
    #end(current, ending, reason) {
        this.#forget(current);
        ending.abort(reason);
    }

    /** @param {Current} current */
    #forget(current) {
        this.#current = this.#current === current ? null : this.#current;
    }
}
