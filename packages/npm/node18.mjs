// Polyfills for node 18 (Debian 12): two globals of node 20.
import { webcrypto } from "node:crypto";

globalThis.crypto ??= webcrypto;
globalThis.CustomEvent ??= class CustomEvent extends Event {
    #detail;

    constructor(type, options = {}) {
        super(type, options);
        this.#detail = options.detail ?? null;
    }

    get detail() {
        return this.#detail;
    }
};
