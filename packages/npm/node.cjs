// The key in node for `require`, with the polyfills of node18.mjs.
"use strict";

globalThis.crypto ??= require("node:crypto").webcrypto;
globalThis.CustomEvent ??= class CustomEvent extends Event {
    #detail;

    constructor(type, options = {}) {
        super(type, options);
        this.#detail = options.detail ?? null;
    }

    get detail() {
        return this.#detail;
    }
};
module.exports = require("./security_key.cjs");
