// Copies texts to the clipboard with the event `copy`, which needs no permission. Sets `globalThis.hidlogCopying`.
"use strict";

(() => {
    /**
     * The text that the next event copies, or null.
     * @type {string | null}
     */
    let waiting = null;

    /**
     * Copies a text. Returns whether the browser copied it.
     * @param {string} text
     */
    const copyText = (text) => {
        waiting = text;
        try {
            return document.execCommand("copy");
        } finally {
            waiting = null;
        }
    };

    /**
     * Lets Ctrl+C copy what `read` returns, if it is not null and the user has selected no text.
     * @param {() => string | null} read
     */
    const copyOnShortcut = (read) => document.addEventListener("copy", (event) => {
        const isSelected = waiting === null && String(document.getSelection() ?? "") !== "";
        const text = waiting ?? (isSelected ? null : read());
        if (text !== null && event.clipboardData) {
            event.clipboardData.setData("text/plain", text);
            event.preventDefault();
        }
    });

    globalThis.hidlogCopying = { copyText, copyOnShortcut };
})();
