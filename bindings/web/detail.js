// The detail pane of the selected row: the fields as a tree, and the bytes of the packets. Both can be copied. Sets
// `globalThis.hidlogDetail`.
"use strict";

(() => {
    const { makeAllFields } = globalThis.hidlogFields;
    const { FieldTree } = globalThis.hidlogFieldTree;
    const { HexPane, readRanges } = globalThis.hidlogHexPane;
    const { copyText, copyOnShortcut } = globalThis.hidlogCopying;
    const { escapeInvisible } = globalThis.hidlogShown;
    /**
     * @param {string} id
     * @returns {HTMLElement}
     */
    const getElement = (id) => /** @type {HTMLElement} */ (document.getElementById(id));

    /** The shown detail: the tree, the packets, and the texts of the row's lines. */
    const shown = {
        /** @type {InstanceType<typeof FieldTree> | null} */
        tree: null,
        /** @type {Viewer.Packet[]} */
        packets: [],
        /** @type {string[]} */
        lines: [],
    };

    const pane = new HexPane(getElement("hex"), getElement("hex-status"), (place) => shown.tree?.selectByte(place));

    /**
     * The fields for lines that are not packets.
     * @param {string[]} lines
     * @returns {Viewer.Field[]}
     */
    const makePlainFields = (lines) => lines.map((text) => ({ text, level: 1, ranges: [], inner: [], isOpen: false }));

    /**
     * Makes the tree of a row, and shows the row's packets. `isMarked` selects the lines to mark.
     * @param {Viewer.Row} row @param {Viewer.LineTexts} texts @param {(line: string) => boolean} [isMarked]
     */
    const makeTree = (row, texts, isMarked = () => false) => {
        const { messages } = row;
        const { fields, packets } = messages.length ? makeAllFields(messages, (message) => texts.message(message))
            : { fields: makePlainFields(row.detail()), packets: [] };
        /** @type {(all: Viewer.Field[]) => void} */
        const mark = (all) => all.forEach((field) => {
            field.isMarked = isMarked(field.text);
            mark(field.inner);
        });
        mark(fields);
        shown.tree = new FieldTree(fields, (field) => {
            pane.mark(field?.ranges ?? []);
            pane.describe(Boolean(field));
        });
        shown.packets = packets;
        shown.lines = (row.transaction?.all ?? [row.line]).map((/** @type {Viewer.Line} */ line) => line.text);
        getElement("hex-pane").hidden = !packets.length;
        pane.show(packets);
        pane.describe(false);
        return shown.tree.element;
    };

    /**
     * Shows a row's fields below the text `before`.
     * @param {Viewer.Row} row
     * @param {Viewer.LineTexts} texts
     * @param {string} before
     */
    const show = (row, texts, before) => {
        const raw = Object.assign(document.createElement("span"), { className: "raw" });
        const tree = makeTree(row, texts);
        raw.textContent = shown.packets.length ? "" : `\n${shown.lines.map(escapeInvisible).join("\n")}`;
        getElement("detail-text").replaceChildren(before, tree, raw);
    };

    // ---- copying

    /** The text of the selected field, or of all fields. */
    const readText = () => {
        const chosen = shown.tree?.chosen;
        return chosen ? chosen.text.trim() : getElement("detail-text").textContent ?? "";
    };

    /** The bytes of the selected field, or of all packets. */
    const readBytes = () => {
        const { packets, tree } = shown;
        const all = packets.map(({ bytes }, at) => ({ from: at * bytes.length, to: (at + 1) * bytes.length }));
        return readRanges(tree?.chosen ? tree.chosen.ranges : all, packets);
    };

    const READERS = { "copy-text": readText, "copy-bytes": readBytes, "copy-lines": () => shown.lines.join("\n") };
    /** @type {Record<string, keyof typeof READERS>} */
    const KEYS = { c: "copy-text", b: "copy-bytes", l: "copy-lines" };

    /**
     * Copies the text, the bytes or the lines, as selected by a button's ID, and reports how much was copied.
     * @param {keyof typeof READERS} id
     * @param {(text: string) => void} tell
     */
    const copy = (id, tell) => {
        const text = READERS[id]();
        const what = id === "copy-bytes" ? `${text.length / 2} bytes` : `${text.length} characters`;
        const told = !text ? "There is nothing to copy."
            : copyText(text) ? `Copied ${what}.` : "The browser did not allow copying.";
        tell(told);
    };

    /**
     * Adds the listeners for buttons and keys. `tell` shows what was copied.
     * @param {(text: string) => void} tell
     */
    const start = (tell) => {
        Object.values(KEYS).forEach((id) => getElement(id).addEventListener("click", () => copy(id, tell)));
        getElement("detail").addEventListener("keydown", (event) => {
            const id = event.ctrlKey || event.metaKey || event.altKey ? undefined : KEYS[event.key];
            if (id) {
                event.preventDefault();
                copy(id, tell);
            }
        });
        copyOnShortcut(() => (getElement("detail").contains(document.activeElement) ? readText() : null));
        globalThis.addEventListener("resize", () => pane.fit());
    };

    globalThis.hidlogDetail = { makeTree, show, shown, start };
})();
