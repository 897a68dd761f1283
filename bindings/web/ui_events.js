// Loads the core, and handles user input: navigation, views, saving, and opening files (opening.js).
"use strict";

(() => {
    const {
        EXPLAIN_OPTIONS, ROW_HEIGHT, getElement, selectRow, refresh, render, finishReading, rowAt, getCurrentSession, setView,
        scrollToRow, state, showNotice, placeRows,
    } = globalThis.hidlogViewer;
    const { cleanName, enqueue, openBytes, openFile, openFiles, openOtherLog, waitFor } = globalThis.hidlogOpening;
    const { LineTexts } = globalThis.hidlogShown;
    const detail = globalThis.hidlogDetail;
    const twoLogs = globalThis.hidlogTwoLogs;

    // ---- saving

    /**
     * @param {BlobPart[]} parts
     * @param {string} name
     * @param {string} type
     */
    const offerDownload = (parts, name, type) => {
        const link = document.createElement("a");
        link.href = URL.createObjectURL(new Blob(parts, { type }));
        link.download = name;
        link.click();
        URL.revokeObjectURL(link.href);
    };

    const download = () => {
        const isOwn = state.view === "recorded";
        const name = isOwn ? state.name : `${state.view}_${state.name}`;
        offerDownload([isOwn ? state.bytes : state.texts[state.view]], name, "text/plain");
    };

    const savePage = async () => {
        try {
            const page = await globalThis.hidlogSave.makePage(state);
            offerDownload([page], `${state.name.replace(/\.log$/, "")}.html`, "text/html");
        } catch (error) {
            showNotice(`Cannot save the page: ${/** @type {Error} */ (error).message}`, true);
        }
    };

    // ---- controls

    /** @param {boolean} isDrawn */
    const setDiagramShown = (isDrawn) => {
        state.isDrawn = isDrawn;
        twoLogs.setShown(false);
        getElement("rows-pane").classList.toggle("drawn", isDrawn);
        placeRows();
    };

    /** @param {number} place */
    const toggleFold = (place) => {
        const transaction = rowAt(place)?.transaction;
        if (transaction) {
            const { unfolded } = state;
            unfolded[unfolded.has(transaction.place) ? "delete" : "add"](transaction.place);
            refresh(() => selectRow(place));
        }
    };

    /**
     * Folds or unfolds the selected row. If a line of a transaction is selected, Left selects the transaction's row.
     * @param {boolean} isFolded
     */
    const setFolded = (isFolded) => {
        const row = rowAt(state.chosen);
        const place = (row?.transaction ?? row?.line.transaction)?.place;
        if (place === undefined || !state.rows.includes(-1 - place)) {
            return;
        }
        if (/** @type {Viewer.Row} */ (row).transaction && state.unfolded.has(place) === isFolded) {
            toggleFold(state.chosen);
        } else if (isFolded && !/** @type {Viewer.Row} */ (row).transaction) {
            selectRow(state.rows.indexOf(-1 - place));
        }
    };

    const toggleTheme = () => {
        const isDark = getComputedStyle(document.body).backgroundColor === "rgb(20, 23, 28)";
        document.documentElement.dataset.theme = isDark ? "light" : "dark";
        render();
    };

    /** @param {string} view */
    const changeView = (view) => setView(view, () => {
        if (view === "quiet") {
            const count = getCurrentSession().log.sources.size;
            showNotice(count ? `The key ignores ${count} inputs; ticks replace them.` : "The key ignores no input.");
        }
    });

    const showNextView = () => {
        const views = ["recorded", "replayed", "quiet"];
        changeView(views[(views.indexOf(state.view) + 1) % views.length]);
    };

    /** @type {Record<string, () => void>} */
    const KEYS = {
        ArrowDown: () => selectRow(state.chosen + 1),
        ArrowUp: () => selectRow(state.chosen - 1),
        PageDown: () => selectRow(state.chosen + Math.floor(getElement("scroller").clientHeight / ROW_HEIGHT)),
        PageUp: () => selectRow(state.chosen - Math.floor(getElement("scroller").clientHeight / ROW_HEIGHT)),
        Home: () => selectRow(0),
        End: () => selectRow(state.rows.length - 1),
        Enter: () => toggleFold(state.chosen),
        ArrowRight: () => setFolded(false),
        ArrowLeft: () => setFolded(true),
        "/": () => getElement("search").focus(),
        f: () => detail.shown.tree?.element.focus(),
        v: showNextView,
        t: () => setDiagramShown(!state.isDrawn),
        d: download,
        s: savePage,
    };

    const cancel = () => {
        state.job.end();
        state.making.end();
        globalThis.hidlogCard.cancel();
        finishReading();
        const isPartly = state.bytes && !state.texts.recorded;
        const shown = isPartly ? ` The first ${getCurrentSession()?.length ?? 0} lines are shown; open it again to read all.` : "";
        showNotice(`${state.name}: cancelled.${shown}`);
    };

    /**
     * Moves the focus in a toolbar, after ARIA's toolbar pattern. In text fields, arrow keys move the cursor.
     * @param {Viewer.On<KeyboardEvent>} event
     */
    const moveInToolbar = (event) => {
        const step = /** @type {Record<string, number>} */ ({ ArrowRight: 1, ArrowLeft: -1 })[event.key];
        const toolbar = event.target.closest?.("[role=toolbar]");
        if (!step || !toolbar || ["search", "file"].includes(/** @type {string} */ (event.target.type))
            || event.target.tagName === "SELECT") {
            return false;
        }
        const controls = /** @type {(HTMLElement & { disabled?: boolean })[]} */ (
            [...toolbar.querySelectorAll("button, select, input, .button")])
            .filter((control) => !control.disabled && !control.hidden && control.getAttribute("role") !== "menuitem");
        const at = controls.indexOf(event.target);
        controls[(at + step + controls.length) % controls.length].focus();
        event.preventDefault();
        return true;
    };

    /** @param {Viewer.On<KeyboardEvent>} event */
    const onKey = (event) => {
        if (moveInToolbar(event)) {
            return;
        }
        const isField = ["INPUT", "SELECT"].includes(event.target.tagName) && event.target.type !== "checkbox";
        const isButton = event.target.tagName === "BUTTON" && event.key === "Enter";
        if (event.key === "Escape") {
            getElement("scroller").focus();
        }
        if (event.target.id === "open" && (event.key === "Enter" || event.key === " ")) {
            getElement("file").click();
            event.preventDefault();
            return;
        }
        const isOther = event.ctrlKey || event.metaKey || event.altKey || !KEYS[event.key];
        if (!state.bytes || isField || isButton || isOther) {
            return;
        }
        event.preventDefault();
        KEYS[event.key]();
    };

    /**
     * Opens a text as a log. If a log is open, asks the user first.
     * @param {string} name
     * @param {string} text
     * @param {string} how
     */
    const openText = (name, text, how) => {
        if (text && (!state.bytes || globalThis.confirm(`Replace ${state.name} by the ${how} text?`))) {
            enqueue(() => openBytes(name, new TextEncoder().encode(text)));
        }
    };

    /** @param {DragEvent} event */
    const onDrop = (event) => {
        event.preventDefault();
        getElement("main").classList.remove("dropping");
        const { files, items } = /** @type {DataTransfer} */ (event.dataTransfer);
        const folder = [...items].map((item) => item.webkitGetAsEntry?.()).find((entry) => entry?.isDirectory);
        if (folder) {
            showNotice(`${cleanName(folder.name)} is a folder. Drop the log in it.`, true);
        } else if (files.length) {
            openFiles([...files]);
        } else {
            openText("dropped.log", /** @type {DataTransfer} */ (event.dataTransfer).getData("text"), "dropped");
        }
    };

    /** @param {Viewer.On<ClipboardEvent>} event */
    const onPaste = (event) => {
        const { files } = /** @type {DataTransfer} */ (event.clipboardData);
        if (files?.length) {
            openFiles([...files]);
        } else if (event.target.type !== "search") {
            openText("pasted.log", /** @type {DataTransfer} */ (event.clipboardData).getData("text"), "pasted");
        }
    };

    /**
     * Opens the chosen file, and forgets the choice, so that the same file can be chosen again.
     * @param {"file" | "other-file"} id
     * @param {(file: File) => unknown} open
     */
    const openChosenFile = (id, open) => {
        const [file] = /** @type {FileList} */ (getElement(id).files);
        if (file) {
            open(file);
            getElement(id).value = "";
        }
    };

    const openExample = () => enqueue(() =>
        openBytes("service_registration.log", globalThis.hidlogBytes.fromBase64(globalThis.HIDLOG_EXAMPLE)));

    /** Shows the rows that fit after a resize, and keeps the selected row visible. */
    const onResize = () => {
        if (document.getElementById(`row-${state.chosen}`)) {
            scrollToRow();
        }
        render();
    };

    const addListeners = () => {
        detail.start(showNotice);
        globalThis.hidlogMenu.start();
        twoLogs.start();
        /**
         * @param {string} id
         * @param {string} name
         * @param {(event: Viewer.On<Event>) => void} call
         */
        const on = (id, name, call) => getElement(id).addEventListener(name, /** @type {EventListener} */ (call));
        on("file", "change", () => openChosenFile("file", openFile));
        on("example", "click", openExample);
        on("view", "change", () => changeView(getElement("view").value));
        on("download", "click", download);
        on("save", "click", savePage);
        on("theme", "click", toggleTheme);
        on("keys", "click", () => getElement("keys-dialog").showModal());
        on("keys-close", "click", () => getElement("keys-dialog").close());
        on("cancel", "click", cancel);
        ["search", "channel", "fold"].forEach((id) => on(id, id === "search" ? "input" : "change", () => refresh()));
        on("table-tab", "click", () => setDiagramShown(false));
        on("drawing-tab", "click", () => setDiagramShown(true));
        on("two-tab", "click", () => twoLogs.setShown(true));
        on("compare", "click", () => getElement("other-file").click());
        on("other-file", "change", () => openChosenFile("other-file", openOtherLog));
        on("scroller", "scroll", () => requestAnimationFrame(render));
        on("space", "click", (event) => {
            const place = Number(/** @type {HTMLElement | null} */ (event.target.closest(".row"))?.dataset.place ?? -1);
            selectRow(place);
            toggleFold(place);
        });
        document.addEventListener("keydown", /** @type {(event: KeyboardEvent) => void} */ (onKey));
        document.addEventListener("paste", /** @type {(event: ClipboardEvent) => void} */ (onPaste));
        document.addEventListener("dragover", (event) => {
            event.preventDefault();
            getElement("main").classList.add("dropping");
        });
        document.addEventListener("dragleave", () => getElement("main").classList.remove("dropping"));
        document.addEventListener("drop", onDrop);
        globalThis.addEventListener("resize", onResize);
        ["(prefers-color-scheme: dark)", "(forced-colors: active)"].forEach((query) =>
            globalThis.matchMedia(query).addEventListener("change", render));
    };

    /** Opens the log inside a saved page. */
    const openEmbeddedLog = () => {
        const { fromBase64 } = globalThis.hidlogBytes;
        if (globalThis.HIDLOG_SNAPSHOT) {
            Object.assign(state, { snapshot: fromBase64(globalThis.HIDLOG_SNAPSHOT), snapshotName: "this page" });
        }
        return enqueue(() =>
            openBytes(globalThis.HIDLOG_LOG_NAME, fromBase64(/** @type {string} */ (globalThis.HIDLOG_LOG))));
    };

    const loadCore = async () => {
        try {
            state.core = await globalThis.hidlog.load();
            state.shown = new LineTexts(state.core, EXPLAIN_OPTIONS);
        } catch (error) {
            showNotice(`This browser cannot run the core: WebAssembly with BigInt is needed (${
                /** @type {Error} */ (error).message})`, true);
        }
    };

    const start = async () => {
        const loading = loadCore().then(globalThis.hidlogBackground.prepareSources);
        waitFor(loading);
        addListeners();
        await loading;
        if (!state.core) {
            return;
        }
        if (globalThis.HIDLOG_LOG) {
            await openEmbeddedLog();
        } else if (location.hash.startsWith("#registration")) {
            await openExample();
            setDiagramShown(location.hash.endsWith("drawing"));
        }
        document.documentElement.dataset.ready = "yes";
    };

    start();
})();
