// Shows two logs side by side, starting at their first difference. Each row has a pair of corresponding lines
// (alignment.js), and describes how they differ. Sets `globalThis.hidlogTwoLogs`.
"use strict";

(() => {
    const viewer = globalThis.hidlogViewer;
    const { Row, getElement, markTab, readInSlices, runWithProgressBar, showNotice, state } = viewer;
    const { runGenerator } = globalThis.hidlogBackground;
    const { align } = globalThis.hidlogAlignment;
    const difference = globalThis.hidlogDifference;
    const detail = globalThis.hidlogDetail;
    const [ROW_HEIGHT, STACKED_HEIGHT] = [26, 50];
    const KIND_DIFFERENCE = /^(differs|first only|second only)$/;
    const LOG_NAMES = { own: "The first log", other: "The second log" };

    /** The other log, the pairs of lines, and the selected pair. */
    const two = {
        name: "",
        /** @type {Viewer.Session | null} */
        session: null,
        /** @type {Viewer.Pair[]} */
        pairs: [],
        chosen: -1,
        job: { end: () => {} },
    };

    const getRowHeight = () => (globalThis.matchMedia("(max-width: 700px)").matches ? STACKED_HEIGHT : ROW_HEIGHT);

    /**
     * The lines of a pair; null for the log that lacks one.
     * @param {number} place
     */
    const getLines = (place) => {
        const { one, other } = two.pairs[place];
        const otherLine = other === null ? null : two.session?.line(other) ?? null;
        return [one === null ? null : state.sessions.recorded.line(one), otherLine];
    };

    /**
     * @param {string} role
     * @param {string} className
     * @param {string} text
     */
    const makeCell = (role, className, text) => {
        const cell = Object.assign(document.createElement("span"), { className, textContent: text });
        cell.setAttribute("role", role);
        return cell;
    };

    /**
     * The cell of a line, or an empty one.
     * @param {Viewer.Line | null} line
     */
    const makeLineCell = (line) => {
        const cell = makeCell("gridcell", "side", "");
        if (line) {
            const row = new Row(line);
            const says = Object.assign(document.createElement("span"), { className: `says kind-${row.kind}`, textContent: row.says });
            cell.append(Object.assign(document.createElement("span"), { className: "number", textContent: line.number }), " ", says);
        }
        return cell;
    };

    /** @param {number} place */
    const makePairRow = (place) => {
        const { word } = two.pairs[place];
        const made = document.createElement("div");
        made.className = word ? "pair differing" : "pair";
        made.id = `pair-${place}`;
        made.style.transform = `translateY(${place * getRowHeight()}px)`;
        made.dataset.place = String(place);
        made.setAttribute("role", "row");
        made.setAttribute("aria-rowindex", String(place + 1));
        made.setAttribute("aria-selected", String(place === two.chosen));
        const [one, other] = getLines(place).map(makeLineCell);
        made.append(one, makeCell("gridcell", "word", word ? `≠ ${word}` : "="), other);
        return made;
    };

    const render = () => {
        const scroller = getElement("two-scroller");
        const height = getRowHeight();
        const first = Math.max(0, Math.floor(scroller.scrollTop / height));
        const last = Math.min(two.pairs.length, first + Math.ceil(scroller.clientHeight / height) + 1);
        const rows = Array.from({ length: Math.max(0, last - first) }, (_, at) => makePairRow(first + at));
        getElement("two-space").style.height = `${two.pairs.length * height}px`;
        getElement("two-space").replaceChildren(...rows);
        const isInSight = two.chosen >= first && two.chosen < last;
        scroller[isInSight ? "setAttribute" : "removeAttribute"]("aria-activedescendant", `pair-${two.chosen}`);
    };

    /** Shows both lines of the selected pair, explained. */
    const showDetail = () => {
        const [has, sends] = getLines(two.chosen);
        const line = has ?? sends;
        if (!line) {
            return;
        }
        const { word } = two.pairs[two.chosen];
        const numbers = [has, sends].map((each) => (each ? `line ${each.number}` : "nothing")).join(" and ");
        getElement("detail").hidden = false;
        getElement("detail-title").textContent = `${numbers[0].toUpperCase()}${numbers.slice(1)}`;
        const row = new Row(line);
        if (!word) {
            detail.show(row, state.shown, "");
            return;
        }
        const explained = difference.explain({ has, sends }, state.shown);
        const found = { has, sends, says: `${numbers}: ${word}`, explained };
        /** @type {(isMarked: (line: string) => boolean) => HTMLElement} */
        const makeTree = (isMarked) => detail.makeTree(row, state.shown, isMarked);
        getElement("detail-text").replaceChildren(...difference.makeNodes(found, makeTree, LOG_NAMES));
    };

    /**
     * Selects a pair, and scrolls to it.
     * @param {number} place
     * @param {boolean} [isMiddle]
     */
    const select = (place, isMiddle = false) => {
        two.chosen = Math.max(0, Math.min(place, two.pairs.length - 1));
        const scroller = getElement("two-scroller");
        const height = getRowHeight();
        const top = two.chosen * height;
        getElement("two-space").style.height = `${two.pairs.length * height}px`;
        // The detail is laid out first, since its height changes the number of visible rows.
        showDetail();
        if (isMiddle) {
            scroller.scrollTop = top - (scroller.clientHeight - height) / 3;
        } else if (top < scroller.scrollTop || top + 2 * height > scroller.scrollTop + scroller.clientHeight) {
            scroller.scrollTop = top < scroller.scrollTop ? top : top + 2 * height - scroller.clientHeight;
        }
        render();
    };

    /**
     * Selects the next pair that differs. After the last pair, selects the first one.
     * @param {(word: string) => boolean} isWanted
     */
    const selectNext = (isWanted) => {
        const { chosen, pairs } = two;
        const after = pairs.findIndex(({ word }, place) => place > chosen && isWanted(word));
        const found = after < 0 ? pairs.findIndex(({ word }) => isWanted(word)) : after;
        if (found >= 0) {
            select(found, true);
        }
    };

    /**
     * Shows the two logs, or the first one alone.
     * @param {boolean} isShown
     */
    const setShown = (isShown) => {
        state.isComparing = isShown;
        getElement("two-logs").hidden = !isShown;
        getElement("rows-pane").classList.toggle("comparing", isShown);
        markTab();
        if (isShown) {
            render();
        } else {
            viewer.showDetail();
        }
    };

    /** Describes where two logs first differ. */
    const describeFirstDifference = () => {
        const differing = two.pairs.filter(({ word }) => word);
        const [first] = differing;
        if (!first) {
            return "Both logs have the same packets and replies.";
        }
        const [one, other] = getLines(two.pairs.indexOf(first)).map((line) => (line ? `line ${line.number}` : "no line"));
        const kinds = differing.filter(({ word }) => KIND_DIFFERENCE.test(word)).length;
        return `First difference: ${one} of ${state.name} and ${other} of ${two.name}, ${first.word}. ${differing.length} of`
            + ` ${two.pairs.length} lines differ, ${kinds} in kind. Timestamps are not compared.`;
    };

    /** Closes the other log. */
    const close = () => {
        two.job.end();
        Object.assign(two, { session: null, pairs: [], chosen: -1 });
        getElement("two-tab").hidden = true;
        if (state.isComparing) {
            setShown(false);
        }
    };

    /**
     * Compares the shown log with another one.
     * @param {string} name
     * @param {Uint8Array} bytes
     */
    const compare = (name, bytes) => runWithProgressBar(readInSlices(bytes), `Reading ${name} …`, (reader) => {
        close();
        const session = reader.session();
        Object.assign(two, { name, session });
        two.job = runGenerator(align(state.sessions.recorded, session), () => {}, (pairs) => {
            Object.assign(two, { pairs });
            getElement("two-tab").hidden = false;
            const names = [state.name, "", name].map((text) => makeCell("columnheader", "", text));
            getElement("two-names").replaceChildren(...names);
            getElement("two-summary").textContent = describeFirstDifference();
            getElement("two-scroller").setAttribute("aria-rowcount", String(pairs.length));
            showNotice(`${state.name} beside ${name}.`);
            setShown(true);
            selectNext(Boolean);
            if (two.chosen < 0) {
                select(0);
            }
            getElement("two-scroller").focus();
        });
    });

    /** @type {Record<string, () => void>} */
    const KEYS = {
        ArrowDown: () => select(two.chosen + 1),
        ArrowUp: () => select(two.chosen - 1),
        Home: () => select(0),
        End: () => select(two.pairs.length - 1),
        n: () => selectNext(Boolean),
        k: () => selectNext((word) => KIND_DIFFERENCE.test(word)),
    };

    const start = () => {
        getElement("next-difference").addEventListener("click", KEYS.n);
        getElement("next-kind").addEventListener("click", KEYS.k);
        getElement("two-scroller").addEventListener("scroll", () => requestAnimationFrame(render));
        getElement("two-space").addEventListener("click", ({ target }) => {
            const pair = target instanceof Element ? target.closest(".pair") : null;
            if (pair instanceof HTMLElement) {
                select(Number(pair.dataset.place));
            }
        });
        getElement("two-logs").addEventListener("keydown", (event) => {
            if (KEYS[event.key] && !event.ctrlKey && !event.metaKey && !event.altKey) {
                event.preventDefault();
                event.stopPropagation();
                KEYS[event.key]();
            }
        });
        globalThis.addEventListener("resize", () => {
            if (state.isComparing) {
                const isShown = document.getElementById(`pair-${two.chosen}`);
                isShown ? select(two.chosen, true) : render();
            }
        });
    };

    globalThis.hidlogTwoLogs = { close, compare, setShown, start, two };
})();
