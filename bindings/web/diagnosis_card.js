// Diagnoses a log when it is opened, and shows in a card who is at fault. The line is marked, unfolded and selected.
// Sets `globalThis.hidlogCard`.
"use strict";

(() => {
    const {
        ROW_HEIGHT, runAfterExplaining, getCurrentSession, formatMegabytes, getElement, prepareView, refresh, rowAt,
        selectRow, setView, showDetail, showProgress, finishReading, state,
    } = globalThis.hidlogViewer;
    const {
        SIDE_NAMES, assignFindings, decide, describeMatch, formatFinding, judgeFile, judgeUnreadable,
    } = globalThis.hidlogDiagnosis;
    const { escapeInvisible } = globalThis.hidlogShown;
    const { isUserCommand } = globalThis.hidlogStory;
    const { runInWorker } = globalThis.hidlogBackground;
    const difference = globalThis.hidlogDifference;
    // For logs with more bytes, the card shows progress, and the first results before the rules are checked.
    const MAX_QUICK_BYTES = 256 * 1024;
    const MAX_LISTED_FINDINGS = 200;
    // HIDLOG_ERR_MISMATCH.
    const MISMATCH = 3;

    /**
     * @template {keyof HTMLElementTagNameMap} Name
     * @param {Name} name
     * @param {string} text
     * @param {object} words
     */
    const makeElement = (name, text, words = {}) => {
        const made = Object.assign(document.createElement(name), words);
        made.textContent = text;
        return made;
    };

    /** If the window is shorter than the page, scrolls to the selected row, but keeps the card's title visible. */
    const scrollPage = () => {
        const row = getElement("space").querySelector("[aria-selected=true]");
        const below = row ? row.getBoundingClientRect().bottom + ROW_HEIGHT - globalThis.innerHeight : 0;
        const room = getElement("diagnosis").firstElementChild?.getBoundingClientRect().top ?? 0;
        if (below > 0 && room > 0) {
            globalThis.scrollBy(0, Math.floor(Math.min(below, room)));
        }
    };

    /** Selects the first request that involves the user, or else the first transaction, so that its detail is shown. */
    const selectRequest = () => {
        /** @param {number} place */
        const getTransaction = (place) => rowAt(place)?.transaction;
        const folded = [...state.rows.keys()].filter(getTransaction);
        /** @param {number} place */
        const isForUser = (place) => isUserCommand(/** @type {Viewer.Transaction} */ (getTransaction(place)));
        const chosen = folded.find(isForUser) ?? folded[0];
        if (chosen !== undefined) {
            selectRow(chosen);
        }
    };

    /**
     * Unfolds the transaction of a line, clears the filters, and selects and centers the line.
     * @param {number} number
     */
    const goToLine = (number) => {
        const line = getCurrentSession().line(number - 1);
        if (line?.transaction) {
            state.unfolded.add(line.transaction.place);
        }
        getElement("search").value = "";
        getElement("channel").value = "";
        const find = () => state.rows.findIndex((place) => place === number - 1);
        const select = () => {
            selectRow(find(), true);
            scrollPage();
        };
        refresh(() => {
            if (find() >= 0) {
                select();
                return;
            }
            getElement("fold").checked = false;
            refresh(select);
        });
    };

    /**
     * @param {number} line
     * @param {string} view
     */
    const makeLineButton = (line, view) => {
        const button = makeElement("button", `Line ${line}`, { title: "Go to the line" });
        button.addEventListener("click", () => setView(view, () => goToLine(line)));
        return button;
    };

    /**
     * The marks of rows as text: for the verdict's line, and for each finding.
     * @param {Viewer.Verdict} verdict
     * @param {Viewer.Finding[]} findings
     * @returns {Map<number, string>}
     */
    const makeMarks = (verdict, findings) => {
        /** @type {string | undefined} */
        const words = { fault: "at fault", should: "violates SHOULD", rejected: "is the reason" }[verdict.level];
        const marks = new Map(words && verdict.line ? [[verdict.line, `${verdict.side} ${words}`]] : []);
        const others = findings.filter(({ line }) => line !== verdict.line);
        others.forEach(({ line, side, level }) => marks.set(line, `${side} violates ${level.toUpperCase()}`));
        return marks;
    };

    /** @param {Viewer.Verdict} verdict */
    const makeTitle = ({ side, title, line }) => `${SIDE_NAMES[side]} ${title}${line ? `, line ${line}` : ""}.`;

    /**
     * @param {Viewer.Examined} examined
     * @param {string} view
     */
    const makeDetails = ({ findings, notes, total }, view) => {
        const details = document.createElement("details");
        const list = document.createElement("ol");
        list.append(...findings.slice(0, MAX_LISTED_FINDINGS).map((finding) => {
            const entry = document.createElement("li");
            const text = escapeInvisible(formatFinding(finding)).replace(/^Line \d+: /, "");
            entry.append(makeLineButton(finding.line, view), ` ${text}`);
            return entry;
        }));
        const paragraphs = notes.map((note) => makeElement("p", `Note: ${note}.`));
        details.append(makeElement("summary", `${total}.`), list, ...paragraphs);
        return details;
    };

    const clear = () => {
        state.diagnosing.end();
        state.marks = new Map();
        const card = getElement("diagnosis");
        card.hidden = true;
        card.replaceChildren();
        ["side", "level", "line"].forEach((name) => delete card.dataset[name]);
    };

    /** Whether the user has searched, selected a row or scrolled while a long log was examined. */
    const hasUserActed = () => state.bytes.length > MAX_QUICK_BYTES
        && (state.chosen >= 0 || getElement("scroller").scrollTop > 0
            || [getElement("search"), getElement("channel")].some(({ value }) => value !== ""));

    /**
     * Shows a verdict, and goes to the verdict's line. `examined` is null if the log was not examined.
     * @param {Viewer.Verdict} verdict
     * @param {Viewer.Examined | null} examined
     */
    const showVerdict = (verdict, examined) => {
        const { view } = state;
        const card = getElement("diagnosis");
        state.marks = makeMarks(verdict, examined?.findings ?? []);
        card.hidden = false;
        Object.assign(card.dataset, { side: verdict.side, level: verdict.level, line: verdict.line });
        const match = examined ? describeMatch(examined) : "";
        const texts = [...verdict.why, match].filter(Boolean).map(escapeInvisible);
        const reasons = makeElement("p", texts.join(" "), { className: "why" });
        card.replaceChildren(makeElement("h2", makeTitle(verdict)), reasons);
        if (verdict.advice) {
            card.append(makeElement("p", `What to do: ${verdict.advice}`, { className: "advice" }));
        }
        if (verdict.line) {
            card.append(makeLineButton(verdict.line, view));
        }
        if (examined) {
            card.append(makeDetails(examined, view));
        }
        if (verdict.line && getCurrentSession() && !hasUserActed()) {
            goToLine(verdict.line);
        } else if (!verdict.line && state.chosen < 0 && getCurrentSession()?.log.bytes.length <= MAX_QUICK_BYTES) {
            selectRequest();
        }
    };

    /**
     * @param {string} text
     * @param {Node[]} others
     */
    const showText = (text, ...others) => {
        const card = getElement("diagnosis");
        card.hidden = false;
        card.replaceChildren(makeElement("p", text), ...others);
    };

    /**
     * Whether the log also reports at the difference that no credential matches. If so, missing credentials are not the
     * reason for the difference.
     * @param {Difference} found
     */
    const isRejection = ({ explained: [own] }) => own.some((text) => text.includes("CTAP2_ERR_NO_CREDENTIALS"));

    /**
     * Finds and explains the difference that a comparison reported, and calls `done` with the difference.
     * @param {Viewer.Fault} outcome
     * @param {(found: Viewer.KeyDifference) => void} done
     */
    const findDifference = (outcome, done) => prepareView("replayed", () => {
        const { recorded, replayed } = state.sessions;
        const found = /** @type {Viewer.KeyDifference} */ (difference.find(recorded, replayed, outcome));
        runAfterExplaining([recorded, replayed], () => {
            found.explained = difference.explain(found, state.shown);
            found.sentence = difference.toSentence(found);
            found.isRejection = isRejection(found);
            state.difference = found;
            state.shown.keep([recorded.log], [replayed.log]);
            done(found);
        });
    });

    /**
     * Shows the results of an examination.
     * @param {Viewer.Examined} found
     */
    const showResults = (found) => {
        const examined = assignFindings(found);
        const session = getCurrentSession();
        /** @param {Viewer.KeyDifference | null} differing */
        const end = (differing) => {
            showVerdict(decide(examined, { session, shown: state.shown, difference: differing }), examined);
            showDetail();
        };
        const { status, errorCode } = examined.outcome;
        if (examined.isOwn && status === 1 && errorCode === MISMATCH) {
            findDifference(examined.outcome, end);
        } else {
            runAfterExplaining([session], () => end(null));
        }
    };

    /**
     * Shows the first results before the rules are checked: the difference from what the key sends, if any.
     * @param {Viewer.Compared} compared
     * @param {() => boolean} isCurrent
     */
    const showFirstResults = (compared, isCurrent) => {
        const { status, errorCode } = compared.outcome;
        const rest = "The rules of CTAP 2.1 are still being checked.";
        if (compared.isOwn && status === 1 && errorCode === MISMATCH) {
            const known = { ...compared, findings: [], notes: [], lostFrom: null };
            findDifference(compared.outcome, (differing) => {
                if (isCurrent()) {
                    const log = { session: getCurrentSession(), shown: state.shown, difference: differing };
                    showVerdict(decide(known, log), null);
                    getElement("diagnosis").append(makeElement("p", rest));
                }
            });
        } else {
            showText(`${describeMatch(compared)} ${rest}`.trim());
        }
    };

    /**
     * Shows below the first results that the examination was cancelled.
     * @param {string} name
     */
    const showCancellation = (name) => {
        const button = makeElement("button", "Examine it", { id: "examine" });
        button.addEventListener("click", examine);
        const text = makeElement("p", `The examination of ${name} was cancelled. `);
        text.append(button);
        const card = getElement("diagnosis");
        card.replaceChildren(...(card.dataset.level ? [...card.children].slice(0, -1) : []), text);
    };

    /**
     * Shows the stage of the examination, and the fraction of the stage that is done.
     * @param {Viewer.Progress} progress
     * @param {number} length
     */
    const showStage = ({ stage, share = 0 }, length) => {
        showProgress(`${stage}: ${formatMegabytes(length)} …`, { end: () => {} });
        const bar = getElement("bar");
        bar.max = 1;
        bar.value = share;
        if (!share) {
            bar.removeAttribute("value");
        }
    };

    /** Cancels the examination, if one is running. */
    let cancel = () => {};

    /** Examines the shown log in a worker. */
    const examine = () => {
        clear();
        const { bytes, name, view } = state;
        const log = view === "recorded" ? bytes : state.texts[view];
        const isQuick = log.length <= MAX_QUICK_BYTES;
        let isOver = false;
        const isCurrent = () => !isOver && bytes === state.bytes && state.diagnosing === job;
        cancel = () => {
            if (isCurrent()) {
                isOver = true;
                job.end();
                showCancellation(name);
            }
        };
        /** @param {Viewer.Progress} progress */
        const report = (progress) => {
            if (isCurrent() && !isQuick) {
                showStage(progress, log.length);
                if (progress.compared) {
                    showFirstResults(progress.compared, isCurrent);
                }
            }
        };
        /** @type {<Found>(show: (found: Found) => void) => (found: Found) => void} */
        const finish = (show) => (found) => {
            if (isCurrent()) {
                isOver = true;
                finishReading();
                show(found);
                getElement("diagnosis").dataset.done = "yes";
            }
        };
        showText(`Examining ${name} …`);
        const job = runInWorker(state.core, "examine", log, state.snapshot, report);
        state.diagnosing = job;
        /** @param {Error} error */
        const showError = (error) => showText(`${name} was not examined: ${error.message}.`);
        job.outcome.then(finish(showResults), finish(showError));
    };

    /**
     * Diagnoses an opened log. `outcome` is the result of replaying the log, and `reason` a likely cause of an invalid
     * line.
     * @param {Viewer.Fault} outcome
     * @param {string} reason
     */
    const start = (outcome, reason) => {
        clear();
        if (outcome.status) {
            const text = globalThis.hidlog.formatError(outcome);
            showVerdict(judgeUnreadable(outcome, reason, `${text[0].toUpperCase()}${text.slice(1)}`), null);
        } else {
            // The diagnosis starts after all rows are explained, since both need much processor time and memory.
            runAfterExplaining([getCurrentSession()], examine);
        }
    };

    /**
     * Shows why a file cannot be read.
     * @param {string} why
     * @param {string} advice
     */
    const showUnreadableFile = (why, advice) => showVerdict(judgeFile(why, advice), null);

    /**
     * Checks a log against the rules of CTAP 2.1. Returns a promise of the findings, notes and totals.
     * @param {Uint8Array} bytes
     */
    const judge = (bytes) => runInWorker(state.core, "judge", bytes).outcome;

    globalThis.hidlogCard = { cancel: () => cancel(), clear, goToLine, judge, showUnreadableFile, start };
})();
