// Tests bindings/web/index.html with long logs: rows appear while the rest is read, and the page stays responsive.
// The times are printed. They are checked only if the address has `quiet`, for an idle machine (bench/page.sh).
import { expect, results, run, waitUntil, sleep } from "./harness.js";
import {
    chooseValue, encodeText, frame, getElement, getPage, listRows, listTexts, openLog, readNotice,
} from "./viewing.js";

frame.height = 700;

const isQuiet = new URLSearchParams(location.search).has("quiet");
const MAX_MS_TO_FIRST_ROW = isQuiet ? 1000 : Infinity;
const MAX_MS_TO_EXPLANATIONS = isQuiet ? 15_000 : Infinity;
const MAX_BLOCKED_MS = isQuiet ? 200 : Infinity;
const MAX_MS_PER_LETTER = isQuiet ? 50 : Infinity;

/**
 * Starts to measure the longest time for which the page is blocked. Returns a function that stops, and returns this
 * time in milliseconds.
 */
const watchLongestBlock = () => {
    let [last, longest] = [performance.now(), 0];
    const timer = getPage().setInterval(() => {
        longest = Math.max(longest, performance.now() - last);
        last = performance.now();
    }, 10);
    return () => {
        getPage().clearInterval(timer);
        return Math.max(longest, performance.now() - last);
    };
};

const formatSeconds = (milliseconds) => `${(milliseconds / 1000).toFixed(2)} s`;

/**
 * A file with a log that is repeated up to this size in megabytes. The browser stores the file, without a copy in the
 * page.
 */
const makeFile = async (name, log, megabytes) => {
    const answer = await fetch(`/long/${log}?megabytes=${megabytes}`);
    return new (getPage().File)([await answer.blob()], name);
};

/** Drops a file, and reports how long the page took and was blocked. */
const openFile = async (file, lines) => {
    const stop = watchLongestBlock();
    const begun = performance.now();
    const data = new (getPage().DataTransfer)();
    data.items.add(file);
    getPage().document.dispatchEvent(new (getPage().DragEvent)("drop", { dataTransfer: data, cancelable: true }));
    await waitUntil(() => listRows().length > 0, "the first row");
    const first = performance.now() - begun;
    await waitUntil(() => new RegExp(`^${file.name}: ${lines} lines`).test(readNotice()), "all lines");
    const all = performance.now() - begun;
    await waitUntil(() => getElement("story").textContent, "the story");
    const longest = stop();
    results.figures.push(`${file.name}, ${(file.size / 1024 / 1024).toFixed(0)} MB: the first row after`
        + ` ${formatSeconds(first)}, all lines after ${formatSeconds(all)}, and the page never stopped for more than`
        + ` ${longest.toFixed(0)} ms`);
    expect(first < MAX_MS_TO_FIRST_ROW, `${first} ms to the first row`);
    expect(longest < MAX_BLOCKED_MS, `it stopped for ${longest} ms`);
};

const testScrolling = async () => {
    const stop = watchLongestBlock();
    for (const part of [1, 0.5, 0.25, 0]) {
        getElement("scroller").scrollTop = part * getElement("scroller").scrollHeight;
        await waitUntil(() => listRows().length > 1, "rows after a jump");
    }
    results.figures.push(`four jumps in it: the page never stopped for more than ${stop().toFixed(0)} ms`);
};

/**
 * The last lines are explained, for which the core reads the whole log. `opened` is the time at which the file was
 * dropped.
 */
const testExplanations = async (opened) => {
    const stop = watchLongestBlock();
    getElement("scroller").scrollTop = getElement("scroller").scrollHeight;
    const isLastRow = (row) => row?.getAttribute("aria-posinset") === row?.getAttribute("aria-setsize");
    await waitUntil(() => isLastRow(listRows().at(-1)) && !listTexts().join().includes("…"), "the words of the last lines");
    const longest = stop();
    const took = performance.now() - opened;
    results.figures.push(`all rows named ${formatSeconds(took)} after the file was dropped: the page never stopped for more than`
        + ` ${longest.toFixed(0)} ms`);
    expect(took < MAX_MS_TO_EXPLANATIONS, `${took} ms to the last names`);
    expect(listTexts().at(-1).includes("CTAP2_OK"), listTexts().at(-1));
    expect(longest < MAX_BLOCKED_MS, `it stopped for ${longest} ms`);
};

/** 200 MB of sessions. */
const testHugeLog = async () => {
    await openLog("", null);
    const file = await makeFile("huge.log", "sign_in.log", 200);
    const opened = performance.now();
    await openFile(file, "\\d+");
    await testScrolling();
    await testExplanations(opened);
    const stop = watchLongestBlock();
    chooseValue("search", "no such words");
    getElement("cancel").click();
    expect(readNotice() === "huge.log: cancelled.", readNotice());
    const longest = stop();
    results.figures.push(`a search that is cancelled: ${longest.toFixed(0)} ms`);
    await openLog("", null);
};

/**
 * Types into the search field for a log of 30 MB: each letter is handled at once, and the last search finds the rows.
 */
const testSearch = async () => {
    await openLog("", null);
    await openFile(await makeFile("sought.log", "sign_in.log", 30), "\\d+");
    let longest = 0;
    const stop = watchLongestBlock();
    for (const words of ["s", "si", "sig", "signc", "signcount 7"]) {
        const begun = performance.now();
        chooseValue("search", words);
        longest = Math.max(longest, performance.now() - begun);
        await sleep(50);
    }
    const blocked = stop();
    getElement("cancel").click();
    results.figures.push(`30 MB, a letter in the search: ${longest.toFixed(0)} ms at most; meanwhile the page never stopped`
        + ` for more than ${blocked.toFixed(0)} ms`);
    expect(longest < MAX_MS_PER_LETTER, `a letter took ${longest} ms`);
    await openLog("", null);
};

/** A log of 230,000 channels. */
const testManyChannels = async () => {
    const makePacket = (at) => `> ${at} ${(at + 1).toString(16).padStart(8, "0")}8100010${"0".repeat(113)}`;
    await openLog("", null);
    const text = Array.from({ length: 230_000 }, (_, at) => makePacket(at)).join("\n");
    await openFile(new (getPage().File)([encodeText(text)], "channels.log"), "230000");
    expect(getElement("channel").options.length === 201, `${getElement("channel").options.length} channels are listed`);
    await openLog("", null);
};

run({ "200 MB": testHugeLog, "a search in 30 MB": testSearch, "230,000 channels": testManyChannels });
