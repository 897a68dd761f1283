// Tests the views of bindings/web/index.html: the fields of a row and their bytes, copying, the menu, the time scale of
// the drawing, and two logs side by side.
import { expect, run, waitUntil } from "./harness.js";
import {
    encodeText, fetchExample, getElement, getPage, listRows, listTexts, openLog, pressKey, readCard, readNotice, waitForCard,
} from "./viewing.js";

const getTree = () => getPage().document.querySelector("[role=tree].fields");
const listItems = () => [...getTree().querySelectorAll("[role=treeitem]")];
const getSelectedItem = () => getTree().querySelector("[aria-selected=true]");
const readMarkedBytes = () => [...getElement("hex").querySelectorAll(".byte.marked")].map((cell) => cell.textContent).join("");

const pressKeyOn = (element, key) =>
    element.dispatchEvent(new (getPage().KeyboardEvent)("keydown", { key, bubbles: true, cancelable: true }));

const findItem = (start) => {
    const found = listItems().find((item) => item.textContent.trim().startsWith(start));
    expect(found, `no field ${start} in ${listItems().map((item) => item.textContent)}`);
    return found;
};

const selectLine = (number) => {
    const found = listRows().find((row) => row.firstChild.textContent === String(number));
    expect(found, `no row of line ${number}`);
    found.click();
};

const openRegistration = async () => {
    await openLog("registration.log", await fetchExample("registration.log"));
    await waitForCard();
    selectLine(5);
};

/**
 * The bytes of the selected field are marked, also after a click on a byte. The request in the test is written by hand.
 */
const testFieldBytes = async () => {
    await openRegistration();
    findItem("2 rp:").click();
    expect(readMarkedBytes() === "02a16269646b6578616d706c652e636f6d", readMarkedBytes());
    expect(getElement("hex-status").textContent === "17 bytes: line 4, bytes 44 to 60", getElement("hex-status").textContent);
    // The user entity begins in the first packet, and ends in the second packet.
    findItem("3 user:").click();
    expect(readMarkedBytes() === "03a16269644101", readMarkedBytes());
    expect(getElement("hex-status").textContent === "7 bytes: line 4, bytes 61 to 63; line 5, bytes 5 to 8",
        getElement("hex-status").textContent);
    const cells = [...getElement("hex").querySelectorAll(".byte")];
    expect(cells.length === 128, `${cells.length} bytes`);
    cells[9 + 10].click();
    expect(getSelectedItem().textContent.trim().startsWith("1 clientDataHash"), getSelectedItem().textContent);
    expect(readMarkedBytes() === `015820${"11".repeat(32)}`, readMarkedBytes());
    cells[0].click();
    expect(getSelectedItem().textContent.trim() === "channel 00000001" && readMarkedBytes() === "00000001", getSelectedItem().textContent);
};

/** The fields are a tree after ARIA's tree view pattern: roles, levels, positions and arrow keys. */
const testFieldTree = async () => {
    await openRegistration();
    const tree = getTree();
    expect(tree.tabIndex === 0 && tree.getAttribute("aria-label") === "Fields", "the tree can be focused");
    const read = (item) => ["aria-level", "aria-posinset", "aria-setsize", "aria-expanded"].map((name) => item.getAttribute(name)).join();
    expect(read(findItem("request 01")) === "1,2,2,true", read(findItem("request 01")));
    expect(read(findItem("1 clientDataHash")) === "2,1,5,", read(findItem("1 clientDataHash")));
    expect(read(findItem("2 rp")) === "2,2,5,false", read(findItem("2 rp")));
    const describeSelection = () => `${getSelectedItem()?.textContent.trim().split(" ").slice(0, 2).join(" ")} ${getSelectedItem()?.getAttribute("aria-expanded")}`;
    const count = listItems().length;
    const steps = [
        ["ArrowDown", "CBOR 91, false"], ["ArrowDown", "request 01 true"], ["ArrowLeft", "request 01 false"],
        ["ArrowRight", "request 01 true"], ["ArrowRight", "1 clientDataHash: null"], ["ArrowDown", "2 rp: false"],
        ["ArrowRight", "2 rp: true"], ["ArrowRight", "\"id\": \"example.com\" null"], ["ArrowLeft", "2 rp: true"],
        ["Enter", "2 rp: false"], ["ArrowLeft", "request 01 true"], ["End", "7 options: false"], ["Home", "CBOR 91, false"],
    ];
    for (const [key, expected] of steps) {
        pressKeyOn(tree, key);
        expect(describeSelection() === expected, `after ${key}: ${describeSelection()}, not ${expected}`);
        expect(tree.getAttribute("aria-activedescendant") === getSelectedItem().id, `${key} is announced`);
    }
    expect(listItems().length === count, "all are as before");
    const row = listRows().find((each) => each.getAttribute("aria-selected") === "true");
    expect(row.firstChild.textContent === "5", "the row is still selected");
};

/** Returns the text that the event `copy` puts on the clipboard. */
const readCopied = () => {
    const clipboardData = new (getPage().DataTransfer)();
    const event = new (getPage().Event)("copy", { bubbles: true, cancelable: true });
    Object.defineProperty(event, "clipboardData", { value: clipboardData });
    getPage().document.activeElement.dispatchEvent(event);
    return event.defaultPrevented ? clipboardData.getData("text/plain") : null;
};

/** Copies with a key or a button, and returns the text that the page puts on the clipboard. */
const copyWith = (act) => {
    let copied = null;
    getPage().document.execCommand = () => {
        copied = readCopied();
        return true;
    };
    act();
    return copied;
};

const testCopying = async () => {
    await openRegistration();
    const lines = new TextDecoder().decode(await fetchExample("registration.log")).split("\n");
    const all = copyWith(() => getElement("copy-bytes").click());
    expect(all === lines[3].slice(-128) + lines[4].slice(-128), all);
    expect(readNotice() === "Copied 128 bytes.", readNotice());
    expect(copyWith(() => getElement("copy-lines").click()) === lines[4], "the line");
    const text = copyWith(() => getElement("copy-text").click());
    expect(text.includes('\n  2 rp: {"id": "example.com"}\n'), text);
    getTree().focus();
    findItem("2 rp:").click();
    expect(copyWith(() => pressKeyOn(getTree(), "b")) === "02a16269646b6578616d706c652e636f6d", "the field's bytes");
    expect(copyWith(() => pressKeyOn(getTree(), "c")) === '2 rp: {"id": "example.com"}', "the field's text");
    expect(readCopied() === '2 rp: {"id": "example.com"}', "Ctrl+C in the tree");
    getElement("scroller").focus();
    expect(readCopied() === null, "elsewhere the browser copies");
};

const testMenu = async () => {
    await openRegistration();
    const { document } = getPage();
    const getFocusedId = () => document.activeElement.id;
    const isOpen = () => !getElement("menu").hidden && getElement("menu-button").getAttribute("aria-expanded") === "true";
    getElement("menu-button").focus();
    expect(!isOpen() && getElement("menu-button").getAttribute("aria-haspopup") === "menu", "closed at first");
    pressKeyOn(getElement("menu-button"), "ArrowDown");
    expect(isOpen() && getFocusedId() === "compare", `open at ${getFocusedId()}`);
    for (const [key, expected] of [["ArrowDown", "download"], ["End", "keys"], ["ArrowDown", "compare"], ["ArrowUp", "keys"],
        ["Home", "compare"], ["s", "save"], ["t", "theme"]]) {
        pressKeyOn(document.activeElement, key);
        expect(getFocusedId() === expected, `after ${key} at ${getFocusedId()}`);
    }
    pressKeyOn(document.activeElement, "Escape");
    expect(!isOpen() && getFocusedId() === "menu-button", "Escape closes it");
    getElement("menu-button").click();
    getElement("keys").click();
    expect(!isOpen() && getElement("keys-dialog").open, "the keys are shown");
    getElement("keys-close").click();
    expect(!getElement("keys-dialog").open, "and closed");
    getElement("menu-button").click();
    document.body.dispatchEvent(new (getPage().PointerEvent)("pointerdown", { bubbles: true }));
    expect(!isOpen(), "a click elsewhere closes it");
};

/** Returns an array to which each drawn text is added. */
const recordDrawnTexts = () => {
    const { prototype } = getPage().CanvasRenderingContext2D;
    const { fillText } = prototype;
    const drawn = [];
    prototype.fillText = function draw(text, ...rest) {
        drawn.push(text);
        return fillText.call(this, text, ...rest);
    };
    return drawn;
};

/** The position of each row in the drawing, by line number. */
const readRowPositions = () => Object.fromEntries(listRows().map((row) =>
    [row.firstChild.textContent, Number(/translateY\(([\d.]+)px\)/.exec(row.style.transform)[1])]));

/**
 * The distance between rows is to scale: half the time has half the distance. A long pause is cut, and its length is
 * shown.
 */
const testTimeScale = async () => {
    const times = [0, 12, 24, 48, 54, 54, 60054];
    await openLog("times.log", encodeText(times.map((time) => `t ${time}\n`).join("")));
    await waitForCard();
    const drawn = recordDrawnTexts();
    getElement("drawing-tab").click();
    await waitUntil(() => readRowPositions()[4] > 3 * 26, "the times");
    const tops = readRowPositions();
    const getSpacing = (line) => tops[line] - tops[line - 1] - 26;
    expect(getSpacing(2) > 8 && getSpacing(2) === getSpacing(3), `12 ms: ${getSpacing(2)} and ${getSpacing(3)}`);
    expect(getSpacing(4) === 2 * getSpacing(2), `24 ms: ${getSpacing(4)}`);
    expect(getSpacing(5) === getSpacing(2) / 2, `6 ms: ${getSpacing(5)}`);
    expect(getSpacing(6) === 0, `no time: ${getSpacing(6)}`);
    expect(getSpacing(7) > 20 && getSpacing(7) < 100, `a minute is cut: ${getSpacing(7)}`);
    expect(drawn.includes("1 min 0 s later, not to scale"), drawn.join());
    // The scale is two pixels per millisecond, and the bar has 20 pixels.
    expect(getSpacing(2) === 24 && drawn.includes("10 ms"), `the scale: ${getSpacing(2)}, ${drawn.join()}`);
};

/** The row that differs is also marked with a text in the drawing. */
const testDrawnMark = async () => {
    await openLog("stale.log", await fetchExample("failing/stale_sign_count.log"), true);
    await waitForCard();
    const drawn = recordDrawnTexts();
    getElement("drawing-tab").click();
    expect(drawn.includes("key at fault") && drawn.includes("key at fault, line 66"), drawn.join());
};

const openTwoLogs = async (name, bytes, otherName, otherBytes) => {
    await openLog(name, bytes);
    await waitForCard();
    const files = new (getPage().DataTransfer)();
    files.items.add(new (getPage().File)([bytes], name));
    files.items.add(new (getPage().File)([otherBytes], otherName));
    getPage().document.dispatchEvent(new (getPage().DragEvent)("drop", { dataTransfer: files, cancelable: true }));
    await waitUntil(() => readNotice() === `${name} beside ${otherName}.`, "both logs");
};

const listPairs = () => [...getElement("two-space").querySelectorAll("[role=row]")].map((pair) => ({
    texts: [...pair.children].map((cell) => cell.textContent), isChosen: pair.getAttribute("aria-selected") === "true",
}));

/**
 * A log is shown beside a changed log: the first difference is selected and visible, and the differing members are
 * marked.
 */
const testTwoLogs = async () => {
    const text = new TextDecoder().decode(await fetchExample("sign_in.log"));
    const lines = text.split("\n");
    // Line 35 has the signature counter of the second sign-in. The presence in line 31 is 5 ms later, which does not
    // count as a difference.
    lines[34] = lines[34].replace("470100000002", "470100000007");
    lines[30] = lines[30].replace("p 410", "p 415");
    await openTwoLogs("one.log", encodeText(text), "other.log", encodeText(lines.join("\n")));
    const summary = getElement("two-summary").textContent;
    expect(summary.startsWith("First difference: line 35 of one.log and line 35 of other.log, other bytes. 1 of "), summary);
    const [chosen] = listPairs().filter(({ isChosen }) => isChosen);
    expect(chosen.texts[0].startsWith("35 ") && chosen.texts[1] === "≠ other bytes" && chosen.texts[2].startsWith("35 "), chosen.texts.join());
    expect(listPairs().filter(({ texts }) => texts[1] !== "=").length === 1, "the others are the same");
    const marks = [...getElement("detail-text").querySelectorAll("mark")].map((mark) => mark.textContent.trim());
    expect(marks.includes("signCount 2") && marks.includes("signCount 7"), marks.join());
    expect(getElement("two-tab").getAttribute("aria-selected") === "true" && getElement("scroller").offsetHeight === 0, "alone");
    getElement("table-tab").click();
    expect(listRows().length > 0 && getElement("two-logs").hidden, "back to the table");
    getElement("two-tab").click();
    expect(listPairs().length > 0, "and again");
};

/** Lines that only one log has are shown without a partner. The key n selects the next difference, cyclically. */
const testAlignedLogs = async () => {
    const text = new TextDecoder().decode(await fetchExample("registration.log"));
    const shorter = text.split("\n").filter((_, at) => at !== 7).join("\n").replace("granted", "denied");
    await openTwoLogs("one.log", encodeText(text), "other.log", encodeText(shorter));
    const listDifferences = () => listPairs().filter(({ texts }) => texts[1] !== "=").map(({ texts }) => texts.join("|"));
    expect(listDifferences().length === 2, listDifferences().join("\n"));
    expect(listDifferences()[0] === "8 KEEPALIVE 1 02  STATUS_UPNEEDED|≠ first only|", listDifferences()[0]);
    const readSelectedText = () => listPairs().find(({ isChosen }) => isChosen).texts[0];
    const kept = readCard().level;
    expect(listDifferences()[1] === "10 presence: granted|≠ differs|9 presence: denied", listDifferences()[1]);
    pressKeyOn(getElement("two-scroller"), "n");
    expect(readSelectedText() === "10 presence: granted" && readCard().level === kept, readSelectedText());
    pressKeyOn(getElement("two-scroller"), "n");
    expect(readSelectedText() === "8 KEEPALIVE 1 02  STATUS_UPNEEDED", `around: ${readSelectedText()}`);
    pressKeyOn(getElement("two-scroller"), "ArrowDown");
    expect(readSelectedText() === "10 presence: granted", readSelectedText());
    await openTwoLogs("one.log", encodeText(text), "same.log", encodeText(text));
    expect(getElement("two-summary").textContent === "Both logs have the same packets and replies.", "the same log");
};

/** A file that is not a log does not replace the shown log. */
const testUnreadableSecondLog = async () => {
    await openLog("one.log", await fetchExample("registration.log"));
    await waitForCard();
    const before = listTexts().join();
    const files = new (getPage().DataTransfer)();
    files.items.add(new (getPage().File)(["any words\n"], "words.txt"));
    getElement("other-file").files = files.files;
    getElement("other-file").dispatchEvent(new (getPage().Event)("change"));
    await waitUntil(() => readNotice().startsWith("Cannot compare with words.txt: not a session log"), "an error");
    expect(listTexts().join() === before && getElement("two-logs").hidden, "the log is still shown");
    pressKey("t");
    expect(getElement("drawing-tab").getAttribute("aria-selected") === "true", "keys work");
};

run({
    "fields and their bytes": testFieldBytes,
    "the tree of fields": testFieldTree,
    "copying": testCopying,
    "the menu": testMenu,
    "the drawing's time": testTimeScale,
    "the mark in the drawing": testDrawnMark,
    "two logs": testTwoLogs,
    "lines of one log alone": testAlignedLogs,
    "a file that cannot be compared": testUnreadableSecondLog,
});
