// Tests the input of bindings/web/index.html: files in the encodings of other systems, pasted text, and input before
// the core is loaded.
import { expect, run, waitUntil } from "./harness.js";
import {
    dropFile, encodeText, fetchBytes, fetchExample, frame, getElement, getPage, listRows, listTexts, openLog,
    readCard, readNotice, waitForCard,
} from "./viewing.js";

const encodeUtf16 = (text, isLittle) => {
    const view = new DataView(new ArrayBuffer(2 * text.length + 2));
    const codes = [0xfeff, ...Array.from(text, (letter) => letter.charCodeAt(0))];
    codes.forEach((code, at) => view.setUint16(2 * at, code, isLittle));
    return new Uint8Array(view.buffer);
};

const pack = async (bytes) => {
    const packed = new Blob([bytes]).stream().pipeThrough(new CompressionStream("gzip"));
    return new Uint8Array(await new Response(packed).arrayBuffer());
};

/** A log in other encodings is shown like the original, and matches the key. The page reports what was converted. */
const testEncodings = async () => {
    const bytes = await fetchExample("service_registration.log");
    const text = new TextDecoder().decode(bytes);
    const files = [
        ["LF", bytes, ""],
        ["CR LF", encodeText(text.replaceAll("\n", "\r\n")), " Converted from CR LF."],
        ["a byte order mark", encodeText(`\ufeff${text}`), " Converted from a byte order mark."],
        ["UTF-16, little endian", encodeUtf16(text, true), " Converted from UTF-16."],
        ["UTF-16, big endian", encodeUtf16(text.replaceAll("\n", "\r\n"), false), " Converted from UTF-16, CR LF."],
        ["gzip", await pack(bytes), " Converted from gzip."],
    ];
    for (const [name, file, note] of files) {
        await openLog("a.log", file);
        const { side, text: told } = await waitForCard();
        const match = "The log matches the key: same 12 inputs 14 packets.";
        expect(side === "none" && told.includes(match), `${name}: ${told}`);
        expect(readNotice() === `a.log: 43 lines.${note}`, `${name}: ${readNotice()}`);
        expect(new TextDecoder().decode(getPage().hidlogViewer.state.bytes) === text, `${name}: the log's bytes`);
    }
};

const testPackedCapture = async () => {
    const capture = await fetchBytes("tests/captures/data/python_cancel.pcapng");
    await openLog("a.pcapng.gz", await pack(capture));
    const isShown = () => listTexts().some((text) => text.includes("authenticatorMakeCredential"));
    expect((await waitForCard()).side === "none" && isShown(), readNotice());
};

/** A capture is not converted as text, even if it has CR LF in a field that readers ignore. */
const testCaptureWithCrLf = async () => {
    const capture = await fetchBytes("tests/captures/data/keyboard_beside.48.pcap");
    await openLog("a.pcap", capture);
    const expected = listTexts().join();
    capture.set([13, 10], 12);
    await openLog("a.pcap", capture);
    expect((await waitForCard()).side === "none" && listTexts().join() === expected, readNotice());
    expect(/^a\.pcap: \d+ lines\.$/.test(readNotice()), readNotice());
};

/**
 * Pastes text with a plain Event that has `clipboardData`, since scripts in Firefox cannot create a paste event with
 * data.
 */
const paste = (text) => {
    const event = new (getPage().Event)("paste", { bubbles: true });
    event.clipboardData = { getData: () => text };
    getPage().document.body.dispatchEvent(event);
};

/** Pasted text replaces an open log only after the user confirms, and never if the text is not a log. */
const testPaste = async () => {
    const log = new TextDecoder().decode(await fetchExample("service_registration.log"));
    await openLog("first.log", await fetchExample("failing/denied_user.log"));
    const before = listTexts().join();
    const questions = [];
    let answer = false;
    getPage().confirm = (question) => {
        questions.push(question);
        return answer;
    };
    paste(log);
    expect(questions.join() === "Replace first.log by the pasted text?", questions.join());
    expect(listTexts().join() === before, "the log is kept");
    answer = true;
    paste("any words");
    await waitUntil(() => readNotice().startsWith("Cannot open pasted.log: not a session log"), "an error");
    expect(listTexts().join() === before && readCard().side === "user", "the log is kept");
    paste(log);
    await waitUntil(() => readNotice() === "pasted.log: 43 lines.", "the pasted log");
    await openLog("", null);
    getPage().confirm = () => {
        throw new Error("there is no log to replace");
    };
    paste(log);
    await waitUntil(() => readNotice() === "pasted.log: 43 lines.", "the pasted log in a new page");
};

/** Files that are dropped before the core is loaded are opened once it is loaded, in order, without an error. */
const testEarlyInput = async () => {
    const [one, other] = [await fetchExample("failing/denied_user.log"), await fetchExample("two_hosts.log")];
    const errors = [];
    let isLoaded = false;
    const loaded = new Promise((done) => frame.addEventListener("load", done, { once: true }));
    frame.src = "about:blank";
    await loaded;
    frame.src = "../../bindings/web/index.html";
    await waitUntil(() => getPage().document.readyState === "complete" && getPage().hidlog, "the page's scripts");
    isLoaded = getPage().document.documentElement.dataset.ready === "yes";
    getPage().addEventListener("error", ({ message }) => errors.push(message));
    getPage().addEventListener("unhandledrejection", ({ reason }) => errors.push(String(reason)));
    if (!isLoaded) {
        dropFile("one.log", one);
        dropFile("other.log", other);
        await waitUntil(() => readNotice() === "other.log: 12 lines.", `the later file, not ${readNotice()}`);
    }
    expect(!errors.length, errors.join());
};

/** Input before the core is loaded, with a core that is certain to load later. */
const testSlowCore = async () => {
    await openLog("", null);
    const errors = [];
    getPage().addEventListener("unhandledrejection", ({ reason }) => errors.push(String(reason)));
    getPage().addEventListener("error", ({ message }) => errors.push(message));
    const { load } = getPage().hidlog;
    let release;
    const waiting = new Promise((done) => {
        release = done;
    });
    getPage().hidlog.load = () => waiting.then(load);
    const { state } = getPage().hidlogViewer;
    Object.assign(state, { core: null, shown: null });
    const script = getPage().document.createElement("script");
    script.src = "ui_events.js";
    const added = new Promise((done) => script.addEventListener("load", done));
    getPage().document.body.append(script);
    await added;
    dropFile("two_hosts.log", await fetchExample("two_hosts.log"));
    paste("# pasted\n");
    getElement("example").click();
    expect(readNotice() === "" && !state.core, `nothing is opened yet: ${readNotice()}`);
    release();
    await waitUntil(() => readNotice() === "service_registration.log: 43 lines.", "the last of them");
    expect(!errors.length, errors.join());
};

/** The example was recorded with real keys, so nobody is at fault in its card. */
const testExample = async () => {
    await openLog("", null);
    getElement("example").click();
    const { side, text } = await waitForCard();
    expect(side === "none" && text.includes("0 MUST violations, 0 SHOULD violations"), text);
    expect(!text.includes("placeholders"), text);
};

/** A file that only begins like a snapshot is rejected. */
const testFalseSnapshot = async () => {
    await openLog("a.bin", Uint8Array.of(0xa2, 0x41, 1, 2, 3));
    const told = "Cannot open a.bin: not a text file: the first bytes are a2 41 01 02.";
    expect(readNotice() === told, readNotice());
};

const padPacket = (digits) => digits.padEnd(128, "0");

/** Statuses of keys with a PIN, from the standard's table (CTAP 2.1, 8.2), have names. */
const testStatusNames = async () => {
    const table = new TextDecoder().decode(await fetchBytes("standard/statuses.tsv"));
    const statuses = [...table.matchAll(/^0x(3[0-9a-f])\tCTAP2_ERR_(\w+)\t/gm)];
    expect(statuses.length === 15, `${statuses.length} statuses`);
    const start = `> 0 ${padPacket("ffffffff8600080001020304050607")}\n`
        + `< ${padPacket("ffffffff860011000102030405060700000001020100000c")}\n`;
    const calls = statuses.map(([, status]) =>
        `> 0 ${padPacket("0000000190000106")}\n< ${padPacket(`00000001900001${status}`)}\n`);
    await openLog("statuses.log", encodeText(start + calls.join("")), true);
    const folded = listRows().filter((row) => row.classList.contains("transaction"));
    const rows = folded.slice(1).map((row) => row.textContent.toLowerCase());
    statuses.forEach(([, status, name], at) => {
        const words = name.toLowerCase().replaceAll("_", " ");
        const isNamed = rows[at].includes(words) || (status === "36" && rows[at].includes("pin required"));
        expect(isNamed && !rows[at].includes("status 0x"), `${name}: ${rows[at]}`);
    });
};

run({
    "files in other encodings": testEncodings,
    "a packed capture": testPackedCapture,
    "a capture with CR LF": testCaptureWithCrLf,
    "pasted text": testPaste,
    "input while the page loads": testEarlyInput,
    "input before the core": testSlowCore,
    "the example blames nobody": testExample,
    "a file that begins like a snapshot": testFalseSnapshot,
    "statuses have names": testStatusNames,
});
