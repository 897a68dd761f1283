// Tests changed, wrong and hostile files in bindings/web/index.html, several files at once, and reloading.
import { expect, run, waitUntil } from "./harness.js";
import {
    chooseValue, dropFile, encodeText, fetchBytes, fetchExample, frame, getElement, getPage, listRows, listTexts, openLog,
    readCard, readNotice, waitForCard,
} from "./viewing.js";

const fetchText = async (name) => new TextDecoder().decode(await fetchExample(name));
const mapLines = (text, change) => text.trimEnd().split("\n").map(change).join("\n");

/** Drops files at once, in their order. */
const dropFiles = (files) => {
    const data = new (getPage().DataTransfer)();
    files.forEach(([name, bytes]) => data.items.add(new (getPage().File)([bytes], name)));
    getPage().document.dispatchEvent(new (getPage().DragEvent)("drop", { dataTransfer: data, cancelable: true }));
};

/** A log that mail programs, chats or editors have changed is restored when opened, and matches the key. */
const testRestoredLogs = async () => {
    const text = await fetchText("service_registration.log");
    const copies = [
        ["a mail's quotation", mapLines(text, (line) => `> ${line}`), "a quotation"],
        ["a quotation without final blanks", mapLines(text, (line) => `> ${line}`.trimEnd()), "a quotation"],
        ["a code fence", `Here it is:\n\n\`\`\`\n${text}\`\`\`\nThanks\n`, "a code fence"],
        ["an indented block", mapLines(text, (line) => `    ${line}`), "other blanks"],
        ["blanks at the ends", mapLines(text, (line) => `${line}  `), "other blanks"],
        ["tabs", text.replaceAll("> 4 ", "> 4\t"), "other blanks"],
        ["no-break spaces", mapLines(text, (line) => (line.startsWith("#") ? line : line.replaceAll(" ", "\u00a0"))),
            "other blanks"],
        ["a quotation with CR LF", mapLines(text, (line) => `> ${line}`).replaceAll("\n", "\r\n"), "CR LF, a quotation"],
    ];
    for (const [name, copy, changes] of copies) {
        await openLog("copy.log", encodeText(copy));
        const card = await waitForCard();
        const match = "The log matches the key: same 12 inputs 14 packets.";
        expect(card.side === "none" && card.text.includes(match), `${name}: ${readNotice()} ${card.text}`);
        expect(readNotice().endsWith(` Converted from ${changes}.`), `${name}: ${readNotice()}`);
    }
};

/** A log with additional blanks in comments, which are valid, is not changed. */
const testUnchangedLog = async () => {
    const text = `#  a comment \n${await fetchText("service_registration.log")}#\tanother\n`;
    await openLog("own.log", encodeText(text));
    expect(readNotice() === "own.log: 45 lines.", readNotice());
    expect(new TextDecoder().decode(getPage().hidlogViewer.state.bytes) === text, "the log's bytes");
};

/** For a file that is not a log, the page shows the kind of file and advice. */
const testOtherFiles = async () => {
    const shown = "1 > 1 ffffffff INIT 8\n2 < ffffffff INIT 17\n";
    const packets = (await fetchText("registration.log")).split("\n").filter((line) => line.startsWith("> "));
    const wrapped = mapLines(packets.join("\n"), (line) => line.replace(/^(.{80})(.+)/, "$1\n$2"));
    const files = [
        ["a.pdf", "%PDF-1.7\n", "the file is a PDF document.", "Open a session log or a USB capture."],
        ["a.html", "<!DOCTYPE html>\n", "the file is an HTML page.", "Open it in a browser, if it was saved here with a log."],
        ["a.json", "[{}]", "the file is JSON", "Save what key.log() returns as a text file."],
        ["a.txt", shown, "the file is the output of hidlog show.", "Open the log from which it was made."],
        ["a.txt", "hidlog: line 3: differs at packet 1\n", "the file is the output of hidlog check.",
            "Open the log from which it was made."],
        ["a.log", wrapped, "its packet has 76 hexadecimal digits, not 128", "Copy the whole log."],
        ["a.log", `000000\n${await fetchText("registration.log")}`, "it is a part of a packet", "Copy the whole log."],
        ["a.log", `gisters\n${packets.join("\n")}`, "its beginning is missing", "Copy the whole log."],
        ["notes.md", "# Notes\n\nwords\n", "line 3: not a log line: “words”", "hidlog import notes.md -o session.log"],
        ["ü.txt", "Grüße\n", "line 1: not a log line: “Grüße”", "hidlog import FILE -o session.log"],
        ["two words.txt", "words\n", "not a log line: “words”", "hidlog import 'two words.txt' -o session.log"],
        ["a; rm -rf ~.txt", "words\n", "not a log line: “words”", "hidlog import FILE -o session.log"],
        ["-o.txt", "words\n", "not a log line: “words”", "hidlog import FILE -o session.log"],
    ];
    for (const [name, text, reason, advice] of files) {
        await openLog(name, encodeText(text));
        const card = await waitForCard();
        expect(card.side === "capture" && card.text.includes(reason), `${name}: ${card.text}`);
        expect(card.text.endsWith(advice), `${name}: ${card.text}`);
        expect(readNotice().startsWith(`Cannot open ${name}: `), readNotice());
    }
};

/** Texts that `hidlog import` converts are recognized. The samples are real outputs of each tool. */
const testImportableTexts = async () => {
    const names = [
        ["libfido2_register.fido_debug.txt", "the output of libfido2's FIDO_DEBUG"],
        ["python_cancel.python_debug.txt", "python-fido2's logging"], ["libfido2_register.usbmon.txt", "usbmon's text"],
        ["strace_register.device.strace.txt", "the output of strace"],
    ];
    for (const [name, kind] of names) {
        await openLog(name, await fetchBytes(`tests/captures/data/${name}`));
        const { text } = await waitForCard();
        expect(text.includes(`the file is ${kind}.`), `${name}: ${text}`);
        expect(text.endsWith(`hidlog import ${name} -o session.log`), `${name}: ${text}`);
    }
};

/** A changed or shortened line inside a log is explained. */
const testCutLine = async () => {
    const lines = (await fetchText("service_registration.log")).split("\n");
    lines[13] = lines[13].slice(0, 100);
    lines[12] = lines[12].slice(0, 99);
    await openLog("edited.log", encodeText(lines.join("\n")));
    const card = await waitForCard();
    expect(card.side === "capture" && card.line === "13", card.text);
    expect(card.text.includes("Its packet has 95 hexadecimal digits, not 128"), card.text);
};

/** A log and its snapshot can be dropped together, in any order. A file that cannot be opened is reported by name. */
const testSeveralFiles = async () => {
    const [log, snapshot] = [await fetchExample("service_after_restart.log"), await fetchExample("service.snapshot")];
    const other = await fetchExample("two_hosts.log");
    const pdf = encodeText("%PDF-1.7\n");
    const drops = [
        [[["a.log", log], ["a.snapshot", snapshot]], "a.log: 32 lines, with the credentials of a.snapshot."],
        [[["a.snapshot", snapshot], ["a.log", log]], "a.log: 32 lines, with the credentials of a.snapshot."],
        [[["b.pdf", pdf], ["c.log", other]], "c.log: 12 lines. Not opened: b.pdf."],
        [[["c.log", other], ["b.pdf", pdf]], "Cannot compare with b.pdf: the file is a PDF document."],
        [[["c.log", other], ["d.log", log], ["e.log", log]], "c.log beside d.log. Not opened: e.log."],
    ];
    for (const [files, notice] of drops) {
        await openLog("", null);
        dropFiles(files);
        await waitUntil(() => readNotice() === notice, `${notice} not ${readNotice()}`);
        const card = await waitForCard();
        expect(card.side === "none", `${notice} ${card.text}`);
    }
};

/** A snapshot of another session is not used for a log that matches the key without it. */
const testOtherSnapshot = async () => {
    await openLog("", null);
    dropFile("a.snapshot", await fetchExample("service.snapshot"));
    await waitUntil(() => readNotice().includes("are now played with"), "the snapshot");
    dropFile("b.log", await fetchExample("service_sign_in.log"));
    const card = await waitForCard();
    expect(card.text.includes("The log matches the key"), card.text);
    const notice = "b.log: 132 lines. The credentials of a.snapshot are not used: the log matches the key without them.";
    expect(readNotice() === notice, readNotice());
    dropFile("c.log", await fetchExample("service_after_restart.log"));
    await waitUntil(() => readCard().side === "capture" && readCard().text.includes("lacks the credentials"), "the card");
};

/** A dropped text is opened like a pasted one. */
const testDroppedText = async () => {
    await openLog("", null);
    const data = new (getPage().DataTransfer)();
    data.setData("text", await fetchText("two_hosts.log"));
    getPage().document.dispatchEvent(new (getPage().DragEvent)("drop", { dataTransfer: data, cancelable: true }));
    await waitUntil(() => readNotice() === "dropped.log: 12 lines.", `the text, not ${readNotice()}`);
};

/** Chooses a file, as the button Open does. */
const chooseFile = (id, name, bytes) => {
    const data = new (getPage().DataTransfer)();
    data.items.add(new (getPage().File)([bytes], name));
    getElement(id).files = data.files;
    getElement(id).dispatchEvent(new (getPage().Event)("change"));
};

/**
 * After a file was opened, the file chooser is reset, so that the same file can be chosen again after it was edited.
 */
const testSameFileAgain = async () => {
    await openLog("", null);
    chooseFile("file", "a.log", await fetchExample("two_hosts.log"));
    await waitUntil(() => readNotice() === "a.log: 12 lines.", "the file");
    expect(getElement("file").files.length === 0, "the choice is forgotten");
    chooseFile("other-file", "b.log", await fetchExample("two_hosts.log"));
    await waitUntil(() => readNotice() === "a.log beside b.log.", "the other file");
    expect(getElement("other-file").files.length === 0, "that choice, too");
};

/** A long log of inputs only is shown with the packets that the key sends, like a short log, and nobody is at fault. */
const testLongInputs = async () => {
    const inputs = (await fetchText("first.log")).split("\n").filter((line) => /^[>tpks] /.test(line));
    const ping = `> 100000 000000018100010${"0".repeat(113)}\n`;
    await openLog("inputs.log", encodeText(`${inputs.join("\n")}\n${ping.repeat(33_000)}`), true);
    await waitUntil(() => readNotice().startsWith("inputs.log has only inputs."), `the replay, not ${readNotice()}`);
    const card = await waitForCard();
    expect(card.side === "none", card.text);
    expect(getElement("view").value === "replayed", getElement("view").value);
};

/**
 * After a reload, no log is open, and the search, channel and view are reset, since they would hide lines of the next
 * log.
 */
const testReload = async () => {
    await openLog("a.log", await fetchExample("two_hosts.log"));
    chooseValue("search", "ping");
    chooseValue("channel", "00000002");
    chooseValue("view", "quiet");
    const loaded = new Promise((done) => frame.addEventListener("load", done, { once: true }));
    getPage().location.reload();
    await loaded;
    await waitUntil(() => getPage().document.documentElement.dataset.ready === "yes", "the page");
    const values = ["search", "channel", "view"].map((id) => getElement(id).value).join();
    expect(values === ",,recorded" && getElement("fold").checked, `left: ${values}`);
    const enabled = ["search", "channel", "view", "fold", "compare", "download", "save"].filter((id) => !getElement(id).disabled);
    expect(!enabled.length, `usable without a log: ${enabled}`);
    dropFile("a.log", await fetchExample("two_hosts.log"));
    await waitForCard();
    expect(/ of 12 lines$/.test(getElement("count").textContent) && listRows().length > 3, getElement("count").textContent);
};

const HOSTILE_NAMES = [
    "<img src=x onerror=alert(1)>.log", "a\u202egol.exe\u2066.log", `${"n".repeat(3000)}.log`, "a\u0007\u009b31m.log",
    "</SCRIPT><h1 id=injected>.log", "<!--<script>.log", "\u2028'+alert(1)+'.log",
];

/** A file name cannot create elements, reorder text, or make the page wider. */
const testHostileNames = async () => {
    const log = await fetchExample("two_hosts.log");
    for (const name of HOSTILE_NAMES) {
        for (const bytes of [log, encodeText("no log \u202e\n"), encodeText("%PDF-1.7")]) {
            await openLog(name, bytes);
            await waitForCard();
            const { documentElement } = getPage().document;
            expect(!getPage().document.querySelector("img, #injected"), `${name}: an element`);
            expect(!/[\u0007\u009b\u2028\u202a-\u202e\u2066-\u2069]/.test(documentElement.textContent), `${name} is raw`);
            expect(documentElement.scrollWidth <= documentElement.clientWidth, `${name}: the page is wider`);
        }
    }
};

/** A page that is saved with a hostile log and file name contains these only as text, and works. */
const testHostileSavedPage = async () => {
    const comment = "# </script><h1 id=injected>x</h1><!--<script>\n";
    for (const name of HOSTILE_NAMES) {
        await openLog("a.log", encodeText(comment + await fetchText("two_hosts.log")));
        await waitForCard();
        const { state } = getPage().hidlogViewer;
        const html = await getPage().hidlogSave.makePage({ ...state, name });
        const address = URL.createObjectURL(new Blob([html], { type: "text/html" }));
        const loaded = new Promise((done) => frame.addEventListener("load", done, { once: true }));
        frame.src = address;
        await loaded;
        const isReady = () => getPage().document.documentElement.dataset.ready === "yes";
        await waitUntil(isReady, `the page saved as ${name.slice(0, 40)}`);
        expect((await waitForCard()).side === "none" && readNotice().endsWith(": 13 lines."), readNotice());
        expect(!getPage().document.querySelector("img, #injected"), `${name}: an element`);
        expect(listTexts()[0].includes("</script><h1 id=injected>"), listTexts()[0]);
        URL.revokeObjectURL(address);
    }
};

/** Long lines are shortened. */
const testLongLines = async () => {
    const text = await fetchText("two_hosts.log");
    await openLog("long.log", encodeText(`${text}# ${"x".repeat(3_000_000)}\n${text}`));
    const card = await waitForCard();
    expect(card.side === "capture" && card.line === "13", card.text.slice(0, 300));
    expect(card.text.includes("longer than 255 bytes"), card.text.slice(0, 300));
    expect(getPage().document.body.textContent.length < 100_000, "the line is not shown as a whole");
    expect(listRows().length > 1, "the lines before it are shown");
    await openLog("line.log", encodeText("x".repeat(3_000_000)));
    expect(readCard().side === "capture" && readCard().text.length < 500, readCard().text.slice(0, 300));
};

run({
    "logs copied by mail, chats and editors": testRestoredLogs,
    "blanks that a log can have": testUnchangedLog,
    "other files": testOtherFiles,
    "texts that hidlog import converts": testImportableTexts,
    "a packet that is cut": testCutLine,
    "several files at once": testSeveralFiles,
    "a snapshot of another session": testOtherSnapshot,
    "a dropped text": testDroppedText,
    "the same file again": testSameFileAgain,
    "a long log of inputs": testLongInputs,
    "a reload": testReload,
    "hostile names": testHostileNames,
    "a saved page with a hostile log": testHostileSavedPage,
    "long lines": testLongLines,
});
