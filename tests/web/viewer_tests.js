// Tests bindings/web/index.html as a user operates it: dropping files, pressing keys and clicking.
import { expect, results, run, waitUntil } from "./harness.js";
import "./page_facts.js";
import {
    getElement, chooseValue, dropFile, encodeText, fetchExample, fetchBytes, frame, readCard, readNotice, openLog, getPage,
    listRows, search, listTexts, waitForCard,
} from "./viewing.js";

const LOG_NAMES = ["first", "get_info", "registration", "selection", "sign_in", "sign_in_again", "time_out", "two_hosts"];

/** The page shows the number of lines, and the rows of INIT packets show the command. */
const makeShowTest = (name) => async () => {
    const bytes = await fetchExample(`${name}.log`);
    await openLog(`${name}.log`, bytes);
    const lines = new TextDecoder().decode(bytes).split("\n").length - 1;
    const hasOnlyInputs = readNotice().includes("only inputs");
    const expected = `${name}.log: ${lines} lines.`;
    expect(hasOnlyInputs || readNotice() === expected, readNotice());
    expect(listTexts().some((text) => /INIT (8|17) {2}nonce/.test(text)), "the INIT is named");
    expect(hasOnlyInputs || listRows().length === Math.min(lines, listRows().length), "a row a line");
};

const testDecodedMessage = async () => {
    await openLog("registration.log", await fetchExample("registration.log"));
    await search("search", "makecredential");
    listRows()[0].click();
    const detail = getElement("detail-text").textContent;
    expect(detail.includes('\n  2 rp: {"id": "example.com"}\n'), `the request is decoded: ${detail}`);
    await search("search", "packed");
    listRows()[0].click();
    expect(getElement("detail-text").textContent.includes("\n    flags 41 UP AT\n"), "the authenticator data are decoded");
};

const testFolding = async () => {
    await openLog("registration.log", await fetchExample("registration.log"));
    const lines = listRows().length;
    getElement("fold").click();
    expect(listRows().length === 3 && lines > 10, `a row for each transaction: ${listRows().length}`);
    expect(getElement("story").textContent.startsWith("1 registration: done. 2 transactions on 2 channels."), "in words");
    expect(listTexts()[2].includes("Registration: done at example.com"), listTexts()[2]);
    expect(listTexts().some((text) => text.includes("authenticatorMakeCredential → CTAP2_OK")), "folded");
    const place = listTexts().findIndex((text) => text.includes("MakeCredential"));
    listRows()[place].click();
    expect(listTexts().some((text) => text.includes("presence: granted")), "unfolded");
};

/**
 * Rejected requests have their own colour in the table and in the drawing. Packets outside transactions are described
 * as such.
 */
const testRejectedRequests = async () => {
    await openLog("two_clients.log", await fetchExample("failing/two_clients.log"), true);
    const refused = listRows().filter((row) => row.classList.contains("refused")).map((row) => row.lastChild);
    const busy = "host is the reason, line 14 Registration: the key was busy";
    const isBusy = (cell) => cell.textContent.startsWith(busy);
    expect(refused.length === 1 && isBusy(refused[0]), listTexts().join());
    const probe = getPage().document.createElement("span");
    probe.style.color = "var(--fault)";
    getPage().document.body.append(probe);
    const { color } = getPage().getComputedStyle(probe);
    expect(getPage().getComputedStyle(refused[0]).color === color, getPage().getComputedStyle(refused[0]).color);
    expect(listTexts().filter((text) => text.includes("(outside any transaction)")).length === 2, listTexts().join());
    const drawn = recordDrawnTexts();
    getElement("drawing-tab").click();
    expect(drawn.has("Registration: the key was busy") && drawn.has("Registration: done at example.com"), [...drawn].join());
};

/** A rejected request is not paired with the response of the pending request. */
const testPendingRequest = async () => {
    await openLog("busy_channel.log", await fetchExample("failing/busy_channel.log"), true);
    const hasText = (title) => listTexts().some((text) => text.includes(title));
    expect(hasText("authenticatorGetInfo → ERR_CHANNEL_BUSY"), "the rejected one");
    expect(hasText("authenticatorMakeCredential → CTAP2_OK"), "the pending one");
    await search("search", "signcount 0");
    expect(listRows().length > 0, "the answer's members are those of a registration");
};

const testChannelFilter = async () => {
    await openLog("two_hosts.log", await fetchExample("two_hosts.log"));
    await search("channel", "00000002");
    expect(listRows().length > 0 && listTexts().every((text) => text.includes("00000002")), "one channel alone");
};

/** The rows that differ from what the key sends, by their line numbers. */
const listDifferingRows = () =>
    listRows().filter((row) => row.classList.contains("differs")).map((row) => row.firstChild.textContent);

const testMarkedDifference = async () => {
    const text = new TextDecoder().decode(await fetchExample("registration.log"));
    const changed = text.replace("< 00000001bb000102", "< 00000001bb000101");
    await openLog("changed.log", encodeText(changed));
    const { side, line, text: told } = await waitForCard();
    expect(side === "key" && line === "6", `${side} ${line}: ${told}`);
    expect(listDifferingRows().join() === "6", "the line that is named is marked");
    const detail = getElement("detail-text").textContent;
    expect(detail.startsWith("line 6 differs: packet 1 for line 5"), detail);
    expect(detail.includes("The key sends:\n< 00000001bb000102"), "what is sent is shown");
};

const SIGN_IN_COUNTER = "470100000002";

/** Changes and opens a log of two sign-ins. Returns the detail's first line, the marked line and the detail's marks. */
const openChangedLog = async (change) => {
    const lines = new TextDecoder().decode(await fetchExample("sign_in.log")).split("\n");
    change(lines, lines.findIndex((line) => line.includes(SIGN_IN_COUNTER)));
    await openLog("changed.log", encodeText(lines.join("\n")));
    await waitForCard();
    const marks = [...getElement("detail-text").querySelectorAll("mark")].map((mark) => mark.textContent.trim());
    return { told: getElement("detail-text").textContent.split("\n")[0], marked: listDifferingRows().join(), marks };
};

const testDifferingMember = async () => {
    const { told, marked, marks } = await openChangedLog((lines, at) => {
        lines[at] = lines[at].replace(SIGN_IN_COUNTER, "470100000007");
    });
    expect(told === "line 35 differs: packet 2 for line 33" && marked === "35", told + marked);
    const expected = ["signCount 7", "signCount 2", "7", "2", "signCount 7", "signCount 2"];
    const isOtherLine = (text) => !text.startsWith("2 authData: h'");
    expect(marks.filter(isOtherLine).join() === expected.join() && marks.length === 8, marks.join("\n"));
};

/** For each failing session, who is at fault, the line, a part of the card's text, and a text to find in the rows. */
const FAILING_SESSIONS = {
    denied_user: ["user", 17, "same 7 inputs 5 packets", "CTAP2_ERR_OPERATION_DENIED"],
    excluded_credential: ["host", 32, "same 16 inputs 14 packets", "CTAP2_ERR_CREDENTIAL_EXCLUDED"],
    wrong_rp_id: ["host", 32, "same 11 inputs 11 packets", 'rpId: "www.example.com"'],
    lost_packet: ["host", 6, "same 3 inputs 2 packets", "ERR_INVALID_SEQ"],
    busy_channel: ["host", 11, "same 10 inputs 11 packets", "ERR_CHANNEL_BUSY"],
    stale_sign_count: ["key", 66, "The log has signCount 1; the key sends signCount 2.", "signCount 1"],
    truncated: ["capture", 49, "its last line ends after 49 characters", "line 49: not a log line"],
    two_clients: ["host", 14, "same 13 inputs 12 packets", "ERR_CHANNEL_BUSY"],
    changed_request: ["caller", 41, "same 14 inputs 18 packets", "clientDataHash: h'"],
    noncanonical_cbor: ["host", 4, "same 4 inputs 2 packets", "request 01 fault 6 at 125"],
};

const testFailingSessions = async () => {
    for (const [name, [side, line, told, sought]] of Object.entries(FAILING_SESSIONS)) {
        await openLog(`${name}.log`, await fetchExample(`failing/${name}.log`));
        const card = await waitForCard();
        expect(card.side === side && card.line === String(line) && card.text.includes(told), `${name}: ${card.text}`);
        const [chosen] = listRows().filter((row) => row.getAttribute("aria-selected") === "true");
        expect(chosen?.querySelector(".finding").textContent.startsWith(side), `${name}: ${chosen?.textContent}`);
        await search("search", sought.toLowerCase());
        expect(listRows().length > 0, `${name}: no row says ${sought}`);
        listRows()[0].click();
        expect(listTexts()[0].includes(sought) || getElement("detail-text").textContent.includes(sought), `${name}: ${sought}`);
    }
};

const testLogWithoutPackets = async () => {
    await openLog("first.log", await fetchExample("first.log"));
    expect((await waitForCard()).side === "none" && readNotice().startsWith("first.log has only inputs."), readNotice());
    expect(listRows().every((row) => !row.classList.contains("differs")), "no row is marked");
};

const testMissingSnapshot = async () => {
    const bytes = await fetchExample("failing/wrong_snapshot.log");
    await openLog("wrong_snapshot.log", bytes);
    expect((await waitForCard()).side === "capture" && readCard().line === "7", readCard().text);
    const detail = getElement("detail-text").textContent;
    expect(detail.startsWith("line 7 differs: packet 1 for line 6\n"), detail);
    expect(detail.includes("drop its snapshot first") && detail.includes("answer 2e  CTAP2_ERR_NO_CREDENTIALS"), detail);
    dropFile("alice.snapshot", await fetchExample("failing/alice.snapshot"));
    await waitUntil(() => readNotice().includes("with the credentials of alice.snapshot."), "the snapshot");
    const { side, text } = await waitForCard();
    expect(side === "none" && text.includes("The log matches the key: same 7 inputs 9 packets."), text);
};

const testMissingPacket = async () => {
    const { told, marked } = await openChangedLog((lines, at) => lines.splice(at, 1));
    expect(told === "line 35 differs: packet 2 for line 33" && marked === "35", told + marked);
    const cut = await openChangedLog((lines, at) => lines.splice(at, 9));
    const sentence = "line 33 differs: packet 2 of the key's response is missing";
    expect(cut.told === sentence && cut.marked === "33", cut.told + cut.marked);
};

const testExtraPacket = async () => {
    const { told, marked } = await openChangedLog((lines) => lines.splice(3, 0, lines[2]));
    const sentence = "line 4 is unexpected: the key sends 1 packets for line 2";
    expect(told === sentence && marked === "4", told + marked);
    const first = await openChangedLog((lines) => lines.splice(1, 0, lines[2]));
    const before = "line 2 is unexpected: the key sends 0 packets before any input";
    expect(first.told === before && first.marked === "2", first.told + first.marked);
};

const readCell = (place) => (row) => row.children[place].textContent;

/** The page's explanation of each line equals the core's output for the whole log. */
const testExplanations = async () => {
    const core = await getPage().hidlog.load();
    let found = 0;
    for (const name of LOG_NAMES) {
        const bytes = await fetchExample(`${name}.log`);
        await openLog(`${name}.log`, bytes);
        chooseValue("view", "recorded");
        const shown = new TextDecoder().decode(core.run("show", bytes).text).split("\n");
        const numbers = listRows().filter((row) => row.querySelector(".kind-host, .kind-key")).map(readCell(0));
        for (const number of numbers) {
            const row = listRows().find((each) => readCell(0)(each) === number);
            const [channel, says] = [readCell(3)(row), readCell(4)(row)];
            const [head, ...below] = shown.filter((line) => line.startsWith(`${number} `));
            expect(`${says}  `.includes(`${head.slice(head.indexOf(channel) + 9)}  `), `${name}: ${says} for ${head}`);
            row.click();
            const detail = getElement("detail-text").textContent;
            const members = below.slice(1).map((line) => line.slice(number.length + 3));
            found += members.filter((line) => detail.includes(`\n${line}\n`)).length;
            expect(members.every((line) => detail.includes(`\n${line}\n`)), `${name}: ${detail} lacks ${below}`);
        }
    }
    expect(found > 30, `${found} lines of members`);
};

const testInvisibleCharacters = async () => {
    await openLog("hostile.log", Uint8Array.of(...encodeText("# a\u202eb\u009b\n= c\u202ed\n# "), 0xff, 10));
    chooseValue("view", "recorded");
    expect(listTexts()[0].endsWith("a\\u202eb\\u009b") && listTexts()[2].endsWith("\\xff"), listTexts().join("\n"));
    expect(!/[\u202e\u009b]/.test(getPage().document.body.textContent), "in the table");
    for (const row of [0, 1, 2]) {
        listRows()[row].click();
        expect(!/[\u202e\u009b]/.test(getPage().document.body.textContent), "beside it");
    }
};

const testMatchingLog = async () => {
    await openLog("sign_in_again.log", await fetchExample("sign_in_again.log"));
    dropFile("example_com.snapshot", await fetchExample("example_com.snapshot"));
    await waitUntil(() => readNotice().includes("with the credentials of example_com.snapshot"), "the log on the snapshot");
    const { text } = await waitForCard();
    expect(/The log matches the key: same \d+ inputs \d+ packets\./.test(text), text);
};

const testQuietView = async () => {
    const text = new TextDecoder().decode(await fetchExample("first.log"));
    const noise = `> 9 000000ff910000${"0".repeat(114)}\n`;
    await openLog("noisy.log", encodeText(text + noise));
    chooseValue("view", "quiet");
    expect(readNotice() === "The key ignores 1 inputs; ticks replace them.", readNotice());
    expect(listRows().filter((row) => row.classList.contains("noise")).length === 1, "the replaced input is shown");
};

/** Files that are not logs, and the page's messages. */
const UNREADABLE_FILES = [
    ["picture.png", Uint8Array.of(0x89, 0x50, 0x4e, 0x47, 13, 10, 26, 10, 0, 0), "the file is a picture"],
    ["empty.log", new Uint8Array(0), "the file is empty; a log must have at least one line"],
    ["zeros.log", new Uint8Array(16 * 1024 * 1024), "not a text file: the first bytes are 00 00 00 00"],
    ["words.log", encodeText("what is this\n"), "not a session log: line 1: not a log line: “what is this”"],
    ["state.json", encodeText('{"format": 2}\n'), "the file is JSON; a page's key returns its log by key.log() and key.recordings()"],
];

const testInvalidLines = async () => {
    const text = new TextDecoder().decode(await fetchExample("first.log"));
    await openLog("faulty.log", encodeText(`${text}what is this\n# and more\n`));
    expect(readNotice() === "The log is shown up to its first invalid line: line 3: not a log line.", readNotice());
    expect(listRows().length === 3 && listTexts()[2].includes("line 3: not a log line"), "the lines before it are shown");
    await openLog("cut.log", encodeText(text.slice(0, 200)));
    expect(readCard().side === "capture" && readCard().text.includes("its last line ends after"), readCard().text);
    for (const [name, bytes, told] of UNREADABLE_FILES) {
        await openLog(name, bytes);
        expect(readNotice() === `Cannot open ${name}: ${told}.`, readNotice());
        expect(readCard().side === "capture" && readCard().text.includes(told), readCard().text);
    }
    dropFile("first.log", encodeText(text));
    await waitUntil(() => readNotice().includes("only inputs"), "the page still works");
};

const JUMP_COUNT = 40;

/** Returns the set of the texts in the latest drawing. Each drawing begins with setting the scale. */
const recordDrawnTexts = () => {
    const { prototype } = getPage().CanvasRenderingContext2D;
    const { fillText, scale } = prototype;
    const drawn = new Set();
    prototype.scale = function begin(...factors) {
        drawn.clear();
        return scale.apply(this, factors);
    };
    prototype.fillText = function draw(text, ...rest) {
        drawn.add(text);
        return fillText.call(this, text, ...rest);
    };
    return drawn;
};

/**
 * Jumps, and expects that exactly the visible rows exist, or in the drawing at most one text for each row. The rows
 * have equal distances. Returns the number of drawn texts.
 */
const jumpAndCountTexts = async (top, drawn, pitch) => {
    const scroller = getElement("scroller");
    drawn.clear();
    scroller.scrollTop = top;
    const first = Math.floor(scroller.scrollTop / pitch) + 1;
    const inSight = Math.ceil(scroller.clientHeight / pitch) + 1;
    await waitUntil(() => listRows()[0]?.firstChild.textContent === String(first), `line ${first} after a jump`);
    const last = Number(listRows().at(-1).firstChild.textContent);
    expect(listRows().length <= inSight && listRows().length === last - first + 1, `${listRows().length} rows of ${inSight}`);
    const isLast = last === Number(getElement("count").textContent.split(" ")[0]);
    expect(isLast || last * pitch >= scroller.scrollTop + scroller.clientHeight, "rows to the end of the sight");
    expect(drawn.size <= inSight + EXTRA_TEXT_COUNT, `${drawn.size} texts are drawn`);
    return drawn.size;
};

// Number of drawn texts that belong to no row: the names of the lifelines, and the text of the scale.
const EXTRA_TEXT_COUNT = 4;
// Pixels between rows: the height of a row in the table, and a row with a millisecond in the drawing.
const ROW_DISTANCES = { table: 26, drawing: 46 };

/** In a log of 10,000 lines, only visible rows are created after a jump. The times are reported, but not checked. */
const testScrolling = async () => {
    const bytes = encodeText(Array.from({ length: 10000 }, (_, at) => `t ${at}\n`).join(""));
    const begun = performance.now();
    await openLog("long.log", bytes);
    await waitUntil(() => getElement("count").textContent.includes("of 1000"), "the rows");
    results.figures.push(`10,000 lines opened in ${(performance.now() - begun).toFixed(0)} ms, the page's load with it`);
    const drawn = recordDrawnTexts();
    for (const mode of ["table", "drawing"]) {
        getElement(`${mode}-tab`).click();
        const isToScale = () => mode === "table" || getPage().hidlogViewer.state.layout.scale > 0;
        await waitUntil(isToScale, "the rows' places");
        // Waits until pending drawings before the jumps are finished.
        await new Promise((done) => getPage().requestAnimationFrame(() => getPage().requestAnimationFrame(done)));
        const from = performance.now();
        let texts = 0;
        for (let jump = 1; jump <= JUMP_COUNT; jump += 1) {
            texts += await jumpAndCountTexts((jump * getElement("scroller").scrollHeight) / JUMP_COUNT, drawn, ROW_DISTANCES[mode]);
        }
        expect((texts > 0) === (mode === "drawing"), "drawn in the drawing alone");
        const each = (performance.now() - from) / JUMP_COUNT;
        results.figures.push(`10,000 lines, ${mode}: ${each.toFixed(1)} ms for each of ${JUMP_COUNT} jumps`);
    }
};

/** A log with 30 MB of packets on a channel that was never allocated is opened, made quiet and searched. */
const testLongLog = async () => {
    const line = `> 0 000000ff910000${"0".repeat(114)}\n`;
    const bytes = encodeText(line.repeat(Math.floor((30 * 1024 * 1024) / line.length)));
    const begun = performance.now();
    await openLog("long.log", bytes);
    await waitUntil(() => /^long\.log: \d+ lines/.test(readNotice()), "the lines");
    chooseValue("view", "quiet");
    await waitUntil(() => /^The key ignores \d+ inputs/.test(readNotice()), "the quiet view");
    results.figures.push(`30 MB opened and made quiet in ${((performance.now() - begun) / 1000).toFixed(1)} s`);
    const searched = performance.now();
    await search("search", "cancel");
    await waitUntil(() => /^\d+ of \d+ lines$/.test(getElement("count").textContent) && listRows().length > 0, "what is found");
    results.figures.push(`and searched in ${((performance.now() - searched) / 1000).toFixed(1)} s`);
};

const selectPacketLines = (text) =>
    text.split("\n").filter((line) => /^[<>]/.test(line)).map((line) => line.replace(/ \d+ /, " ")).join("\n");

/** Each of four captures has the same packets as the key's log of the same session. */
const testCaptures = async () => {
    const names = [
        ["libfido2_register.pcap", "libfido2_register"], ["keyboard_beside.48.pcap", "keyboard_beside"],
        ["python_cancel.pcapng", "python_cancel"], ["qemu_mixed.qemu.pcap", "qemu_mixed"],
    ];
    for (const [name, session] of names) {
        const capture = await fetchBytes(`tests/captures/data/${name}`);
        const log = new TextDecoder().decode(await fetchBytes(`tests/captures/data/${session}.log`));
        const found = getPage().hidlogCaptures.readLogs(capture);
        const packets = selectPacketLines(new TextDecoder().decode(found[0].bytes));
        expect(found.length === 1 && packets === selectPacketLines(log), `${name}: ${found.length} keys`);
    }
    await openLog("python_cancel.pcapng", await fetchBytes("tests/captures/data/python_cancel.pcapng"));
    await search("search", "cancel");
    expect(listTexts().some((text) => text.includes("CANCEL")), `${readNotice()} ${listTexts()}`);
};

/** A capture without a key is rejected. */
const testCaptureWithoutKey = async () => {
    const capture = await fetchBytes("tests/captures/data/python_cancel.pcapng");
    await openLog("cut.pcapng", capture.slice(0, 300));
    expect(readNotice() === "Cannot open cut.pcapng: no security key with complete packets found; try hidlog import, which"
        + " reads more formats.", readNotice());
};

/** The differing row is selected and centered, its transaction is unfolded, and the card describes the difference. */
const testShownDifference = async () => {
    const lines = new TextDecoder().decode(await fetchExample("sign_in.log")).split("\n");
    const place = lines.findIndex((line) => line.includes(SIGN_IN_COUNTER));
    lines[place] = lines[place].replace(SIGN_IN_COUNTER, "470100000007");
    await openLog("changed.log", encodeText(lines.join("\n")), true);
    await waitForCard();
    expect(getElement("fold").checked, "the others are folded");
    const [chosen] = listRows().filter((row) => row.getAttribute("aria-selected") === "true");
    expect(chosen?.classList.contains("differs") && chosen.firstChild.textContent === "35", "the row is chosen");
    expect(getElement("scroller").getAttribute("aria-activedescendant") === chosen.id, "and told to a screen reader");
    const box = chosen.getBoundingClientRect();
    const around = getElement("scroller").getBoundingClientRect();
    expect(box.top >= around.top && box.bottom <= around.bottom, "it is in sight");
    const difference = "The log has signCount 7; the key sends signCount 2.";
    expect(readCard().text.includes(difference), readCard().text);
};

/** The saved page contains the log and its own Content-Security-Policy, and loads no other resource. */
const testSavedPage = async () => {
    await openLog("sign_in_again.log", await fetchExample("sign_in_again.log"));
    dropFile("example_com.snapshot", await fetchExample("example_com.snapshot"));
    await waitUntil(() => readNotice().includes("with the credentials"), "the snapshot");
    const before = getElement("story").textContent;
    const html = await getPage().hidlogSave.makePage(getPage().hidlogViewer.state);
    expect(!/<script src|<link rel="stylesheet"|https?:\/\/(?!www\.w3)/.test(html.split("HIDLOG_SOURCES")[0]), "alone");
    expect(/script-src 'wasm-unsafe-eval' ('sha256-[^']+' )+/.test(html), "a policy of its own scripts");
    const loadedPage = new Promise((done) => frame.addEventListener("load", done, { once: true }));
    const address = URL.createObjectURL(new Blob([html], { type: "text/html" }));
    frame.src = address;
    await loadedPage;
    await waitUntil(() => getPage().document.documentElement.dataset.ready === "yes", "the saved page");
    expect(getElement("story").textContent === before && listRows().length > 1, "the same story");
    const { text } = await waitForCard();
    expect(text.includes("The log matches the key") && text.includes("0 MUST violations"), text);
    const again = await getPage().hidlogSave.makePage(getPage().hidlogViewer.state);
    expect(again.length > 100_000, "it saves itself again");
    URL.revokeObjectURL(address);
};

/** In both themes, each text has a contrast of at least 4.5:1 to its background (WCAG 2.1, 1.4.3). */
const testContrast = async () => {
    const text = new TextDecoder().decode(await fetchExample("registration.log"));
    await openLog("changed.log", encodeText(text.replace("< 00000001bb000102", "< 00000001bb000101")));
    await waitForCard();
    for (const theme of ["light", "dark"]) {
        getPage().document.documentElement.dataset.theme = theme;
        const faint = globalThis.pageFacts.findLowContrastTexts(getPage());
        expect(!faint.length, `${theme}: ${faint.join("; ")}`);
    }
};

const loaded = Object.fromEntries(LOG_NAMES.map((name) => [`examples/${name}.log`, makeShowTest(name)]));

run({
    ...loaded,
    "a message is decoded": testDecodedMessage,
    "transactions fold": testFolding,
    "rejected requests are marked": testRejectedRequests,
    "one request is rejected while another is pending": testPendingRequest,
    "one channel alone": testChannelFilter,
    "the first difference is marked": testMarkedDifference,
    "a member that differs is marked": testDifferingMember,
    "failing sessions": testFailingSessions,
    "inputs alone are shown with the key's packets": testLogWithoutPackets,
    "a log without its snapshot": testMissingSnapshot,
    "a packet that is missing": testMissingPacket,
    "a packet too many": testExtraPacket,
    "the core's explanations, line by line": testExplanations,
    "characters that reorder text are escaped": testInvisibleCharacters,
    "a log on its snapshot": testMatchingLog,
    "quiet shows ignored inputs": testQuietView,
    "invalid, empty and huge files": testInvalidLines,
    "captures are opened": testCaptures,
    "other captures are rejected": testCaptureWithoutKey,
    "10,000 lines": testScrolling,
    "30 MB": testLongLog,
    "the difference is visible": testShownDifference,
    "the page saves itself with the log inside": testSavedPage,
    "contrast in both themes": testContrast,
});
