// Compares the page's explanations with the output of `hidlog show --explain` for the whole log, line by line. In
// jsdom, each row of the page is selected, before and after a search. Without jsdom, only the page's modules are
// tested. The program is $HIDLOG_PROGRAM [default: ./hidlog].
import assert from "node:assert/strict";
import { spawnSync } from "node:child_process";
import { existsSync, readdirSync, readFileSync } from "node:fs";
import { createRequire } from "node:module";
import { test } from "node:test";
import { fileURLToPath } from "node:url";
import vm from "node:vm";
import { core, resolvePath, readSections, readSession } from "./session_in_node.mjs";

for (const name of ["show_text.js", "narrative.js"]) {
    vm.runInThisContext(readFileSync(resolvePath(`bindings/web/${name}`), "utf8"));
}
const PROGRAM = process.env.HIDLOG_PROGRAM ?? fileURLToPath(resolvePath("hidlog"));
const JSDOM = "/usr/share/nodejs/jsdom";
const LOG_FOLDERS = ["examples/", "examples/failing/", "crates/hidlog_cli/data/capacity_64/", "tests/captures/data/"];
// Logs by name: those of the folders by path, and those written for tests.
const logs = new Map([
    ...LOG_FOLDERS.flatMap((folder) => readdirSync(resolvePath(folder)).filter((name) => name.endsWith(".log"))
        .map((name) => [folder + name, new Uint8Array(readFileSync(resolvePath(folder + name)))])),
    ...[...readSections("walks_logs.txt"), ...readSections("words_logs.txt")]
        .map(([name, text]) => [name, new TextEncoder().encode(text)]),
]);
const names = [...logs.keys()];
const readText = (name) => new TextDecoder().decode(logs.get(name));

const runShow = (bytes) =>
    spawnSync(PROGRAM, ["show", "--explain"], { input: bytes, encoding: "utf8", maxBuffer: 2 ** 28 });

/** The lines of a log before the first invalid one, if any. */
const selectValidLines = (bytes) => {
    const faulty = /^hidlog: line (\d+): /m.exec(runShow(bytes).stderr);
    if (!faulty) {
        return bytes;
    }
    const lines = Buffer.from(bytes).toString("latin1").split("\n").slice(0, Number(faulty[1]) - 1);
    return Buffer.from(lines.map((line) => `${line}\n`).join(""), "latin1");
};

/** The program's explanations of a log's lines, by line number: a head, and the lines below it. */
const readExplanations = (bytes) => {
    const words = new Map();
    for (const [, number, below, text] of runShow(bytes).stdout.matchAll(/^(\d+) ( {2})?(.*)$/gm)) {
        const entry = words.get(Number(number)) ?? { head: "", below: [] };
        words.set(Number(number), entry);
        if (below === undefined) {
            entry.head = text;
        } else {
            entry.below.push(text);
        }
    }
    return (number) => words.get(number) ?? { head: "", below: [] };
};

test("each line has the explanation from the whole log", () => {
    assert.ok(names.length >= 80, `${names.length} logs`);
    for (const name of names) {
        const expected = readExplanations(logs.get(name));
        const session = readSession(logs.get(name));
        const shown = new globalThis.hidlogShown.LineTexts(core);
        const lines = session.slice(0, session.length);
        for (const line of [...lines, ...lines.toReversed()]) {
            assert.deepEqual(shown.words(line), expected(line.number), `${name}, line ${line.number}`);
        }
    }
});

/**
 * Sessions in which packets are 150 ms apart and followed by a comment, so that the meaning of a line is known only
 * after later lines.
 */
const makeSlowLog = (count) => {
    const slow = readText("slow_packets").trimEnd().split("\n");
    const delayLine = (line, by) => line.replace(/^(. )(\d+) /, (_, kind, at) => `${kind}${Number(at) + by} `);
    const sessions = Array.from({ length: count }, (_, at) =>
        slow.map((line) => `${delayLine(line, 1000 * at)}\n# between\n`));
    return sessions.flat().join("");
};

test("the first lines of a long log are explained as in the whole log, and the others later", async () => {
    const { explain, indexOutput } = globalThis.hidlogExplained;
    const bytes = new TextEncoder().encode(makeSlowLog(400));
    const whole = explain(core, bytes);
    const job = { ended: 0 };
    const changes = [];
    const shown = new globalThis.hidlogShown.LineTexts(core, {
        atOnce: 1000,
        work: () => ({ outcome: Promise.resolve(indexOutput(core.run("show", bytes))), end: () => { job.ended += 1; } }),
        changed: (error) => changes.push(error),
    });
    const session = readSession(bytes);
    const lines = session.slice(0, session.length);
    const first = lines.filter((line) => shown.words(line).head !== "…");
    assert.ok(first.length > 200 && first.length < lines.length / 2, `${first.length} of ${lines.length} lines`);
    assert.deepEqual(first.map(({ place }) => place), [...first.keys()]);
    for (const line of first) {
        assert.deepEqual(shown.words(line), whole.words(line.place), `line ${line.number}`);
    }
    await shown.ready([session.log]);
    assert.equal(shown.ready([session.log]), null);
    assert.deepEqual([changes, job.ended], [[null], 0]);
    for (const line of lines) {
        assert.deepEqual(shown.words(line), whole.words(line.place), `line ${line.number}`);
    }
    assert.ok(lines.some((line) => shown.words(line).below.some((line) => line.startsWith("request 01"))));
    shown.keep([], [session.log]);
    assert.equal(shown.words(lines.at(-1)).head, "…");
    shown.endAll();
    assert.equal(job.ended, 1);
});

test("lines that cannot be explained have a text that says so", async () => {
    const bytes = new TextEncoder().encode(makeSlowLog(400));
    const changes = [];
    const failingWork = () => ({ outcome: Promise.reject(new Error("no memory")), end: () => {} });
    const recordChange = (error) => changes.push(error?.message);
    const shown = new globalThis.hidlogShown.LineTexts(core, { atOnce: 1000, work: failingWork, changed: recordChange });
    const session = readSession(bytes);
    await shown.ready([session.log]);
    const other = new globalThis.hidlogShown.LineTexts(core, {
        atOnce: 1000, most: bytes.length - 1, changed: (error) => changes.push(error.message),
    });
    await other.ready([readSession(bytes).log]);
    assert.deepEqual(changes, ["no memory", "the log is too long to explain"]);
    assert.match(shown.words(session.line(session.length - 1)).head, /^\(too long to explain here/);
    assert.match(shown.words(session.line(0)).head, /^> 1 ffffffff INIT/);
    const { text } = core.run("show", bytes);
    const { Explained, indexOutput } = globalThis.hidlogExplained;
    for (const cut of [0, 1, 100, 1000, 5003, text.length - 1]) {
        const some = new Explained(indexOutput({ text: text.slice(0, cut), status: 1, errorCode: 5 }), true);
        const whole = new Explained(indexOutput({ text, status: 0, errorCode: 0 }), true);
        const known = session.slice(0, session.length).filter(({ place }) => place < some.sure);
        assert.ok(known.length >= cut / 200 - 10, `${known.length} lines of ${cut} bytes`);
        known.forEach(({ place }) => assert.deepEqual(some.words(place), whole.words(place), `line ${place + 1}`));
    }
});

test("an RP ID with a quote and a backslash is complete", () => {
    const session = readSession(logs.get("quote_in_rp"));
    const shown = new globalThis.hidlogShown.LineTexts(core);
    const ids = Array.from({ length: session.transactions }, (_, index) =>
        shown.requestRpId(session.transaction(index)));
    assert.deepEqual(ids, [undefined, 'a"b\\c', 'a"b\\c']);
});

/** The page's summary of a log. */
const readSummary = (bytes) => {
    const steps = globalThis.hidlogStory.summarize(readSession(bytes));
    let step = steps.next();
    while (!step.done) {
        step = steps.next();
    }
    return step.value;
};

test("a denial is described by the user's last reply in the log", () => {
    const name = "examples/failing/denied_user.log";
    const text = readFileSync(resolvePath(name), "utf8");
    const summarizeEdited = (from, to) => readSummary(new TextEncoder().encode(text.replace(from, to)));
    assert.match(text, /^p \d+ denied$/m);
    assert.match(summarizeEdited("", ""), /^1 registration: the user denied\. /);
    assert.match(summarizeEdited(/^(p \d+) denied$/m, "$1 timeout"), /^1 registration: the user did not respond\. /);
    assert.match(summarizeEdited(/^p \d+ denied\n/m, ""), /^1 registration: the user denied or did not respond\. /);
    assert.match(summarizeEdited(/^(p \d+) denied$/m, "$1 granted"), /^1 registration: denied, although the user agreed\. /);
    const timedOut = readSummary(logs.get("examples/service_presence_timed_out.log"));
    assert.match(timedOut, /^1 registration: the user did not respond\. /);
});

test("ends are described correctly for every cause", () => {
    assert.match(readSummary(logs.get("sequence_twice")), /^1 registration: wrong sequence number\. /);
    const session = readSession(logs.get("six_inits"));
    const ends = Array.from({ length: session.transactions }, (_, place) =>
        globalThis.hidlogStory.describeEnd(session.transaction(place)));
    assert.ok(ends.includes("no longer tracked: too many open transactions"), ends.join("; "));
});

// ---- the page

const noJsdom = { skip: !existsSync(JSDOM) && "node-jsdom is missing" };
const isMessageLine = (line) => /^(request|answer) /.test(line);
// The line of a request or response may have only the code and the name, if the CBOR members have lines of
// their own.
const shortenLines = (lines) => lines.map((line) => (isMessageLine(line)
    ? line.split(" ").slice(0, 2).join(" ") + (/ {2}\w+$/.exec(line)?.[0] ?? "") : line));

/** Opens the page in jsdom, and waits until it is ready for a log. */
const openPage = async () => {
    process.env.NODE_PATH = "/usr/share/nodejs";
    createRequire(import.meta.url)("node:module").Module._initPaths();
    const { JSDOM: Page, VirtualConsole } = createRequire(import.meta.url)(JSDOM);
    const errors = [];
    const virtualConsole = new VirtualConsole();
    virtualConsole.on("jsdomError", (error) => errors.push(error));
    // jsdom has no media queries, so the colours never change.
    const matchMedia = () => ({ matches: false, addEventListener: () => {} });
    const { window } = await Page.fromFile(fileURLToPath(resolvePath("bindings/web/index.html")), {
        runScripts: "dangerously", resources: "usable", pretendToBeVisual: true, virtualConsole,
        beforeParse: (made) => Object.assign(made, { TextDecoder, TextEncoder, Uint8Array, WebAssembly, matchMedia }),
    });
    while (window.document.documentElement.dataset.ready !== "yes") {
        const script = errors.find(({ type }) => type === "unhandled exception");
        assert.ok(!script, script?.detail?.stack);
        await new Promise((done) => {
            setTimeout(done, 10);
        });
    }
    return window;
};

/** Drives the page like a user: pastes, searches, and selects. */
class PageDriver {
    constructor(window) {
        this.window = window;
    }

    at(id) {
        return this.window.document.getElementById(id);
    }

    /** Pastes a log, and waits until the page has replaced the previous log. */
    async paste(text) {
        const { state } = this.window.hidlogViewer;
        const before = state.bytes;
        const event = new this.window.Event("paste");
        event.clipboardData = { getData: () => text };
        this.window.confirm = () => true;
        this.window.document.dispatchEvent(event);
        while (state.bytes === before || !state.sessions.recorded) {
            await new Promise((done) => {
                setTimeout(done, 1);
            });
        }
    }

    fold(isFolded) {
        this.at("fold").checked = isFolded;
        this.at("fold").dispatchEvent(new this.window.Event("change"));
    }

    async seek(words) {
        this.at("search").value = words;
        this.at("search").dispatchEvent(new this.window.Event("input"));
        while (this.at("count").textContent.includes("found, at")) {
            await new Promise((done) => {
                setTimeout(done, 1);
            });
        }
    }

    /** Selects each row, and compares its detail with the expected explanation. Returns the number of rows. */
    checkAllRows(expected, name) {
        const { selectRow, rowAt, state } = this.window.hidlogViewer;
        for (let place = 0; place < state.rows.length; place += 1) {
            selectRow(place);
            const row = rowAt(place);
            this.checkRow(row, expected, `${name}, row ${place} of ${state.rows.length}, line ${row.line.number}`);
        }
        return state.rows.length;
    }

    checkRow(row, expected, where) {
        const { line, transaction } = row;
        const shown = this.at("detail-text").querySelector("[role=tree]").textContent.split("\n");
        const refusal = transaction?.code ? transaction.by.message : null;
        const messages = transaction ? [transaction, transaction.answer ?? refusal].filter(Boolean) : [line.message ?? line];
        const due = messages.map((message) => [...message.lines ?? [message]].map(({ number }) => expected(number)));
        for (const words of due) {
            const lines = shown.splice(0, 1 + words.flatMap(({ below }) => below).length);
            assert.deepEqual(shortenLines(lines.slice(1)), shortenLines(words.flatMap(({ below }) => below)), where);
            if (line.isPacket) {
                const head = words[0].head.replace(/^(> \d+|<) [0-9a-f]{8} /, "");
                assert.ok(lines[0].startsWith(head), `${where}: ${lines[0]} for ${head}`);
            }
        }
        assert.deepEqual(shown.filter(Boolean), [], where);
        if (line.isPacket && !transaction) {
            const head = expected(line.number).head.replace(/^(> \d+|<) [0-9a-f]{8} /, "");
            assert.ok(row.says.startsWith(head), `${where}: ${row.says} for ${head}`);
        }
    }
}

test("each selected row has its explanation, before a search and after it", noJsdom, async () => {
    const window = await openPage();
    try {
        const hands = new PageDriver(window);
        let looked = 0;
        for (const name of names) {
            // The page shows a log up to its invalid line.
            const expected = readExplanations(selectValidLines(logs.get(name)));
            await hands.paste(Buffer.from(logs.get(name)).toString("latin1"));
            assert.equal(hands.at("view").disabled, false, name);
            window.hidlogViewer.setView("recorded");
            hands.fold(true);
            looked += hands.checkAllRows(expected, name);
            for (const words of ["already", "line", "rpid", "a"]) {
                await hands.seek(words);
                looked += hands.checkAllRows(expected, `${name}, ${words} sought`);
            }
            hands.fold(false);
            looked += hands.checkAllRows(expected, `${name}, lines with a`);
            await hands.seek("");
            looked += hands.checkAllRows(expected, `${name}, all lines`);
        }
        assert.ok(looked > 5000, `${looked} rows`);
    } finally {
        window.close();
    }
});

test("the detail of an excluded credential that was searched for names its registration's line", noJsdom, async () => {
    const window = await openPage();
    try {
        const hands = new PageDriver(window);
        await hands.paste(readText("already_registered"));
        await hands.seek("already");
        window.hidlogViewer.selectRow(0);
        const detail = hands.at("detail-text").textContent;
        assert.ok(detail.includes("excludeList[0] is the credential of line 173"), detail);
        await hands.paste(readText("slow_packets"));
        await hands.seek("");
        hands.fold(true);
        window.hidlogViewer.selectRow(1);
        const title = hands.at("detail-title").textContent;
        assert.ok(title.startsWith("Registration: done at example.com  ·  authenticatorMakeCredential → CTAP2_OK"), title);
    } finally {
        window.close();
    }
});
