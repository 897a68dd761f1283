// Compares the core's transactions of a log, as read by the page (bindings/web/transactions.js), with those of an
// independent implementation in Python: walks_expected.txt has its results for walks_logs.txt and the examples, line by
// line and message by message.
import assert from "node:assert/strict";
import { readFileSync } from "node:fs";
import { test } from "node:test";
import { core, resolvePath, readSections, readSession } from "./session_in_node.mjs";

const COMMAND_NAMES = {
    0x01: "PING", 0x03: "MSG", 0x04: "LOCK", 0x06: "INIT", 0x08: "WINK", 0x10: "CBOR", 0x11: "CANCEL", 0x3b: "KEEPALIVE",
    0x3f: "ERROR",
};
const toHex = (byte) => byte.toString(16).padStart(2, "0");
const getCommandName = (command) => COMMAND_NAMES[command] ?? `0x${toHex(command)}`;

const describeEnd = ({ answer, by, received, code, end, isWhole, length }) => {
    if (end === "answered") {
        const cut = answer.isWhole ? "" : `, ${answer.received} of ${answer.length} bytes`;
        const status = answer.command === 0x10 && answer.length ? ` ${toHex(answer.byteAt(0))}` : "";
        return `answered at ${answer.line.number} by ${getCommandName(answer.command)}${status}${cut}`;
    }
    if (code !== null) {
        return `${end} by ERROR ${toHex(code)} at ${by.number}`;
    }
    return by ? `${end} by line ${by.number}` : isWhole ? end : `${end}: ${received} of ${length} bytes received`;
};

const logs = readSections("walks_logs.txt");

/** The transactions of a log of walks_logs.txt, or of a file, as text. */
const describeTransactions = (name) => {
    const log = logs.has(name) ? new TextEncoder().encode(logs.get(name)) : readFileSync(resolvePath(name));
    const session = readSession(new Uint8Array(log));
    const isInputOrPacket = (line) => !["comment", "need", "count", "empty"].includes(line.kind);
    const transactions = Array.from({ length: session.transactions }, (_, place) => session.transaction(place));
    return [
        ...session.slice(0, session.length).filter(isInputOrPacket).map(({ number, transaction }) =>
            `${number} of ${transaction ? transaction.line.number : "none"}`),
        ...transactions.map((transaction) => {
            const { line, channel, command, length } = transaction;
            return `${line.number}: ${channel} ${getCommandName(command)} ${length}: ${describeEnd(transaction)}`;
        }),
    ];
};

test("each line belongs to the transaction found by the other implementation, which ends the same way", () => {
    const expected = readSections("walks_expected.txt");
    assert.ok(expected.size >= 30 && [...logs.keys()].every((name) => expected.has(name)), `${expected.size} logs`);
    for (const [name, text] of expected) {
        assert.deepEqual(describeTransactions(name), text.trimEnd().split("\n"), name);
    }
});

const makePacket = (channel, command, bytes) =>
    `${channel}${toHex(0x80 | command)}${toHex(bytes.length >> 8)}${toHex(bytes.length & 0xff)}${bytes.map(toHex).join("")}`
        .padEnd(128, "0");
const makeHostLine = (at, channel, command, bytes) => `> ${at} ${makePacket(channel, command, bytes)}`;
const makeKeyLine = (channel, command, bytes) => `< ${makePacket(channel, command, bytes)}`;
const [PING, CBOR, CANCEL, KEEPALIVE, ERROR] = [0x01, 0x10, 0x11, 0x3b, 0x3f];
const [ONE, TWO] = ["00000001", "00000002"];

// Sessions of keys that behave differently from this project's key. The expected results are written by hand.
const UNUSUAL_LOGS = {
    "two requests on a channel: it is unknown which one a KEEPALIVE and a response belong to": [
        [makeHostLine(0, ONE, CBOR, [4]), makeKeyLine(ONE, KEEPALIVE, [1]), makeHostLine(5, ONE, CBOR, [4]), makeKeyLine(ONE, KEEPALIVE, [1]),
            makeKeyLine(ONE, CBOR, [0])],
        [1, 1, 3, 0, 0], ["1 unknown by 5", "3 unknown by 5"],
    ],
    "two pending requests: neither has the user's reply": [
        [makeHostLine(0, ONE, CBOR, [4]), makeHostLine(1, TWO, CBOR, [4]), "p 2 granted", makeKeyLine(ONE, CBOR, [0]), "p 3 granted",
            makeKeyLine(TWO, CBOR, [0])],
        [1, 2, 0, 1, 2, 2], ["1 answered by 4", "2 answered by 6"],
    ],
    "a cancelled request is answered, not the one after it": [
        [makeHostLine(0, ONE, CBOR, [4]), makeHostLine(1, ONE, CANCEL, []), makeHostLine(2, ONE, CBOR, [4]), makeKeyLine(ONE, CBOR, [0x2d]),
            makeKeyLine(ONE, CBOR, [0])],
        [1, 1, 3, 1, 3], ["1 answered by 4", "3 answered by 5"],
    ],
    "a timeout within 100 ms is for the older message": [
        [makeHostLine(0, ONE, CBOR, Array(60).fill(4).slice(0, 57)).replace("900039", "90003c"), makeHostLine(50, ONE, CBOR,
            Array(57).fill(4)).replace("900039", "90003c"), makeKeyLine(ONE, ERROR, [5])],
        [1, 2, 2], ["1 replaced by 2", "2 timed out by 3"],
    ],
    "of seven channels, the one used first is no longer tracked": [
        [1, 2, 3, 4, 5, 6, 7].map((at) => makeHostLine(at, `0000000${at}`, CBOR, [4])),
        [1, 2, 3, 4, 5, 6, 7],
        ["1 forgotten by 7", ...[2, 3, 4, 5, 6, 7].map((at) => `${at} unanswered by undefined`)],
    ],
};

test("sessions of other keys follow the rules", () => {
    for (const [name, [lines, owners, ends]] of Object.entries(UNUSUAL_LOGS)) {
        const session = readSession(new TextEncoder().encode(`${lines.join("\n")}\n`));
        const told = session.slice(0, session.length).map(({ transaction }) => transaction?.line.number ?? 0);
        const all = Array.from({ length: session.transactions }, (_, place) => session.transaction(place));
        assert.deepEqual(told, owners, name);
        assert.deepEqual(all.map(({ by, end, line }) => `${line.number} ${end} by ${by?.number}`), ends, name);
    }
});

const makeContinuation = (at, channel, sequence) => `> ${at} ${channel}${toHex(sequence)}${"00".repeat(59)}`;
const setLength = (line, length) => line.replace("0039", length.toString(16).padStart(4, "0"));
const FIRST_DATA = Array(57).fill(4);

// The core's output for logs, written by hand from hidlog.h.
const LOG_TEXTS = {
    "a response, a CANCEL without a request, a comment and a tick": [
        [makeHostLine(0, ONE, CBOR, [4]), "# a comment", "t 1", makeKeyLine(ONE, CBOR, [0x2e]), makeHostLine(2, ONE, CANCEL, [])],
        ["1 1 1", "3 0 0", "4 1 4 s1:46", "5 0 0"],
    ],
    "a PING's answer of two packets": [
        [setLength(makeHostLine(0, ONE, 1, FIRST_DATA), 60), makeContinuation(1, ONE, 0), setLength(makeKeyLine(ONE, 1, FIRST_DATA), 60),
            makeContinuation(0, ONE, 0).replace("> 0", "<")],
        ["1 1 1", "2 1 1", "3 1 3", "4 1 3 a1"],
    ],
    "a response with a missing packet": [
        [makeHostLine(0, ONE, CBOR, [4]), setLength(makeKeyLine(ONE, CBOR, FIRST_DATA), 60), makeKeyLine(ONE, KEEPALIVE, [1])],
        ["1 1 1", "2 1 2", "3 0 3 c1"],
    ],
    "a late packet, and one out of sequence": [
        [setLength(makeHostLine(0, ONE, CBOR, FIRST_DATA), 300), makeContinuation(1, ONE, 0), makeContinuation(2, ONE, 5), makeContinuation(700, ONE, 1),
            makeKeyLine(ONE, ERROR, [5])],
        ["1 1 1", "2 1 1", "3 1 0", "4 1 1", "5 1 5 l4 e1:5"],
    ],
    "an INIT that drops a message, and a message that replaces another": [
        [setLength(makeHostLine(0, ONE, CBOR, FIRST_DATA), 300), makeHostLine(1, ONE, 6, [1, 2, 3, 4, 5, 6, 7, 8]),
            makeKeyLine(ONE, 6, [1, 2, 3, 4, 5, 6, 7, 8, 0, 0, 0, 1, 2, 1, 0, 0, 4]), setLength(makeHostLine(2, ONE, CBOR, FIRST_DATA), 300),
            makeHostLine(3, ONE, PING, [4]), makeKeyLine(ONE, PING, [4])],
        ["1 1 1", "2 2 2", "3 2 3 d1:2 a2", "4 4 4", "5 5 5", "6 5 6 r4:5 a5"],
    ],
    "a message answered while another one is pending": [
        [makeHostLine(0, ONE, CBOR, [4]), makeHostLine(1, ONE, PING, [4]), makeKeyLine(ONE, PING, [4]), makeKeyLine(ONE, CBOR, [0])],
        ["1 1 1", "2 2 2", "3 2 3 a2", "4 1 4 s1:0"],
    ],
    "two messages with one command, and one response": [
        [makeHostLine(0, ONE, CBOR, [4]), makeHostLine(1, ONE, CBOR, [7]), makeKeyLine(ONE, CBOR, [0])],
        ["1 1 1", "2 2 2", "3 0 3 u1 u2"],
    ],
    "more channels than are tracked": [
        [1, 2, 3, 4, 5, 6, 7].map((at) => makeHostLine(at, `0000000${at}`, CBOR, [4])),
        ["1 1 1", "2 2 2", "3 3 3", "4 4 4", "5 5 5", "6 6 6", "7 7 7 f1"],
    ],
};

// For the first transaction: all its lines, the lines of the host's message, the number of bytes of this message that
// were received, and the lines of the response.
const PARTIAL_LOGS = {
    "a PING's answer of two packets": { all: [1, 2, 3, 4], own: [1, 2], received: 60, answer: [3, 4] },
    "a late packet, and one out of sequence": { all: [1, 2, 3, 5], own: [1, 2], received: 116 },
};

test("transactions have their lines, and messages their packets", () => {
    for (const [name, { all, own, received, answer = [] }] of Object.entries(PARTIAL_LOGS)) {
        const transaction = readSession(new TextEncoder().encode(`${LOG_TEXTS[name][0].join("\n")}\n`)).transaction(0);
        const groups = [transaction.all, transaction.lines, transaction.answer?.lines ?? []];
        const found = groups.map((lines) => lines.map(({ number }) => number));
        assert.deepEqual([...found, transaction.received, transaction.count], [all, own, answer, received, all.length], name);
        assert.equal(transaction.answer ? transaction.answer.asks.place : transaction.place, transaction.place, name);
    }
});

test("the core writes what hidlog.h documents", () => {
    for (const [name, [lines, text]] of Object.entries(LOG_TEXTS)) {
        const outcome = core.run("transactions", new TextEncoder().encode(`${lines.join("\n")}\n`));
        assert.equal(new TextDecoder().decode(outcome.text), `${text.join("\n")}\n`, name);
        assert.equal(outcome.status, 0, name);
    }
});

test("lines before an invalid one are written", () => {
    const log = new TextEncoder().encode("t 1\n\nwhat is this\nt 2\n");
    const { status, errorCode, line, text } = core.run("transactions", log);
    assert.deepEqual([status, errorCode, line, new TextDecoder().decode(text)], [1, 1, 3, "1 0 0\n"]);
});
