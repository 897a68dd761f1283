// Tests the fields that the page shows for a message, and which bytes belong to each field. Some expected values are
// written by hand from examples/registration.log. For all logs, the bytes are compared with the digits in the core's
// explanations.
import assert from "node:assert/strict";
import { readdirSync, readFileSync } from "node:fs";
import { test } from "node:test";
import vm from "node:vm";
import { core, resolvePath, readSession } from "./session_in_node.mjs";

for (const name of ["show_text.js", "cbor_spans.js", "fields.js"]) {
    vm.runInThisContext(readFileSync(resolvePath(`bindings/web/${name}`), "utf8"));
}
const { makeAllFields } = globalThis.hidlogFields;
const { PACKET_SIZE } = globalThis.hidlogBytes;
const LOG_FOLDERS = ["examples/", "examples/failing/", "crates/hidlog_cli/data/capacity_64/", "tests/captures/data/"];

const openSession = (name) => {
    const session = readSession(new Uint8Array(readFileSync(resolvePath(name))));
    const shown = new globalThis.hidlogShown.LineTexts(core);
    return { session, explain: (message) => shown.message(message) };
};

const listAll = (fields) => fields.flatMap((field) => [field, ...listAll(field.inner)]);

/** The fields of a line's message, its packets, and a function that finds a field's ranges by the start of its text. */
const findFields = (name, line) => {
    const { session, explain } = openSession(name);
    const { fields, packets } = makeAllFields([session.line(line - 1).message], explain);
    const find = (start) => {
        const found = listAll(fields).find(({ text }) => text.trim().startsWith(start));
        assert.ok(found, `no field ${start}`);
        return found.ranges.map(({ from, to }) => [from, to]);
    };
    return { fields, packets, find };
};

/** The bytes of ranges in hexadecimal. */
const readBytes = (packets, ranges) => ranges.map(({ from, to }) => {
    const { bytes } = packets[Math.floor(from / PACKET_SIZE)];
    const start = from % PACKET_SIZE;
    return Buffer.from(bytes.subarray(start, start + to - from)).toString("hex");
}).join("");

test("the bytes of a registration's fields, by hand", () => {
    const { packets, find } = findFields("examples/registration.log", 5);
    assert.deepEqual(packets.map(({ number }) => number), [4, 5]);
    // The packet has 7 bytes of head, the command byte, a5, 01 58 20 and 32 bytes, 02 a1 .., and 03 a1 62 69 64 41 01.
    assert.deepEqual(find("channel 00000001"), [[0, 4]]);
    assert.deepEqual(find("command 90"), [[4, 5]]);
    assert.deepEqual(find("length 91"), [[5, 7]]);
    assert.deepEqual(find("1 clientDataHash"), [[9, 44]]);
    assert.deepEqual(find("2 rp"), [[44, 61]]);
    assert.deepEqual(find('"id": "example.com"'), [[46, 61]]);
    // The user entity continues in the second packet, after the head of 5 bytes.
    assert.deepEqual(find("3 user"), [[61, 64], [69, 73]]);
    assert.deepEqual(find("\"alg\": -7"), [[76, 81]]);
});

test("the bytes of an assertion's fields, by hand", () => {
    const { find } = findFields("examples/sign_in.log", 28);
    // The second of four packets has 5 bytes of head, 02 58 25, the hash of 32 bytes, the flags 01, and the signature
    // counter 00000001.
    assert.deepEqual(find("2 authData"), [[69, 109]]);
    assert.deepEqual(find("rpIdHash"), [[72, 104]]);
    assert.deepEqual(find("flags 01 UP"), [[104, 105]]);
    assert.deepEqual(find("signCount 1"), [[105, 109]]);
    // Then follow 03 58 46 and 70 bytes, 16 of them in this packet, and 04 a1 62 69 64 41 01, with 41 01 in the last
    // packet.
    assert.deepEqual(find("3 signature"), [[109, 128], [133, 187]]);
    assert.deepEqual(find("4 user"), [[187, 192], [197, 199]]);
});

test("the bytes of an INIT response, by hand", () => {
    const { find } = findFields("examples/registration.log", 3);
    assert.deepEqual(find("nonce 0001020304050607"), [[7, 15]]);
    assert.deepEqual(find("channel 00000001"), [[15, 19]]);
    assert.deepEqual(find("protocol version 02"), [[19, 20]]);
    assert.deepEqual(find("device version 010000"), [[20, 23]]);
    assert.deepEqual(find("capabilities 0c"), [[23, 24]]);
});

/** The hexadecimal digits with which a field's bytes end, as the field's text shows them; "" if it shows none. */
const readDigits = (text) => {
    const [, name, value] = /^ +(?:-?\d+ )?"?(\w+)"?:? (\S.*)$/.exec(text) ?? [];
    if (!name || ["channel", "command", "length"].includes(name)) {
        return "";
    }
    if (name === "signCount") {
        return Number(value).toString(16).padStart(8, "0");
    }
    const quoted = /^"([\w .-]+)"$/.exec(value)?.[1] ?? "";
    return Buffer.from(quoted).toString("hex") || (/^(?:h')?((?:[0-9a-f]{2}){4,})(?:'| |$)/.exec(value)?.[1]
        ?? (name === "flags" ? value.slice(0, 2) : ""));
};

test("the bytes of each field that shows digits end with them, in all logs", () => {
    let found = 0;
    for (const folder of LOG_FOLDERS) {
        for (const name of readdirSync(resolvePath(folder)).filter((each) => each.endsWith(".log"))) {
            const { session, explain } = openSession(folder + name);
            for (let at = 0; at < session.transactions; at += 1) {
                const transaction = session.transaction(at);
                const messages = [transaction, transaction.answer].filter(Boolean);
                const { fields, packets } = makeAllFields(messages, explain);
                for (const { text, ranges } of listAll(fields)) {
                    const digits = readDigits(text);
                    assert.ok(readBytes(packets, ranges).endsWith(digits), `${folder}${name}: ${text}`);
                    found += digits ? 1 : 0;
                }
            }
        }
    }
    assert.ok(found > 1000, `${found} fields`);
});
