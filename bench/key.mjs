// Registers a credential on an in-memory key of the WebAssembly module, and signs in COUNT times, as bench/key.c does.
// Only the sign-ins are timed.
//
//     node bench/key.mjs [MODULE [COUNT]]     prints the seconds for the first and the last thousand sign-ins, and the
//                                             minimum and median of all thousands
//
// On a busy machine: chrt -f 1 node bench/key.mjs.
//
// MODULE is release/hidlog.wasm by default. COUNT is 10000 by default, and is rounded up to whole thousands.
import { readFileSync } from "node:fs";
import { fileURLToPath } from "node:url";
import { INITIALIZATION_DATA, PACKET_SIZE } from "../bindings/web/key/standard.js";

const MODULE = fileURLToPath(new URL("../release/hidlog.wasm", import.meta.url));
const [path = MODULE, count = "10000"] = process.argv.slice(2);
if (!/^[0-9]+$/.test(count) || Number(count) < 1000 || process.argv.length > 4) {
    console.error("usage: node bench/key.mjs [MODULE [COUNT]] (COUNT is at least 1000)");
    process.exit(2);
}
const { instance } = await WebAssembly.instantiate(readFileSync(path), {});
const { exports: core } = instance;
const base = Math.ceil(Number(core.__heap_base.value) / 16) * 16;
const size = Number(core.hidlog_key_size());
const places = { key: base, packet: base + 16, id: base + 80, need: base + 112, memory: base + 352 };
const pages = Math.ceil((places.memory + size - core.memory.buffer.byteLength) / 65536);
if (pages > 0) {
    core.memory.grow(pages);
}
const bytes = new Uint8Array(core.memory.buffer);
const view = new DataView(core.memory.buffer);
const at = Object.fromEntries(Object.entries(places).map(([name, place]) => [name, BigInt(place)]));

const expect = (found, expected, what) => {
    if (found !== expected) {
        throw new Error(`${what} returned ${found}, expected ${expected}`);
    }
};

/** Reads the queued packets. */
const readPackets = (queued, expected, what) => {
    expect(queued, expected, what);
    for (let left = queued; left > 0; ) {
        left = core.hidlog_key_read_packet(at.key, at.packet);
    }
};

/** Sends a message of at most 116 bytes on a channel. */
const send = (nowMs, channel, command, message) => {
    bytes.fill(0, places.packet, places.packet + PACKET_SIZE);
    view.setUint32(places.packet, channel);
    view.setUint8(places.packet + 4, 0x80 | command);
    view.setUint16(places.packet + 5, message.length);
    bytes.set(message.subarray(0, INITIALIZATION_DATA), places.packet + 7);
    let queued = core.hidlog_key_write_packet(at.key, nowMs, at.packet);
    if (message.length > INITIALIZATION_DATA) {
        bytes.fill(0, places.packet + 4, places.packet + 64);
        bytes.set(message.subarray(INITIALIZATION_DATA), places.packet + 5);
        queued = core.hidlog_key_write_packet(at.key, nowMs, at.packet);
    }
    return queued;
};

const toBytes = (text) => Uint8Array.from(text, (letter) => letter.charCodeAt(0));

// {1: hash, 2: {"id": "example.com"}, 3: {"id": h'01'}, 4: [{"alg": -7, "type": "public-key"}], 7: {"rk": true}}
const makeCredential = toBytes(
    "\x01\xa5\x01\x58\x20" + "1".repeat(32) + "\x02\xa1\x62id\x6bexample.com\x03\xa1\x62id\x41\x01" +
    "\x04\x81\xa2\x63alg\x26\x64type\x6apublic-key\x07\xa1\x62rk\xf5",
);

// {1: "example.com", 2: hash}
const getAssertion = toBytes("\x02\xa2\x01\x6bexample.com\x02\x58\x20" + "2".repeat(32));

view.setBigUint64(places.key, at.memory, true);
bytes.fill(0xaa, places.id, places.id + 32);
expect(core.hidlog_key_init(at.key, at.packet, 0n, at.packet, 0n), 0, "init");
readPackets(send(0n, 0xffffffff, 6, new Uint8Array(8)), 1, "INIT");
readPackets(send(0n, 1, 0x10, makeCredential), 1, "authenticatorMakeCredential");
readPackets(core.hidlog_key_provide_presence(at.key, 0n, 0), 1, "presence");
readPackets(core.hidlog_key_provide_key_pair(at.key, 0n, at.id, at.id, at.id), 0, "a new key");
readPackets(core.hidlog_key_provide_signature(at.key, 0n, at.id, 8n), 4, "a signature");

const signIn = (nowMs) => {
    readPackets(send(nowMs, 1, 0x10, getAssertion), 1, "authenticatorGetAssertion");
    expect(core.hidlog_key_get_need(at.key, at.need), 1, "need");
    readPackets(core.hidlog_key_provide_presence(at.key, nowMs, 0), 1, "presence");
    expect(core.hidlog_key_get_need(at.key, at.need), 3, "need");
    readPackets(core.hidlog_key_provide_signature(at.key, nowMs, at.need, 70n), 4, "a signature");
};

const timeSignIns = (from, to) => {
    const begun = performance.now();
    for (let i = from; i < to; i += 1) {
        signIn(BigInt(i));
    }
    return ((performance.now() - begun) / 1000).toFixed(6);
};

const THOUSAND = 1000;
const seconds = Array.from({ length: Math.ceil(Number(count) / THOUSAND) }, (_, at) =>
    timeSignIns(at * THOUSAND, (at + 1) * THOUSAND));
const sorted = [...seconds].sort();
console.log(`${seconds.length * THOUSAND} sign-ins: the first 1000 took ${seconds[0]} s, the last 1000 ${seconds.at(-1)} s;`
    + ` minimum of all thousands ${sorted[0]} s, median ${sorted[sorted.length >> 1]} s`);
