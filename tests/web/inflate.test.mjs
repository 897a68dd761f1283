// Tests bindings/web/key/inflate.js against node's zlib.
import assert from "node:assert/strict";
import { readFileSync } from "node:fs";
import { test } from "node:test";
import { fileURLToPath } from "node:url";
import { constants, deflateRawSync } from "node:zlib";
import { unpack } from "../../bindings/web/key/inflate.js";

const TOP = fileURLToPath(new URL("../../", import.meta.url));

/** Generates the same pseudorandom bytes in each run. */
const makeBytes = (length, most, seed) => {
    let state = seed;
    return Uint8Array.from({ length }, () => {
        state = (Math.imul(state, 1103515245) + 12345) >>> 0;
        return (state >>> 16) % most;
    });
};

const pack = (data, options) => {
    const length = Buffer.alloc(4);
    length.writeUInt32BE(data.length);
    return new Uint8Array(Buffer.concat([length, deflateRawSync(data, options)]));
};

const SAMPLES = {
    "nothing": new Uint8Array(0), "a byte": Uint8Array.of(7), "zeros": new Uint8Array(100_000),
    "random bytes": makeBytes(70_000, 256, 1), "few letters": makeBytes(70_000, 3, 2), "text": makeBytes(70_000, 40, 3),
    "the module": new Uint8Array(readFileSync(`${TOP}release/hidlog.wasm`)),
};
const OPTIONS = [
    { level: 0 }, { level: 1 }, { level: 9 }, { strategy: constants.Z_FIXED }, { strategy: constants.Z_HUFFMAN_ONLY },
    { strategy: constants.Z_RLE, memLevel: 1 },
];

test("what zlib packs is unpacked", () => {
    for (const [name, data] of Object.entries(SAMPLES)) {
        for (const options of OPTIONS) {
            assert.deepEqual(unpack(pack(data, options)), data, `${name}, ${JSON.stringify(options)}`);
        }
    }
});

test("damaged data results in an error or in other bytes", () => {
    const whole = pack(SAMPLES.text.subarray(0, 2000), { level: 9 });
    for (let at = 0; at < whole.length; at += 1) {
        assert.throws(() => unpack(whole.subarray(0, at)), Error, `cut at ${at}`);
        const changed = whole.slice();
        changed[at] ^= 0x55;
        try {
            unpack(changed);
        } catch (error) {
            assert.match(error.message, /invalid DEFLATE data|Invalid typed array length|bounds/, `changed at ${at}`);
        }
    }
});
