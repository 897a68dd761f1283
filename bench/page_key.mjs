// Signs in COUNT times with the key of a page in node, and prints the time of a sign-in and the memory that the key
// uses, or how much the key writes to a storage.
//
//     node --expose-gc bench/page_key.mjs COUNT [no]      with `no`, nothing is recorded
//     node bench/page_key.mjs COUNT storage               prints how many characters the first and the last sign-in
//                                                         write to the storage
import { SecurityKey } from "../bindings/web/dist/security_key.mjs";

const [count, mode = ""] = process.argv.slice(2);
if (!/^[1-9][0-9]*$/.test(count) || !["", "no", "storage"].includes(mode)) {
    console.error("usage: node bench/page_key.mjs COUNT [no | storage] (COUNT is at least 1)");
    process.exit(2);
}
const values = new Map();
let written = 0;
const storage = {
    getItem: (name) => values.get(name) ?? null,
    setItem: (name, value) => {
        written += value.length;
        values.set(name, value);
    },
    removeItem: (name) => {
        values.delete(name);
    },
};
const options = { no: { record: false }, storage: { storage } }[mode];
const key = new SecurityKey({ origin: "https://example.com", ...options });
const publicKey = { challenge: new Uint8Array(32), rpId: "example.com" };
const user = { id: Uint8Array.of(1), name: "ann", displayName: "Ann" };
await key.create({ publicKey: { ...publicKey, rp: { name: "A" }, user,
    pubKeyCredParams: [{ type: "public-key", alg: -7 }], authenticatorSelection: { residentKey: "required" } } });

const measureTime = async () => {
    globalThis.gc();
    const before = process.memoryUsage();
    const begun = process.cpuUsage();
    for (let time = 0; time < Number(count); time += 1) {
        await key.get({ publicKey });
    }
    const { user: took } = process.cpuUsage(begun);
    globalThis.gc();
    const after = process.memoryUsage();
    const megabytes = (after.heapUsed + after.external - before.heapUsed - before.external) / 1024 / 1024;
    const microseconds = (took / Number(count)).toFixed(0);
    const recorded = `${count} sign-ins, ${key.recordings().length} recordings`;
    console.log(`${recorded}: ${microseconds} us each, ${megabytes.toFixed(1)} MB more memory`);
};

const measureStorage = async () => {
    const sizes = [];
    for (let number = 0; number < Number(count); number += 1) {
        const before = written;
        await key.get({ publicKey });
        sizes.push(written - before);
    }
    console.log(`${sizes[0]} ${sizes.at(-1)}`);
};

await (mode === "storage" ? measureStorage() : measureTime());
