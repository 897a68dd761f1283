// Reads paths of logs from standard input, and writes the page's transactions (bindings/web/transactions.js) of each
// log as a line of JSON: the objects `packet`, `presence`, `key`, `signature` and `transaction` of `hidlog show
// --json`, with some of their members. As in that output, renamed members have both names.
import { readFileSync } from "node:fs";
import { readSession } from "./session_in_node.mjs";

const [CBOR, KEEPALIVE] = [0x10, 0x3b];
const OBJECT_KINDS = { host: "packet", key: "packet", presence: "presence", "new key": "key", signature: "signature" };

/** How a transaction ended, as in `show --json`. */
const getEnd = ({ answer, by, code, end }) => {
    if (code !== null) {
        return { end: "error", code };
    }
    if (end === "answered") {
        return answer.command === CBOR ? { end: "status", status: answer.byteAt(0) } : { end: "answer" };
    }
    const endedBy = { end, endedByLine: by?.number, by: by?.number };
    const ends = { replaced: endedBy, dropped: endedBy, forgotten: { end } };
    return ends[end] ?? { end: "open" };
};

const toTransactionObject = (transaction) => {
    const isKeepalive = ({ kind, message }) => kind === "key" && message?.command === KEEPALIVE;
    const keepalives = transaction.all.filter(isKeepalive).length;
    const { isWhole, received } = transaction;
    const missing = isWhole ? {} : { bytesReceived: received, came: received };
    return { kind: "transaction", transaction: transaction.line.number, keepalives, ...missing, ...getEnd(transaction) };
};

const readObjects = (path) => {
    const session = readSession(new Uint8Array(readFileSync(path)));
    const lines = session.slice(0, session.length).filter((line) => OBJECT_KINDS[line.kind]);
    const transactions = Array.from({ length: session.transactions }, (_, place) => session.transaction(place));
    return [
        ...lines.map(({ kind, number, transaction }) =>
            ({ kind: OBJECT_KINDS[kind], line: number, transaction: transaction?.line.number })),
        ...transactions.map(toTransactionObject),
    ];
};

for (const path of readFileSync(0, "utf8").split("\n").filter(Boolean)) {
    process.stdout.write(`${JSON.stringify(readObjects(path))}\n`);
}
