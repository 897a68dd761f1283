// Signatures and hashes for the rules in JavaScript, instead of Python's package cryptography. The rules are
// synchronous, but WebCrypto is not. So a signature counts as valid until it has been verified, and then the rules are
// run again. Sets `globalThis.hidlogSha256` and `globalThis.hidlogVerified`.
"use strict";

(() => {
    const $ = globalThis.hidlogPython;
    const primes = [];
    for (let number = 2; primes.length < 64; number += 1) {
        if (primes.every((prime) => number % prime)) {
            primes.push(number);
        }
    }
    const takeFraction = (root) => Math.floor((root - Math.floor(root)) * 2 ** 32);
    const ROUND_CONSTANTS = primes.map((prime) => takeFraction(Math.cbrt(prime)));
    const INITIAL_HASH = primes.slice(0, 8).map((prime) => takeFraction(Math.sqrt(prime)));
    const rotate = (word, by) => (word >>> by) | (word << (32 - by));

    const compressBlock = (state, block) => {
        const words = Array.from({ length: 64 }, (_, at) => (at < 16 ? block.getUint32(at * 4) : 0));
        for (let at = 16; at < 64; at += 1) {
            const [a, b] = [words[at - 15], words[at - 2]];
            const low = rotate(a, 7) ^ rotate(a, 18) ^ (a >>> 3);
            words[at] = (words[at - 16] + low + words[at - 7] + (rotate(b, 17) ^ rotate(b, 19) ^ (b >>> 10))) | 0;
        }
        let [a, b, c, d, e, f, g, h] = state;
        for (let at = 0; at < 64; at += 1) {
            const choice = (rotate(e, 6) ^ rotate(e, 11) ^ rotate(e, 25)) + ((e & f) ^ (~e & g));
            const first = (h + choice + ROUND_CONSTANTS[at] + words[at]) | 0;
            const second = ((rotate(a, 2) ^ rotate(a, 13) ^ rotate(a, 22)) + ((a & b) ^ (a & c) ^ (b & c))) | 0;
            [h, g, f, e, d, c, b, a] = [g, f, e, (d + first) | 0, c, b, a, (first + second) | 0];
        }
        return [a, b, c, d, e, f, g, h].map((word, at) => (word + state[at]) | 0);
    };

    /** SHA-256, synchronous. */
    globalThis.hidlogSha256 = (data) => {
        const whole = new Uint8Array(Math.ceil((data.length + 9) / 64) * 64);
        whole.set(data);
        whole[data.length] = 0x80;
        const view = new DataView(whole.buffer);
        view.setUint32(whole.length - 4, data.length * 8);
        let state = INITIAL_HASH;
        for (let at = 0; at < whole.length; at += 64) {
            state = compressBlock(state, new DataView(whole.buffer, at, 64));
        }
        const made = new DataView(new ArrayBuffer(32));
        state.forEach((word, at) => made.setInt32(at * 4, word));
        return new Uint8Array(made.buffer);
    };

    // ---- DER

    /** The DER element at an offset: its tag, its content, and all of its bytes. */
    const readElement = (data, at) => {
        const short = data[at + 1];
        const more = short > 0x80 ? short - 0x80 : 0;
        const length = more ? data.subarray(at + 2, at + 2 + more).reduce((sum, byte) => sum * 256 + byte, 0) : short;
        const from = at + 2 + more;
        if (more > 3 || !(from + length <= data.length)) {
            throw new RangeError("the DER element is truncated, or longer than 16 MB");
        }
        return { tag: data[at], content: data.subarray(from, from + length), whole: data.subarray(at, from + length) };
    };

    const readElements = (data) => {
        const found = [];
        for (let at = 0; at < data.length; at += found.at(-1).whole.length) {
            found.push(readElement(data, at));
        }
        return found;
    };

    /** An ECDSA signature in WebCrypto's format: r and s, each as long as the curve's order. */
    const toRawSignature = (signature, size) => {
        const outer = readElement(signature, 0);
        const parts = readElements(outer.content);
        if (outer.tag !== 0x30 || outer.whole.length !== signature.length || parts.length !== 2) {
            throw new RangeError("not an ECDSA signature in DER");
        }
        const made = new Uint8Array(size * 2);
        parts.forEach(({ content }, at) => {
            const digits = content[0] === 0 ? content.subarray(1) : content;
            made.set(digits, size * (at + 1) - digits.length);
        });
        return made;
    };

    // ---- keys

    const SHA256 = "SHA-256";
    const CURVES = { "2a8648ce3d030107": ["P-256", 32], "2b81040022": ["P-384", 48], "2b81040023": ["P-521", 66] };
    const toHexDigits = (data) => Array.from(data, (byte) => byte.toString(16).padStart(2, "0")).join("");
    const BASE64URL_LETTERS = { "+": "-", "/": "_", "=": "" };
    const toBase64Url = (data) => btoa(String.fromCharCode(...data)).replace(/[+/=]/g, (letter) => BASE64URL_LETTERS[letter]);

    const importKey = (form, key, algorithm) => crypto.subtle.importKey(form, key, algorithm, true, ["verify"]);
    const makeCurveKey = async (form, key, curve, size) => ({
        key: await importKey(form, key, { name: "ECDSA", namedCurve: curve }),
        how: { name: "ECDSA", hash: SHA256 }, kind: -7, of: (signature) => toRawSignature(signature, size),
    });
    const rsa = { name: "RSASSA-PKCS1-v1_5", hash: SHA256 };
    const makeOtherKey = async (form, key, how, kind) =>
        ({ key: await importKey(form, key, how), how, kind, of: (signature) => signature });

    /** A COSE key, or null for an unsupported algorithm. */
    const readCoseKey = (cose) => {
        const member = (key) => $.call(cose, "get", [key]);
        const [alg, x, y] = [member(3), member(-2)?.data, member(-3)?.data];
        if (alg === -7) {
            return makeCurveKey("raw", Uint8Array.of(4, ...x, ...y), "P-256", 32);
        }
        if (alg === -8) {
            return makeOtherKey("raw", x, { name: "Ed25519" }, -8);
        }
        const jwk = alg === -257 ? { kty: "RSA", n: toBase64Url(member(-1).data), e: toBase64Url(x) } : null;
        return jwk ? makeOtherKey("jwk", jwk, rsa, -257) : null;
    };

    /** The public key of a certificate. */
    const readCertificateKey = (certificate) => {
        const outer = readElement(certificate, 0);
        const parts = readElements(readElements(outer.content)[0].content);
        const { whole, content } = parts[parts[0].tag === 0xa0 ? 6 : 5];
        const [kind, curve] = readElements(readElements(content)[0].content).map((element) => toHexDigits(element.content));
        if (kind === "2a8648ce3d0201") {
            return makeCurveKey("spki", whole, ...CURVES[curve]);
        }
        return kind === "2b6570" ? makeOtherKey("spki", whole, { name: "Ed25519" }, -8) : makeOtherKey("spki", whole, rsa, -257);
    };

    const ALGORITHMS = [-7, -8, -257];

    /**
     * Whether a signature is valid, or null if this browser doesn't support the algorithm. A signature by a COSE key of
     * an algorithm that this script doesn't support counts as valid.
     */
    const verifySignature = async ({ cose, certificate, alg, signed, signature }) => {
        try {
            const found = await (certificate ? readCertificateKey(certificate) : readCoseKey(cose));
            if (!found) {
                return true;
            }
            if (certificate && ALGORITHMS.includes(alg) && alg !== found.kind) {
                return false;
            }
            return await crypto.subtle.verify(found.how, found.key, found.of(signature), signed);
        } catch (error) {
            return error.name === "NotSupportedError" ? null : false;
        }
    };

    const verdicts = new Map();
    let queued = new Map();
    /** The number of signatures that this browser couldn't verify. */
    let unsure = 0;

    /**
     * Returns whether a signature is valid. Returns true for a signature that is not verified yet, and queues its
     * verification.
     */
    const getVerdict = (name, question) => {
        if (!verdicts.has(name)) {
            queued.set(name, question);
        }
        return verdicts.get(name) ?? true;
    };

    $.modules.keys = () => ({
        AVAILABLE: Boolean(globalThis.crypto?.subtle),
        is_valid_signature: (cose, signed, signature) =>
            getVerdict(`${$.repr(cose)} ${signed.digits} ${signature.digits}`,
                { cose, signed: signed.data, signature: signature.data }),
        is_valid_for_certificate: (certificate, alg, signed, signature) =>
            getVerdict(`${certificate.digits} ${alg} ${signed.digits} ${signature.digits}`,
                { certificate: certificate.data, alg, signed: signed.data, signature: signature.data }),
    });

    /**
     * Runs the rules, and verifies the signatures that the rules queued. If one is invalid, runs the rules again, since
     * they assumed that each is valid.
     */
    globalThis.hidlogVerified = async (rules) => {
        for (;;) {
            queued = new Map();
            const found = rules();
            if (!queued.size || !globalThis.crypto?.subtle) {
                return { found, unsure };
            }
            // Verifies all signatures concurrently, since the browser uses its own threads.
            const answers = await Promise.all([...queued].map(async ([name, question]) => {
                const answer = await verifySignature(question);
                unsure += answer === null ? 1 : 0;
                verdicts.set(name, answer ?? true);
                return answer;
            }));
            if (!answers.includes(false)) {
                return { found, unsure };
            }
        }
    };
})();
