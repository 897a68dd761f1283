// Unpacks DEFLATE data (RFC 1951) synchronously, as the key's first call and saved pages require. The algorithm is that
// of zlib's puff: a code is decoded bit by bit from the number of codes of each length.

const LONGEST_CODE = 15;
const [STORED, FIXED, DYNAMIC] = [0, 1, 2];
const END_OF_BLOCK = 256;
const LENGTH_BASES = [3, 4, 5, 6, 7, 8, 9, 10, 11, 13, 15, 17, 19, 23, 27, 31, 35, 43, 51, 59, 67, 83, 99, 115, 131, 163,
    195, 227, 258];
const LENGTH_BITS = [0, 0, 0, 0, 0, 0, 0, 0, 1, 1, 1, 1, 2, 2, 2, 2, 3, 3, 3, 3, 4, 4, 4, 4, 5, 5, 5, 5, 0];
const DISTANCE_BASES = [1, 2, 3, 4, 5, 7, 9, 13, 17, 25, 33, 49, 65, 97, 129, 193, 257, 385, 513, 769, 1025, 1537, 2049,
    3073, 4097, 6145, 8193, 12289, 16385, 24577];
const DISTANCE_BITS = [0, 0, 0, 0, 1, 1, 2, 2, 3, 3, 4, 4, 5, 5, 6, 6, 7, 7, 8, 8, 9, 9, 10, 10, 11, 11, 12, 12, 13, 13];
// The order of the lengths of the code length codes in a dynamic block (RFC 1951, section 3.2.7).
const CODE_LENGTH_ORDER = [16, 17, 18, 0, 8, 7, 9, 6, 10, 5, 11, 4, 12, 3, 13, 2, 14, 1, 15];

/** @typedef {{ counts: Uint16Array, symbols: Uint16Array }} Code the number of codes of each length, and their symbols */

const fail = () => {
    throw new Error("invalid DEFLATE data");
};

class BitReader {
    /** @param {Uint8Array} data */
    constructor(data) {
        this.data = data;
        this.at = 0;
        this.bit = 0;
    }

    /**
     * Reads bits, the lowest first.
     * @param {number} count
     */
    readBits(count) {
        let value = 0;
        for (let place = 0; place < count; place += 1) {
            value |= this.readBit() << place;
        }
        return value;
    }

    readBit() {
        if (this.at >= this.data.length) {
            fail();
        }
        const bit = (this.data[this.at] >> this.bit) & 1;
        this.bit = (this.bit + 1) & 7;
        this.at += this.bit ? 0 : 1;
        return bit;
    }

    /**
     * Decodes a symbol.
     * @param {Code} code
     */
    readSymbol({ counts, symbols }) {
        let [value, first, index] = [0, 0, 0];
        for (let length = 1; length <= LONGEST_CODE; length += 1) {
            value |= this.readBit();
            if (value - counts[length] < first) {
                return symbols[index + value - first];
            }
            index += counts[length];
            first = (first + counts[length]) << 1;
            value <<= 1;
        }
        return fail();
    }

    /** Skips to the next whole byte. */
    align() {
        this.at += this.bit ? 1 : 0;
        this.bit = 0;
    }
}

/**
 * Makes the Huffman code from the code length of each symbol.
 * @param {ArrayLike<number>} lengths @returns {Code}
 */
const makeCode = (lengths) => {
    const counts = new Uint16Array(LONGEST_CODE + 1);
    Array.from(lengths, (length) => (counts[length] += 1));
    counts[0] = 0;
    const offsets = new Uint16Array(LONGEST_CODE + 2);
    counts.forEach((count, length) => {
        offsets[length + 1] = offsets[length] + count;
    });
    const symbols = new Uint16Array(lengths.length);
    Array.from(lengths, (length, symbol) => {
        if (length) {
            symbols[offsets[length]] = symbol;
            offsets[length] += 1;
        }
    });
    return { counts, symbols };
};

const repeat = (/** @type {number} */ value, /** @type {number} */ count) => Array(count).fill(value);
const FIXED_CODES = [
    makeCode([...repeat(8, 144), ...repeat(9, 112), ...repeat(7, 24), ...repeat(8, 8)]), makeCode(repeat(5, 30)),
];

/**
 * Reads the codes of a dynamic block.
 * @param {BitReader} reader
 */
const readDynamicCodes = (reader) => {
    const [literals, distances, own] = [reader.readBits(5) + 257, reader.readBits(5) + 1, reader.readBits(4) + 4];
    const ownLengths = new Uint8Array(CODE_LENGTH_ORDER.length);
    CODE_LENGTH_ORDER.slice(0, own).forEach((symbol) => {
        ownLengths[symbol] = reader.readBits(3);
    });
    const ownCode = makeCode(ownLengths);
    /** @type {number[]} */
    const lengths = [];
    while (lengths.length < literals + distances) {
        const symbol = reader.readSymbol(ownCode);
        if (symbol < 16) {
            lengths.push(symbol);
        } else if (symbol === 16) {
            lengths.push(...repeat(lengths.at(-1) ?? fail(), reader.readBits(2) + 3));
        } else {
            lengths.push(...repeat(0, symbol === 17 ? reader.readBits(3) + 3 : reader.readBits(7) + 11));
        }
    }
    return [makeCode(lengths.slice(0, literals)), makeCode(lengths.slice(literals, literals + distances))];
};

/** The unpacked bytes, at most `length` of them. */
class Output {
    /** @param {number} length */
    constructor(length) {
        this.bytes = new Uint8Array(length);
        this.length = 0;
    }

    /** @param {number} byte */
    push(byte) {
        if (this.length === this.bytes.length) {
            fail();
        }
        this.bytes[this.length] = byte;
        this.length += 1;
    }

    /**
     * Repeats bytes that are at a distance before the end.
     * @param {number} count @param {number} distance
     */
    copy(count, distance) {
        if (distance > this.length) {
            fail();
        }
        for (let left = count; left > 0; left -= 1) {
            this.push(this.bytes[this.length - distance]);
        }
    }
}

/** @param {BitReader} reader @param {Output} output */
const readStoredBlock = (reader, output) => {
    reader.align();
    const count = reader.readBits(16);
    if (reader.readBits(16) !== (count ^ 0xffff)) {
        fail();
    }
    for (let left = count; left > 0; left -= 1) {
        output.push(reader.readBits(8));
    }
};

/** @param {BitReader} reader @param {Output} output @param {Code[]} codes */
const readCompressedBlock = (reader, output, [literals, distances]) => {
    for (let symbol = reader.readSymbol(literals); symbol !== END_OF_BLOCK; symbol = reader.readSymbol(literals)) {
        if (symbol < END_OF_BLOCK) {
            output.push(symbol);
            continue;
        }
        const place = symbol - END_OF_BLOCK - 1;
        const count = LENGTH_BASES[place] + reader.readBits(LENGTH_BITS[place] ?? fail());
        const far = reader.readSymbol(distances);
        output.copy(count, DISTANCE_BASES[far] + reader.readBits(DISTANCE_BITS[far] ?? fail()));
    }
};

/**
 * Decompresses DEFLATE data. The first 4 bytes of `packed` are the uncompressed length, big-endian.
 * @param {Uint8Array} packed
 */
export const unpack = (packed) => {
    const reader = new BitReader(packed.subarray(4));
    const output = new Output(new DataView(packed.buffer, packed.byteOffset).getUint32(0));
    let isLast = false;
    while (!isLast) {
        isLast = reader.readBits(1) === 1;
        const kind = reader.readBits(2);
        if (kind === STORED) {
            readStoredBlock(reader, output);
        } else if (kind === FIXED || kind === DYNAMIC) {
            readCompressedBlock(reader, output, kind === FIXED ? FIXED_CODES : readDynamicCodes(reader));
        } else {
            fail();
        }
    }
    return output.length === output.bytes.length ? output.bytes : fail();
};
